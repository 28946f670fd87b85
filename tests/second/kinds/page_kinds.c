/* How many comparisons of each kind there were with the calls of the page. A kind is told from what the program's own
   rules made of a case, not from how it was drawn. The program ends with an error of its own if there are too few of
   one, so that the comparison cannot become empty. See docs/RULES.md, "The page", "Books" and "Refusal numbers". */

#include "lent.h"
#include "page_kinds.h"

#include <stdio.h>

/* The second is wanted for each shell, for each state, for each mode that is none, for each number of books that there
   may not be, for large numbers of places, for each kind in each layout, and for each number of a layout. */
enum { LEAST = 300, LEAST_OF_EACH = 100, RECORD_LENGTHS = MOST_TAKEN + 1 };

static uint64_t in_layout; /* what is noted */
static uint64_t kinds[LAYOUTS][COUNTED_FOR][PAGE_KINDS], answered[COUNTED_FOR][LAYOUT_NUMBERS];
static uint64_t faults[COUNTED_FOR][FAULTS], states[COUNTED_FOR][256];
static uint64_t other_bytes[RECORD_SIZE], record_lengths[RECORD_LENGTHS], remainders[RECORD_SIZE];
static uint64_t shells[COUNTED_FOR][READINGS + 2][SELECTORS][MOST_LENGTH + 1][MOST_RADIUS + 1];
static uint64_t selected[COUNTED_FOR][READINGS][SELECTORS];
static uint64_t tallied[MODES][READINGS], tallied_past_255[MODES][READINGS], tallied_alone[MODES][READINGS];
static uint64_t without_mode[COUNTED_FOR][NO_MODES], without_books[COUNTED_FOR][NO_BOOKS];

/* Of a call with a mode: what it is counted for in that mode. */
enum page_call call_in(enum page_call call, uint64_t mode)
{
    const int group = mode == MENDING_MODE ? 0 : mode == PLAIN_MODE ? 1 : 2;
    return (enum page_call)((int)call + CALLS_WITH_MODE * group);
}

/* The mode in which cells are judged. What a call without a mode finds is told as if it were mended. */
uint64_t mode_of(enum page_call call)
{
    return call >= PLAIN_READ && call < PAGE_CALLS ? PLAIN_MODE : MENDING_MODE;
}

static int is_conversion(enum page_call call)
{
    return call == MAKE_STATES_FIRST || call == MAKE_CELL_BY_CELL;
}

void note_page(enum page_call call, enum page_kind kind, int is_there)
{
    kinds[in_layout == CELL_BY_CELL ? CELL_BY_CELL : STATES_FIRST][call][kind] += is_there != 0;
}

/* That of the page, by the number that the call is given. */
void note_layout(uint64_t layout)
{
    in_layout = layout;
}

/* A call that is not refused, with that number for the layout. */
void note_answered(enum page_call call)
{
    for (uint64_t i = 0; i < LAYOUT_NUMBERS; i++)
        answered[call][i] += in_layout == layouts[i];
}

void note_fault(enum page_call call, enum fault fault)
{
    faults[call][fault]++;
}

void note_state(enum page_call call, uint8_t state)
{
    states[call][state]++;
}

/* The one byte in which a record differs from what is held. */
void note_other_byte(uint64_t byte)
{
    other_bytes[byte]++;
}

void note_record_length(uint64_t length)
{
    if (length < RECORD_LENGTHS)
        record_lengths[length]++;
}

void note_remainder(uint64_t length)
{
    remainders[length % RECORD_SIZE]++;
}

void note_no_mode(enum page_call call, uint64_t mode)
{
    for (uint64_t i = 0; i < NO_MODES; i++)
        without_mode[call][i] += mode == no_modes[i];
}

void note_no_books(enum page_call call, uint64_t books)
{
    for (uint64_t i = 0; i < NO_BOOKS; i++)
        without_books[call][i] += books == no_books[i];
}

/* Unreadable 15 stands behind the answers, which have unreadable 14, and unreadable 6 behind that. */
static uint64_t *seen(enum page_call call, struct shell shell, enum reading_word word, uint64_t reason)
{
    const int at = reason == 15 ? READINGS : reason == 6 ? READINGS + 1 : (int)word;
    return &shells[call][at][shell.selector][shell.length][shell.radius];
}

void note_shell(enum page_call call, struct shell shell, enum reading_word word, uint64_t reason)
{
    ++*seen(call, shell, word, reason);
}

/* A place of a row of that selector, and its answer. */
void note_selector(enum page_call call, uint64_t selector, enum reading_word word)
{
    selected[call][word][selector]++;
}

void note_tallied(enum page_call call, enum reading_word word, uint64_t counted, uint64_t places)
{
    const uint64_t mode = mode_of(call);
    tallied[mode][word] += counted > 0;
    tallied_past_255[mode][word] += counted > 255;
    tallied_alone[mode][word] += counted == places && places > 1;
}

/* One call, in one mode. */
static void require_readings_by(enum page_call call, struct shell shell)
{
    const uint64_t total = total_of(shell), power = least_power_from(total);
    const int is_plain = mode_of(call) == PLAIN_MODE;
    require_shell(*seen(call, shell, SOUND, 0), LEAST_OF_EACH, "sound places", shell);
    if (!is_plain && is_any_mended(shell))
        require_shell(*seen(call, shell, MENDED, 0), LEAST_OF_EACH, "mended places", shell);
    if (is_plain && total < power)
        require_shell(*seen(call, shell, UNREADABLE, 6), LEAST_OF_EACH, "places unreadable 6", shell);
    if (power < TWO_TO_32)
        require_shell(*seen(call, shell, UNREADABLE, 14), LEAST_OF_EACH, "places unreadable 14", shell);
    if (has_empty_shapes(shell))
        require_shell(*seen(call, shell, UNREADABLE, 15), LEAST_OF_EACH, "places unreadable 15", shell);
}

/* Every usable shell is read with each selector in each mode: sound, mended where a codeword is, unreadable 6 where one
   is past the end, unreadable 14 where b is below 32, and unreadable 15 where there are empty shapes. */
static void require_readings(struct shell shell)
{
    for (uint64_t mode = 0; mode < MODES; mode++) {
        require_readings_by(call_in(READ, mode), shell);
        require_readings_by(call_in(COEFFICIENT, mode), shell);
    }
}

/* Whether a call can have an answer: in plain mode no place is mended. */
static int is_any(enum page_call call, int word)
{
    return word != MENDED || mode_of(call) == MENDING_MODE;
}

static void require_tallied(enum page_call call)
{
    const uint64_t mode = mode_of(call);
    for (int word = 0; word < READINGS; word++) {
        if (!is_any(call, word))
            continue;
        require(tallied[mode][word], LEAST, "tallies with places that are", reading_words[word]);
        require(tallied_past_255[mode][word], LEAST_OF_EACH, "tallies with more than 255 places that are", reading_words[word]);
        require(tallied_alone[mode][word], LEAST, "tallies of places that are all", reading_words[word]);
    }
}

/* The numbers that are counted for one call alone. A record of another row is not taken. */
static void require_numbers(enum page_call call)
{
    for (uint64_t i = AT_RADIUS_NUMBER; call == TAKE && i < RECORD_SIZE; i++)
        require_number(other_bytes[i], LEAST, "takes of a record that differs from what is held only in byte", i);
    for (uint64_t i = 0; call == TAKE && i < RECORD_LENGTHS; i++)
        require_number(record_lengths[i], LEAST, "takes of a record of length", i);
    for (uint64_t i = 0; call == COLLECT && i < RECORD_SIZE; i++)
        require_number(remainders[i], LEAST, "runs whose last part has a length of, modulo 8,", i);
    for (uint64_t i = 0; call >= NO_MODE_READ && call <= NO_MODE_LINES && i < NO_MODES; i++)
        require_number(without_mode[call][i], LEAST_OF_EACH, "calls refused with 16 for the mode", no_modes[i]);
    for (uint64_t i = 0; call < PAGE_CALLS && call != COLLECT && i < NO_BOOKS; i++)
        require_number(without_books[call][i], LEAST_OF_EACH, "calls refused with 17, of books", no_books[i]);
    if (call == TALLY || call == PLAIN_TALLY)
        require_tallied(call);
}

/* Every answer in rows of each selector, for the calls that look at cells. */
static void require_selectors(enum page_call call)
{
    static const char *const places[SELECTORS] = {"places of rows of selector 0 that are", "places of rows of selector 1 that are",
                                                  "places of rows of selector 2 that are"};
    for (int i = 0; call < PAGE_CALLS && call != COLLECT && !is_conversion(call) && i < READINGS * SELECTORS; i++)
        if (is_any(call, i / SELECTORS))
            require(selected[call][i / SELECTORS][i % SELECTORS], LEAST, places[i % SELECTORS],
                    reading_words[i / SELECTORS]);
}

/* Ends the program unless each kind that is wanted for a call, for stored records or for those that are refused with 9
   was compared often enough. */
void require_page_kinds_of(enum page_call call, struct required *so_far)
{
    for (int kind = 0; kind < PAGE_KINDS; kind++)
        if (page_names[kind].wanted_for >> call & 1) {
            const uint64_t compared = kinds[CELL_BY_CELL][call][kind] + kinds[STATES_FIRST][call][kind];
            require(compared, LEAST, page_calls[call], page_names[kind].what);
            so_far->least = compared < so_far->least ? compared : so_far->least;
            so_far->kinds++;
        }
    for (uint64_t fault = 0; call < PAGE_CALLS && fault < FAULTS; fault++)
        require_number(faults[call][fault], LEAST, "calls refused with 7 for the fault with number", fault);
    for (uint64_t state = 0; call < PAGE_CALLS && call != COLLECT && state < 256; state++)
        require_number(states[call][state], LEAST_OF_EACH, "cells of state", state);
    require_selectors(call);
    require_numbers(call);
}

/* Each kind that is wanted for a call, in one layout. */
static void require_in_layout(enum page_call call, int layout)
{
    for (int kind = 0; kind < PAGE_KINDS; kind++) {
        if ((page_names[kind].wanted_for >> call & 1) == 0 || kinds[layout][call][kind] >= LEAST_OF_EACH)
            continue;
        printf("layout %d: ", layout);
        require(kinds[layout][call][kind], LEAST_OF_EACH, page_calls[call], page_names[kind].what);
    }
}

/* Each kind in each layout, and each number of a layout. A conversion is from one layout alone. */
static void require_layouts(enum page_call call)
{
    for (int layout = 0; layout < LAYOUTS; layout++)
        require_in_layout(call, layout);
    for (uint64_t i = 0; call < PAGE_CALLS && i < LAYOUT_NUMBERS; i++)
        require_number(answered[call][i], LEAST_OF_EACH, "calls answered with the layout", layouts[i]);
}

void require_page_kinds(void)
{
    struct required so_far = {0, UINT64_MAX};
    for (enum page_call call = TAKE; call < COUNTED_FOR; call++) {
        require_page_kinds_of(call, &so_far);
        if (!is_conversion(call))
            require_layouts(call);
    }
    for_each_numbering(require_readings);
    printf("kinds of the page: %lu at least %lu times each, and %d times in each layout, ", so_far.kinds, so_far.least,
           LEAST_OF_EACH);
    printf("each usable shell at least %d times with each selector\n", LEAST_OF_EACH);
}
