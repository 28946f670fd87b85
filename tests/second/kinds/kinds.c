/* How many vectors of each kind were compared with quantize. A kind is told from what the program's own quantizer made
   of a vector, not from how it was drawn. The program ends with an error of its own if there are too few of one, so
   that the comparison cannot become empty. See docs/RULES.md, "Quantizing into a record", "Books" and "Refusal
   numbers". */

#include "kinds.h"
#include "lent.h"

#include <stdio.h>

enum { LEAST = 3000, LEAST_OF_SHELL = 100 };

static const char *const names[KINDS] = {
    [TURNED_HALF_DOWN] = "with another record if halves that are rounded down were rounded up",
    [TURNED_HALF_UP] = "with another record if halves that are rounded up were rounded down",
    [TURNED_BELOW_HALF] = "with another record if what is just below a half were rounded up",
    [TURNED_ABOVE_HALF] = "with another record if what is just above a half were rounded down",
    [TIE_OF_RADII] = "whose sum ties between two radii",
    [ONE_BELOW_TIE] = "whose sum is one below a tie of two radii",
    [ONE_ABOVE_TIE] = "whose sum is one above a tie of two radii",
    [BELOW_MIDDLE] = "whose sum is 1/2 below the middle of two radii",
    [ABOVE_MIDDLE] = "whose sum is 1/2 above the middle of two radii",
    [SUM_PAST_2_24] = "whose sum is above 2^24",
    [NO_UNITS] = "with a radius above 0 and no remainder that gets one more",
    [ONE_UNIT] = "with one remainder that gets one more",
    [MORE_UNITS] = "with several remainders that get one more",
    [TIE_OF_EQUAL] = "with a tie of remainders of equal magnitudes that decides",
    [TIE_OF_DIFFERENT] = "with a tie of remainders of different magnitudes that decides",
    [TIE_PAST_2_24] = "with such a tie of different magnitudes and a sum above 2^24",
    [SMALLER_MAGNITUDE] = "where a larger magnitude goes without what a smaller one gets",
    [SINGLY_OFF] = "that would leave the shell if each coordinate were rounded by itself",
    [ALL_ZERO] = "of zeros",
    [ALL_ROUNDED_TO_0] = "that is rounded to zeros",
    [ZERO_AMONG] = "with a zero and a radius above 0",
    [NEGATIVE_ZERO_AMONG] = "with a negative zero and a radius above 0",
    [ROUNDED_TO_0_AMONG] = "with something rounded to 0 and a radius above 0",
    [SUBNORMAL] = "with a subnormal coefficient",
    [SMALLEST] = "with a coefficient of the smallest magnitude",
    [LARGEST] = "with the largest coefficient below 32,768",
    [LARGEST_NEGATIVE] = "with the lowest coefficient above -32,768",
    [ALL_LARGEST] = "with all coefficients of the largest magnitude",
    [PLACE_0] = "of place 0",
    [FIRST_OF_ROW] = "of the first place of a row above 0",
    [LAST_OF_ROW] = "of the last place of a row that is not the last",
    [LAST_OF_TABLE] = "of the last place of the table",
    [PLACE_PAST_255] = "of a place above 255",
    [OF_ONE_BOOK] = "with one book",
    [OF_SIXTEEN_BOOKS] = "with 16 books",
    [BOOK_PAST_0] = "of a book above 0",
    [LAST_OF_BOOKS] = "of the last of several books",
    [BOOK_AND_PLACE_PAST_255] = "of a book above 0 and a place above 255",
    [STEP_1] = "with step 1",
    [STEP_255] = "with step 255",
    [STEP_256] = "with step 256",
    [STEP_65535] = "with step 65,535",
    [LARGEST_RADIUS] = "with the largest usable radius of the length and the selector",
    [CODEWORD_PAST_2_24] = "with a codeword of 2^24 or more",
    [PRODUCT_TOLD] = "of selector 0 whose codeword would be another one with each other selector",
    [MAGNITUDE_TOLD] = "of selector 1 whose codeword would be another one with each other selector",
    [PRODUCT_PRODUCT_TOLD] = "of selector 2 whose codeword would be another one with each other selector",
    [QUIET_NAN] = "refused for a quiet NaN",
    [SIGNALLING_NAN] = "refused for a signalling NaN",
    [POSITIVE_INFINITY] = "refused for positive infinity",
    [NEGATIVE_INFINITY] = "refused for negative infinity",
    [POSITIVE_32768] = "refused for 32,768",
    [NEGATIVE_32768] = "refused for -32,768",
    [NEXT_TO_32768] = "refused for the number next to 32,768, or to -32,768",
    [MORE_UNUSABLE] = "with an unusable coefficient behind the first one",
    [BAD_SIZE] = "with a table of wrong size",
    [BAD_BEFORE] = "whose row is behind the first bad row",
    [BAD_AT] = "whose row is the first bad row",
    [BAD_BEHIND] = "whose row is before the first bad row",
    [NO_SUCH_BOOK] = "refused with 8 for the book alone",
    [BOOK_OF_NUMBER] = "refused with 8 whose book is the number of books",
    [BOOK_CUT] = "refused with 8 whose book is there where it is cut to 16 bits",
    [BOOKS_AND_TABLE] = "refused with 17 that have a bad table",
    [BOOKS_OF_NONE] = "refused with 17 for 0 books",
    [BOOKS_OF_SEVENTEEN] = "refused with 17 for 17 books",
    [BOOKS_FROM_2_32] = "refused with 17 for 2^32 books or more",
};

static uint64_t kinds[KINDS], lengths[MOST_LENGTH + 1], numbers[MOST_RADII], rows[MOST_ROWS], faulty[MOST_LENGTH];
static uint64_t shells[SELECTORS][MOST_LENGTH + 1][MOST_RADIUS + 1], refusals[MOST_REFUSAL + 1];

static uint64_t *seen(struct shell shell)
{
    return &shells[shell.selector][shell.length][shell.radius];
}

void note_if(int is_there, enum kind kind)
{
    kinds[kind] += is_there != 0;
}

/* Where in the table the place is, and what stands in its row. */
static void note_row(const struct vector *vector, const struct quantizing *made)
{
    const uint64_t last = vector->table.size / ROW_SIZE - 1, place = vector->place;
    const uint64_t step = two_bytes(vector->table.bytes + made->row * ROW_SIZE + AT_STEP);
    note_if(place == 0, PLACE_0);
    note_if(place > 0 && row_of(&vector->table, place - 1) != made->row, FIRST_OF_ROW);
    note_if(made->row < last && row_of(&vector->table, place + 1) != made->row, LAST_OF_ROW);
    note_if(made->row == last && row_of(&vector->table, place + 1) != made->row, LAST_OF_TABLE);
    note_if(place > 255, PLACE_PAST_255);
    note_if(step == 1, STEP_1);
    note_if(step == 255, STEP_255);
    note_if(step == 256, STEP_256);
    note_if(step == 65535, STEP_65535);
    note_if(made->shell.radius == largest_radius(made->shell.length, made->shell.selector), LARGEST_RADIUS);
    note_if(made->answer.record[4] > 0, CODEWORD_PAST_2_24);
    note_if(is_index_telling(made->shell, made->point), (enum kind)(PRODUCT_TOLD + made->shell.selector));
    lengths[made->shell.length]++;
    numbers[made->number]++;
    rows[made->row]++;
    ++*seen(made->shell);
}

/* How many books there are, and which one it is. */
static void note_book(const struct vector *vector)
{
    note_if(vector->books == 1, OF_ONE_BOOK);
    note_if(vector->books == MOST_BOOKS, OF_SIXTEEN_BOOKS);
    note_if(vector->book > 0, BOOK_PAST_0);
    note_if(vector->book > 0 && vector->book == vector->books - 1, LAST_OF_BOOKS);
    note_if(vector->book > 0 && vector->place > 255, BOOK_AND_PLACE_PAST_255);
}

/* Refusals 8 and 17. */
static void note_no_book(const struct vector *vector, uint32_t refusal)
{
    const struct judgment judgment = judge(vector->table.bytes, vector->table.size);
    const int is_8 = refusal == 8 && vector->book >= vector->books, is_17 = refusal == 17;
    note_if(is_8 && vector->place < judgment.places, NO_SUCH_BOOK);
    note_if(is_8 && vector->book == vector->books, BOOK_OF_NUMBER);
    note_if(is_8 && vector->book % 65536 < vector->books, BOOK_CUT);
    note_if(is_17 && judgment.faults, BOOKS_AND_TABLE);
    note_if(is_17 && vector->books == 0, BOOKS_OF_NONE);
    note_if(is_17 && vector->books == MOST_BOOKS + 1, BOOKS_OF_SEVENTEEN);
    note_if(is_17 && vector->books >= TWO_TO_32, BOOKS_FROM_2_32);
}

/* Refusal 11: which coefficient was the first one, and which numbers there are behind it. */
static void note_unusable(const struct vector *vector, uint64_t coordinate)
{
    const uint32_t bits = vector->coefficients[coordinate], positive = bits << 1 >> 1;
    int more = 0;
    for (uint64_t i = coordinate + 1; i < vector->length; i++)
        more |= is_unusable(vector->coefficients[i]);
    note_if(positive >= BITS_OF_QUIET_NAN, QUIET_NAN);
    note_if(positive > BITS_OF_INFINITY && positive < BITS_OF_QUIET_NAN, SIGNALLING_NAN);
    note_if(positive == BITS_OF_INFINITY && !is_negative(bits), POSITIVE_INFINITY);
    note_if(positive == BITS_OF_INFINITY && is_negative(bits), NEGATIVE_INFINITY);
    note_if(positive == BITS_OF_32768 && !is_negative(bits), POSITIVE_32768);
    note_if(positive == BITS_OF_32768 && is_negative(bits), NEGATIVE_32768);
    note_if(positive == BITS_OF_32768 + 1, NEXT_TO_32768);
    note_if(more, MORE_UNUSABLE);
    faulty[coordinate]++;
}

/* Refusal 7: where the first bad row is, seen from the row that the place would be in. */
static void note_bad_table(const struct vector *vector, uint64_t bad_row)
{
    const struct judgment judgment = judge(vector->table.bytes, vector->table.size);
    const int is_size = judgment.bad_rows == 0;
    const uint64_t row = is_size ? 0 : row_of(&vector->table, vector->place);
    note_if(is_size, BAD_SIZE);
    note_if(!is_size && bad_row < row, BAD_BEFORE);
    note_if(!is_size && bad_row == row, BAD_AT);
    note_if(!is_size && bad_row > row, BAD_BEHIND);
}

void note_kinds(const struct vector *vector, const struct quantizing *made)
{
    refusals[made->answer.refusal]++;
    note_no_book(vector, made->answer.refusal);
    if (made->answer.refusal == 7)
        note_bad_table(vector, made->answer.value);
    if (made->answer.refusal == 11)
        note_unusable(vector, made->answer.value);
    if (made->answer.refusal != 0)
        return;
    note_turns(vector, made);
    note_sum(vector, made);
    if (made->shell.radius > 0)
        note_units(made);
    note_coefficients(vector, made);
    note_row(vector, made);
    note_book(vector);
}

void require_kind(enum kind kind, uint64_t least)
{
    require(kinds[kind], least, "vectors", names[kind]);
}

static void require_each(const uint64_t *counts, uint64_t first, uint64_t last, const char *what)
{
    for (uint64_t number = first; number <= last; number++)
        require_number(counts[number], LEAST, what, number);
}

static void require_vectors(struct shell shell)
{
    require_shell(*seen(shell), LEAST_OF_SHELL, "vectors", shell);
}

/* Ends the program unless each kind was compared often enough, and remainders had to be served in a quarter
   of all records. */
void require_kinds(void)
{
    for (enum kind kind = 0; kind < KINDS; kind++)
        require_kind(kind, LEAST);
    require_each(lengths, 1, MOST_LENGTH, "vectors of length");
    require_each(numbers, 0, MOST_RADII - 1, "vectors of radius number");
    require_each(rows, 0, MOST_ROWS - 1, "vectors of row");
    require_each(faulty, 0, MOST_LENGTH - 1, "vectors with a first unusable coefficient at coordinate");
    require_each(refusals, 4, 4, "vectors refused with");
    require_each(refusals, 7, 8, "vectors refused with");
    require_each(refusals, 11, 11, "vectors refused with");
    require_each(refusals, 17, 17, "vectors refused with");
    require(kinds[ONE_UNIT] + kinds[MORE_UNITS], refusals[0] / 4, "vectors", "with a remainder that gets one more");
    for_each_numbering(require_vectors);
    printf("kinds: %d kinds of vectors at least %d times each, ", KINDS, LEAST);
    printf("each usable shell at least %d times with each selector\n", LEAST_OF_SHELL);
}
