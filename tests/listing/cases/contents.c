/* What a full capture must hold, so that its listing tells wrong programs from right ones. Each thing is counted
   from what the rules make of the capture, not from how it was made, and the test ends with an error of its own if
   one is not there. */

#include "../listing.h"

#include <stdio.h>
#include <string.h>

enum { WIDTHS = 33 /* 0 to 32 */, LEAST_BYTES = 2 * 65536 + 2 };

enum thing {
    A_10,
    A_14,
    A_15,
    A_15_PAST_END,
    A_10_BELOW_8,
    A_10_AND_0,
    HELD_AND_REPEATED,
    CONTESTED_BY_SOUND,
    CONTESTED_AND_BACK,
    OTHER_BOOK,
    OTHER_ROW_AT_SOUND,
    OTHER_ROW_AT_MENDED,
    OTHER_ROW_AT_MISSING,
    OTHER_ROW_AT_CONTESTED,
    OTHER_ROW_AT_UNREADABLE,
    SAME_BUT_ROW,
    ROW_BEFORE,
    ROW_BEHIND,
    NO_ROW,
    OTHER_ROW_AND_10,
    OTHER_ROW_AND_14,
    OTHER_ROW_AND_15,
    PART_OF_MISSING,
    SOUND_LAST,
    MENDED_FIRST,
    MENDED_LAST,
    MENDED_FAR,
    FIRST_PAST_WIDTH,
    WIDTH_0_AND_14,
    RADIUS_32_SOUND,
    RADIUS_32_MENDED,
    TWO_DIGITS,
    TWO_DIGITS_NEGATIVE,
    PRODUCT_SHOWN, /* this one and the next two in the order of the selectors */
    MAGNITUDE_SHOWN,
    PRODUCT_PRODUCT_SHOWN,
    THINGS
};

static const char *const names[THINGS] = {
    [A_10] = "places with reason 10",
    [A_14] = "places with reason 14",
    [A_15] = "places with reason 15 and a codeword below the total",
    [A_15_PAST_END] = "places with reason 15 and a codeword past the end",
    [A_10_BELOW_8] = "places with reason 10 and a radius number below 8",
    [A_10_AND_0] = "places with reason 10, a radius number below 8 and codeword 0",
    [HELD_AND_REPEATED] = "places that are held and whose record came again",
    [CONTESTED_BY_SOUND] = "places contested by two records that are sound by themselves",
    [CONTESTED_AND_BACK] = "contested places whose last record is the first one again",
    [OTHER_BOOK] = "records of another book, of a place that is in the table and of the row of that place",
    [OTHER_ROW_AT_SOUND] = "sound places for which a record of another row came too",
    [OTHER_ROW_AT_MENDED] = "mended places for which a record of another row came too",
    [OTHER_ROW_AT_MISSING] = "missing places for which a record of another row came",
    [OTHER_ROW_AT_CONTESTED] = "contested places for which a record of another row came too",
    [OTHER_ROW_AT_UNREADABLE] = "unreadable places for which a record of another row came too",
    [SAME_BUT_ROW] = "records that differ from the first one of their place in the row alone",
    [ROW_BEFORE] = "records of the row before that of their place",
    [ROW_BEHIND] = "records of the row behind that of their place",
    [NO_ROW] = "records of a row that is not in the table",
    [OTHER_ROW_AND_10] = "records of another row whose radius number is not in the row of their place",
    [OTHER_ROW_AND_14] = "records of another row whose codeword is 2^b or more in the row of their place",
    [OTHER_ROW_AND_15] = "records of another row whose codeword names no point in the row of their place",
    [PART_OF_MISSING] = "short last parts with the number of a place that is missing",
    [SOUND_LAST] = "places with the last codeword below a total above 1",
    [MENDED_FIRST] = "places with the first codeword past the end that are mended",
    [MENDED_LAST] = "places with codeword 2^b - 1 that are mended",
    [MENDED_FAR] = "mended places with a distance of 2^24 or more",
    [FIRST_PAST_WIDTH] = "places with codeword 2^b",
    [WIDTH_0_AND_14] = "places with reason 14 and b = 0",
    [RADIUS_32_SOUND] = "sound places of radius 32",
    [RADIUS_32_MENDED] = "mended places of radius 32",
    [TWO_DIGITS] = "coordinates above 9",
    [TWO_DIGITS_NEGATIVE] = "coordinates below -9",
    [PRODUCT_SHOWN] = "places of selector 0 with a point that has another index with each other selector",
    [MAGNITUDE_SHOWN] = "places of selector 1 with a point that has another index with each other selector",
    [PRODUCT_PRODUCT_SHOWN] = "places of selector 2 with a point that has another index with each other selector",
};

static const enum thing other_row_at[READINGS] = {
    [SOUND] = OTHER_ROW_AT_SOUND,
    [MENDED] = OTHER_ROW_AT_MENDED,
    [MISSING] = OTHER_ROW_AT_MISSING,
    [CONTESTED] = OTHER_ROW_AT_CONTESTED,
    [UNREADABLE] = OTHER_ROW_AT_UNREADABLE,
};

static struct {
    uint64_t things[THINGS];
    uint64_t answers[READINGS];
    uint64_t differing[RECORD_SIZE];               /* places contested by records that differ in that byte alone */
    uint64_t of_selector[READINGS][SELECTORS];
    uint64_t of_length[READINGS][MOST_LENGTH + 1]; /* sound ones and mended ones */
    uint64_t of_width[READINGS][WIDTHS];
} counted;

/* What is told of a place beside what is gathered. */
static struct {
    uint8_t sound[RECORD_SIZE]; /* the first record that is sound by itself */
    int has_sound;
    int has_two_sound; /* and another one that is sound too */
    int is_last_the_first;
    int has_other_row; /* a record of another row came */
    uint32_t differing; /* the bit 1 << byte for each byte in which a record differs from the first one */
} told[MOST_PLACES];

static struct gathering gathering;

static void count_if(int is_there, enum thing thing)
{
    counted.things[thing] += is_there != 0;
}

/* What a record would show in its place alone, as one of the place's row. */
static struct reading reading_alone(const struct table *table, uint64_t place, const uint8_t *record)
{
    uint8_t cell[CELL_SIZE] = {STATE_HELD};
    write_record(cell + AT_RECORD, place, row_of(table, place), record[AT_RADIUS_NUMBER], codeword_of(record));
    return read_cell(MENDING_MODE, table, place, cell);
}

static void tell_sound(const struct table *table, uint64_t place, const uint8_t *record)
{
    if (reading_alone(table, place, record).word != SOUND)
        return;
    told[place].has_two_sound |= told[place].has_sound && memcmp(told[place].sound, record, RECORD_SIZE) != 0;
    for (int i = 0; i < RECORD_SIZE && !told[place].has_sound; i++)
        told[place].sound[i] = record[i];
    told[place].has_sound = 1;
}

/* A record of another row than that of its place. */
static void tell_foreign(const struct table *table, uint64_t place, const uint8_t *record)
{
    const uint64_t right = row_of(table, place), row = record[AT_ROW], rows = table->size / ROW_SIZE;
    const uint64_t reason = reading_alone(table, place, record).reason;
    const uint8_t *first = gathering.came[place].first;
    const int is_same = memcmp(first + AT_RADIUS_NUMBER, record + AT_RADIUS_NUMBER, RECORD_SIZE - AT_RADIUS_NUMBER) == 0;
    told[place].has_other_row = 1;
    count_if(gathering.came[place].claims > 0 && is_same, SAME_BUT_ROW);
    count_if(row + 1 == right, ROW_BEFORE);
    count_if(row == right + 1 && row < rows, ROW_BEHIND);
    count_if(row >= rows, NO_ROW);
    count_if(reason == 10, OTHER_ROW_AND_10);
    count_if(reason == 14, OTHER_ROW_AND_14);
    count_if(reason == 15, OTHER_ROW_AND_15);
}

/* One record of the capture, when all is gathered. */
static void tell_record(const struct table *table, const uint8_t *record)
{
    const uint64_t field = field_in(record), place = place_in(field);
    count_if(book_in(field) > 0 && place < gathering.places && !is_foreign(table, record), OTHER_BOOK);
    if (field >= gathering.places)
        return;
    if (is_foreign(table, record)) {
        tell_foreign(table, place, record);
        return;
    }
    const uint8_t *first = gathering.came[place].first;
    for (int i = 0; i < RECORD_SIZE; i++)
        told[place].differing |= (uint32_t)(record[i] != first[i]) << i;
    told[place].is_last_the_first = memcmp(record, first, RECORD_SIZE) == 0;
    tell_sound(table, place, record);
}

static void count_contested(uint64_t place)
{
    count_if(told[place].has_two_sound, CONTESTED_BY_SOUND);
    count_if(told[place].is_last_the_first, CONTESTED_AND_BACK);
    for (int i = 0; i < RECORD_SIZE; i++)
        counted.differing[i] += told[place].differing == (uint32_t)1 << i;
}

static uint64_t width(uint64_t n)
{
    uint64_t b = 0;
    while ((uint64_t)1 << b < n)
        b++;
    return b;
}

/* A place that shows a point. */
static void count_shown(struct reading reading, uint64_t codeword)
{
    const uint64_t total = total_of(reading.shell), b = width(total);
    const int is_mended = reading.word == MENDED;
    int32_t point[MOST_LENGTH];
    write_point(reading, point);
    counted.of_length[reading.word][reading.shell.length]++;
    counted.of_width[reading.word][b]++;
    count_if(reading.shell.radius == MOST_RADIUS, is_mended ? RADIUS_32_MENDED : RADIUS_32_SOUND);
    count_if(codeword == total - 1 && total > 1, SOUND_LAST);
    count_if(codeword == total, MENDED_FIRST);
    count_if(is_mended && codeword == ((uint64_t)1 << b) - 1, MENDED_LAST);
    count_if(reading.distance >= 1 << 24, MENDED_FAR);
    count_if(is_index_telling(reading.shell, point), (enum thing)(PRODUCT_SHOWN + reading.shell.selector));
    for (uint64_t i = 0; i < reading.shell.length; i++) {
        count_if(point[i] > 9, TWO_DIGITS);
        count_if(point[i] < -9, TWO_DIGITS_NEGATIVE);
    }
}

/* A place that is unreadable. */
static void count_unreadable(const uint8_t *row, const uint8_t *record, uint64_t reason)
{
    const uint64_t number = record[AT_RADIUS_NUMBER], codeword = codeword_of(record);
    const uint64_t total = reason == 10 ? 0 : total_of(shell_of(row, number)), power = least_power_from(total);
    count_if(reason == 10, A_10);
    count_if(reason == 14, A_14);
    count_if(reason == 15 && codeword < total, A_15);
    count_if(reason == 15 && codeword >= total, A_15_PAST_END);
    count_if(reason == 10 && number < MOST_RADII, A_10_BELOW_8);
    count_if(reason == 10 && number < MOST_RADII && codeword == 0, A_10_AND_0);
    count_if(reason == 14 && codeword == power, FIRST_PAST_WIDTH);
    count_if(reason == 14 && power == 1, WIDTH_0_AND_14);
}

static void count_place(const struct table *table, uint64_t place)
{
    const struct reading reading = reading_of(table, &gathering, place);
    const uint8_t *first = gathering.came[place].first;
    counted.answers[reading.word]++;
    counted.of_selector[reading.word][row_at(table, place)[AT_SELECTOR]]++;
    count_if(reading.word != CONTESTED && gathering.came[place].claims > 1, HELD_AND_REPEATED);
    count_if(told[place].has_other_row, other_row_at[reading.word]);
    if (reading.word == CONTESTED)
        count_contested(place);
    if (reading.word == SOUND || reading.word == MENDED)
        count_shown(reading, codeword_of(first));
    if (reading.word == UNREADABLE)
        count_unreadable(row_at(table, place), first, reading.reason);
}

/* All of the capture. */
static void count_all(const struct table *table, const struct capture *capture)
{
    const uint64_t whole = capture->size / RECORD_SIZE * RECORD_SIZE;
    const uint8_t *part = capture->bytes + whole;
    begin_gathering(&gathering, table);
    gather_run(&gathering, capture->bytes, capture->size);
    for (uint64_t at = 0; at < whole; at += RECORD_SIZE)
        tell_record(table, capture->bytes + at);
    for (uint64_t place = 0; place < gathering.places; place++)
        count_place(table, place);
    if (capture->size - whole > AT_ROW && two_bytes(part) < gathering.places)
        count_if(gathering.came[two_bytes(part)].claims == 0, PART_OF_MISSING);
}

/* A mended place needs a total that is no power of two: lengths from 2 on and widths from 3 on have one. */
static void require_all(void)
{
    static const char *const places[SELECTORS] = {"full page, places of selector 0 that are", "full page, places of selector 1 that are",
                                                  "full page, places of selector 2 that are"};
    for (int thing = 0; thing < THINGS; thing++)
        require(counted.things[thing], 1, "full page,", names[thing]);
    for (uint64_t selector = 0; selector < SELECTORS; selector++)
        for (int word = 0; word < READINGS; word++)
            require(counted.of_selector[word][selector], 1, places[selector], reading_words[word]);
    for (uint64_t i = AT_RADIUS_NUMBER; i < RECORD_SIZE; i++)
        require_number(counted.differing[i], 1, "full page, places contested by records that differ in one byte alone, byte", i);
    for (uint64_t length = 1; length <= MOST_LENGTH; length++) {
        require_number(counted.of_length[SOUND][length], 1, "full page, sound places of length", length);
        require_number(counted.of_length[MENDED][length], length > 1, "full page, mended places of length", length);
    }
    for (uint64_t b = 0; b < WIDTHS; b++) {
        require_number(counted.of_width[SOUND][b], 1, "full page, sound places of width", b);
        require_number(counted.of_width[MENDED][b], b > 2, "full page, mended places of width", b);
    }
}

void require_contents(const struct table *table, const struct capture *capture)
{
    const uint64_t *answers = counted.answers;
    count_all(table, capture);
    hold_to_take(table, capture, &gathering);
    require(capture->size, LEAST_BYTES, "full page,", "bytes of records");
    require_all();
    printf("full_page: %lu bytes of records; %lu places sound, %lu mended, ", capture->size, answers[SOUND], answers[MENDED]);
    printf("%lu missing, %lu contested, %lu unreadable; ", answers[MISSING], answers[CONTESTED], answers[UNREADABLE]);
    printf("%lu takes refused\n", gathering.refused);
}
