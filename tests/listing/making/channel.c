/* The channel of the case `full_page`: it repeats what it carries, changes some of it, in any field, and hands it over
   in another order, among records that are no part of the page. */

#include "../../second/draws/page_draws.h"
#include "../listing.h"

void put(struct capture *to, const uint8_t *bytes, uint64_t size)
{
    for (uint64_t i = 0; i < size && to->size < MOST_CAPTURE; i++)
        to->bytes[to->size++] = bytes[i];
}

static void flip_one_of(uint8_t *bytes, uint64_t bits)
{
    const uint64_t bit = chance_below(bits);
    bytes[bit / 8] ^= (uint8_t)(1 << bit % 8);
}

static void set_codeword(uint8_t *record, uint64_t codeword)
{
    write_record(record, two_bytes(record + AT_PLACE), record[AT_ROW], record[AT_RADIUS_NUMBER], codeword % TWO_TO_32);
}

/* Codewords beside which the answer changes, one that is mended, and one of an empty shape, where there are such. */
static uint64_t codeword_to_judge(struct shell shell)
{
    const uint64_t total = total_of(shell), power = least_power_from(total);
    const uint64_t choices[] = {0, total - 1, total, power - 1, power, TWO_TO_32 - 1};
    const uint64_t mended = is_any_mended(shell) ? mended_codeword(shell) : total;
    if (has_empty_shapes(shell) && chance_below(3) == 0)
        return empty_codeword(shell);
    return chance_below(3) ? mended : choices[chance_below(ENTRIES(choices))];
}

/* Changes a record that was sent as a point of the shell: its place, its row, its radius number, a bit of its codeword,
   the highest of the codeword's b bits, all of the codeword, or any two bits. */
static void change_once(uint8_t *record, struct shell shell)
{
    const uint64_t highest = least_power_from(total_of(shell)) / 2, choice = chance_below(10);
    if (choice == 0)
        flip_one_of(record + AT_PLACE, 16);
    else if (choice == 1)
        flip_one_of(record + AT_ROW, 8);
    else if (choice == 2)
        flip_one_of(record + AT_RADIUS_NUMBER, 8);
    else if (choice == 3)
        flip_one_of(record + AT_CODEWORD, 32);
    else if (choice < 6)
        set_codeword(record, codeword_of(record) ^ highest);
    else if (choice < 9)
        set_codeword(record, codeword_to_judge(shell));
    else {
        flip_one_of(record, 64);
        flip_one_of(record, 64);
    }
}

static void change(uint8_t *record, struct shell shell)
{
    change_once(record, shell);
    if (chance_below(4) == 0)
        change_once(record, shell);
}

/* Of three records one is changed before it is repeated, and of forty copies one is changed by itself. */
void carry(const struct quantizing *sent, struct capture *to)
{
    uint8_t record[RECORD_SIZE], copy[RECORD_SIZE];
    for (int i = 0; i < RECORD_SIZE; i++)
        record[i] = sent->answer.record[i];
    if (chance_below(3) == 0)
        change(record, sent->shell);
    for (uint64_t copies = 1 + chance_below(8); copies > 0; copies--) {
        for (int i = 0; i < RECORD_SIZE; i++)
            copy[i] = record[i];
        if (chance_below(40) == 0)
            change(copy, sent->shell);
        put(to, copy, RECORD_SIZE);
    }
}

/* Records of other books than the one that is listed: of its first two places or of its last one, of a place whose
   bytes are exchanged, or any. */
void put_strangers(struct capture *to)
{
    uint8_t record[RECORD_SIZE];
    for (int i = 0; i < 256; i++) {
        const uint64_t any = MOST_PLACES + chance_below(65536 - MOST_PLACES), exchanged = 256 * (16 + chance_below(240));
        const uint64_t places[] = {MOST_PLACES, MOST_PLACES + 1, 65535, exchanged, any}, place = chance_below(ENTRIES(places));
        const uint64_t row = chance_below(MOST_ROWS), number = chance_below(MOST_RADII);
        write_record(record, places[place], row, number, chance_below(256));
        put(to, record, RECORD_SIZE);
    }
}

void shuffle(struct capture *records)
{
    for (uint64_t last = records->size / RECORD_SIZE; last > 1; last--) {
        uint8_t *one = records->bytes + RECORD_SIZE * (last - 1), *other = records->bytes + RECORD_SIZE * chance_below(last);
        for (int i = 0; i < RECORD_SIZE; i++) {
            const uint8_t byte = one[i];
            one[i] = other[i];
            other[i] = byte;
        }
    }
}
