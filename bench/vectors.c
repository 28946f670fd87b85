/* Quantizing: vectors for places by chance, for each radius of their rows equally often, none of them refused. */

#include "bench.h"

#include <stdio.h>

typedef uint32_t quantize_call(const uint8_t *table, uint64_t table_length, uint64_t books, uint64_t book,
                               uint64_t place, const float *coefficients, uint64_t coefficients_length, uint8_t *record,
                               uint64_t record_length);

static const struct setting *setting; /* the one that is measured */
static struct coefficients vectors[INPUTS];

static void run_quantize(any_call *call, uint64_t inputs)
{
    static uint8_t record[RECORD_SIZE];
    quantize_call *const quantize_it = (quantize_call *)call;
    for (const struct coefficients *in = vectors; in < vectors + inputs; in++)
        quantize_it(setting->table.bytes, setting->table.size, setting->books, 0, in->place, in->values, in->length,
                    record, RECORD_SIZE);
}

/* Uneven parts of a sum that is less than half a step off that of a radius. */
struct coefficients vector_for(const struct setting *with, uint64_t place)
{
    struct coefficients in = {.place = place};
    const uint8_t *row = row_at(&with->table, place);
    const uint64_t step = two_bytes(row + AT_STEP), radius = row[AT_RADII + chance_below(row[AT_NUMBER_OF_RADII])];
    const float sum = (float)(radius * step + chance_below(step) / 2) / 256;
    uint64_t parts[MOST_LENGTH], all = 0;
    in.length = row[AT_LENGTH];
    for (uint64_t i = 0; i < in.length; i++) {
        const uint64_t root = chance_below(1000);
        parts[i] = 1 + root * root;
        all += parts[i];
    }
    for (uint64_t i = 0; i < in.length; i++)
        in.values[i] = sum * (float)parts[i] / (float)all * (chance_below(2) ? -1 : 1);
    return in;
}

void bench_vectors(const struct setting *with)
{
    char what[NAME];
    setting = with;
    for (uint64_t i = 0; i < INPUTS; i++) {
        vectors[i] = vector_for(setting, chance_below(setting->places));
        if (agree_on_quantize(sharing_of(setting, 0), &vectors[i], RECORD_SIZE) != 0)
            fail("quantize", "refused");
    }
    snprintf(what, sizeof what, "quantize, %s", setting->name);
    measure((struct rivals){what,
                            {run_quantize, (any_call *)probe_quantize, (any_call *)empty_quantize},
                            {run_quantize, (any_call *)plain_quantize, (any_call *)empty_quantize},
                            COUNTED});
}
