/* A vector into a record; docs/RULES.md, "Quantizing into a record". The functions stand in this header so that the
   compiler has them at hand in each call that quantizes. */

#ifndef BENCH_RECORD_H
#define BENCH_RECORD_H

#include "plain.h"

/* A vector under way. */
struct parts {
    uint32_t sum;                /* A */
    uint32_t sizes[MOST_LENGTH]; /* the magnitudes a, then the shares of the radius */
    int32_t rests[MOST_LENGTH];  /* what is left over of k x a, and in the low 4 bits 15 less the coordinate */
};

/* No NaN is below 32,768. */
static inline int are_usable(const float *coefficients, uint64_t length)
{
    int are_all = 1;
    for (uint64_t i = 0; i < length; i++)
        are_all &= __builtin_fabsf(coefficients[i]) < 32768.0f;
    return are_all;
}

/* From 2^23 to 2^24 the floats are the whole numbers, so the sum of 256x and 2^23 is rounded as the rules say. */
static inline void round_all(const float *coefficients, uint64_t length, struct parts *parts)
{
    uint32_t sum = 0;
    for (uint64_t i = 0; i < length; i++) {
        parts->sizes[i] = (uint32_t)((int32_t)(__builtin_fabsf(coefficients[i]) * 256.0f + 8388608.0f) - 8388608);
        sum += parts->sizes[i];
    }
    parts->sum = sum;
}

/* The first radius whose middle to the next one is not passed. */
static inline uint32_t choose(const uint8_t *row, uint32_t sum)
{
    const uint8_t *radii = row + AT_RADII;
    const uint32_t step = pair_at(row + AT_STEP), last = row[AT_NUMBER_OF_RADII] - 1u;
    uint32_t number = 0;
    while (number < last && 2 * sum > ((uint32_t)radii[number] + radii[number + 1]) * step)
        number++;
    return number;
}

/* The whole parts of k x a / A; how many units are left. A remainder is below 2^27. */
static inline uint32_t divide(struct parts *parts, uint64_t length, uint32_t radius)
{
    uint32_t units = radius;
    for (uint64_t i = 0; i < length; i++) {
        const uint32_t product = radius * parts->sizes[i];
        parts->sizes[i] = product / parts->sum;
        parts->rests[i] = (int32_t)(product % parts->sum << 4 | (15 - i));
        units -= parts->sizes[i];
    }
    return units;
}

/* One more for the largest remainder, which is spent; of equal ones the lower coordinate has the larger bits. */
static inline void give(struct parts *parts, uint64_t length)
{
    int32_t most = 0;
    for (uint64_t i = 0; i < length; i++)
        most = parts->rests[i] > most ? parts->rests[i] : most;
    parts->sizes[15 - (most & 15)]++;
    parts->rests[15 - (most & 15)] = 0;
}

/* The index of the point of a radius above 0, by the row's enumeration. */
static inline uint64_t codeword(const uint8_t *row, const float *coefficients, uint32_t radius, struct parts *parts)
{
    const uint64_t length = row[AT_LENGTH];
    int32_t point[MOST_LENGTH];
    for (uint32_t units = divide(parts, length, radius); units > 0; units--)
        give(parts, length);
    for (uint64_t i = 0; i < length; i++)
        point[i] = coefficients[i] < 0 ? -(int32_t)parts->sizes[i] : (int32_t)parts->sizes[i];
    return plain_rank(row[AT_SELECTOR], length, radius, point);
}

static inline void put_pair(uint8_t *high, uint64_t number)
{
    high[0] = (uint8_t)(number >> 8);
    high[1] = (uint8_t)number;
}

/* The record of a vector that has passed the checks, at a place of this row, which has this number. The place has this
   field. */
static inline void write_record_of(const uint8_t *row, uint64_t row_number, uint64_t field, const float *coefficients,
                                   uint8_t *record)
{
    struct parts parts;
    round_all(coefficients, row[AT_LENGTH], &parts);
    const uint32_t number = choose(row, parts.sum), radius = row[AT_RADII + number];
    const uint64_t index = radius == 0 ? 0 : codeword(row, coefficients, radius, &parts);
    put_pair(record + AT_PLACE, field);
    record[AT_ROW] = (uint8_t)row_number;
    record[AT_RADIUS_NUMBER] = (uint8_t)number;
    put_pair(record + AT_CODEWORD, index >> 16);
    put_pair(record + AT_CODEWORD + 2, index);
}

#endif
