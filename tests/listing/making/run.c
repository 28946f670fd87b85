/* The bytes of a run of coefficients; docs/RULES.md, "Sender program". */

#include "../listing.h"

/* "each f32 as its four bytes, high byte first" */
void put_run(uint8_t *to, const uint32_t *run, uint64_t length)
{
    for (uint64_t i = 0; i < length; i++) {
        set_two_bytes(to + F32_SIZE * i, run[i] >> 16);
        set_two_bytes(to + F32_SIZE * i + 2, run[i] % 65536);
    }
}
