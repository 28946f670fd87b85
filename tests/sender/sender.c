/* An independent sender: reads `pairing.bin` and `coefficients.bin` of the directory that it is started in, of any
   size, and writes `records.bin` or prints a refusal, as docs/RULES.md, "Sender program", has it. */

#include "sender.h"

#include <stdio.h>

static struct sending sending;

/* Its size. What is beyond the longest run that can be right is not looked at. */
static uint64_t read_coefficients(void)
{
    static uint8_t file[F32_SIZE * MOST_SENT];
    const uint64_t size = read_file("coefficients.bin", file, sizeof file);
    for (uint64_t i = 0; i < MOST_SENT; i++)
        sending.run[i] = (uint32_t)(two_bytes(file + F32_SIZE * i) << 16 | two_bytes(file + F32_SIZE * i + 2));
    return size;
}

int main(void)
{
    static struct sent sent;
    count_points();
    count_for_ranking();
    sending.table.size = read_file("pairing.bin", sending.table.bytes, sizeof sending.table.bytes);
    answer(&sending, read_coefficients(), &sent);
    write_file(".", "records.bin", records_of(&sending, &sent));
    if (refusal_of(&sent))
        printf("%s", refusal_of(&sent));
    return 0;
}
