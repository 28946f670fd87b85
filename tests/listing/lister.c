/* An independent listing program: reads `pairing.bin` and `records.bin` of the directory that it is started in, of any
   size, and prints the listing of docs/RULES.md, "Listing program". */

#include "listing.h"

#include <stdio.h>

enum { RUN = RECORD_SIZE * 1000 }; /* the bytes that are read at a time */

/* fread gives less than it is asked for at the end alone, so only the last run can have a part of
   fewer than 8 bytes. */
static void gather_records(struct gathering *to)
{
    static uint8_t run[RUN];
    FILE *file = fopen("records.bin", "rb");
    if (!file)
        return;
    for (size_t size = RUN; size == RUN;) {
        size = fread(run, 1, sizeof run, file);
        gather_run(to, run, size);
    }
    fclose(file);
}

int main(void)
{
    static struct gathering gathering;
    count_points();
    count_for_ranking();
    struct table table;
    table.size = read_file("pairing.bin", table.bytes, sizeof table.bytes);
    if (judge(table.bytes, table.size).faults) {
        printf("refused 7\n");
        return 0;
    }
    begin_gathering(&gathering, &table);
    gather_records(&gathering);
    print_listing(&table, &gathering);
    return 0;
}
