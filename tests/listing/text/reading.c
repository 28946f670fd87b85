/* The bytes of a file; docs/RULES.md, "Listing program". */

#include "../listing.h"

#include <stdio.h>

enum { BEYOND = 8000 }; /* the bytes that are read at a time where there is no room */

/* "A file that is not there counts as empty". Its size, and as many of its bytes as there is room for. */
uint64_t read_file(const char *path, uint8_t *to, uint64_t room)
{
    static uint8_t beyond[BEYOND];
    FILE *file = fopen(path, "rb");
    if (!file)
        return 0;
    uint64_t size = fread(to, 1, room, file);
    for (size_t more = 1; more > 0; size += more)
        more = fread(beyond, 1, sizeof beyond, file);
    fclose(file);
    return size;
}
