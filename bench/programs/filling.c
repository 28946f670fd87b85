/* Reading a file, for the programs that list. */

#include "filling.h"

#include <unistd.h>

/* As much of a file as there is room for; a missing file is empty. */
size_t fill(int file, void *to, size_t size)
{
    size_t have = 0;
    while (have < size) {
        const ssize_t more = read(file, (char *)to + have, size - have);
        if (more <= 0)
            break;
        have += (size_t)more;
    }
    return have;
}
