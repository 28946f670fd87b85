/* Reads the files of a page and writes its listing from a file: the reading and the writing of a listing program,
   and nothing else. */

#include "filling.h"

#include <fcntl.h>
#include <unistd.h>

static char block[1 << 18];

static size_t read_file(const char *path)
{
    const int file = open(path, O_RDONLY);
    const size_t size = fill(file, block, sizeof block);
    close(file);
    return size;
}

int main(void)
{
    read_file("pairing.bin");
    read_file("records.bin");
    const size_t size = read_file("listing.txt");
    return write(STDOUT_FILENO, block, size) == (ssize_t)size ? 0 : 1;
}
