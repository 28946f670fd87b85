/* Hands a file over through a named pipe in pieces, `pieces FROM PIPE SIZE ..`: the sizes in turn, again and again. A
   piece is written only when the one before is taken, so that no read gets more than one. It ends without a word when
   the pipe is removed, or when its reader has ended. */

#include <fcntl.h>
#include <stdint.h>
#include <stdio.h>
#include <stdlib.h>
#include <sys/ioctl.h>
#include <unistd.h>

enum { MOST_BYTES = 1 << 20, MOST_SECONDS = 300, MICROSECONDS = 50 };

static uint8_t bytes[MOST_BYTES];

/* As much of the file as there is room for. */
static size_t read_file(const char *path)
{
    const int file = open(path, O_RDONLY);
    size_t size = 0;
    for (ssize_t more = 0; (more = read(file, bytes + size, sizeof bytes - size)) > 0;)
        size += (size_t)more;
    return size;
}

/* Nobody reads a pipe that is removed. */
static void wait_a_while(const char *path)
{
    usleep(MICROSECONDS);
    if (access(path, F_OK) != 0)
        exit(0);
}

/* A pipe cannot be opened in this way before there is a reader. */
static int open_pipe(const char *path)
{
    int pipe = -1;
    while ((pipe = open(path, O_WRONLY | O_NONBLOCK)) < 0)
        wait_a_while(path);
    return pipe;
}

/* Once nothing is left in the pipe. A write that finds no room fails. */
static void hand_over(const char *path, int pipe, const uint8_t *piece, size_t size)
{
    for (int within = 0; ioctl(pipe, FIONREAD, &within) == 0 && within > 0;)
        wait_a_while(path);
    while (size > 0) {
        const ssize_t written = write(pipe, piece, size);
        if (written < 0)
            wait_a_while(path);
        piece += written < 0 ? 0 : written;
        size -= written < 0 ? 0 : (size_t)written;
    }
}

int main(int words, char **word)
{
    alarm(MOST_SECONDS);
    if (words < 4) {
        printf("pieces FROM PIPE SIZE ..\n");
        return 1;
    }
    const size_t size = read_file(word[1]);
    const int pipe = open_pipe(word[2]);
    size_t at = 0;
    for (int next = 3; at < size; next = next + 1 < words ? next + 1 : 3) {
        const size_t piece = (size_t)atoi(word[next]), rest = size - at, now = piece < rest ? piece : rest;
        hand_over(word[2], pipe, bytes + at, now);
        at += now;
    }
    return 0;
}
