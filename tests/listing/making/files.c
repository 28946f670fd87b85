/* The files of a case: a folder with `pairing.bin` and `records.bin`, where there are such, and the expected text,
   where it is known; for a sender `coefficients.bin` too, and the refusal that it must print, where there is one. */

#include "../listing.h"

#include <stdio.h>
#include <stdlib.h>
#include <string.h>
#include <sys/stat.h>

enum { MOST_PATH = 4096 };

static _Noreturn void no_file(const char *path)
{
    printf("the test itself: cannot write %s\n", path);
    exit(1);
}

void write_file(const char *folder, const char *name, struct bytes bytes)
{
    char path[MOST_PATH];
    if (!bytes.bytes)
        return;
    snprintf(path, sizeof path, "%s/%s", folder, name);
    FILE *file = fopen(path, "wb");
    if (!file || fwrite(bytes.bytes, 1, bytes.size, file) != bytes.size || fclose(file) != 0)
        no_file(path);
}

/* No text is no file. */
void write_text(const char *folder, const char *name, const char *text)
{
    write_file(folder, name, (struct bytes){(const uint8_t *)text, text ? strlen(text) : 0});
}

void write_case(const char *folder, const struct stored_case *stored)
{
    char path[MOST_PATH];
    snprintf(path, sizeof path, "%s/%s", folder, stored->name);
    if (mkdir(path, 0777) != 0)
        no_file(path);
    write_file(path, "pairing.bin", stored->pairing);
    write_file(path, "records.bin", stored->records);
    write_text(path, "listing.txt", stored->text);
}

void write_sent_case(const char *folder, const struct sent_case *sent)
{
    char path[MOST_PATH];
    write_case(folder, &sent->listed);
    snprintf(path, sizeof path, "%s/%s", folder, sent->listed.name);
    write_file(path, "coefficients.bin", sent->coefficients);
    write_text(path, "refused.txt", sent->refused);
}

void write_cases(const char *folder, const struct stored_case *cases, uint64_t number)
{
    for (uint64_t i = 0; i < number; i++)
        write_case(folder, cases + i);
}
