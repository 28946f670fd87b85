/* Makes the two files of the demo and its drawing in a new folder, the same bytes in every run, from the records that
   a sender wrote for the desk's page; and prints the picture that was sent beside the one that a slate shows. */

#include "demo.h"

/* Where the radio does nothing, a slate shows the picture: all that differs in the demo is the radio's. */
static void require_picture(const struct sent *sent)
{
    static struct capture all;
    struct bands received;
    struct picture shown;
    put(&all, sent->records[0], sizeof sent->records);
    receive(&all, &received);
    show(&received, &shown);
    if (pixels_not_as_sent(&shown) != 0) {
        printf("demo, %lu pixels differ when all records come as they were sent\n", pixels_not_as_sent(&shown));
        exit(1);
    }
}

/* A record for each place. */
static void read_sent(const char *path, struct sent *to)
{
    const uint64_t size = read_file(path, to->records[0], sizeof to->records);
    if (size != sizeof to->records) {
        printf("demo, %s has %lu bytes, not those of %d records\n", path, size, PLACES);
        exit(1);
    }
}

int main(int words, char **word)
{
    static struct capture capture;
    struct bands received;
    struct picture shown;
    struct fates fates;
    struct sent sent;
    if (words != 4) {
        printf("maker RECORDS FOLDER NAME\n");
        return 1;
    }
    count_points();
    read_sent(word[1], &sent);
    require_picture(&sent);
    broadcast(&sent, &capture);
    judge_fates(&sent, &capture, &fates);
    require_fates(&fates);
    receive(&capture, &received);
    show(&received, &shown);
    print_pictures(&shown);
    write_case(word[2], &(struct stored_case){word[3], {demo_table.bytes, demo_table.size}, {capture.bytes, capture.size}, NULL});
    write_drawing(word[2], word[3], &shown, &fates);
    return 0;
}
