/* Makes the cases of vectors/ in a folder, the same bytes in every run. The cases `full_page` and `sent_full` get no
   listing.txt: that comes from the lister. */

#include "../listing.h"

#include <stdio.h>

enum { SEED = 2014 };

/* One place of sixteen is lost, and one of thirty-two is sent twice, with two vectors. The capture ends with 7 bytes of
   a lost record. */
static void make_full_page(const char *folder)
{
    static struct capture capture;
    chance_from(SEED);
    const struct table table = full_table();
    struct quantizing lost = send_for(&table, 0);
    for (uint64_t place = 0; place < MOST_PLACES; place++) {
        const struct quantizing sent = send_for(&table, place), again = send_for(&table, place);
        const uint64_t luck = chance_below(32);
        if (luck < 2)
            lost = sent;
        else
            carry(&sent, &capture);
        if (luck == 2)
            carry(&again, &capture);
    }
    put_strangers(&capture);
    shuffle(&capture);
    put(&capture, lost.answer.record, RECORD_SIZE - 1);
    require_contents(&table, &capture);
    write_case(folder, &(struct stored_case){"full_page", {table.bytes, table.size}, {capture.bytes, capture.size}, NULL});
}

int main(int words, char **word)
{
    if (words != 2) {
        printf("maker FOLDER\n");
        return 1;
    }
    count_points();
    count_for_ranking();
    make_small_cases(word[1]);
    make_table_cases(word[1]);
    make_place_cases(word[1]);
    make_selector_cases(word[1]);
    make_field_cases(word[1]);
    make_sent_cases(word[1]);
    make_full_page(word[1]);
    make_sent_full(word[1]);
    return 0;
}
