/* Sending: whole pages with vectors as in vectors.c, none of them refused. The figures are those of one place: of a
   page they are as many times more as it has places. */

#include "bench.h"

#include <stdio.h>

typedef struct plain_sending send_call(const uint8_t *table, uint64_t table_length, uint64_t books, uint64_t book,
                                       const float *run, uint64_t run_length, uint8_t *buffer, uint64_t buffer_length);
typedef uint64_t send_item_call(const uint8_t *table, uint64_t table_length, uint64_t books, uint64_t book,
                                const float *run, uint64_t run_length, uint8_t *buffer, uint64_t buffer_length,
                                uint64_t which);

enum { MOST_STEPPED = 256 }; /* the places of a page that is run step by step */

/* A page that is sent. */
struct sent_page {
    struct setting setting;
    uint64_t run_length;
    float run[MOST_SENT];
};

static struct sent_page whole, part; /* the page that is timed, and one of fewer places that is run step by step */
static uint8_t buffer[RECORD_SIZE * MOST_PLACES];

/* The whole page, as often as it has so many places; or the part of it, if there are fewer. */
static void run_send(any_call *call, uint64_t places)
{
    send_call *const send_it = (send_call *)call;
    const struct sent_page *page = places < whole.setting.places ? &part : &whole;
    const struct setting *of = &page->setting;
    for (uint64_t sent = 0; sent < places; sent += of->places)
        send_it(of->table.bytes, of->table.size, of->books, 0, page->run, page->run_length, buffer,
                RECORD_SIZE * of->places);
}

static void run_send_item(any_call *call, uint64_t places)
{
    send_item_call *const send_it = (send_item_call *)call;
    const struct sent_page *page = places < whole.setting.places ? &part : &whole;
    const struct setting *of = &page->setting;
    for (uint64_t sent = 0; sent < places; sent += of->places)
        send_it(of->table.bytes, of->table.size, of->books, 0, page->run, page->run_length, buffer,
                RECORD_SIZE * of->places, 0);
}

static void draw_page(struct sent_page *page, struct setting setting)
{
    page->setting = setting;
    page->run_length = 0;
    for (uint64_t place = 0; place < setting.places; place++) {
        const struct coefficients in = vector_for(&setting, place);
        __builtin_memcpy(page->run + page->run_length, in.values, in.length * sizeof *page->run);
        page->run_length += in.length;
    }
    if (agree_on_send(sharing_of(&setting, 0), page->run, page->run_length, RECORD_SIZE * setting.places) != 0)
        fail("send", "refused");
}

void bench_sends(const struct setting *with)
{
    const uint64_t stepped = with->places < MOST_STEPPED ? with->places : MOST_STEPPED;
    char what[NAME];
    draw_page(&whole, *with);
    draw_page(&part, with_places(with, stepped));
    snprintf(what, sizeof what, "send, %s, a place", with->name);
    measure((struct rivals){what,
                            {run_send_item, (any_call *)probe_send, (any_call *)empty_send_item},
                            {run_send, (any_call *)plain_send, (any_call *)empty_send},
                            stepped});
}
