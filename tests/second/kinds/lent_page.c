/* A page that a call was lent, after the call: it must be the one that the rules made, with all that lies around it. */

#include "../draws/draws.h"
#include "lent.h"

#include <stdio.h>
#include <stdlib.h>
#include <string.h>

/* Every byte of the page, whatever its books, and of the guards, and now and then all of the room. */
int is_page_as_it_must_be(const struct page *page, int lent)
{
    return memcmp(page->lent[lent], page->wanted, chance_below(1024) ? room_used(page) : PAGE_ROOM) == 0;
}

/* The first cell that is not as it must be, or the first byte beside the page; the call was printed before. */
void wrong_page(const struct page *page, int lent)
{
    const uint64_t cells = cells_of(page);
    for (uint64_t number = 0; number < cells; number++) {
        uint8_t got[CELL_SIZE], wanted[CELL_SIZE];
        copy_cell(page->lent[lent] + GUARDS, page->layout, cells, number, got);
        copy_cell(page->wanted + GUARDS, page->layout, cells, number, wanted);
        if (memcmp(got, wanted, CELL_SIZE) == 0)
            continue;
        printf(": afterwards place %lu of book %lu of the page", number % page->places, number / page->places);
        print_bytes(": expected", wanted, CELL_SIZE);
        print_bytes(", got", got, CELL_SIZE);
        printf("\n");
        exit(1);
    }
    printf(", byte %ld", first_other_byte(page->wanted, page->lent[lent]));
    end("something is written beside the page");
}
