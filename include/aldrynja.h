/* Aldrynja for C: the count of the points of a shell, the taking of a record into a page, the conversions of a page
   between its two layouts, and the version of all of these.

   `tools/archive slate` writes target/staticlib/libslate.a, an archive for x86-64 Linux; link with it and the C
   library. `tools/install DESTDIR` installs this header, and the archive as libaldrynja.a. The rules are those of
   docs/RULES.md, whose headings the comments cite.
   No call keeps anything from one call to the next, allocates memory, stops the program, or writes to anything but the
   page that the call is lent to be written. */

#ifndef ALDRYNJA_H
#define ALDRYNJA_H

#include <stddef.h>
#include <stdint.h>

#ifdef __cplusplus
extern "C" {
#endif

/* "Calls for C": the version of this header, and of the formats that its calls take. The version is raised when a
   program that was built for the version before would be given something else: since version 2 a record of a foreign
   row is refused with 9, and a held one is a fault of its cell (12); since version 3 byte 14 of a row of the pairing
   table may be 1, and since version 4 it may be 2, where the table was bad (7); since version 5 a page has one book or
   several, and take is given their number: a program that was built for version 4 would pass other arguments; since
   version 6 take's page is kept states first, where it was kept cell by cell: a program that was built for version 5
   would lend a page in the other layout, and look for the states where they are no more. */
#define ALDRYNJA_VERSION 6

/* The version of the archive. A program may refuse to run where it is not ALDRYNJA_VERSION. */
uint32_t aldrynja_version(void);

/* "Points and counts": N(length, radius), how many vectors of `length` whole numbers have magnitudes that sum to
   `radius`. Both may be any numbers of 64 bits. The call gives 0 where the count is refused, and only there: the length
   is outside 1 to 16, the radius is above 32, or N is above 2^32. */
uint64_t aldrynja_count(uint64_t length, uint64_t radius);

/* "Refusal numbers": what the taking of a record and the conversions can give. A conversion gives 0, 17, 7 and 4
   alone. */
enum {
    ALDRYNJA_TAKEN = 0,
    ALDRYNJA_CONVERTED = 0,
    ALDRYNJA_BUFFER_LENGTH = 4, /* the record is not 8 bytes, or a page not 9 for each place of each book */
    ALDRYNJA_BAD_TABLE = 7,     /* the pairing table is bad; its row is not told */
    ALDRYNJA_NO_SUCH_PLACE = 8, /* the record's place is not in the table, or its book not below the number of books */
    ALDRYNJA_FOREIGN_ROW = 9,   /* the record's row is not the row of its place */
    ALDRYNJA_BAD_CELL = 12,     /* the cell of the record's place has a state above 2, or is held with a record of
                                   another book, of another place or of another row */
    ALDRYNJA_BOOKS_OUTSIDE = 17 /* the number of books is outside 1 to 16 */
};

/* "Books" and "States first": the two layouts of a page. A page has a cell for each place of each book, and a cell has
   a state, which is 1 byte, and a record of 8 bytes. The cell of a place is number book x places + place of the page,
   where `places` is how many the table has. With n = places x books cells, cell c is

   in states_first   byte c, its state, and the 8 bytes from n + 8 x c on, its record: the states of all cells come
                     first, and then all records
   in cell_by_cell   byte 9 x c, its state, and the 8 bytes behind it, its record

   aldrynja_take uses states_first. Version 5 and the versions before used cell_by_cell: a page that was kept with one
   of them has to go through aldrynja_to_states_first, once, before aldrynja_take is lent it. Both layouts have the same
   length, 9 x n bytes, so no call can tell which of them a page is in: take would change a page in cell_by_cell to
   something else without a word. A new page is all zeros in both. */

/* "The page", "Books" and "States first": takes a record into a page that is kept states first.

   table         the pairing table, 16 bytes a row, 1 to 32 rows; it is only read
   books         how many books share the table and the page, 1 to 16
   states_first  the page, states first: the states of all books, then the records of all books
   record        the 8 bytes that arrived; they are only read

   The upper four bits of a record's first two bytes are its book, and the lower twelve its place.

   The call gives 0, and in the page the cell of the record's place has gone by the page rule and no other byte has
   changed. Or the call gives the number of the first check that fails, in the order 17, 7, 4, 8, 9, 12, and every byte
   of the page is as it was. The radius number and the codeword of the record are not judged, and nothing is mended: a
   mode is a matter of reading alone. The number of books may be any number of 64 bits. The bytes of all three buffers
   may be any, and so may their lengths, which are in bytes. A buffer of length 0 may have any pointer, a null pointer
   too. The three buffers must not overlap. */
uint32_t aldrynja_take(const uint8_t *table, size_t table_length, uint64_t books, uint8_t *states_first,
                       size_t states_first_length, const uint8_t *record, size_t record_length);

/* "States first": both convert a page into the other layout. The first page is only read, and the second one is
   written; table and books are as above.

   A call gives 0, and the second page holds the first one in its own layout, whatever was there before. Or the call
   gives the number of the first check that fails, in the order 17, 7, 4, and every byte of the second page is as it
   was: 4 is given if either page is of a wrong length. States are copied without being judged: they may be any bytes,
   above 2 too, and so may those of the records. Each call undoes the other. What is said above of the number of books,
   of the buffers, of their lengths and of their pointers holds here too: the three buffers must not overlap, so a page
   is not converted in its own place. */
uint32_t aldrynja_to_states_first(const uint8_t *table, size_t table_length, uint64_t books,
                                  const uint8_t *cell_by_cell, size_t cell_by_cell_length, uint8_t *states_first,
                                  size_t states_first_length);
uint32_t aldrynja_to_cell_by_cell(const uint8_t *table, size_t table_length, uint64_t books,
                                  const uint8_t *states_first, size_t states_first_length, uint8_t *cell_by_cell,
                                  size_t cell_by_cell_length);

#ifdef __cplusplus
}
#endif

#endif
