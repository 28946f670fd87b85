/* The rules of the second program: shells and points, pairing tables, and vectors that become records. They are written
   from docs/RULES.md alone, share nothing with the calls under test, and call none of them. The page has page.h. */

#ifndef SECOND_RULES_H
#define SECOND_RULES_H

#include <stdint.h>

enum {
    MOST_LENGTH = 16,
    MOST_RADIUS = 32,
    MOST_REFUSAL = 20,
    ROW_SIZE = 16,
    MOST_ROWS = 32,
    MOST_RADII = 8,
    MOST_PLACES = 4096,
    MOST_BOOKS = 16,
    PLACE_BITS = 12, /* of the place field: the lower ones, and those above have the book */
    RECORD_SIZE = 8,
    ITEMS = 6,          /* the most items of a list that a call answers */
    MOST_LENT = 32,     /* the room for the point, or the coefficients, that a call is lent */
    MOST_LENT_ROWS = 38 /* the room for the pairing table that a call is lent */
};

#define TWO_TO_32 ((uint64_t)1 << 32)
#define TWO_TO_63 ((uint64_t)1 << 63)
#define NEGATIVE ((uint32_t)1 << 31) /* the sign bit of an f32 */
#define MINUS(bits) (NEGATIVE | (bits))
#define ENTRIES(array) (sizeof(array) / sizeof *(array))

/* The selectors: which enumeration numbers the points of a shell. */
enum { PRODUCT, MAGNITUDE, PRODUCT_PRODUCT, SELECTORS };

/* A length and a radius, so that neither is taken for the other, and the selector. Where a refusal is asked for, they
   may be any numbers. */
struct shell {
    uint64_t length;
    uint64_t radius;
    uint64_t selector; /* PRODUCT where only N is asked for */
};

/* The list that a call answers; zeros follow it. */
struct list {
    uint64_t items[ITEMS];
};

/* Where the fields of a row of a pairing table begin. */
enum { AT_LENGTH = 0, AT_NUMBER_OF_RADII = 1, AT_RADII = 2, AT_STEP = 10, AT_PLACES = 12, AT_SELECTOR = 14, AT_15 = 15 };

/* Where the fields of a record begin; that of the place has the book too. */
enum { AT_PLACE = 0, AT_ROW = 2, AT_RADIUS_NUMBER = 3, AT_CODEWORD = 4 };

/* A pairing table: its size in bytes, which may be any number, and the room for its bytes, of which it may
   leave some unused. */
struct table {
    uint64_t size;
    uint8_t bytes[ROW_SIZE * MOST_LENT_ROWS];
};

/* Some f32 numbers, as their bits. */
enum {
    BITS_OF_1_512 = 0x3b000000,
    BITS_OF_1 = 0x3f800000,
    BITS_BELOW_32768 = 0x46ffffff,
    BITS_OF_32768 = 0x47000000,
    BITS_OF_INFINITY = 0x7f800000,
    BITS_OF_QUIET_NAN = 0x7fc00000 /* from here on; between infinity and this one, NaN is signalling */
};

/* What quantize is lent, and the place in its book. These numbers and the lengths may be any; of the room for the
   coefficients some may be unused. */
struct vector {
    struct table table;
    uint64_t books; /* how many there are */
    uint64_t book;
    uint64_t place;
    uint64_t length;                  /* of the coefficients */
    uint32_t coefficients[MOST_LENT]; /* the bits of each f32 */
    uint64_t record_length;
};

/* What quantize must answer. */
struct answer {
    uint32_t refusal; /* 0 for none */
    uint64_t value;   /* the row of 7, the coordinate of 11, else 0 */
    uint8_t record[RECORD_SIZE];
};

/* shells.c: N, the usable shells, and the errors of a test itself */
typedef void visit_shell(struct shell shell);
void count_points(void);
uint64_t points_of(struct shell shell);
int is_usable(struct shell shell);
uint64_t largest_radius(uint64_t length, uint64_t selector);
uint64_t least_power_from(uint64_t n);
uint64_t most_nonzero(struct shell shell);
void for_each_shell(visit_shell *visit);
void for_each_numbering(visit_shell *visit);
_Noreturn void own_error(const char *what, struct shell shell);
void own_figure(const char *what, uint64_t figure, uint64_t known);

/* ranking.c: the total of a shell, the index of a point and the point of an index, by the enumeration that the selector
   selects */
void count_for_ranking(void);
uint64_t magnitude(int32_t coordinate);
uint64_t total_of(struct shell shell);
uint64_t rank(struct shell shell, const int32_t *point);
uint64_t next_named(struct shell shell, uint64_t index);
int names_point(struct shell shell, uint64_t index);
int is_index_telling(struct shell shell, const int32_t *point);
void point_of(struct shell shell, uint64_t index, int32_t *point);

/* product_order.c: the same by the product enumeration, and by the product-product enumeration */
struct range {
    uint64_t start;    /* its first index */
    uint64_t patterns; /* D */
    uint64_t shapes;   /* S */
    uint64_t field;    /* how many numbers the shapes of a pattern have: S, or the power of two in which S has room */
};
void count_patterns_and_shapes(void);
struct range range_of(struct shell shell, uint64_t s);
uint64_t range_size(struct shell shell, uint64_t s);
uint64_t product_total(struct shell shell);
uint64_t product_rank(struct shell shell, const int32_t *point);
uint64_t next_with_shape(struct shell shell, uint64_t index);
int has_empty_shapes(struct shell shell);
void product_point(struct shell shell, uint64_t index, int32_t *point);

/* magnitude_order.c: and by the magnitude enumeration */
void count_by_first_values(void);
uint64_t magnitude_rank(struct shell shell, const int32_t *point);
void magnitude_point(struct shell shell, uint64_t index, int32_t *point);

/* pointing.c: how far an index is past the end, and what index and point must answer */
struct pointing {
    struct shell shell;
    uint64_t index;
    uint64_t length; /* of the output, which may be any number */
};
uint64_t distance_of(struct shell shell, uint64_t index);
int is_on_shell(struct shell shell, const int32_t *vector);
struct list index_at(struct shell shell, const int32_t *vector, uint64_t length);
struct list point_at(const struct pointing *asked, int32_t *point);

/* books.c: the number of books, and the place field */
int is_no_number_of_books(uint64_t books);
uint64_t place_field(uint64_t book, uint64_t place);
uint64_t book_in(uint64_t field);
uint64_t place_in(uint64_t field);
uint64_t field_in(const uint8_t *record);

/* pairing.c: what is wrong with a pairing table */
enum fault {
    NO_BYTES,
    PART_OF_A_ROW,
    MORE_THAN_32_ROWS,
    BAD_LENGTH,
    BAD_NUMBER_OF_RADII,
    FIRST_RADIUS_NOT_0,
    RADIUS_NOT_LARGER,
    RADIUS_ABOVE_32,
    RADIUS_NOT_USABLE,
    BEYOND_NOT_0,
    NO_STEP,
    NO_PLACES,
    BAD_SELECTOR,
    BYTE_15_NOT_0,
    TOTAL_PASSED,
    FAULTS /* how many there are */
};
struct judgment {
    uint32_t faults;   /* of the size, else of the first bad row: the bit 1 << fault for each; 0 for a good table */
    uint64_t row;      /* the first bad row; 0 for a wrong size */
    uint64_t bad_rows; /* how many rows are bad; 0 for a wrong size */
    uint64_t places;   /* the running total up to the first bad row, that one included, else up to the last row */
};
uint64_t two_bytes(const uint8_t *high);
void set_two_bytes(uint8_t *high, uint64_t number);
struct judgment judge(const uint8_t *bytes, uint64_t size);
uint64_t row_of(const struct table *table, uint64_t place);
const uint8_t *row_at(const struct table *table, uint64_t place);
int do_rows_differ(const struct table *table, uint64_t at);
int has_every_selector(const struct table *table);
struct shell shell_of(const uint8_t *row, uint64_t number);

/* quantizing.c: the record of a vector, and the steps on the way to it */
enum way { EXACT, DOWN, UP, HALF_DOWN, HALF_UP };
struct rounding {
    uint64_t whole; /* the whole number nearest to 256 times the magnitude of a coefficient */
    enum way way;   /* that leads there */
};
struct quantizing {
    struct answer answer; /* where it is a refusal, nothing is said of the steps */
    uint64_t row;
    uint64_t magnitudes[MOST_LENGTH]; /* a, one for each coefficient */
    uint64_t sum;                     /* A */
    uint64_t number;                  /* the radius number within the row */
    struct shell shell;
    uint64_t shares[MOST_LENGTH];     /* the whole parts of k x a / A, where k is above 0 */
    uint64_t remainders[MOST_LENGTH]; /* and what these leave over of k x a */
    uint64_t units;                   /* how many remainders get one more; none at radius 0 */
    int32_t point[MOST_LENGTH];
};
uint32_t bits_of(uint64_t m, uint32_t p);
int is_negative(uint32_t bits);
int is_unusable(uint32_t bits);
struct rounding nearest(uint32_t bits);
void write_record(uint8_t *record, uint64_t field, uint64_t row, uint64_t number, uint64_t codeword);
void quantize_magnitudes(const struct vector *vector, struct quantizing *to);
struct quantizing quantize(const struct vector *vector);

/* nearness.c: how near a point of the chosen shell is to the vector, and whether each difference of the quantized one
   is below A */
uint64_t sum_of_squares(const struct vector *vector, const struct quantizing *made, const int32_t *point);
int is_each_below(const struct vector *vector, const struct quantizing *made);

#endif
