/* Stored cases of calls, as a text: a line is a remark, which begins with #, or a case, with one space between two
   fields. What is not there as it must be ends the test. */

#ifndef FIELDS_FIELDS_H
#define FIELDS_FIELDS_H

#include "../second/rules/sending.h"

/* A text under way, and the line of it that is being read. */
struct text {
    const char *at;
    const char *end;
    uint64_t line;
};

/* fields.c: the fields of a line, each of which must be what is asked for */
_Noreturn void malformed(const struct text *text, const char *why);
void read_word(struct text *text, const char *word);
uint64_t read_one_of(struct text *text, const char *const *words, uint64_t number);
uint64_t read_bytes(struct text *text, uint8_t *bytes, uint64_t most);
void read_table(struct text *text, struct table *to);
uint64_t read_coefficients(struct text *text, uint32_t *bits, uint64_t most);
uint64_t read_number(struct text *text);
uint64_t read_number_field(struct text *text);
void read_coordinates(struct text *text, int32_t *point, uint64_t length);
int read_answer(struct text *text, struct list *refusal, const uint8_t *lengths);

/* lines.c: holds each case of a file, by the arguments of a program: the file, and how many cases it has; the name is
   what a difference is told with */
typedef void hold_case(struct text *text, const char *name);
void hold_lines(int words, char **word, hold_case *hold);

/* held.c: holds the list that the second program answers to that of a case, and tells of a call how many of its cases
   are answered, and how many are refused with each number */
void hold_list(const char *name, struct list own, struct list wanted);
void print_held(const char *call, const uint64_t *refused);

#endif
