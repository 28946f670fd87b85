/* The lines of a file of cases, one after the other. */

#include "fields.h"

#include <stdio.h>
#include <stdlib.h>

enum { MOST_TEXT = 1 << 20, NAME = 80 };

static char room[MOST_TEXT];

static struct text text_of(const char *path)
{
    FILE *file = fopen(path, "r");
    const uint64_t size = file ? fread(room, 1, sizeof room, file) : 0;
    if (!file || size == sizeof room) {
        printf("the cases: %s is %s\n", path, file ? "too long" : "not there");
        exit(1);
    }
    fclose(file);
    return (struct text){room, room + size, 1};
}

/* A remark, but for the end of its line. */
static void skip_remark(struct text *text)
{
    while (text->at < text->end && *text->at != '\n')
        text->at++;
}

static void hold_line(struct text *text, hold_case *hold)
{
    char name[NAME];
    snprintf(name, sizeof name, "case of line %lu", text->line);
    hold(text, name);
}

/* The number of cases that there are, each of which was held. */
static uint64_t hold_text(struct text text, hold_case *hold)
{
    uint64_t cases = 0;
    for (; text.at < text.end; text.line++) {
        const int is_remark = *text.at == '#';
        if (is_remark)
            skip_remark(&text);
        else
            hold_line(&text, hold);
        read_word(&text, "\n");
        cases += !is_remark;
    }
    return cases;
}

void hold_lines(int words, char **word, hold_case *hold)
{
    if (words != 3) {
        printf("%s FILE CASES\n", word[0]);
        exit(1);
    }
    const uint64_t cases = hold_text(text_of(word[1]), hold), wanted = (uint64_t)atoi(word[2]);
    if (cases == 0 || cases != wanted) {
        printf("the test itself: %lu cases were compared, %lu are wanted\n", cases, wanted);
        exit(1);
    }
    printf("agreed: %lu cases\n", cases);
}
