/* Lines, their words, and what a word spells. */
#include "lines.h"

#include <ctype.h>
#include <stdarg.h>
#include <stdio.h>
#include <stdlib.h>
#include <string.h>

struct line line;
char *words[LONGEST_LINE / 2 + 2];
uint32_t word_count;

noreturn void refuse(int status, const char *format, ...)
{
    va_list values;

    printf("error line %lu: ", line.number);
    va_start(values, format);
    vprintf(format, values);
    va_end(values);
    putchar('\n');
    exit(status);
}

bool read_line(void)
{
    int byte = getchar();
    bool any = byte != EOF;

    line.number++;
    line.length = 0;
    for (; byte != EOF && byte != '\n'; byte = getchar()) {
        if (line.length == LONGEST_LINE)
            refuse(REFUSED, "line too long");
        line.text[line.length++] = (char)byte;
    }
    line.text[line.length] = '\0';
    return any;
}

static bool is_well_formed(void)
{
    char before = ' ';

    for (uint32_t i = 0; i < line.length; i++) {
        if (line.text[i] < ' ' || line.text[i] > '~' || (line.text[i] == ' ' && before == ' '))
            return false;
        before = line.text[i];
    }
    return before != ' ';
}

static void split(void)
{
    word_count = 0;
    for (char *at = line.text; at != NULL;) {
        words[word_count++] = at;
        at = strchr(at, ' ');
        if (at != NULL)
            *at++ = '\0';
    }
}

void next_line(void)
{
    if (!read_line())
        refuse(REFUSED, "no end");
    if (!is_well_formed())
        refuse(REFUSED, "bad line");
    split();
}

bool is_line_of(const char *word)
{
    return strcmp(words[0], word) == 0;
}

void want_words(bool right_count)
{
    if (!right_count)
        refuse(REFUSED, "wrong count");
}

/* ---- Numbers, names and values */

static bool spells_number(const char *word, uint64_t low, uint64_t high, uint64_t *number)
{
    size_t length = strlen(word);

    if (length == 0 || length > 10 || (word[0] == '0' && length > 1))
        return false;
    *number = 0;
    for (const char *at = word; *at != '\0'; at++) {
        if (!isdigit((unsigned char)*at))
            return false;
        *number = 10 * *number + (uint64_t)(*at - '0');
    }
    return low <= *number && *number <= high;
}

uint32_t number_in(const char *word, uint32_t low, uint32_t high)
{
    uint64_t number;

    if (!spells_number(word, low, high, &number))
        refuse(REFUSED, "bad number");
    return (uint32_t)number;
}

uint32_t register_in(const char *word)
{
    uint64_t number;

    if (!spells_number(word, 0, world.registers - 1, &number))
        refuse(REFUSED, "no register");
    return (uint32_t)number;
}

bool is_area(const char *name, uint32_t *area)
{
    for (*area = 0; *area < world.area_count; ++*area)
        if (strcmp(world.areas[*area].name, name) == 0)
            return true;
    return false;
}

uint32_t area_in(const char *word)
{
    uint32_t area;

    if (!is_area(word, &area))
        refuse(REFUSED, "no area");
    return area;
}

bool is_name(const char *word)
{
    size_t length = strlen(word);

    return islower((unsigned char)word[0]) && length <= NAME_LENGTH
        && strspn(word, "abcdefghijklmnopqrstuvwxyz0123456789-") == length;
}

struct part part_in(const char *word)
{
    struct part part = {.value.kind = NIL};
    bool negative = word[0] == '-';
    uint64_t number;

    if (word[0] == '#' && spells_number(word + 1, 0, UINT32_MAX, &number)) {
        part.is_object = true;
        part.object = (uint32_t)number;
    } else if (spells_number(word + negative, negative, (uint64_t)INT32_MAX + negative, &number)) {
        part.value.kind = NUMBER;
        part.value.number = (int32_t)(negative ? -(int64_t)number : (int64_t)number);
    } else if (strcmp(word, "nil") != 0) {
        refuse(REFUSED, "bad value");
    }
    return part;
}
