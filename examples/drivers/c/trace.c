/* Reads a trace, and runs each command as soon as its line is read. */
#include "commands.h"
#include "lines.h"
#include "world.h"

#include <stdio.h>
#include <string.h>

static uint32_t levels_in(const char *word)
{
    uint32_t levels = 0, level, last = 0;

    if (strcmp(word, "full") == 0)
        return ALL_LEVELS;
    for (;; word += 2) {
        level = (uint32_t)(word[0] - '0');
        if (word[0] < '1' || level > world.levels || level <= last)
            refuse(REFUSED, "bad levels");
        levels |= 1u << level;
        last = level;
        if (word[1] == '\0')
            return levels;
        if (word[1] != ',')
            refuse(REFUSED, "bad levels");
    }
}

static const struct command_form *form_of(const char *word)
{
    const struct command_form *form = command_forms;

    while (form->word != NULL && strcmp(form->word, word) != 0)
        form++;
    if (form->word == NULL)
        refuse(REFUSED, "unknown command");
    return form;
}

static void want_command_words(const char *kinds)
{
    size_t count = strlen(kinds);

    if (strchr(kinds, '*') == NULL) {
        want_words(word_count == count + 1);
        return;
    }
    if (word_count > count && word_count - count > MOST_ITEMS)
        refuse(REFUSED, "too many items");
    want_words(word_count > count);
}

static uint32_t number_of_kind(char kind, const char *word)
{
    switch (kind) {
    case 'R':
        return register_in(word);
    case 'A':
        return area_in(word);
    case 'C':
        return number_in(word, 0, 65535);
    case 'L':
        return number_in(word, 0, MOST_FIELDS);
    default:
        return number_in(word, 0, UINT32_MAX);
    }
}

static struct value number_or_nil(const char *word)
{
    struct part part = part_in(word);

    if (part.is_object)
        refuse(REFUSED, "bad value");
    return part.value;
}

static void read_items(struct command *command, uint32_t first)
{
    command->item_count = word_count - first;
    for (uint32_t i = 0; i < command->item_count; i++)
        command->items[i] = register_in(words[first + i]);
}

static void run_line(void)
{
    static struct command command;
    const struct command_form *form = form_of(words[0]);

    want_command_words(form->kinds);
    for (uint32_t i = 0; form->kinds[i] != '\0'; i++) {
        const char *word = words[i + 1];

        if (form->kinds[i] == 'V')
            command.value = number_or_nil(word);
        else if (form->kinds[i] == 'F')
            command.levels = levels_in(word);
        else if (form->kinds[i] == '*')
            read_items(&command, i + 1);
        else
            command.number[i] = number_of_kind(form->kinds[i], word);
    }
    form->run(&command);
}

static void read_trace(void)
{
    for (next_line(); !is_line_of("end"); next_line())
        run_line();
    want_words(word_count == 1);
    line.number++;
    if (getchar() != EOF)
        refuse(REFUSED, "text after end");
}

int main(void)
{
    setvbuf(stdout, NULL, _IOLBF, BUFSIZ);      /* each reply is written before the next line is read */
    read_world();
    read_trace();
    return 0;
}
