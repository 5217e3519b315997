/* Runs the library and the collector of examples/drivers/c side by side in one process: lockstep <INPUT

   Each command is answered by both before the next one is read. Writes the command and the collector's reply, and the
   library's reply after it if that is another one. docs/ADAPTER.md says which replies are free. Stops with status 1 at a
   reply that differs in its first word, except of `scavenge` and `reclaim`: a collector may end a collection when it likes. */
#include "beside.h"

#include <lispm.h>
#include <stdio.h>
#include <stdlib.h>
#include <string.h>

/* The lines that both have read, and the room for the library's answers. */
static struct {
    lispm_seat seat;
    char *answer;
    size_t room, length;
} machine;

static void *grown(void *memory, size_t room)
{
    memory = realloc(memory, room);
    if (memory == NULL) {
        fputs("lockstep: no memory\n", stderr);
        exit(LISPM_NO_MEMORY);
    }
    return memory;
}

/* The library's answer to a line. If the room is too small, the answer is fetched once more with enough. */
static uint8_t answer_of_machine(const char *text, size_t length)
{
    uint8_t status = lispm_line(&machine.seat, text, length, machine.answer, machine.room, &machine.length);

    if (status == LISPM_SMALL) {
        machine.answer = grown(machine.answer, machine.room = machine.length);
        status = lispm_again(&machine.seat, machine.answer, machine.room, &machine.length);
    }
    return status;
}

static int first_line(const char *text, size_t length)
{
    const char *feed = memchr(text, '\n', length);

    return (int)(feed == NULL ? length : (size_t)(feed - text));
}

static bool is_command(const char *text, size_t length, const char *word)
{
    size_t size = strlen(word);

    return length >= size && memcmp(text, word, size) == 0 && (length == size || text[size] == ' ');
}

/* Both have one reply, byte for byte; if not, whether the other one may be given, too. */
enum agreement { SAME, OTHER, WRONG };

static enum agreement compare(const char *text, size_t length, struct answer collector)
{
    size_t word = 0;

    if (collector.length == machine.length && memcmp(collector.text, machine.answer, machine.length) == 0)
        return SAME;
    if (is_command(text, length, "scavenge") || is_command(text, length, "reclaim"))
        return OTHER;
    while (word < machine.length && word < collector.length && machine.answer[word] > ' ')
        word++;
    return word > 0 && strncmp(collector.text, machine.answer, word) == 0 ? OTHER : WRONG;
}

static enum agreement run_command(const char *text, size_t length)
{
    struct answer collector;
    enum agreement found;

    if (answer_of_machine(text, length) != LISPM_DONE || beside_command(text, length, &collector) != 0) {
        printf("%.*s\n", first_line(machine.answer, machine.length), machine.answer);
        return WRONG;
    }
    found = compare(text, length, collector);
    printf("%-24.*s %.*s", (int)length, text, first_line(collector.text, collector.length), collector.text);
    if (found != SAME)
        printf("    lispm: %.*s", first_line(machine.answer, machine.length), machine.answer);
    putchar('\n');
    return found;
}

/* Hands both a world, whose last line is `trace`; answers its length, or 0 if a line was refused. */
static size_t open_both(const char *text, size_t length)
{
    size_t at = 0;
    bool is_trace = false;
    struct answer answer;

    while (at < length && !is_trace) {
        size_t line = (size_t)first_line(text + at, length - at);

        if (answer_of_machine(text + at, line) != LISPM_DONE) {
            printf("%.*s", (int)machine.length, machine.answer);
            return 0;
        }
        is_trace = is_command(text + at, line, "trace");
        at += line + 1;
    }
    if (beside_open(text, at < length ? at : length, &answer) != 0) {
        printf("the collector: %.*s", (int)answer.length, answer.text);
        return 0;
    }
    return at;
}

static int end_of_machine(void)
{
    if (answer_of_machine("end", 3) != LISPM_DONE)
        return 1;
    return lispm_end(&machine.seat, machine.answer, machine.room, &machine.length) != LISPM_DONE;
}

static int run(const char *text, size_t length)
{
    size_t at = open_both(text, length);

    while (at > 0 && at < length) {
        size_t line = (size_t)first_line(text + at, length - at);

        if (is_command(text + at, line, "end"))
            return end_of_machine();
        if (run_command(text + at, line) == WRONG)
            return 1;
        at += line + 1;
    }
    return 1;                           /* the world was refused, or there is no `end` */
}

static char *read_all(size_t *length)
{
    size_t room = 1 << 16, count;
    char *text = grown(NULL, room);

    *length = 0;
    while ((count = fread(text + *length, 1, room - *length, stdin)) > 0)
        if ((*length += count) == room)
            text = grown(text, room *= 2);
    return text;
}

int main(void)
{
    size_t length;
    char *text = read_all(&length);
    int status;

    machine.answer = grown(NULL, machine.room = 80);
    if (lispm_open(&machine.seat) != LISPM_DONE) {
        fputs("lockstep: no memory\n", stderr);
        return LISPM_NO_MEMORY;
    }
    status = run(text, length);
    lispm_close(&machine.seat);
    beside_close();
    free(machine.answer);
    free(text);
    return status;
}
