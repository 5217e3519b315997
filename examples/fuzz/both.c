#include "both.h"

#include "beside.h"

#include <lispm.h>
#include <stdarg.h>
#include <stdio.h>
#include <stdlib.h>
#include <string.h>
#include <unistd.h>

static lispm_seat seat;

/* A text that grows. */
struct text {
    char *bytes;
    size_t length, room;
};

static struct text session, reply;

static void make_room(struct text *text, size_t room)
{
    if (room <= text->room)
        return;
    text->bytes = realloc(text->bytes, text->room = 2 * room);
    if (text->bytes == NULL)
        abort();
}

/* Keeps a line of the session, with its line feed. */
static void keep(const char *line, size_t length)
{
    make_room(&session, session.length + length + 1);
    memcpy(session.bytes + session.length, line, length);
    session.bytes[session.length + length] = '\n';
    session.length += length + 1;
}

static void put(int file, const char *text, size_t length)
{
    while (length > 0) {
        ssize_t count = write(file, text, length);

        if (count <= 0)
            return;
        text += count;
        length -= (size_t)count;
    }
}

void both_show(int file)
{
    put(file, session.bytes, session.length);
    put(file, "end\n", 4);
}

static void show_reply(const char *who, int status, const char *text, size_t length)
{
    fprintf(stderr, "%s, with status %d, answers to the last command: %.*s", who, status, (int)length, text);
}

/* Shows the session so far and both replies, and ends the process. */
static void differ(uint8_t status, int own_status, struct answer own)
{
    both_show(2);
    show_reply("the collector", own_status, own.text, own.length);
    show_reply("the machine", status, reply.bytes, reply.length);
    abort();
}

/* The machine's answer to a line is in `reply`. */
static uint8_t answer_of_machine(const char *line, size_t length)
{
    uint8_t status;

    make_room(&reply, 4096);
    status = lispm_line(&seat, line, length, reply.bytes, reply.room - 1, &reply.length);
    if (status == LISPM_SMALL) {
        make_room(&reply, reply.length + 1);
        status = lispm_again(&seat, reply.bytes, reply.room - 1, &reply.length);
    }
    reply.bytes[reply.length] = '\0';
    keep(line, length);
    return status;
}

void both_open(const char *world)
{
    struct answer own;
    int own_status = beside_open(world, strlen(world), &own);
    uint8_t status = lispm_open(&seat);

    session.length = 0;
    for (const char *line = world; *line != '\0' && status == LISPM_DONE; line += strcspn(line, "\n") + 1)
        status = answer_of_machine(line, strcspn(line, "\n"));
    if (status != LISPM_DONE || own_status != 0)
        differ(status, own_status, own);
}

static bool agree(enum fixed fixed, struct answer own)
{
    size_t length = fixed == ALL ? reply.length : fixed == FIRST_WORD ? strcspn(reply.bytes, " \n") + 1 : 0;

    if (fixed == ALL && own.length != reply.length)
        return false;
    return own.length >= length && memcmp(own.text, reply.bytes, length) == 0;
}

const char *both_answer(enum fixed fixed, const char *format, ...)
{
    static char line[LISPM_LONGEST_LINE + 1];
    struct answer own;
    va_list values;
    uint8_t status;
    int length, own_status;

    va_start(values, format);
    length = vsnprintf(line, sizeof line, format, values);
    va_end(values);
    status = answer_of_machine(line, (size_t)length);
    own_status = beside_command(line, (size_t)length, &own);
    if (status != LISPM_DONE || own_status != 0 || !agree(fixed, own))
        differ(status, own_status, own);
    return reply.bytes;
}

void both_close(void)
{
    lispm_close(&seat);
    beside_close();
}
