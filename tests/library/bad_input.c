/* What a caller may do wrong, or do seldom: each is answered by a status, and nothing is lost. */
#include "inputs.h"

static char output[ROOM];
static size_t needed;

/* A length of 0 with a null pointer is an empty text, and a room of 0 takes a null pointer too. */
static void null_pointers(void)
{
    lispm_seat seat = {0};

    CHECK(lispm_open(&seat) == LISPM_DONE);
    CHECK(lispm_line(&seat, NULL, 0, NULL, 0, &needed) == LISPM_SMALL);
    CHECK(needed == strlen("error line 1: not a world\n"));
    CHECK(lispm_again(&seat, NULL, 0, &needed) == LISPM_SMALL);
    CHECK(lispm_again(&seat, output, ROOM, &needed) == LISPM_REFUSED);
    CHECK(is_answer(output, needed, "error line 1: not a world\n"));
    CHECK(lispm_end(&seat, NULL, 0, &needed) == LISPM_REFUSED && needed == 0);
    lispm_close(&seat);
    CHECK(lispm_main(NULL, 0, NULL, 0, NULL, 0, &needed) == LISPM_SMALL);
    CHECK(needed == strlen("error: usage\n"));
    CHECK(lispm_main("replay", sizeof "replay", NULL, 0, output, ROOM, &needed) == LISPM_REFUSED);
    CHECK(is_answer(output, needed, "error line 1: not a world\n"));
    CHECK(lispm_inside(NULL, 0, NULL, 0, output, ROOM, &needed) == LISPM_REFUSED);
    CHECK(is_answer(output, needed, "error line 1: not a world\n"));
}

/* An empty input: a session that ends before its first line. */
static void no_lines(void)
{
    lispm_seat seat = {0};

    CHECK(lispm_open(&seat) == LISPM_DONE);
    CHECK(lispm_again(&seat, output, ROOM, &needed) == LISPM_DONE && needed == 0);
    CHECK(lispm_end(&seat, output, ROOM, &needed) == LISPM_REFUSED);
    CHECK(is_answer(output, needed, "error line 1: not a world\n"));
    lispm_close(&seat);
}

/* A dump with each room from 0 to one more than it needs: it is written whole or not at all, and never a byte
   past the room. */
static void rooms(void)
{
    static const char DUMP[] = "lispm-world 2\nspace 16 32 8 1 2\narea work dynamic 900\ncapacity 0\nroot 0 5\nend-world\n";
    lispm_seat seat = opened();

    CHECK(answers(&seat, "set 0 5", LISPM_DONE, "ok\n"));
    for (size_t room = 0; room <= sizeof DUMP; room++) {
        memset(output, '!', ROOM);
        uint8_t status = lispm_line(&seat, "dump", 4, output, room, &needed);
        size_t written = room < sizeof DUMP - 1 ? 0 : sizeof DUMP - 1;

        CHECK(needed == sizeof DUMP - 1);
        CHECK(status == (written == 0 ? LISPM_SMALL : LISPM_DONE));
        CHECK(memcmp(output, DUMP, written) == 0);
        for (size_t at = written; at < sizeof DUMP + 8; at++)
            CHECK(output[at] == '!');
        CHECK(lispm_again(&seat, output, ROOM, &needed) == LISPM_DONE);
        CHECK(is_answer(output, needed, DUMP));
    }
    lispm_close(&seat);
}

/* A room of 0 for every line: the commands are run, and each answer can be had until the next line. */
static void no_room(void)
{
    lispm_seat seat = opened();

    CHECK(lispm_line(&seat, "cons 1 work 0 0", 15, NULL, 0, &needed) == LISPM_SMALL && needed == 3);
    CHECK(lispm_line(&seat, "eq 1 1", 6, NULL, 0, &needed) == LISPM_SMALL && needed == 2);
    for (int time = 0; time < 3; time++) {
        CHECK(lispm_again(&seat, output, 2, &needed) == LISPM_DONE);
        CHECK(is_answer(output, needed, "t\n"));
    }
    CHECK(answers(&seat, "car 2 1", LISPM_DONE, "nil\n"));
    CHECK(lispm_line(&seat, "conz", 4, NULL, 0, &needed) == LISPM_SMALL);
    CHECK(lispm_again(&seat, output, ROOM, &needed) == LISPM_REFUSED);
    CHECK(is_answer(output, needed, "error line 8: unknown command\n"));
    CHECK(answers(&seat, "car 2 1", LISPM_REFUSED, ""));
    lispm_close(&seat);
}

/* A text with a line feed, at its beginning, inside it and at its end: nothing is done. */
static void line_feeds(void)
{
    static const char *const texts[] = {"\n", "set 0 5\n", "\nset 0 5", "set 0 5\nset 0 6"};
    lispm_seat seat = opened();

    CHECK(answers(&seat, "set 0 nil", LISPM_DONE, "ok\n"));
    for (size_t at = 0; at < sizeof texts / sizeof texts[0]; at++)
        CHECK(answers(&seat, texts[at], LISPM_FEED, ""));
    CHECK(answers(&seat, "move 1 0", LISPM_DONE, "ok\n"));
    CHECK(answers(&seat, "eq 0 1", LISPM_DONE, "t\n"));
    CHECK(answers(&seat, "conz", LISPM_REFUSED, "error line 8: unknown command\n"));
    lispm_close(&seat);
}

/* Bytes that no line may have, a NUL byte among them. */
static void other_bytes(void)
{
    for (int byte = 0; byte < 256; byte++) {
        char text[] = "set 0 5", wanted[64];
        lispm_seat seat;

        text[5] = (char)byte;
        if (byte == '\n' || byte == ' ')
            continue;
        seat = opened();
        sprintf(wanted, "error line 5: %s\n", byte < ' ' || byte > '~' ? "bad line" : "wrong count");
        CHECK(lispm_line(&seat, text, 7, output, ROOM, &needed) == LISPM_REFUSED);
        CHECK(is_answer(output, needed, wanted));
        lispm_close(&seat);
    }
}

/* The longest line, and one byte more. */
static void long_lines(void)
{
    static char text[LISPM_LONGEST_LINE + 2];
    lispm_seat seat = opened();

    memset(text, 'x', LISPM_LONGEST_LINE + 1);
    CHECK(answers(&seat, text, LISPM_REFUSED, "error line 5: line too long\n"));
    lispm_close(&seat);
    seat = opened();
    text[LISPM_LONGEST_LINE] = '\0';
    CHECK(answers(&seat, text, LISPM_REFUSED, "error line 5: unknown command\n"));
    lispm_close(&seat);
    seat = opened();
    for (size_t at = 0; at < LISPM_LONGEST_LINE; at++)
        text[at] = at % 2 == 0 ? '0' : ' ';
    memcpy(text, "list 0 work 0", 13);
    text[13 + 2 * 1023] = '\0';
    CHECK(answers(&seat, text, LISPM_DONE, "exhausted work 0 3072 900\n"));
    lispm_close(&seat);
}

/* Lines after the last one. */
static void lines_after_the_end(void)
{
    lispm_seat seat = opened();

    CHECK(answers(&seat, "end", LISPM_DONE, ""));
    CHECK(answers(&seat, "stats", LISPM_REFUSED, "error line 6: text after end\n"));
    CHECK(answers(&seat, "stats", LISPM_REFUSED, ""));
    CHECK(lispm_end(&seat, output, ROOM, &needed) == LISPM_REFUSED && needed == 0);
    lispm_close(&seat);
    seat = opened();
    CHECK(answers(&seat, "end", LISPM_DONE, ""));
    CHECK(lispm_end(&seat, output, ROOM, &needed) == LISPM_DONE && needed == 0);
    CHECK(answers(&seat, "stats", LISPM_ENDED, ""));
    CHECK(answers(&seat, "", LISPM_ENDED, ""));
    CHECK(lispm_end(&seat, output, ROOM, &needed) == LISPM_ENDED && needed == 0);
    CHECK(lispm_again(&seat, output, ROOM, &needed) == LISPM_DONE && needed == 0);
    lispm_close(&seat);
}

/* After a refusal each call has the same status, and the error line isn't lost. */
static void refused(void)
{
    static const struct {
        const char *lines[4];
        uint8_t status;
        const char *answer;
    } cases[] = {
        {{"set 0 5"}, LISPM_REFUSED, "error line 1: not a world\n"},
        {{"lispm-world 1", "space 5 32 8 1 2", "area work dynamic 1025"}, LISPM_NO_SPACE, "error line 3: space too small\n"},
        {{"lispm-world 1", "space 5 32 8 1 2", "area work dynamic 1", "cons work nil nil"}, LISPM_NO_SPACE,
         "error line 4: exhausted work 0 2 1\n"},
    };

    for (size_t which = 0; which < sizeof cases / sizeof cases[0]; which++) {
        lispm_seat seat = {0};
        size_t last = 0;

        CHECK(lispm_open(&seat) == LISPM_DONE);
        while (last < 3 && cases[which].lines[last + 1] != NULL)
            CHECK(answers(&seat, cases[which].lines[last++], LISPM_DONE, ""));
        CHECK(answers(&seat, cases[which].lines[last], cases[which].status, cases[which].answer));
        CHECK(lispm_again(&seat, output, ROOM, &needed) == cases[which].status);
        CHECK(is_answer(output, needed, cases[which].answer));
        for (int time = 0; time < 3; time++) {
            CHECK(answers(&seat, "lispm-world 1", cases[which].status, ""));
            CHECK(lispm_end(&seat, output, ROOM, &needed) == cases[which].status && needed == 0);
        }
        lispm_close(&seat);
    }
}

static void no_end(void)
{
    lispm_seat seat = opened();

    CHECK(lispm_end(&seat, output, ROOM, &needed) == LISPM_REFUSED);
    CHECK(is_answer(output, needed, "error line 5: no end\n"));
    CHECK(lispm_again(&seat, output, ROOM, &needed) == LISPM_REFUSED);
    CHECK(is_answer(output, needed, "error line 5: no end\n"));
    CHECK(answers(&seat, "set 0 5", LISPM_REFUSED, ""));
    lispm_close(&seat);
}

/* A seat without a session, which was never opened or was closed. */
static void is_empty(lispm_seat *seat)
{
    CHECK(!seat->full);
    CHECK(answers(seat, "set 0 5", LISPM_EMPTY, ""));
    needed = 77;
    CHECK(lispm_again(seat, output, ROOM, &needed) == LISPM_EMPTY && needed == 0);
    needed = 77;
    CHECK(lispm_end(seat, output, ROOM, &needed) == LISPM_EMPTY && needed == 0);
    lispm_close(seat);
    lispm_close(seat);
}

static void empty_seats(void)
{
    lispm_seat seat = {0};

    is_empty(&seat);
    seat = opened();
    lispm_close(&seat);
    is_empty(&seat);
}

/* A second session in a seat takes the place of the first, which is closed. */
static void opened_twice(void)
{
    lispm_seat seat = opened();

    CHECK(answers(&seat, "set 0 5", LISPM_DONE, "ok\n"));
    CHECK(lispm_open(&seat) == LISPM_DONE);
    CHECK(answers(&seat, "lispm-world 1", LISPM_DONE, ""));
    lispm_close(&seat);
}

static void arguments(void)
{
    static const char *const words[] = {"why", "--object", "7"};
    static const char bytes[] = "why\0--object\0007";
    char text[32];

    CHECK(lispm_arguments(3, words, text, sizeof text, &needed) == LISPM_DONE);
    CHECK(needed == sizeof bytes && memcmp(text, bytes, needed) == 0);
    CHECK(lispm_arguments(3, words, text, sizeof bytes - 1, &needed) == LISPM_SMALL && needed == sizeof bytes);
    CHECK(lispm_arguments(0, NULL, NULL, 0, &needed) == LISPM_DONE && needed == 0);
    CHECK(lispm_main("replay", 6, NULL, 0, output, ROOM, &needed) == LISPM_USAGE);    /* no NUL byte at the end */
    CHECK(lispm_main("\xff", 2, NULL, 0, output, ROOM, &needed) == LISPM_USAGE);      /* not UTF-8 */
    CHECK(is_answer(output, needed, "error: usage\n"));
}

/* Ten thousand seats, one after another; each hundredth reads some lines. */
static void many_seats(void)
{
    for (int count = 0; count < 10000; count++) {
        lispm_seat seat = {0};

        CHECK(lispm_open(&seat) == LISPM_DONE);
        if (count % 100 == 0)
            for (size_t at = 0; at < WORLD_LINES; at++)
                CHECK(answers(&seat, WORLD[at], LISPM_DONE, ""));
        lispm_close(&seat);
    }
}

/* Fifty seats at once, whose lines are mixed: none sees what another did. */
static void seats_at_once(void)
{
    static lispm_seat seats[50];
    char line[64], wanted[64];

    for (int at = 0; at < 50; at++)
        seats[at] = opened();
    for (int at = 0; at < 50; at++) {
        sprintf(line, "make 1 work 7 %d", at);
        CHECK(answers(&seats[at], line, LISPM_DONE, "ok\n"));
    }
    for (int at = 0; at < 50; at++) {
        sprintf(wanted, "%d\n", at);
        CHECK(answers(&seats[at], "size 1", LISPM_DONE, wanted));
        lispm_close(&seats[at]);
    }
}

int main(void)
{
    null_pointers();
    no_lines();
    rooms();
    no_room();
    line_feeds();
    other_bytes();
    long_lines();
    lines_after_the_end();
    refused();
    no_end();
    empty_seats();
    opened_twice();
    arguments();
    many_seats();
    seats_at_once();
    return ended();
}
