/* malloc and realloc fail at the N-th call, for N from 1 to 200: once, and from then on. The replies before it are right,
   the status is 5, nothing stays allocated, and nothing crashes. And after the world's last line only a dump takes memory.
   Linked with --wrap=malloc,--wrap=realloc,--wrap=free. */
#include "inputs.h"

enum { FIRST = 200, OBJECTS = 40, DUMPS = 60 };

void *__real_malloc(size_t size);
void *__real_realloc(void *memory, size_t size);
void __real_free(void *memory);

static struct {
    bool counts;
    long calls, fails_at, live;
    bool goes_on;                       /* the later calls fail, too */
} heap;

static bool fails(void)
{
    if (!heap.counts)
        return false;
    heap.calls++;
    return heap.fails_at > 0 && (heap.calls == heap.fails_at || (heap.goes_on && heap.calls > heap.fails_at));
}

void *__wrap_malloc(size_t size)
{
    void *memory = fails() ? NULL : __real_malloc(size);

    heap.live += heap.counts && memory != NULL;
    return memory;
}

void *__wrap_realloc(void *memory, size_t size)
{
    void *moved = fails() ? NULL : __real_realloc(memory, size);

    heap.live += heap.counts && memory == NULL && moved != NULL;
    return moved;
}

void __wrap_free(void *memory)
{
    heap.live -= heap.counts && memory != NULL;
    __real_free(memory);
}

/* An input with objects, whose commands are dumps: so memory is taken all along. */
static char input[1 << 14];
static size_t input_length;

static void add(const char *line)
{
    memcpy(input + input_length, line, strlen(line));
    input_length += strlen(line);
    input[input_length++] = '\n';
}

static void make_input(void)
{
    add("lispm-world 2");
    add("space 64 32 8 1 2");
    add("area work dynamic 5000");
    add("area rest static 100");
    add("capacity 0");
    for (int object = 0; object < OBJECTS; object++)
        add(object % 2 == 0 ? "block work 7 nil #1 #2 3 4" : "run work 1 2 #3");
    add("root 0 #0");
    add("trace");
    for (int dump = 0; dump < DUMPS; dump++) {
        add("list 1 work 0 1 1 0");
        add("dump");
    }
    add("end");
}

/* What a run gave: its replies, and its last status. */
struct outcome {
    char text[1 << 18];
    size_t length;
    uint8_t status;
};

static struct outcome whole, found;

static void keep(struct outcome *run, const char *text, size_t length)
{
    CHECK(run->length + length <= sizeof run->text);
    memcpy(run->text + run->length, text, length);
    run->length += length;
}

static void run_session(struct outcome *run)
{
    static char output[ROOM];
    lispm_seat seat = {0};
    size_t needed, at = 0;

    run->length = 0;
    run->status = lispm_open(&seat);
    CHECK(seat.full == (run->status == LISPM_DONE));
    while (run->status == LISPM_DONE && at < input_length) {
        size_t length = (size_t)((char *)memchr(input + at, '\n', input_length - at) - (input + at));

        run->status = lispm_line(&seat, input + at, length, output, ROOM, &needed);
        keep(run, output, needed);
        at += length + 1;
    }
    if (run->status == LISPM_DONE) {
        run->status = lispm_end(&seat, output, ROOM, &needed);
        keep(run, output, needed);
    } else if (seat.full) {
        CHECK(lispm_line(&seat, "stats", 5, output, ROOM, &needed) == run->status && needed == 0);
        CHECK(lispm_end(&seat, output, ROOM, &needed) == run->status && needed == 0);
    }
    lispm_close(&seat);
}

static void run_whole(struct outcome *run)
{
    run->status = lispm_main("replay", sizeof "replay", input, input_length, run->text, sizeof run->text, &run->length);
}

/* The replies are those of the whole run as far as they go, and then nothing, or the line of the error. */
static void compare(void)
{
    static const char LINE[] = "error: no memory\n";
    size_t line = sizeof LINE - 1, length = found.length;

    if (length >= line && memcmp(found.text + length - line, LINE, line) == 0)
        length -= line;
    CHECK(length <= whole.length && memcmp(found.text, whole.text, length) == 0);
    CHECK(length == 0 || found.text[length - 1] == '\n');
}

static void try(void (*run)(struct outcome *), long fails_at, bool goes_on)
{
    heap.calls = heap.live = 0;
    heap.fails_at = fails_at;
    heap.goes_on = goes_on;
    heap.counts = true;
    run(&found);
    heap.counts = false;
    CHECK(heap.live == 0);
    if (fails_at == 0)
        return;
    CHECK(found.status == (heap.calls >= fails_at ? LISPM_NO_MEMORY : LISPM_DONE));
    compare();
}

static void try_all(const char *name, void (*run)(struct outcome *))
{
    try(run, 0, false);
    CHECK(found.status == LISPM_DONE);
    printf("%s: %ld allocations\n", name, heap.calls);
    whole = found;
    for (long at = 1; at <= FIRST; at++) {
        try(run, at, false);
        try(run, at, true);
    }
}

/* Commands of each kind, a small room, a text with a line feed, a refused line and the end take no memory; a dump does. */
static void try_commands(void)
{
    static const char *const lines[] = {
        "set 0 5", "cons 1 work 0 0", "list 2 work 0 1 1", "make 3 work 7 9", "grow 3 40", "move 4 3", "car 5 1", "cdr 5 2",
        "rplaca 1 2", "rplacd 2 1", "get 5 3 0", "put 3 0 1", "size 3", "eq 1 2", "flip full", "scavenge 3", "page-out 3",
        "scavenge 4294967295", "reclaim", "stats", "cons 1 nowhere 0 0", "set 0 6", "end"};
    char output[256];
    size_t needed;
    lispm_seat seat = opened();

    heap.calls = heap.fails_at = 0;
    heap.counts = true;
    for (size_t at = 0; at < sizeof lines / sizeof lines[0]; at++) {
        lispm_line(&seat, lines[at], strlen(lines[at]), NULL, 0, &needed);
        lispm_again(&seat, output, sizeof output, &needed);
    }
    lispm_line(&seat, "set 0\n", 6, output, sizeof output, &needed);
    lispm_end(&seat, output, sizeof output, &needed);
    CHECK(heap.calls == 0);
    lispm_close(&seat);
    heap.counts = false;
    seat = opened();
    heap.counts = true;
    CHECK(answers(&seat, "set 1 5", LISPM_DONE, "ok\n"));
    CHECK(heap.calls == 0);
    lispm_line(&seat, "dump", 4, output, sizeof output, &needed);
    CHECK(heap.calls > 0);
    lispm_close(&seat);
    heap.counts = false;
}

int main(void)
{
    make_input();
    try_commands();
    try_all("session", run_session);
    try_all("main", run_whole);
    return ended();
}
