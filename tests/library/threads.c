/* Two seats at once, each on a thread of its own: each gives the replies that it gives alone. */
#include "inputs.h"

#include <pthread.h>

enum { COMMANDS = 20000 };

struct work {
    uint32_t number;                    /* from which the random commands are made */
    uint64_t sum;                       /* of all replies */
};

static uint32_t draw(uint32_t *state, uint32_t below)
{
    *state = *state * 1664525u + 1013904223u;
    return (*state >> 8) % below;
}

static void draw_command(uint32_t *state, char *text)
{
    static const char *const forms[] = {"cons %u work %u %u", "car %u %u", "cdr %u %u", "rplacd %u %u", "eq %u %u", "set %u %u"};
    uint32_t which = draw(state, 9), one = draw(state, 8), two = draw(state, 8), three = draw(state, 8);

    if (which < 6)
        sprintf(text, forms[which], one, two, three);
    else
        strcpy(text, which == 6 ? "flip full" : which == 7 ? "scavenge 4294967295" : "reclaim");
}

static void *run(void *given)
{
    struct work *work = given;
    uint32_t state = work->number;
    lispm_seat seat = opened();
    char text[64], output[256];
    size_t needed;

    for (int count = 0; count < COMMANDS; count++) {
        draw_command(&state, text);
        CHECK(lispm_line(&seat, text, strlen(text), output, sizeof output, &needed) == LISPM_DONE);
        for (size_t at = 0; at < needed; at++)
            work->sum = work->sum * 31 + (uint8_t)output[at];
    }
    lispm_close(&seat);
    return NULL;
}

int main(void)
{
    struct work alone[2] = {{1, 0}, {2, 0}}, together[2] = {{1, 0}, {2, 0}};
    pthread_t threads[2];

    for (int at = 0; at < 2; at++)
        run(&alone[at]);
    for (int at = 0; at < 2; at++)
        if (pthread_create(&threads[at], NULL, run, &together[at]) != 0)
            return 70;
    for (int at = 0; at < 2; at++)
        pthread_join(threads[at], NULL);
    CHECK(alone[0].sum != alone[1].sum);
    for (int at = 0; at < 2; at++)
        CHECK(alone[at].sum == together[at].sum);
    return ended();
}
