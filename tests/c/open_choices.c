/* Charts side by side, each with as many transitions from its state as it may have: makes a step of eight of them, which has as many open choices as a
 * step may have, and of nine, which has eight times as many and is refused. Prints what it got. */
#include <stdio.h>
#include "mestecur.h"

enum { MOST = 9, EACH = 8, CHART = 24, TRANSITION = 28, NODE = 20, TRAILER = 12, PLACES = 16 };

static uint8_t file[MOST * CHART + MOST * EACH * TRANSITION + (2 * MOST - 1) * NODE + TRAILER];

/* Writes a file of so many charts; its length. A transition of zeros goes from state 0 back to it, needs nothing and outputs nothing. */
static size_t make(uint8_t charts) {
    size_t nodes = 2 * (size_t)charts - 1, transitions = (size_t)charts * EACH;
    size_t body = charts * CHART + transitions * TRANSITION + nodes * NODE;
    uint8_t *node = file + charts * CHART + transitions * TRANSITION, *trailer = file + body;
    for (size_t i = 0; i < sizeof file; i++) file[i] = 0;
    for (uint8_t c = 0; c < charts; c++) {
        file[c * CHART] = 1;
        file[c * CHART + 2] = EACH;
        node[c * NODE + 1] = c;
    }
    for (uint8_t c = 1; c < charts; c++) {
        uint8_t *composed = node + (charts + c - 1) * NODE;
        composed[0] = 1;
        composed[1] = c == 1 ? 0 : (uint8_t)(charts + c - 2);
        composed[2] = c;
    }
    trailer[0] = (uint8_t)body;
    trailer[1] = (uint8_t)(body >> 8);
    trailer[4] = charts;
    trailer[6] = (uint8_t)nodes;
    trailer[7] = 1;
    trailer[8] = (uint8_t)transitions;
    return body + TRAILER;
}

/* One step of such a file. */
static void step(uint8_t charts) {
    uint8_t states[MOST] = {0}, next[MOST] = {0}, mark = 9, places[PLACES];
    uint64_t output = 9, open = 9;
    size_t length = make(charts);
    uint8_t refusal = mestecur_step(file, length, states, charts, 0, next, charts, &output, &mark, places, &open);
    printf("%d charts: %d, mark %d, %llu open, last place %d\n", charts, refusal, mark, (unsigned long long)open, places[charts - 1]);
}

int main(void) {
    step(1);
    step(MOST - 1);
    step(MOST);
    printf("the most is %d\n", MESTECUR_OPEN_CHOICES);
    return 0;
}
