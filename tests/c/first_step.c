/* The whole file of docs/FORMAT.md: checks it, takes its first configuration, asks for its interface, makes its three steps one by one, then as one
 * run and as two, rewrites it, clears it, asks whether it is plain; then, under edition 2, steps, rewrites, clears and asks again. Prints what it
 * got. */
#include <stdio.h>
#include "mestecur.h"
#include "whole_case.h"

enum { CHARTS = 1, INPUTS = 3, ROW = 10 + CHARTS, PLACES = 16, EDITION_FROM_END = 5 };

static const uint64_t inputs[INPUTS] = {1, 0, 2};

/* A set, as 16 hex digits, with words in front of it. */
static void print_set(const char *words, uint64_t set) {
    printf("%s%016llx", words, (unsigned long long)set);
}

/* One step from `state`; the state after it. */
static uint8_t step(uint8_t state, uint64_t input) {
    uint8_t next = state, mark = 9, places[PLACES] = {0};
    uint64_t output = 9, open = 9;
    uint8_t refusal = mestecur_step(file, sizeof file, &state, CHARTS, input, &next, CHARTS, &output, &mark, places, &open);
    printf("step %d: %d", (int)input, refusal);
    print_set(", output ", output);
    printf(", state %d, mark %d, open %d, places", next, mark, (int)open);
    for (size_t c = 0; c < PLACES; c++) printf(" %d", places[c]);
    printf("\n");
    return next;
}

/* Some of the inputs as one run, with what is carried into it, into a buffer that is longer than needed; what is carried after it. */
static uint64_t run(uint8_t state, uint64_t carried, size_t from, size_t count) {
    uint8_t rows[INPUTS * ROW + 2];
    uint64_t carried_on = 9;
    for (size_t i = 0; i < sizeof rows; i++) rows[i] = 0xa5;
    printf("run: %d", mestecur_run(file, sizeof file, &state, CHARTS, carried, inputs + from, count, rows, sizeof rows, &carried_on));
    print_set(", carried ", carried_on);
    printf("\n");
    for (size_t i = 0; i < count * ROW + 2; i++) printf("%02x%s", rows[i], (i + 1) % ROW == 0 ? "\n" : "");
    printf("\n");
    return carried_on;
}

/* Clears the file as it is, and with the second transition dead: it needs {1}, and now bars {1} as well. */
static void clear(void) {
    uint8_t out[sizeof file];
    size_t length = 9, barred = 24 + 28 + 12;
    printf("clear: %d", mestecur_clear(file, sizeof file, out, sizeof out, &length));
    printf(", %zu bytes\n", length);
    file[barred] = 2;
    printf("clear a dead one: %d", mestecur_clear(file, sizeof file, out, sizeof out, &length));
    printf(", %zu bytes\n", length);
    file[barred] = 0;
}

int main(void) {
    uint8_t state = 9, plain = 9, out[sizeof file];
    uint64_t input = 9, output = 9;
    size_t length = 9;
    printf("check: %d\n", mestecur_check(file, sizeof file));
    printf("check without the last byte: %d\n", mestecur_check(file, sizeof file - 1));
    printf("first: %d", mestecur_first(file, sizeof file, &state, CHARTS));
    printf(", state %d\n", state);
    printf("interface: %d", mestecur_interface(file, sizeof file, &input, &output));
    print_set(", input ", input);
    print_set(", output ", output);
    printf("\n");
    for (size_t i = 0, s = state; i < INPUTS; i++) s = step((uint8_t)s, inputs[i]);
    run(state, 0, 0, INPUTS);
    /* input 2 has no step from state 0: it is carried, here into a second run */
    run(state, run(state, 0, 2, 1), 0, 1);
    printf("rewrite: %d", mestecur_rewrite(file, sizeof file, out, sizeof out, &length));
    printf(", %zu bytes\n", length);
    printf("rewrite without room: %d", mestecur_rewrite(file, sizeof file, out, sizeof out - 1, &length));
    printf(", %zu bytes\n", length);
    clear();
    printf("plain: %d", mestecur_plain(file, sizeof file, &plain));
    printf(", %d\n", plain);
    printf("plain without the first byte: %d", mestecur_plain(file + 1, sizeof file - 1, &plain));
    printf(", %d\n", plain);
    file[sizeof file - EDITION_FROM_END] = 2;
    printf("edition 2\n");
    for (size_t i = 0, s = state; i < INPUTS; i++) s = step((uint8_t)s, inputs[i]);
    run(state, 0, 0, INPUTS);
    printf("rewrite: %d", mestecur_rewrite(file, sizeof file, out, sizeof out, &length));
    printf(", %zu bytes\n", length);
    clear();
    printf("plain: %d", mestecur_plain(file, sizeof file, &plain));
    printf(", %d\n", plain);
    file[sizeof file - EDITION_FROM_END] = 3;
    printf("edition 3: %d\n", mestecur_check(file, sizeof file));
    return 0;
}
