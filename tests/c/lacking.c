/* Asks what the transitions of the whole case lack: with nothing offered, with what they need, of a place and of a chart that are not there. Prints what it
 * got. */
#include <stdio.h>
#include "mestecur.h"
#include "whole_case.h"

static void ask(size_t chart, size_t place, uint64_t offered) {
    uint8_t answer = 9, signal = 9;
    printf("chart %zu, place %zu: %d", chart, place, mestecur_lacking(file, sizeof file, chart, place, offered, &answer, &signal));
    printf(", answer %d, signal %d\n", answer, signal);
}

int main(void) {
    ask(0, 0, 0);
    ask(0, 0, 1);
    ask(0, 1, 1);
    file[37] = 2;
    ask(0, 0, 0);
    ask(0, 0, 513);
    ask(0, 2, 0);
    ask(1, 2, 0);
    ask((size_t)-1, (size_t)-1, 0);
    file[0] = 0;
    ask(0, 0, 0);
    printf("met is %d, absent %d, present %d\n", MESTECUR_MET, MESTECUR_ABSENT, MESTECUR_PRESENT);
    return 0;
}
