/* The chart of the whole file of docs/FORMAT.md, without its front, as the C programs of this folder use it. */
#include <stdint.h>

/* One chart of 2 states; 0 to 1 needs {0}, action {1}; 1 to 0 needs {1}. */
static uint8_t file[] = {
    /* chart: 2 states, initial state 0, 2 transitions, zeros; feedback; extra set */
    2, 0, 2, 0, 0, 0, 0, 0, 0, 0, 0, 0, 0, 0, 0, 0, 0, 0, 0, 0, 0, 0, 0, 0,
    /* transition: from 0 to 1, zeros; needed {0}; barred {}; action {1} */
    0, 1, 0, 0, 1, 0, 0, 0, 0, 0, 0, 0, 0, 0, 0, 0, 0, 0, 0, 0, 2, 0, 0, 0, 0, 0, 0, 0,
    /* transition: from 1 to 0, zeros; needed {1}; barred {}; action {} */
    1, 0, 0, 0, 2, 0, 0, 0, 0, 0, 0, 0, 0, 0, 0, 0, 0, 0, 0, 0, 0, 0, 0, 0, 0, 0, 0, 0,
    /* node: kind 0, chart 0 */
    0, 0, 0, 0, 0, 0, 0, 0, 0, 0, 0, 0, 0, 0, 0, 0, 0, 0, 0, 0,
    /* trailer: the body's 100 bytes; 1 chart, 0 slaves, 1 node, edition 1; 2 transitions; zeros */
    0x64, 0, 0, 0, 1, 0, 1, 1, 2, 0, 0, 0};
