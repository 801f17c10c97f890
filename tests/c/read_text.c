/* Reads typed charts: the whole case, whose bytes are compared with those of whole_case.h, and texts that are refused. Prints what it got. */
#include <stdio.h>
#include "mestecur.h"
#include "whole_case.h"

static uint8_t out[200];

static size_t length_of(const char *text) {
    size_t length = 0;
    while (text[length] != 0) length++;
    return length;
}

static void answer(const char *text, size_t room) {
    size_t length = 9, place = 9;
    int refusal = mestecur_read((const uint8_t *)text, length_of(text), out, room, &length, &place);
    printf("%s\n  %d, length %zu, place %zu\n", text, refusal, length, place);
}

/* How many bytes of the buffer are those of the whole case. */
static size_t equal(void) {
    size_t same = 0;
    while (same < sizeof file && out[same] == file[same]) same++;
    return same;
}

int main(void) {
    const char *whole = "(c0,{q0,q1},q0,{},{(q0,q1,s0/{s1}),(q1,q0,s1/{})})";
    for (size_t i = 0; i < sizeof out; i++) out[i] = 0xA5;
    answer(whole, sizeof file - 1);
    printf("the buffer begins with %x\n", out[0]);
    answer(whole, sizeof file);
    printf("%zu bytes of %zu are equal, and %x follows\n", equal(), sizeof file, out[sizeof file]);
    answer("(c01,{q0},q0,{},{})", sizeof out);
    answer("(c0,{q0},q0,{},{}", sizeof out);
    answer("(c0,{},q0,{},{})", sizeof out);
    answer("", sizeof out);
    answer("[[[[[[[[[[[[[[[[(c9,{q0},q0,{},{})]]]]]]]]]]]]]]]]", sizeof out);
    answer("(c9,{q0},q0,{},{})", sizeof out);
    answer("Dec (c1,{q0},q0,{},{}) by {(q0,(c0,{q0},q0,{},{}))}", sizeof out);
    printf("not the notation is %d, too deep %d, a wrong name %d\n", MESTECUR_NOTATION, MESTECUR_NESTING, MESTECUR_NAMES);
    return 0;
}
