/* Writes the whole case as text, reads it back and writes it again, and writes files that are refused. Prints what it got. */
#include <stdio.h>
#include "mestecur.h"
#include "whole_case.h"

static uint8_t text[200];
static uint8_t back[200];
static uint8_t wrong[sizeof file];

static size_t answer(const uint8_t *from, size_t length, size_t room) {
    size_t written = 9;
    int refusal = mestecur_write(from, length, text, room, &written);
    printf("%d, length %zu: %.*s\n", refusal, written, (int)written, (const char *)text);
    return written;
}

/* The file with another byte at a place, counted from its end. */
static const uint8_t *changed(size_t from_end, uint8_t value) {
    for (size_t i = 0; i < sizeof file; i++) wrong[i] = file[i];
    wrong[sizeof file - from_end] = value;
    return wrong;
}

int main(void) {
    for (size_t i = 0; i < sizeof text; i++) text[i] = 0xA5;
    size_t length = answer(file, sizeof file, sizeof text);
    printf("%x follows\n", text[length]);
    answer(file, sizeof file, length);
    answer(file, sizeof file, length - 1);

    size_t size = 9, place = 9, same = 0;
    int refusal = mestecur_read(text, length, back, sizeof back, &size, &place);
    while (same < sizeof file && back[same] == file[same]) same++;
    printf("read back: %d, %zu bytes of %zu are equal\n", refusal, same, size);
    answer(back, size, sizeof text);

    answer(file, 11, sizeof text);
    answer(changed(5, 3), sizeof file, sizeof text);
    answer(changed(5, 2), sizeof file, 0);
    printf("edition 2 is %d, too deep %d, a short buffer %d\n", MESTECUR_REWRITING_EDITION, MESTECUR_NESTING, MESTECUR_REWRITING_ROOM);
    return 0;
}
