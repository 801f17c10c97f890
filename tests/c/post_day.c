/* A book of three cases of the chart of docs/FORMAT.md: posts two days, then a day under edition 2, then days that are refused. Prints each row and
 * each case. */
#include <stdio.h>
#include "mestecur.h"
#include "whole_case.h"

enum { CHARTS = 1, CASES = 3, ROW = 14 + CHARTS, MOST_CASES = 64, EDITION_FROM_END = 5 };

/* Posts a day of so many cases in a buffer of so many bytes, and prints what a caller has afterwards. */
static void post(const char *words, mestecur_case *cases, size_t count, const mestecur_entry *entries, size_t entries_len, size_t room) {
    uint8_t rows[(MOST_CASES + 1) * ROW + 2];
    for (size_t i = 0; i < sizeof rows; i++) rows[i] = 0xa5;
    printf("%s: %d\n", words, mestecur_post(file, sizeof file, cases, count, entries, entries_len, rows, room));
    for (size_t i = 0; i < CASES * ROW + 2; i++) printf("%02x%s", rows[i], (i + 1) % ROW == 0 ? "\n" : "");
    printf("\n");
    for (size_t i = 0; i < CASES; i++)
        printf("case %d: row %u, carried %016llx, state %d\n", (int)i, (unsigned)cases[i].last_row, (unsigned long long)cases[i].carried,
               cases[i].config[0]);
}

/* The refusal of a day that changes nothing. */
static void refused(const char *words, mestecur_case *cases, size_t count, const mestecur_entry *entries, size_t entries_len, size_t room) {
    uint8_t rows[(MOST_CASES + 1) * ROW];
    printf("%s: %d\n", words, mestecur_post(file, sizeof file, cases, count, entries, entries_len, rows, room));
}

int main(void) {
    mestecur_case cases[MOST_CASES + 1] = {{0, 0, CHARTS, {0}}, {0, 41, CHARTS, {1}}, {2, 7, CHARTS, {0}}};
    const mestecur_entry monday[] = {{1, 512}, {0, 1}};
    const mestecur_entry tuesday[] = {{2, 1}, {1, 2}, {2, 1}};
    const mestecur_entry outside[] = {{CASES, 1}};
    for (size_t i = CASES; i <= MOST_CASES; i++) cases[i].length = CHARTS;
    post("monday", cases, CASES, monday, 2, CASES * ROW + 2);
    post("tuesday", cases, CASES, tuesday, 3, CASES * ROW);
    file[sizeof file - EDITION_FROM_END] = 2;
    post("edition 2, no entries", cases, CASES, monday, 0, CASES * ROW);
    refused("no case", cases, 0, monday, 0, CASES * ROW);
    refused("65 cases", cases, MOST_CASES + 1, monday, 0, (MOST_CASES + 1) * ROW);
    refused("entry for case 3", cases, CASES, outside, 1, CASES * ROW);
    refused("a byte short", cases, CASES, monday, 2, CASES * ROW - 1);
    cases[1].last_row = 4294967295u;
    refused("row number at its end", cases, CASES, monday, 2, CASES * ROW);
    cases[1].config[0] = 2;
    refused("no such state", cases, CASES, monday, 2, CASES * ROW);
    cases[0].length = 17;
    refused("too long a configuration", cases, CASES, monday, 2, CASES * ROW);
    file[sizeof file - EDITION_FROM_END] = 3;
    refused("edition 3", cases, CASES, monday, 2, CASES * ROW);
    return 0;
}
