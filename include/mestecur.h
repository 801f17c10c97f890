/* The chart engine for C. docs/RULES.md defines chart files and every answer, and is cited here as RULES; docs/PROMISES.md says what is proved of
 * each call.
 *
 * Every call takes bytes as a pointer and a length, keeps no state between calls and allocates nothing. It accepts any bytes, and may be made from
 * any thread.
 *
 * The caller has to make sure of these, since no call can check them:
 *   - No pointer is null, and each one points to as many bytes, numbers or structs as its length says, even if the length is 0. `places` points to
 *     16 bytes.
 *   - Pointers to 64-bit numbers, to lengths and to structs are aligned as C requires.
 *   - Memory that a call writes does not overlap any other memory passed to the same call.
 *
 * Every call returns 0 for success, or the number of its refusal (RULES 3).
 *   - Buffers (`config`, `next`, `rows`, `out`): a call that succeeds writes to the front of the buffer, and leaves the rest of it unchanged. A call
 *     that is refused leaves all of it unchanged, and so does a refused mestecur_post with `cases`.
 *   - Results (`input`, `output`, `mark`, `carried_on`, `length`, `plain`, `places`, `open`, `answer`, `signal`, `place`) are always written. If the
 *     call is refused, each of `places` is MESTECUR_NO_PLACE and every other result is 0. There are two exceptions: `open` in refusal 24 has the number
 *     that is too large, and `place` in refusal 50 the place of the first wrong byte.
 *
 * Limits (RULES 2.8): 16 charts, 15 slaves, 64 nodes and 1,024 transitions in a file; 16 states and 64 transitions in a chart, 8 transitions from a
 * state; 16,777,216 open choices in a step.
 *
 * A file is edition 1 or edition 2, by a byte of its trailer (RULES 7). Every call takes both, except mestecur_rewrite, mestecur_clear and
 * mestecur_write, which take edition 1 only.
 *
 * A set of signals is a 64-bit number in which bit n is signal n, 0 to 63. A configuration has one byte for each chart, its present state. */
#ifndef MESTECUR_H
#define MESTECUR_H

#include <stddef.h>
#include <stdint.h>

#ifdef __cplusplus
extern "C" {
#endif

/* Tests whether a file is accepted. Refusals: 1 to 11 (RULES 3.2). */
uint8_t mestecur_check(const uint8_t *file, size_t file_len);

/* Writes the first configuration, the initial state of every chart, to `config` (RULES 6.1). Refusals: 1 to 11, 22. */
uint8_t mestecur_first(const uint8_t *file, size_t file_len, uint8_t *config, size_t config_len);

/* Writes the signals that the file looks at to `input`, and those that it can output to `output` (RULES 4). Refusals: 1 to 11. */
uint8_t mestecur_interface(const uint8_t *file, size_t file_len, uint64_t *input, uint64_t *output);

/* In `places`, where no transition was taken (RULES 5.11). */
enum {
    MESTECUR_STAYED = 254,  /* the chart was active and stayed: edition 2 only */
    MESTECUR_NO_PLACE = 255 /* the chart was inactive, there is no chart of this number, or the step was refused */
};

/* The most open choices of a step that is not refused with 24 (RULES 2.8). */
enum { MESTECUR_OPEN_CHOICES = 16777216 };

/* Makes one step from a configuration under an input: the first permitted choice in order (RULES 5). Writes
 *   - to `next` the next configuration;
 *   - to `output` the output;
 *   - to `mark` 1 if all permitted choices have the same output and the same next configuration, otherwise 0 (RULES 5.10);
 *   - to `places[c]` the place of the transition that chart c took, counted from 0 in its own list, or one of the two above;
 *   - to `open` the number of open choices: those that fit the present states and leave no active chart out, whether or not their guards are met
 *     (RULES 5.15). A step with more than MESTECUR_OPEN_CHOICES of them is refused with 24, and `open` has their number then too.
 * Refusals: 1 to 11, 20, 21, 22, 24, 23. */
uint8_t mestecur_step(const uint8_t *file, size_t file_len, const uint8_t *config, size_t config_len, uint64_t input, uint8_t *next,
                      size_t next_len, uint64_t *output, uint8_t *mark, uint8_t places[16], uint64_t *open);

/* Makes one step for each input, in order, starting from a configuration (RULES 6). Writes to `rows` one row for each input, without gaps: the output
 * (8 bytes, little-endian), the mark (1 byte), 0 or the refusal of this step (1 byte), and the configuration after this input (one byte for each
 * chart). A step that is refused (24 or 23) has output 0 and mark 0 and keeps the configuration, and the run goes on. Its signals are carried: the
 * following steps are made under their input and the carried signals together, up to the first that is given; after that one, nothing is carried
 * (RULES 6.4). `carried` is the set carried into the run, 0 for none. `carried_on` receives the set carried after the last input; pass it to the run
 * that continues from there. `inputs_len` is the number of inputs, not of bytes. Refusals of the run itself: 1 to 11, 20, 21, 27. */
uint8_t mestecur_run(const uint8_t *file, size_t file_len, const uint8_t *config, size_t config_len, uint64_t carried, const uint64_t *inputs,
                     size_t inputs_len, uint8_t *rows, size_t rows_len, uint64_t *carried_on);

/* Writes to `out` a file without slaves that makes the same steps, and its length to `length` (RULES 9). Refusals: 1 to 11, 46, 40 to 42, 44,
 * 45. */
uint8_t mestecur_rewrite(const uint8_t *file, size_t file_len, uint8_t *out, size_t out_len, size_t *length);

/* Writes 1 to `plain` if the file is plain, otherwise 0 (RULES 8). Every step of a plain file that is given has mark 1. Refusals: 1 to 11. */
uint8_t mestecur_plain(const uint8_t *file, size_t file_len, uint8_t *plain);

/* Writes to `out` the file without its dead transitions, those that can never be taken because of their own guard, action and chart, and its length to
 * `length` (RULES 12). The new file makes the same steps; places count in its shorter lists. A buffer of the file's length is always enough.
 * Refusals: 1 to 11, 46, 45. */
uint8_t mestecur_clear(const uint8_t *file, size_t file_len, uint8_t *out, size_t out_len, size_t *length);

/* What testing a guard shows (RULES 13.2). */
enum {
    MESTECUR_MET = 0,     /* the guard is met */
    MESTECUR_ABSENT = 1,  /* a signal that it needs is not there */
    MESTECUR_PRESENT = 2  /* all that it needs is there, and so is a signal that it bars */
};

/* Tests the guard of the transition at a place of a chart's list, both counted from 0 and numbers of any size, on a set that its chart is offered
 * (RULES 13). What the transition's own action feeds back to its chart is there too. Writes one of the three above to `answer`, and to `signal` the
 * lowest signal that is to blame, 0 if the guard is met. Refusals: 1 to 11, 25, 26. */
uint8_t mestecur_lacking(const uint8_t *file, size_t file_len, size_t chart, size_t place, uint64_t offered, uint8_t *answer, uint8_t *signal);

/* Reads a chart that is typed as text (docs/NOTATION.md, RULES 14), writes the file that it means to `out`, edition 1 and without a front, and its
 * length to `length`. With refusal 50, `place` has the place of the first byte that no text could have there, counted from 0; it is `text_len` if the
 * text only breaks off. In every other answer `place` is 0. A buffer of 30,408 bytes is always enough. Refusals: 50, 51, 52, 1 to 11, 45. */
uint8_t mestecur_read(const uint8_t *text, size_t text_len, uint8_t *out, size_t out_len, size_t *length, size_t *place);

/* Writes to `out` the text of the file (docs/NOTATION.md, RULES 15), without blanks and without a zero byte at its end, and its length to `length`.
 * mestecur_read makes of it a file that makes the same steps, and whose text is the same. A buffer of 874,514 bytes is always enough.
 * Refusals: 1 to 11, 46, 51, 45. */
uint8_t mestecur_write(const uint8_t *file, size_t file_len, uint8_t *out, size_t out_len, size_t *length);

/* A case of a book (RULES 11.1). Its configuration is the first `length` bytes of `config`; the others are not read. */
typedef struct {
    uint64_t carried;   /* the set that refused days carry to the next one; 0 for a new case */
    uint32_t last_row;  /* the number of its last row; 0 for a new case */
    uint8_t length;     /* the length of its configuration: the number of charts */
    uint8_t config[16]; /* its configuration */
} mestecur_case;

/* An entry of a day: the number of a case, from 0 on, and the signals that arrived for it (RULES 11.2). */
typedef struct {
    uint64_t number;
    uint64_t signals;
} mestecur_entry;

/* Posts a day for a book of 1 to 64 cases that have the same chart file (RULES 11): makes one step for each case, in order, from its configuration
 * and under its carried set and the signals of all its entries together. Entries may come in any order, and a case may have none. Writes to `rows` one
 * row for each case, without gaps: the new row number (4 bytes, little-endian), then a row as mestecur_run writes it, of a refused step too. Writes to
 * each case its configuration and its carried set after the step, and the new row number, which is the old one and 1. Lengths are numbers of cases and
 * entries, `rows_len` is in bytes: 14 and one for each chart, for each case. Refusals: 1 to 11; 20 or 21, by the first case whose configuration is
 * wrong; 60; 61; 62; 63. */
uint8_t mestecur_post(const uint8_t *file, size_t file_len, mestecur_case *cases, size_t cases_len, const mestecur_entry *entries,
                      size_t entries_len, uint8_t *rows, size_t rows_len);

/* The refusals (RULES 3). A call returns the first one that applies, in the order in which they are listed at the call. */
enum {
    MESTECUR_ACCEPTED = 0,

    MESTECUR_TOO_SHORT = 1,           /* the file is shorter than a trailer, 12 bytes */
    MESTECUR_EDITION = 2,             /* the edition is neither 1 nor 2 */
    MESTECUR_COUNTS = 3,              /* no chart or more than 16, more than 15 slaves, no node or more than 64, or more than 1,024 transitions */
    MESTECUR_DISTANCE = 4,            /* the trailer's distance is not the size of the body, or the file is too short for it */
    MESTECUR_ZERO_BYTE = 5,           /* a byte that has to be zero is not */
    MESTECUR_CHART = 6,               /* a chart with no state or more than 16, with an initial state that it does not have, or with more than 64
                                         transitions; or the transitions of all charts do not add up to the trailer's number */
    MESTECUR_TRANSITION = 7,          /* a transition from or to a state that its chart does not have, or more than 8 from one state */
    MESTECUR_SLAVE = 8,               /* a slave names a chart, state or node that does not exist, or the slaves are out of order */
    MESTECUR_NODE = 9,                /* a node has an unknown kind, holds a chart that does not exist, names a node that is not lower than itself,
                                         or has a value in a field that it does not use */
    MESTECUR_NAMING = 10,             /* the nodes do not make one tree: a chart not in exactly one node, a node not named exactly once, the last
                                         node named, or a slave's node that is not below its master's */
    MESTECUR_NUMBERING = 11,          /* a chart inside a slave has a number that is not above the slave's master */

    MESTECUR_CONFIGURATION_LENGTH = 20, /* the configuration does not have one byte for each chart */
    MESTECUR_CONFIGURATION_STATE = 21,  /* the configuration has a state that its chart does not have */
    MESTECUR_CONFIGURATION_ROOM = 22,   /* the buffer for a configuration has fewer bytes than there are charts */
    MESTECUR_NO_STEP = 23,              /* no choice is permitted */
    MESTECUR_MANY_OPEN = 24,            /* more than 16,777,216 choices are open; tested before 23 */
    MESTECUR_QUESTION_CHART = 25,       /* the file has no chart of this number */
    MESTECUR_QUESTION_PLACE = 26,       /* the chart's list has no such place */
    MESTECUR_RUN_ROOM = 27,             /* the buffer for a run is too short for a row for each input */

    MESTECUR_REWRITING_SIGNALS = 40, /* there are more slaves than free signals (RULES 9.2) */
    MESTECUR_REWRITING_STATE = 41,   /* the result would have more than 8 transitions from one state */
    MESTECUR_REWRITING_CHART = 42,   /* the result would have more than 64 transitions in one chart */
    MESTECUR_REWRITING_NODES = 44,   /* the result would have more than 64 nodes */
    MESTECUR_REWRITING_ROOM = 45,    /* the buffer is shorter than the result; of mestecur_clear, mestecur_read and mestecur_write too */
    MESTECUR_REWRITING_EDITION = 46, /* the file is edition 2, which can't be rewritten, cleared or written as text; tested right after 11 */

    MESTECUR_NOTATION = 50, /* the text is not of the notation */
    MESTECUR_NESTING = 51,  /* the typed chart is more than 16 deep; of mestecur_write, the chart of the file */
    MESTECUR_NAMES = 52,    /* a name is out of range; a chart, or a state in its list, is given twice or left out; an initial state is not the
                               first of its list; or a state is used that its chart does not have */

    MESTECUR_BOOK = 60,         /* there is no case, or there are more than 64 */
    MESTECUR_ENTRY = 61,        /* an entry is for a case that is not in the book */
    MESTECUR_ROW_NUMBER = 62,   /* a case's last row has the number 4294967295, the highest there is */
    MESTECUR_POSTING_ROOM = 63  /* the buffer for a day's rows is too short for a row for each case */
};

#ifdef __cplusplus
}
#endif

#endif
