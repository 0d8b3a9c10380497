/* Hallanupp: the scheduler of a direct-monitor box for singers.
 *
 * Link with libhallanupp.a. Every function takes any bytes and any lengths; each pointer must be valid for as many
 * bytes as the length that follows it says, so NULL may go with length 0, and a pointer that is written through must not
 * overlap another. Nothing is allocated and nothing is kept between calls. A refused call writes nothing.
 *
 * A table, or booth table, is what each of 1 to 8 booths is promised: an allowance of ticks in every period, and the
 * longest job of each of its 1 to 8 tasks. Booths and tasks are numbered from 0, highest priority first.
 *
 * A log, or arrival log, is how long a session lasts and the jobs that arrive in it: up to 4,096 entries, each with its
 * wall tick, its booth, its task and its demand in ticks.
 *
 * H is the wall ticks of a session, 0 to 1,000,000. The log says it, and it sets how long the two records must be.
 *
 * docs/FORMATS.md has both files byte by byte.
 */
#ifndef HALLANUPP_H
#define HALLANUPP_H

#include <stddef.h>
#include <stdint.h>

#ifdef __cplusplus
extern "C" {
#endif

/* The version of this header: major times 1,000,000, plus minor times 1,000, plus patch, so 1.0.0. */
#define HALLANUPP_VERSION 1000000

/* The version of the library that is linked, reckoned the same way: a caller compares it with HALLANUPP_VERSION. */
uint32_t hallanupp_version(void);

/* What a verdict is about. */
enum {
    HALLANUPP_NOTHING = 0,     /* nothing is refused: number 0, place 0 */
    HALLANUPP_BOOTH_TABLE = 1, /* the booth table; the place is a byte of it */
    HALLANUPP_ARRIVAL_LOG = 2, /* the arrival log; the place is a byte of it */
    HALLANUPP_CALL = 3         /* the call itself: a lent buffer, a booth or a number asked */
};

/* The numbers of a refusal. */
enum {
    HALLANUPP_ACCEPTED = 0,
    HALLANUPP_BYTES_MISSING = 1,
    HALLANUPP_WRONG_VERSION = 2,
    HALLANUPP_BYTES_LEFT_OVER = 3,
    HALLANUPP_TOO_FEW_OR_MANY = 4,
    HALLANUPP_WRONG_LENGTH_BYTE = 5,
    HALLANUPP_OUT_OF_RANGE = 6,
    HALLANUPP_NOT_ADMITTED = 7,
    HALLANUPP_WRONG_TICK = 8,
    HALLANUPP_NO_SUCH_BOOTH_OR_TASK = 9,
    HALLANUPP_WRONG_DEMAND = 10,
    HALLANUPP_DOES_NOT_FIT = 11,
    HALLANUPP_INPUT_TOO_LONG = 12 /* only the desk's text says it, of more than 37,044 bytes of input */
};

typedef struct {
    uint32_t refused; /* HALLANUPP_NOTHING, _BOOTH_TABLE, _ARRIVAL_LOG or _CALL */
    uint32_t number;  /* 0 when accepted */
    uint64_t place;   /* a byte of the refused file, or 0 */
} hallanupp_verdict;

/* Is this a booth table that the box admits? Number 7 names the record of the first booth whose response test fails. */
hallanupp_verdict hallanupp_table_verdict(const uint8_t *table, size_t table_len);

/* The same for a booth table with an arrival log; where both are bad the table's verdict is given. */
hallanupp_verdict hallanupp_files_verdict(const uint8_t *table, size_t table_len, const uint8_t *log, size_t log_len);

/* What a session answers. For booth i, clocks[i] is its final own clock (so the length of its row) and worked[i] how
 * many wall ticks it worked; idle is how many no booth worked; wall_ticks is H, which worked and idle ticks make up.
 * Behind the last booth, and in a refusal everywhere, the numbers are 0.
 */
typedef struct {
    hallanupp_verdict verdict;
    uint64_t booths;
    uint32_t clocks[8];
    uint32_t worked[8];
    uint32_t idle;
    uint32_t wall_ticks;
} hallanupp_session_answer;

/* Plays a session. Checked in order: the table, the log, then the records (number 11 at 0): the wall record needs H
 * bytes, the own record H bytes for each booth. Accepted: wall[t] is the booth that worked at wall tick t, or 255;
 * booth i's row begins at own + i * H and is clocks[i] bytes long, each the task that ran at that own tick, or 255.
 * Wall bytes from H on, row bytes from clocks[i] on and bytes behind the last booth's row keep what they held. Refused:
 * no byte of either record is changed.
 */
hallanupp_session_answer hallanupp_session(const uint8_t *table, size_t table_len, const uint8_t *log, size_t log_len,
                                           uint8_t *wall, size_t wall_len, uint8_t *own, size_t own_len);

/* The first n own ticks of a booth's solo part: what the booth plays alone, from its own line of the table and its own
 * entries of the log. Byte u of `part` is the task that plays own tick u, or 255 with none; bytes from n on keep what
 * they held. The table is judged first, then the log, then the call: number 9 where the table has no such booth, 11
 * where n is more than the own ticks due by the session's end, or more than part_len. A refusal writes nothing. */
hallanupp_verdict hallanupp_solo_part(const uint8_t *table, size_t table_len, const uint8_t *log, size_t log_len,
                                      size_t booth, size_t n, uint8_t *part, size_t part_len);

typedef struct {
    hallanupp_verdict verdict;
    uint64_t start; /* the row's first byte in the caller's own record */
    uint64_t count; /* how many bytes it is long */
} hallanupp_row;

/* A booth's row of the own record that a session of h wall ticks filled: `count` bytes from booth times h, which are the
 * caller's own, so nothing is copied: the row is own + start, count bytes long, and always lies within the record.
 * Number 11 where the booth is above 7, h above 1,000,000, count above h, or the row would end outside; start and count
 * are then 0. */
hallanupp_row hallanupp_row_back(const uint8_t *own, size_t own_len, size_t h, size_t booth, size_t count);

/* What a panel row reads. */
enum {
    HALLANUPP_NONE_YET = 0,       /* t is 0, or the call is refused */
    HALLANUPP_BELOW = 1,          /* the booth worked less than was due */
    HALLANUPP_AT_THE_CEILING = 2, /* exactly what was due */
    HALLANUPP_OVER = 3            /* more than was due */
};

typedef struct {
    hallanupp_verdict verdict;
    double promised;  /* allowance by period */
    double got;       /* ticks worked by t; 0 with none yet */
    uint32_t reading; /* HALLANUPP_NONE_YET, _BELOW, _AT_THE_CEILING or _OVER */
} hallanupp_panel_row;

/* A booth's two shares after the first t wall ticks of a wall record, each one division of doubles and nothing after it,
 * and its reading, which compares whole ticks and no doubles. The table is judged first; then number 9 where it has no
 * such booth, and 11 where t is past the record or above 1,000,000. A refusal gives both shares 0 and none yet. */
hallanupp_panel_row hallanupp_panel(const uint8_t *table, size_t table_len, const uint8_t *wall, size_t wall_len,
                                    size_t booth, size_t t);

/* Bytes that hold whatever the desk prints. */
#define HALLANUPP_TEXT_ROOM 18710

/* What the desk program prints for `input`, a booth table and behind it an arrival log (the table ends where its N says,
 * or where the input ends): the text of a session of up to 2,000 wall ticks, or one line that says what is refused.
 * Answers how many bytes of text stand at the start of `text`; bytes behind them keep what they held. No end of string is
 * written. Where text_len is below HALLANUPP_TEXT_ROOM the answer is 0 and nothing is written. */
size_t hallanupp_desk_text(const uint8_t *input, size_t input_len, uint8_t *text, size_t text_len);

#ifdef __cplusplus
}
#endif

#endif
