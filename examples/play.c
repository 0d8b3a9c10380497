/* Plays a session with the proved library and prints it: the audition, or a booth table and an arrival log that are named.
 * HELP below says how it is used.
 */
#include "hallanupp.h"

#include <errno.h>
#include <stdio.h>
#include <stdlib.h>
#include <string.h>

/* No table and log that are accepted are longer together. */
enum { MOST_BYTES = 37044, MOST_TICKS = 1000000, MOST_BOOTHS = 8 };

static const char HELP[] = "usage: play [TABLE LOG]\n\n"
                           "Plays a booth table and an arrival log, or without them the audition.\n"
                           "Exit status: 0 a session was played; 1 it is refused, in words on standard error;\n"
                           "2 bad use, or a file that cannot be read.\n";

/* Each refusal number in a few words; docs/FORMATS.md has more. */
static const char *const WORDS[] = {"accepted",
                                    "bytes are missing",
                                    "the version is not 1",
                                    "bytes are left over",
                                    "no booth, a ninth booth, or over 4,096 entries",
                                    "a length byte is not allowed",
                                    "a value is out of range",
                                    "the booth's promise cannot be kept",
                                    "the wall tick is not below H, or falls",
                                    "there is no such booth or task",
                                    "the demand is 0 or above the longest job",
                                    "a record is too short",
                                    "table and log together are too long"};

static const uint8_t AUDITION_TABLE[] = {0x01, 0x00, 0x10, 0x06, 0x00, 0x05, 0x00, 0x02, 0x00, 0x02,
                                         0x08, 0x00, 0x0A, 0x00, 0x04, 0x00, 0x03, 0x00, 0x04};
static const uint8_t AUDITION_LOG[] = {0x01, 0x00, 0x00, 0x00, 0x1F, 0x00, 0x00, 0x00, 0x0C, 0x08, 0x00, 0x00,
                                       0x00, 0x00, 0x01, 0x01, 0x00, 0x03, 0x08, 0x00, 0x00, 0x00, 0x01, 0x00,
                                       0x00, 0x00, 0x02, 0x08, 0x00, 0x00, 0x00, 0x02, 0x01, 0x00, 0x00, 0x01};

/* One byte more than can be accepted is enough to know that a file is too long. */
static size_t read_file(const char *name, uint8_t *bytes)
{
    FILE *file = fopen(name, "rb");
    size_t read = file ? fread(bytes, 1, MOST_BYTES + 1, file) : 0;
    if (!file || ferror(file)) {
        fprintf(stderr, "play: %s: cannot be read: %s\n", name, strerror(errno));
        exit(2);
    }
    fclose(file);
    return read;
}

/* A digit for each booth or task, a dot where there was none. */
static void print_ticks(const uint8_t *ticks, size_t count)
{
    for (size_t i = 0; i < count; i++)
        putchar(ticks[i] == 255 ? '.' : '0' + ticks[i]);
    putchar('\n');
}

static void print_refusal(const char *what, const char *name, uint32_t number, uint64_t place)
{
    printf("refused %s %u at %llu\n", what, number, (unsigned long long)place);
    fprintf(stderr, "play: %s: %s, at byte %llu\n", name, WORDS[number], (unsigned long long)place);
}

static void print_session(const hallanupp_session_answer *answer, const uint8_t *wall, const uint8_t *own)
{
    size_t ticks = answer->wall_ticks;
    printf("admitted %llu\nwall ", (unsigned long long)answer->booths);
    print_ticks(wall, ticks);
    for (size_t booth = 0; booth < answer->booths; booth++) {
        printf("booth %zu own %u worked %u ", booth, answer->clocks[booth], answer->worked[booth]);
        print_ticks(own + booth * ticks, answer->clocks[booth]);
    }
    printf("idle %u\n", answer->idle);
}

int main(int count, char **names)
{
    static const char *const what[] = {"nothing", "table", "log", "session"};
    static uint8_t table[MOST_BYTES + 1], log[MOST_BYTES + 1], wall[MOST_TICKS], own[MOST_BOOTHS * MOST_TICKS];
    const char *named[] = {"", "the audition's table", "the audition's log", "the call"};
    size_t table_len = sizeof AUDITION_TABLE, log_len = sizeof AUDITION_LOG;
    memcpy(table, AUDITION_TABLE, table_len);
    memcpy(log, AUDITION_LOG, log_len);
    if (count == 3) {
        table_len = read_file(named[1] = names[1], table);
        log_len = read_file(named[2] = names[2], log);
    } else if (count != 1) {
        int asked = count == 2 && !strcmp(names[1], "--help");
        fputs(HELP, asked ? stdout : stderr);
        return asked ? 0 : 2;
    }
    if (table_len + log_len > MOST_BYTES) {
        print_refusal("input", named[2], HALLANUPP_INPUT_TOO_LONG, MOST_BYTES);
        return 1;
    }
    hallanupp_session_answer answer = hallanupp_session(table, table_len, log, log_len, wall, sizeof wall, own, sizeof own);
    hallanupp_verdict verdict = answer.verdict;
    if (verdict.number != HALLANUPP_ACCEPTED) {
        print_refusal(what[verdict.refused], named[verdict.refused], verdict.number, verdict.place);
        return 1;
    }
    print_session(&answer, wall, own);
    return 0;
}
