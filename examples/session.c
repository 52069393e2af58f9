/*
 * Document 01's program `drive`: event records from standard input, a printed line for each. They go one by one through
 * damper_step or, with the argument `replay`, by the thousand through damper_replay.
 *
 *     cc -I include examples/session.c target/staticlib/libhost.a target/staticlib/libhost_replay.a -o session
 *     ./session <crates/drive/stdin
 */
#include "damper.h"

#include <stdio.h>
#include <string.h>

#define RECORDS 1000

static void print(unsigned long count, uint8_t word, uint32_t code)
{
    unsigned position = damper_answer_position(word, code), status = damper_answer_status(word, code);
    printf("%lu ", count);
    if (damper_is_tick(word))
        printf("tick %u %u %u ", position, damper_answer_rank(word, code), damper_answer_motor(word, code));
    switch (word) {
    case DAMPER_WORD_NO: printf("no %u\n", damper_answer_refusal(word, code)); break;
    case DAMPER_WORD_OK: printf("ok\n"); break;
    case DAMPER_WORD_PAR: printf("par %u\n", damper_answer_value(word, code)); break;
    case DAMPER_WORD_AT: printf("at %u %u %u\n", position, damper_answer_percent(word, code), status); break;
    case DAMPER_WORD_TICK: printf("-\n"); break;
    case DAMPER_WORD_REPORT: printf("%u\n", status); break;
    }
}

static void step_by_step(void)
{
    damper_drive drive = damper_fresh();
    unsigned long count = 0;
    uint8_t bytes[DAMPER_EVENT_LENGTH];
    size_t length;
    while ((length = fread(bytes, 1, sizeof bytes, stdin)) > 0) {
        damper_stepped s = damper_step(drive, bytes, length);
        drive = s.drive;
        print(++count, s.word, s.code);
    }
}

static void in_blocks(void)
{
    static uint8_t bytes[RECORDS * DAMPER_EVENT_LENGTH], words[RECORDS];
    static uint32_t codes[RECORDS];
    damper_drive drive = damper_fresh();
    unsigned long count = 0;
    size_t length;
    while ((length = fread(bytes, 1, sizeof bytes, stdin)) > 0) {
        damper_replayed r = damper_replay(drive, bytes, length, words, RECORDS, codes, RECORDS);
        drive = r.drive;
        for (size_t i = 0; i < r.count; i++)
            print(++count, words[i], codes[i]);
    }
}

int main(int argc, char **argv)
{
    if (argc > 1 && strcmp(argv[1], "replay") == 0)
        in_blocks();
    else
        step_by_step();
    return ferror(stdin) || fflush(stdout) != 0 || ferror(stdout) ? 1 : 0;
}
