/*
 * A host: it keeps the drive's record in a file, ticks it each second and logs its reports.
 *
 *     cc -I include examples/host.c target/staticlib/libhost.a -o host && ./host damper.record
 */
#include "damper.h"

#include <stdio.h>

/* The file may hold anything: any bytes are a record. That they are those stored last is for the storage to see to. */
static bool restore(damper_drive *drive, const char *path)
{
    FILE *file = fopen(path, "rb");
    bool got = file && fread(drive, sizeof *drive, 1, file) == 1;
    if (file)
        fclose(file);
    return got && damper_well_formed(*drive);
}

static bool store(const damper_drive *drive, const char *path)
{
    FILE *file = fopen(path, "wb");
    bool put = file && fwrite(drive, sizeof *drive, 1, file) == 1;
    return file && fclose(file) == 0 && put;
}

/* Events of a bus go straight to damper_step in the same way: what is wrong with one, it says. */
static void give(damper_drive *drive, uint8_t kind, uint8_t a, uint8_t b, uint8_t c)
{
    const uint8_t bytes[DAMPER_EVENT_LENGTH] = {DAMPER_MARK_0, DAMPER_MARK_1, kind, a, b, c};
    damper_stepped s = damper_step(*drive, bytes, sizeof bytes);
    *drive = s.drive;
    if (s.word == DAMPER_WORD_NO)
        printf("kind %u refused by %u\n", kind, damper_answer_refusal(s.word, s.code));
    if (damper_is_report(s.word))
        printf("position %u, status %u\n", damper_answer_position(s.word, s.code), damper_answer_status(s.word, s.code));
    /* For a second the motor turns as damper_answer_motor says, if damper_is_tick. */
}

int main(int argc, char **argv)
{
    const char *path = argc > 1 ? argv[1] : "damper.record";
    damper_drive drive;
    if (restore(&drive, path)) {
        give(&drive, DAMPER_KIND_RESTART, 0, 0, 0); /* power was lost */
    } else {
        drive = damper_fresh();
        give(&drive, DAMPER_KIND_CALIBRATION, 0, 0, 0); /* where the damper stands is not known */
    }
    give(&drive, DAMPER_KIND_SETPOINT, 128, 0, 0);
    for (int second = 0; second < 80; second++) /* a host waits for its clock */
        give(&drive, DAMPER_KIND_TICK, 0, 0, 0);
    return store(&drive, path) ? 0 : 1;
}
