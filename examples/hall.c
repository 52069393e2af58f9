/*
 * A host of a hall: it holds the records of three dampers in one row, gives events to those that a list names, ticks them
 * all each second with at most one report, logs the reports, and at the end shares a bill out and prints the shift page.
 *
 *     cc -I include examples/hall.c target/staticlib/libhost.a target/staticlib/libhall_event.a \
 *         target/staticlib/libhall_tick.a target/staticlib/libhall_page.a target/staticlib/libhall_bill.a -o hall && ./hall
 */
#include "damper.h"

#include <stdio.h>

#define DRIVES 3
#define QUOTA 1 /* reports a second, at most */

static damper_drive row[DRIVES];

/* To the drives of the list, in its order; at most DRIVES of them. */
static void give(const uint32_t *list, size_t entries, uint8_t kind, uint8_t a, uint8_t b, uint8_t c)
{
    const uint8_t bytes[DAMPER_EVENT_LENGTH] = {DAMPER_MARK_0, DAMPER_MARK_1, kind, a, b, c};
    uint8_t answers[DRIVES];
    uint8_t refusal = damper_hall_event(row, DRIVES, list, entries, bytes, sizeof bytes, answers, DRIVES);
    if (refusal)
        printf("kind %u given to no drive: call refused by %u\n", kind, refusal);
    for (size_t k = 0; !refusal && k < entries; k++)
        if (answers[k])
            printf("drive %u: kind %u refused by %u\n", (unsigned)list[k], kind, answers[k]);
}

static void tick(int second)
{
    uint32_t numbers[DRIVES];
    if (damper_hall_tick(row, DRIVES, QUOTA, numbers, DRIVES))
        return; /* never: there are 1 to 64 drives, a place for each, and a quota of 1 to 64 */
    for (unsigned i = 0; i < DRIVES; i++) {
        if (damper_hall_is_report(numbers[i]))
            printf("%3d s, drive %u: position %u, status %u\n", second, i, damper_hall_position(numbers[i]),
                   damper_hall_status(numbers[i]));
        if (numbers[i] == DAMPER_HALL_NOT_WELL_FORMED)
            printf("%3d s, drive %u: its record is damaged\n", second, i);
        /* The motor has a second to bring the damper to row[i].position. */
    }
}

static void share_out(uint32_t cents)
{
    uint32_t shares[DRIVES];
    uint8_t refusal = damper_hall_bill(row, DRIVES, cents, shares, DRIVES);
    if (refusal)
        printf("bill refused by %u\n", refusal);
    for (unsigned i = 0; !refusal && i < DRIVES; i++)
        printf("drive %u: travelled %u, pays %u.%02u\n", i, (unsigned)row[i].travel, (unsigned)shares[i] / 100,
               (unsigned)shares[i] % 100);
}

static void print_page(void)
{
    uint8_t page[DRIVES * DAMPER_HALL_LINE];
    if (damper_hall_page(row, DRIVES, page, sizeof page))
        return; /* never: there are 1 to 64 drives, and a line's bytes for each */
    fwrite(page, 1, sizeof page, stdout);
}

int main(void)
{
    const uint32_t all[] = {0, 1, 2}, outer[] = {0, 2}, middle[] = {1}, mistaken[] = {1, 3}, pasted[] = {0, 2, 0};
    for (int i = 0; i < DRIVES; i++)
        row[i] = damper_fresh();

    give(outer, 2, DAMPER_KIND_SETPOINT, 64, 0, 0);
    give(middle, 1, DAMPER_KIND_FORCING, DAMPER_FORCING_TO_255, 0, 0);
    give(all, 3, DAMPER_KIND_CALIBRATION, 0, 0, 0);     /* the forced one refuses it */
    give(mistaken, 2, DAMPER_KIND_SETPOINT, 255, 0, 0); /* there is no drive 3: drive 1 is given nothing either */
    give(pasted, 3, DAMPER_KIND_SETPOINT, 255, 0, 0);   /* drive 0 is named twice: none is given anything */
    for (int second = 1; second <= 80; second++) {      /* a host waits for its clock */
        if (second == 45)
            give(middle, 1, DAMPER_KIND_FORCING, DAMPER_FORCING_NONE, 0, 0);
        tick(second);
    }
    row[2].commands.hand = 2; /* as storage may damage a record */
    share_out(10000);
    print_page();
    return 0;
}
