/*
 * The numbers and fields of include/damper.h, asked of the archives: each constant by what the drive does with it, so that
 * one that is changed, or exchanged with another, fails here. Compiles as C and as C++.
 */
#include "damper.h"

#include <math.h>
#include <stdio.h>
#include <stdlib.h>
#include <string.h>

#define CHECK(claim) check(claim, #claim, __LINE__)

static unsigned checks;

static void check(bool holds, const char *claim, int line)
{
    checks++;
    if (holds)
        return;
    printf("header: line %d: not so: %s\n", line, claim);
    exit(1);
}

/* The event by the layout that the header gives, and not by the writer. */
static damper_stepped give(damper_drive d, unsigned kind, unsigned a, unsigned b, unsigned c)
{
    uint8_t bytes[DAMPER_EVENT_LENGTH] = {DAMPER_MARK_0, DAMPER_MARK_1, (uint8_t)kind, (uint8_t)a, (uint8_t)b, (uint8_t)c};
    return damper_step(d, bytes, sizeof bytes);
}

static damper_drive after(damper_drive d, unsigned kind, unsigned a, unsigned b, unsigned c)
{
    damper_stepped s = give(d, kind, a, b, c);
    CHECK(s.word == DAMPER_WORD_OK && s.code == 0);
    CHECK(damper_well_formed(s.drive));
    return s.drive;
}

static unsigned refusal(damper_drive d, unsigned kind, unsigned a, unsigned b, unsigned c)
{
    damper_stepped s = give(d, kind, a, b, c);
    return damper_answer_refusal(s.word, s.code);
}

static damper_stepped tick(damper_drive d)
{
    damper_stepped s = give(d, DAMPER_KIND_TICK, 0, 0, 0);
    CHECK(damper_is_tick(s.word));
    CHECK(damper_answer_position(s.word, s.code) == s.drive.position);
    return s;
}

/* The drive after a number of ticks. */
static damper_drive ticked(damper_drive d, int ticks)
{
    while (ticks-- > 0)
        d = tick(d).drive;
    return d;
}

static unsigned rank(damper_drive d)
{
    damper_stepped s = tick(d);
    return damper_answer_rank(s.word, s.code);
}

static unsigned motor(damper_drive d)
{
    damper_stepped s = tick(d);
    return damper_answer_motor(s.word, s.code);
}

static bool reports(damper_drive d)
{
    return damper_is_report(tick(d).word);
}

static unsigned status(damper_drive d)
{
    damper_stepped s = give(d, DAMPER_KIND_READ_POSITION, 0, 0, 0);
    CHECK(s.word == DAMPER_WORD_AT);
    return damper_answer_status(s.word, s.code);
}

static damper_drive with_param(damper_drive d, unsigned number, unsigned value)
{
    return after(d, DAMPER_KIND_WRITE, number, value >> 8, value & 255);
}

static damper_drive with_setpoint(damper_drive d, unsigned position)
{
    return after(d, DAMPER_KIND_SETPOINT, position, 0, 0);
}

static damper_drive with_tool(damper_drive d, unsigned percent)
{
    return after(d, DAMPER_KIND_LTE_SETPOINT, DAMPER_LTE_PROPERTY(1), percent, DAMPER_LTE_OVERRIDE);
}

static damper_drive restarted(damper_drive d)
{
    return after(d, DAMPER_KIND_RESTART, 0, 0, 0);
}

/* Each kind and command by the field that it changes, or by its answer. */
static void kinds(damper_drive fresh)
{
    CHECK(tick(fresh).word == DAMPER_WORD_TICK);

    damper_drive d = with_setpoint(fresh, 7);
    CHECK(d.commands.stored == 1 && d.commands.setpoint == 7);

    d = after(fresh, DAMPER_KIND_LTE_SETPOINT, DAMPER_LTE_PROPERTY(1), 50, DAMPER_LTE_WRITE);
    CHECK(d.commands.stored == 1 && d.commands.setpoint == 127 && d.commands.tool == 0);
    d = with_tool(fresh, 50);
    CHECK(d.commands.tool == 1 && d.commands.toolpos == 127 && d.commands.stored == 0);
    d = after(d, DAMPER_KIND_LTE_SETPOINT, DAMPER_LTE_PROPERTY(1), 250, DAMPER_LTE_RELEASE);
    CHECK(d.commands.tool == 0 && d.commands.toolpos == 0);

    CHECK(fresh.commands.forcing == DAMPER_FORCING_NONE);
    for (uint8_t forcing = 0; forcing < 4; forcing++)
        CHECK(after(fresh, DAMPER_KIND_FORCING, forcing, 0, 0).commands.forcing == forcing);
    d = after(fresh, DAMPER_KIND_FORCING, DAMPER_FORCING_TO_255, 0, 0);
    CHECK(motor(d) == DAMPER_MOTOR_FORWARD);
    d = after(ticked(d, 1), DAMPER_KIND_FORCING, DAMPER_FORCING_TO_0, 0, 0);
    CHECK(motor(d) == DAMPER_MOTOR_REVERSE && rank(d) == DAMPER_RANK_FORCING);

    d = after(fresh, DAMPER_KIND_HAND, 1, 9, 0);
    CHECK(d.commands.hand == 1 && d.commands.handpos == 9);
    d = after(d, DAMPER_KIND_HAND, 0, 9, 0);
    CHECK(d.commands.hand == 0 && d.commands.handpos == 0);

    CHECK(after(fresh, DAMPER_KIND_CALIBRATION, 0, 0, 0).run.kind == DAMPER_RUN_CALIBRATION);

    d = after(fresh, DAMPER_KIND_FAULT, 1, 0, 0);
    CHECK(d.commands.fault == 1);
    CHECK(after(d, DAMPER_KIND_FAULT, 0, 0, 0).commands.fault == 0);

    CHECK(with_param(fresh, DAMPER_NUMBER_REP_PER, 300).params[DAMPER_PLACE_REP_PER] == 300);

    d = restarted(ticked(with_setpoint(fresh, 7), 1));
    CHECK(d.commands.stored == 0 && d.since == 0 && d.position == 5);

    damper_stepped s = give(d, DAMPER_KIND_READ_POSITION, 0, 0, 0);
    CHECK(s.word == DAMPER_WORD_AT && damper_answer_position(s.word, s.code) == 5);
    s = give(d, DAMPER_KIND_READ_PARAMETER, DAMPER_NUMBER_TIMEOUT, 0, 0);
    CHECK(s.word == DAMPER_WORD_PAR && damper_answer_value(s.word, s.code) == 1860);
}

/* The counts, the run and the last report. */
static void fields(damper_drive fresh)
{
    CHECK(fresh.position == 0 && fresh.since == 0 && fresh.age == 0);
    CHECK(fresh.run.kind == DAMPER_RUN_NONE && fresh.run.left == 0 && fresh.last.reported == 0);

    damper_drive d = ticked(with_setpoint(ticked(fresh, 2), 100), 1);
    CHECK(d.since == 3 && d.age == 1 && d.position == 5 && d.last.reported == 0);

    d = with_param(fresh, DAMPER_NUMBER_MIN_REP_TIME, 1);
    d = ticked(after(d, DAMPER_KIND_HAND, 1, 100, 0), 1);
    CHECK(d.since == 0 && d.last.reported == 1 && d.last.position == 5);
    CHECK(d.last.status == (DAMPER_STATUS_HAND | DAMPER_STATUS_NO_BUS));

    d = after(fresh, DAMPER_KIND_CALIBRATION, 1, 0, 0);
    CHECK(d.run.left == 51 && ticked(d, 1).run.left == 50);
    CHECK(ticked(d, 50).run.kind == DAMPER_RUN_CALIBRATION && ticked(d, 51).run.kind == DAMPER_RUN_NONE);

    d = restarted(with_param(fresh, DAMPER_NUMBER_START_SYNCHRONIZATION, 1));
    CHECK(d.run.kind == DAMPER_RUN_SYNC_CLOSE);
    d = restarted(with_param(fresh, DAMPER_NUMBER_START_SYNCHRONIZATION, 2));
    CHECK(d.run.kind == DAMPER_RUN_SYNC_OPEN && ticked(d, 51).position == 255);
}

/* The table: which numbers there are, and of each its place, its range and its fresh value. */
static void table(damper_drive fresh)
{
    int known = 0;
    for (unsigned number = 0; number < 256; number++)
        known += refusal(fresh, DAMPER_KIND_READ_PARAMETER, number, 0, 0) == DAMPER_REFUSAL_NONE;
    CHECK(known == DAMPER_PARAMETERS);
    CHECK(sizeof damper_parameters / sizeof damper_parameters[0] == DAMPER_PARAMETERS);

    for (size_t place = 0; place < DAMPER_PARAMETERS; place++) {
        damper_parameter row = damper_parameters[place];
        damper_stepped s = give(fresh, DAMPER_KIND_READ_PARAMETER, row.number, 0, 0);
        CHECK(s.word == DAMPER_WORD_PAR && damper_answer_value(s.word, s.code) == row.fresh);
        CHECK(fresh.params[place] == row.fresh);

        /* The end that is not the fresh value last, so that the place shows. */
        uint16_t ends[2] = {row.most, row.least};
        if (row.fresh == row.least) {
            ends[0] = row.least;
            ends[1] = row.most;
        }
        for (int i = 0; i < 2; i++) {
            damper_drive d = with_param(fresh, row.number, ends[i]);
            for (size_t k = 0; k < DAMPER_PARAMETERS; k++)
                CHECK(d.params[k] == (k == place ? ends[i] : fresh.params[k]));
        }
        CHECK(ends[1] != row.fresh);

        unsigned below = (unsigned)row.least - 1, above = (unsigned)row.most + 1;
        if (row.least > 0)
            CHECK(refusal(fresh, DAMPER_KIND_WRITE, row.number, below >> 8, below & 255) == DAMPER_REFUSAL_RANGE);
        CHECK(refusal(fresh, DAMPER_KIND_WRITE, row.number, above >> 8, above & 255) == DAMPER_REFUSAL_RANGE);
    }
}

/* A parameter's name, number and place belong together, and it does what its name says. */
static damper_drive named(damper_drive d, unsigned number, size_t place, uint16_t value)
{
    d = with_param(d, number, value);
    CHECK(d.params[place] == value && damper_parameters[place].number == number);
    return d;
}

#define NAMED(d, name, value) named(d, DAMPER_NUMBER_##name, DAMPER_PLACE_##name, value)

static void parameters(damper_drive fresh)
{
    damper_drive d = NAMED(fresh, MODE, 3);
    CHECK(refusal(d, DAMPER_KIND_LTE_SETPOINT, DAMPER_LTE_PROPERTY(3), 0, DAMPER_LTE_WRITE) == DAMPER_REFUSAL_NONE);
    CHECK(refusal(d, DAMPER_KIND_LTE_SETPOINT, DAMPER_LTE_PROPERTY(1), 0, DAMPER_LTE_WRITE) == DAMPER_REFUSAL_PROPERTY);

    d = NAMED(with_setpoint(fresh, 100), OPEN_CLOSE_DIRECTION, 1);
    CHECK(motor(d) == DAMPER_MOTOR_REVERSE && tick(d).drive.position == 5);

    damper_drive quick = NAMED(fresh, MIN_REP_TIME, 1);
    CHECK(reports(quick) && !reports(fresh));
    d = NAMED(fresh, MIN_REP_TIME, 2);
    CHECK(!reports(d) && reports(ticked(d, 1)));

    /* Three units a tick are 1 % and a bit. */
    d = NAMED(with_setpoint(quick, 255), RATE, 3);
    CHECK(tick(d).drive.position == 3 && reports(ticked(d, 1)) && reports(ticked(d, 2)));
    d = NAMED(d, ACT_POS_COV, 2);
    CHECK(!reports(ticked(d, 1)) && reports(ticked(d, 2)));

    d = NAMED(quick, REP_PER, 2);
    CHECK(reports(d) && !reports(ticked(d, 1)) && reports(ticked(d, 2)));

    d = NAMED(with_setpoint(fresh, 100), TIMEOUT, 1);
    CHECK(rank(d) == DAMPER_RANK_BUS && rank(ticked(d, 1)) == DAMPER_RANK_BACKUP);
    CHECK(motor(ticked(d, 1)) == DAMPER_MOTOR_REVERSE);
    d = NAMED(d, BACKUP_MODE, 1);
    CHECK(rank(ticked(d, 1)) == DAMPER_RANK_BACKUP && motor(ticked(d, 1)) == DAMPER_MOTOR_FORWARD);

    CHECK(ticked(NAMED(fresh, BACKUP_VALUE, 1), 1).position == 3);
    CHECK(restarted(NAMED(fresh, START_SYNCHRONIZATION, 2)).run.kind == DAMPER_RUN_SYNC_OPEN);
    CHECK(ticked(NAMED(fresh, LOW, 9), 3).position == 9);
    CHECK(ticked(NAMED(with_setpoint(fresh, 255), HIGH, 9), 3).position == 9);
}

static void refusals(damper_drive fresh)
{
    damper_drive damaged = fresh;
    damaged.commands.hand = 2;
    CHECK(!damper_well_formed(damaged));
    CHECK(refusal(damaged, DAMPER_KIND_TICK, 0, 0, 0) == DAMPER_REFUSAL_RECORD);

    uint8_t bytes[DAMPER_EVENT_LENGTH + 1] = {DAMPER_MARK_0, DAMPER_MARK_1, DAMPER_KIND_TICK, 0, 0, 0, 0};
    for (size_t length = 0; length <= sizeof bytes; length++)
        CHECK(damper_read(bytes, length).refusal == (length == DAMPER_EVENT_LENGTH ? 0 : DAMPER_REFUSAL_LENGTH));
    bytes[0] ^= 1;
    CHECK(damper_read(bytes, DAMPER_EVENT_LENGTH).refusal == DAMPER_REFUSAL_MARK);
    bytes[0] ^= 1;
    bytes[1] ^= 1;
    CHECK(damper_read(bytes, DAMPER_EVENT_LENGTH).refusal == DAMPER_REFUSAL_MARK);

    CHECK(refusal(fresh, 0, 0, 0, 0) == DAMPER_REFUSAL_KIND);
    CHECK(refusal(fresh, DAMPER_KIND_READ_PARAMETER + 1, 0, 0, 0) == DAMPER_REFUSAL_KIND);
    CHECK(refusal(fresh, DAMPER_KIND_TICK, 0, 0, 1) == DAMPER_REFUSAL_UNUSED);
    CHECK(refusal(fresh, DAMPER_KIND_FAULT, 2, 0, 0) == DAMPER_REFUSAL_SELECTOR);
    CHECK(refusal(fresh, DAMPER_KIND_FORCING, DAMPER_FORCING_TO_255 + 1, 0, 0) == DAMPER_REFUSAL_SELECTOR);

    unsigned lte = DAMPER_KIND_LTE_SETPOINT, property = DAMPER_LTE_PROPERTY(1);
    for (unsigned mode = 0; mode <= 65536; mode++) /* whole, and not its lower byte */
        CHECK(mode - 1 < 4 ? DAMPER_LTE_PROPERTY(mode) == 50 + (int)mode : DAMPER_LTE_PROPERTY(mode) == 0);
    CHECK(DAMPER_LTE_PROPERTY(-255) == 0 && DAMPER_LTE_PROPERTY(UINT64_C(1) << 32 | 1) == 0);
    CHECK(refusal(fresh, lte, DAMPER_LTE_PROPERTY(5), 0, DAMPER_LTE_WRITE) == DAMPER_REFUSAL_SELECTOR);
    for (unsigned a = 0; a < 256; a++)
        CHECK((refusal(fresh, lte, a, 0, DAMPER_LTE_RELEASE) == DAMPER_REFUSAL_SELECTOR) == (a < 51 || a > 54));
    CHECK(refusal(fresh, lte, property, 0, DAMPER_LTE_RELEASE + 1) == DAMPER_REFUSAL_COMMAND);
    CHECK(refusal(fresh, lte, property, 101, DAMPER_LTE_OVERRIDE) == DAMPER_REFUSAL_PERCENT);
    CHECK(refusal(fresh, lte, DAMPER_LTE_PROPERTY(4), 0, DAMPER_LTE_WRITE) == DAMPER_REFUSAL_PROPERTY);

    CHECK(refusal(fresh, DAMPER_KIND_WRITE, DAMPER_NUMBER_RATE, 0, 0) == DAMPER_REFUSAL_RANGE);
    damper_drive d = with_param(fresh, DAMPER_NUMBER_LOW, 1);
    CHECK(refusal(d, DAMPER_KIND_WRITE, DAMPER_NUMBER_HIGH, 0, 0) == DAMPER_REFUSAL_LIMITS);
    d = after(fresh, DAMPER_KIND_CALIBRATION, 0, 0, 0);
    CHECK(refusal(d, DAMPER_KIND_WRITE, DAMPER_NUMBER_RATE, 0, 5) == DAMPER_REFUSAL_RATE);
    d = after(fresh, DAMPER_KIND_FORCING, DAMPER_FORCING_TO_0, 0, 0);
    CHECK(refusal(d, DAMPER_KIND_CALIBRATION, 0, 0, 0) == DAMPER_REFUSAL_CALIBRATION);
    CHECK(refusal(fresh, DAMPER_KIND_CALIBRATION, 0, 0, 0) == DAMPER_REFUSAL_NONE);
}

/* Each rank rules where the lower ones are active beside it; each status bit stands alone beside a bus setpoint. */
static void ranks_and_status(damper_drive fresh)
{
    damper_drive d = fresh, bus = with_setpoint(fresh, 0);
    CHECK(rank(d) == DAMPER_RANK_BACKUP && motor(d) == DAMPER_MOTOR_STILL);
    CHECK(status(d) == DAMPER_STATUS_NO_BUS);
    d = with_setpoint(d, 0);
    CHECK(rank(d) == DAMPER_RANK_BUS && status(d) == 0);
    d = with_tool(d, 0);
    CHECK(rank(d) == DAMPER_RANK_TOOL && status(d) == DAMPER_STATUS_HAND);
    d = after(d, DAMPER_KIND_HAND, 1, 0, 0);
    CHECK(rank(d) == DAMPER_RANK_HAND && status(d) == DAMPER_STATUS_HAND);
    d = after(d, DAMPER_KIND_CALIBRATION, 0, 0, 0);
    CHECK(rank(d) == DAMPER_RANK_RUN);
    d = after(d, DAMPER_KIND_FORCING, DAMPER_FORCING_TO_0, 0, 0);
    CHECK(rank(d) == DAMPER_RANK_FORCING);
    d = after(d, DAMPER_KIND_FAULT, 1, 0, 0);
    CHECK(rank(d) == DAMPER_RANK_FAULT);
    CHECK(status(d) == (DAMPER_STATUS_FAULT | DAMPER_STATUS_HAND | DAMPER_STATUS_FORCED));

    CHECK(status(after(bus, DAMPER_KIND_FAULT, 1, 0, 0)) == DAMPER_STATUS_FAULT);
    CHECK(status(after(bus, DAMPER_KIND_CALIBRATION, 0, 0, 0)) == DAMPER_STATUS_CALIBRATION);
    CHECK(status(after(bus, DAMPER_KIND_FORCING, DAMPER_FORCING_TO_255, 0, 0)) == DAMPER_STATUS_FORCED);
    d = restarted(with_param(fresh, DAMPER_NUMBER_START_SYNCHRONIZATION, 1));
    CHECK(status(with_setpoint(d, 0)) == DAMPER_STATUS_SYNC);
}

/* The percent that is read once a tick at Rate 255 has moved the damper. */
static unsigned percent_reached(damper_drive d)
{
    damper_stepped s = give(ticked(with_param(d, DAMPER_NUMBER_RATE, 255), 1), DAMPER_KIND_READ_POSITION, 0, 0, 0);
    return damper_answer_percent(s.word, s.code);
}

/* Every percent reads back as itself, given in any of the three ways. */
static void percents(damper_drive fresh)
{
    for (unsigned percent = 0; percent <= 100; percent++) {
        damper_drive d = after(fresh, DAMPER_KIND_LTE_SETPOINT, DAMPER_LTE_PROPERTY(1), percent, DAMPER_LTE_WRITE);
        CHECK(percent_reached(d) == percent);
        CHECK(percent_reached(with_tool(fresh, percent)) == percent);
        CHECK(percent_reached(with_param(fresh, DAMPER_NUMBER_BACKUP_VALUE, percent)) == percent);
    }
}

/*
 * The twelve inline functions of the header, which stand between what is proved and a host's log: each against the definitions, written
 * here again as tables, `valuesOf`, `wordOf`, `codeOf` (crates/answer/specs/Answer.antt) and `tickNumber` (crates/hall/specs/Turns.antt).
 */

/* The values that a printed line has after its word, and which of them are there in the answers of each word, in order. */
enum field { REFUSAL, VALUE, POSITION, PERCENT, STATUS, RANK, MOTOR, FIELDS };

static const struct {
    size_t count;
    enum field values[4];
} lines[6] = {
    {1, {REFUSAL, FIELDS, FIELDS, FIELDS}},   /* 0: no N */
    {0, {FIELDS, FIELDS, FIELDS, FIELDS}},    /* 1: ok */
    {1, {VALUE, FIELDS, FIELDS, FIELDS}},     /* 2: par V */
    {3, {POSITION, PERCENT, STATUS, FIELDS}}, /* 3: at P C S */
    {3, {POSITION, RANK, MOTOR, FIELDS}},     /* 4: tick P R M - */
    {4, {POSITION, RANK, MOTOR, STATUS}},     /* 5: tick P R M S */
};

/* Whether the nine functions of an answer say this word and these values, and 0 for those that its line does not have. */
static bool decoded(uint8_t word, uint32_t code, const unsigned due[FIELDS])
{
    return damper_answer_refusal(word, code) == due[REFUSAL] && damper_answer_value(word, code) == due[VALUE] &&
           damper_answer_position(word, code) == due[POSITION] && damper_answer_percent(word, code) == due[PERCENT] &&
           damper_answer_status(word, code) == due[STATUS] && damper_answer_rank(word, code) == due[RANK] &&
           damper_answer_motor(word, code) == due[MOTOR] && damper_is_tick(word) == (word == 4 || word == 5) &&
           damper_is_report(word) == (word == 5);
}

/* The same of the answer of a word with these values, whose code has each but the first as a digit of base 256 behind the one before. */
static bool told(uint8_t word, const unsigned values[4])
{
    unsigned due[FIELDS] = {0, 0, 0, 0, 0, 0, 0};
    uint32_t code = 0;
    for (size_t i = 0; i < lines[word].count; i++) {
        code = 256 * code + values[i];
        due[lines[word].values[i]] = values[i];
    }
    return decoded(word, code, due);
}

/* Every answer of words 0 to 4, and of word 5 every two of the four values with the others at some. */
static void decoders(void)
{
    unsigned v[4] = {0, 0, 0, 0};
    CHECK(told(1, v));
    for (v[0] = 0; v[0] < 256; v[0]++)
        CHECK(told(0, v));
    for (v[0] = 0; v[0] < 65536; v[0]++)
        CHECK(told(2, v));
    for (v[0] = 0; v[0] < 256; v[0]++) {
        bool all = true;
        for (v[1] = 0; v[1] < 256; v[1]++)
            for (v[2] = 0; v[2] < 256; v[2]++)
                all = all && told(3, v) && told(4, v);
        CHECK(all);
    }
    static const unsigned some[] = {0, 1, 90, 254, 255};
    const size_t many = sizeof some / sizeof some[0];
    for (size_t i = 0; i < 4; i++)
        for (size_t k = i + 1; k < 4; k++)
            for (size_t other = 0; other < many * many; other++) {
                bool all = true;
                const size_t first = i == 0 ? (k == 1 ? 2 : 1) : 0, second = 6 - i - k - first;
                v[first] = some[other / many];
                v[second] = some[other % many];
                for (v[i] = 0; v[i] < 256; v[i]++)
                    for (v[k] = 0; v[k] < 256; v[k]++)
                        all = all && told(5, v);
                CHECK(all);
            }
    uint32_t drawn = 1; /* a fixed sequence that has every number but 0 */
    bool all = true;
    for (unsigned i = 0; i < 2000000; i++) {
        drawn ^= drawn << 13;
        drawn ^= drawn >> 17;
        drawn ^= drawn << 5;
        for (size_t k = 0; k < 4; k++)
            v[k] = drawn >> 8 * k & 255;
        all = all && told(5, v);
    }
    CHECK(all);

    /* The other words belong to no answer: nothing is taken from them. */
    const unsigned nothing[FIELDS] = {0, 0, 0, 0, 0, 0, 0};
    for (unsigned word = 6; word < 256; word++)
        CHECK(decoded((uint8_t)word, 0, nothing) && decoded((uint8_t)word, UINT32_MAX, nothing));

    /* The numbers of a hall tick: 0 silent, 1 not well formed, the others a report. */
    for (uint32_t number = 0; number < 2; number++)
        CHECK(!damper_hall_is_report(number) && damper_hall_position(number) == 0 && damper_hall_status(number) == 0);
    for (unsigned position = 0; position < 256; position++)
        for (unsigned given = 0; given < 256; given++) {
            const uint32_t number = 65536 + 256 * position + given;
            CHECK(damper_hall_is_report(number) && damper_hall_position(number) == position && damper_hall_status(number) == given);
        }
}

/* What they take from the answers of the archive; all four values of a report differ. */
static void answers(damper_drive fresh)
{
    damper_drive d = after(fresh, DAMPER_KIND_HAND, 1, 100, 0);
    damper_drive quick = with_param(d, DAMPER_NUMBER_MIN_REP_TIME, 1);
    unsigned hand = DAMPER_STATUS_HAND | DAMPER_STATUS_NO_BUS;
    const struct {
        damper_stepped s;
        unsigned word, refusal, value, position, percent, status, rank, motor;
    } rows[6] = {
        {give(d, DAMPER_KIND_TICK, 1, 0, 0), DAMPER_WORD_NO, DAMPER_REFUSAL_UNUSED, 0, 0, 0, 0, 0, 0},
        {give(d, DAMPER_KIND_SETPOINT, 7, 0, 0), DAMPER_WORD_OK, 0, 0, 0, 0, 0, 0, 0},
        {give(d, DAMPER_KIND_READ_PARAMETER, DAMPER_NUMBER_TIMEOUT, 0, 0), DAMPER_WORD_PAR, 0, 1860, 0, 0, 0, 0, 0},
        {give(ticked(d, 1), DAMPER_KIND_READ_POSITION, 0, 0, 0), DAMPER_WORD_AT, 0, 0, 5, 2, hand, 0, 0},
        {tick(d), DAMPER_WORD_TICK, 0, 0, 5, 0, 0, DAMPER_RANK_HAND, DAMPER_MOTOR_FORWARD},
        {tick(quick), DAMPER_WORD_REPORT, 0, 0, 5, 0, hand, DAMPER_RANK_HAND, DAMPER_MOTOR_FORWARD},
    };
    for (int i = 0; i < 6; i++) {
        uint8_t word = rows[i].s.word;
        uint32_t code = rows[i].s.code;
        CHECK(word == rows[i].word);
        CHECK(damper_is_tick(word) == (i >= 4) && damper_is_report(word) == (i == 5));
        CHECK(damper_answer_refusal(word, code) == rows[i].refusal);
        CHECK(damper_answer_value(word, code) == rows[i].value);
        CHECK(damper_answer_position(word, code) == rows[i].position);
        CHECK(damper_answer_percent(word, code) == rows[i].percent);
        CHECK(damper_answer_status(word, code) == rows[i].status);
        CHECK(damper_answer_rank(word, code) == rows[i].rank);
        CHECK(damper_answer_motor(word, code) == rows[i].motor);
    }
}

static void reader_and_writer(void)
{
    uint8_t buffer[8] = {1, 2, 3, 4, 5, 6, 7, 8};
    const uint8_t due[8] = {DAMPER_MARK_0, DAMPER_MARK_1, DAMPER_KIND_LTE_SETPOINT, 52, 40, DAMPER_LTE_OVERRIDE, 7, 8};
    CHECK(damper_write(buffer, 5, due[2], due[3], due[4], due[5]) == DAMPER_REFUSAL_LENGTH && buffer[0] == 1);
    CHECK(damper_write(buffer, sizeof buffer, due[2], due[3], due[4], due[5]) == DAMPER_REFUSAL_NONE);
    CHECK(!memcmp(buffer, due, sizeof due));
    damper_event e = damper_read(buffer, DAMPER_EVENT_LENGTH);
    CHECK(e.refusal == DAMPER_REFUSAL_NONE && e.kind == due[2] && e.a == due[3] && e.b == due[4] && e.c == due[5]);
    e = damper_read(buffer, sizeof buffer);
    CHECK(e.refusal == DAMPER_REFUSAL_LENGTH && e.kind == 0 && e.a == 0 && e.b == 0 && e.c == 0);
}

/* Document 01's example and a rest of two bytes, in rows with room to spare and in one that is too short. */
static void replay(damper_drive fresh)
{
    const uint8_t bytes[26] = {0x5A, 0xC3, 2, 128, 0, 0, 0x5A, 0xC3, 1,  0, 0, 0, 0x5A,
                               0xC3, 6,    2, 0,   0, 0x5A, 0xC3, 10, 0, 0, 0, 0x5A, 0xC3};
    uint8_t words[6] = {9, 9, 9, 9, 9, 9};
    uint32_t codes[7] = {9, 9, 9, 9, 9, 9, 9};
    damper_replayed r = damper_replay(fresh, bytes, sizeof bytes, words, 6, codes, 7);
    CHECK(r.count == 5 && words[5] == 9 && codes[5] == 9);
    damper_drive d = fresh;
    for (size_t i = 0, at = 0; i < r.count; i++, at += DAMPER_EVENT_LENGTH) {
        size_t left = sizeof bytes - at;
        damper_stepped s = damper_step(d, bytes + at, left < DAMPER_EVENT_LENGTH ? left : DAMPER_EVENT_LENGTH);
        CHECK(s.word == words[i] && s.code == codes[i]);
        d = s.drive;
    }
    CHECK(r.drive.position == 5 && r.drive.position == d.position && r.drive.since == d.since);
    CHECK(words[4] == DAMPER_WORD_NO && codes[4] == DAMPER_REFUSAL_LENGTH);
    r = damper_replay(fresh, bytes, sizeof bytes, words, 6, codes, 1);
    CHECK(r.count == 1 && r.drive.commands.setpoint == 128);
}

/* The rows of a hall, longer than any call may use, and what they held before the call. */
typedef struct {
    damper_drive row[DAMPER_HALL_MOST + 1];
    uint8_t answers[DAMPER_HALL_MOST + 6];
    uint32_t numbers[DAMPER_HALL_MOST + 6];
    uint8_t page[(DAMPER_HALL_MOST + 1) * DAMPER_HALL_LINE];
    uint32_t shares[DAMPER_HALL_MOST + 1];
} hall;

static hall now, was;

#define UNSET 0x63 /* in each byte of answers, numbers, shares and the page */

/* Every drive becomes this one. */
static void fill_hall(damper_drive d)
{
    memset(&now, UNSET, sizeof now);
    for (size_t i = 0; i <= DAMPER_HALL_MOST; i++)
        now.row[i] = d;
}

static bool untouched(void)
{
    return !memcmp(&now, &was, sizeof now);
}

/* Whether the drives from one on, before another, have every byte that they had. */
static bool kept(size_t from, size_t before)
{
    return !memcmp(now.row + from, was.row + from, (before - from) * sizeof now.row[0]);
}

/* Whether the answers and the numbers are as they were, from a place on. */
static bool rest_kept(size_t answers, size_t numbers)
{
    return !memcmp(now.answers + answers, was.answers + answers, sizeof now.answers - answers) &&
           !memcmp(now.numbers + numbers, was.numbers + numbers, sizeof now.numbers - numbers * sizeof now.numbers[0]);
}

/* Whether two drives agree in every field. */
static bool same(damper_drive x, damper_drive y)
{
    return x.position == y.position && !memcmp(x.params, y.params, sizeof x.params) &&
           !memcmp(&x.commands, &y.commands, sizeof x.commands) && x.age == y.age && !memcmp(&x.run, &y.run, sizeof x.run) &&
           x.since == y.since && !memcmp(&x.last, &y.last, sizeof x.last) && x.wait == y.wait && x.travel == y.travel;
}

static unsigned give_hall(size_t drives, const uint32_t *list, size_t entries, const uint8_t *bytes, size_t length,
                          size_t places)
{
    memcpy(&was, &now, sizeof now);
    return damper_hall_event(now.row, drives, list, entries, bytes, length, now.answers, places);
}

static unsigned tick_hall(size_t drives, uint32_t quota, size_t places)
{
    memcpy(&was, &now, sizeof now);
    return damper_hall_tick(now.row, drives, quota, now.numbers, places);
}

static unsigned page_hall(size_t drives, size_t bytes)
{
    memcpy(&was, &now, sizeof now);
    return damper_hall_page(now.row, drives, now.page, bytes);
}

/* Whether the page begins with these lines and is as it was behind them, and nothing else has changed. */
static bool page_is(const char *lines)
{
    memcpy(was.page, lines, strlen(lines));
    return untouched();
}

static const uint8_t a_tick[DAMPER_EVENT_LENGTH] = {DAMPER_MARK_0, DAMPER_MARK_1, DAMPER_KIND_TICK, 0, 0, 0};
static const uint8_t a_setpoint[DAMPER_EVENT_LENGTH] = {DAMPER_MARK_0, DAMPER_MARK_1, DAMPER_KIND_SETPOINT, 128, 0, 0};

#define SIX DAMPER_EVENT_LENGTH

/* What an event does to the drives of a list, and what it answers. */
static void hall_events(damper_drive fresh)
{
    damper_drive damaged = fresh, forced = after(fresh, DAMPER_KIND_FORCING, DAMPER_FORCING_TO_0, 0, 0);
    damaged.commands.hand = 2;
    const uint32_t two[2] = {2, 0}, all[4] = {3, 2, 1, 0};
    const uint8_t calibration[SIX] = {DAMPER_MARK_0, DAMPER_MARK_1, DAMPER_KIND_CALIBRATION, 0, 0, 0};
    const uint8_t read_position[SIX] = {DAMPER_MARK_0, DAMPER_MARK_1, DAMPER_KIND_READ_POSITION, 0, 0, 0};
    const uint8_t read_rate[SIX] = {DAMPER_MARK_0, DAMPER_MARK_1, DAMPER_KIND_READ_PARAMETER, DAMPER_NUMBER_RATE, 0, 0};

    fill_hall(fresh);
    CHECK(give_hall(3, two, 2, a_setpoint, SIX, 2) == 0);
    CHECK(same(now.row[0], with_setpoint(fresh, 128)) && same(now.row[2], with_setpoint(fresh, 128)));
    CHECK(kept(1, 2) && kept(3, DAMPER_HALL_MOST + 1));
    CHECK(now.answers[0] == 0 && now.answers[1] == 0 && rest_kept(2, 0));

    /* The answers are in the list's order, and places to spare keep what they hold. */
    fill_hall(fresh);
    now.row[1] = forced;
    now.row[2] = damaged;
    CHECK(give_hall(4, all, 4, calibration, SIX, sizeof now.answers) == 0);
    CHECK(now.answers[0] == 0 && now.answers[1] == DAMPER_REFUSAL_RECORD);
    CHECK(now.answers[2] == DAMPER_REFUSAL_CALIBRATION && now.answers[3] == 0 && rest_kept(4, 0));
    CHECK(now.row[0].run.left == 51 && same(now.row[1], forced) && same(now.row[2], damaged) && now.row[3].run.left == 51);
    CHECK(kept(4, DAMPER_HALL_MOST + 1));

    /* A read hands nothing back. */
    fill_hall(with_setpoint(fresh, 128));
    CHECK(give_hall(4, all, 4, read_position, SIX, 4) == 0);
    CHECK(same(now.row[0], was.row[0]) && now.answers[0] == 0 && now.answers[3] == 0 && rest_kept(4, 0));
    CHECK(give_hall(4, all, 4, read_rate, SIX, 4) == 0);
    CHECK(same(now.row[3], was.row[3]) && now.answers[0] == 0 && now.answers[3] == 0 && rest_kept(4, 0));

    /* An empty list, of an event and of what is none. */
    CHECK(give_hall(4, all, 0, a_setpoint, SIX, 0) == 0 && untouched());
    CHECK(give_hall(4, all, 0, a_setpoint, SIX, 4) == 0 && untouched());
    CHECK(give_hall(4, all, 0, a_setpoint, 0, 4) == 0 && untouched());
    CHECK(give_hall(4, all, 0, a_tick, SIX - 1, 0) == 0 && untouched());

    /* Ticks that the reader does not accept are refused by each drive. */
    now.row[2] = damaged;
    for (size_t byte = 0; byte < SIX; byte++) {
        uint8_t bytes[SIX];
        memcpy(bytes, a_tick, SIX);
        bytes[byte] ^= 0x80;
        unsigned refusal = byte < 2 ? DAMPER_REFUSAL_MARK : byte == 2 ? DAMPER_REFUSAL_KIND : DAMPER_REFUSAL_UNUSED;
        CHECK(give_hall(4, all, 4, bytes, SIX, 4) == 0);
        CHECK(now.answers[0] == refusal && now.answers[1] == DAMPER_REFUSAL_RECORD);
        CHECK(now.answers[2] == refusal && now.answers[3] == refusal);
        for (size_t i = 0; i < 4; i++)
            CHECK(same(now.row[i], was.row[i]));
    }
    uint8_t longer[SIX + 1] = {0};
    memcpy(longer, a_tick, SIX);
    for (size_t length = 0; length <= SIX + 1; length++) {
        if (length == SIX)
            continue;
        CHECK(give_hall(4, all, 1, longer, length, 1) == 0 && now.answers[0] == DAMPER_REFUSAL_LENGTH);
        CHECK(same(now.row[3], was.row[3]));
    }
}

/* Rows of 1 and 64, lists of 1 and 64, and the refusals 14 to 16, 18 and 19: what fits each, and which comes first. */
static void hall_refusals(damper_drive fresh)
{
    const size_t most = DAMPER_HALL_MOST;
    const unsigned no_hall = DAMPER_HALL_REFUSAL_ROW, no_drive = DAMPER_HALL_REFUSAL_NUMBER;
    const unsigned no_call = DAMPER_HALL_REFUSAL_CALL, named_twice = DAMPER_HALL_REFUSAL_TWICE;
    uint32_t list[DAMPER_HALL_MOST + 6];
    for (uint32_t k = 0; k < DAMPER_HALL_MOST + 6; k++)
        list[k] = k % DAMPER_HALL_MOST;
    CHECK(most == 64 && no_hall == 14 && no_drive == 15 && no_call == 16 && named_twice == 19);

    fill_hall(fresh);
    CHECK(give_hall(1, list, 1, a_setpoint, SIX, 1) == 0 && now.row[0].commands.setpoint == 128 && kept(1, most + 1));
    fill_hall(fresh);
    CHECK(give_hall(most, list, most, a_setpoint, SIX, most) == 0 && kept(most, most + 1) && rest_kept(most, 0));
    for (size_t i = 0; i < most; i++)
        CHECK(now.row[i].commands.setpoint == 128 && now.answers[i] == 0);

    /* 14: no drive or over 64, also where 15 and 16 fit. */
    fill_hall(fresh);
    CHECK(give_hall(0, list, 0, a_setpoint, SIX, 6) == no_hall && untouched());
    CHECK(give_hall(0, list, 1, a_tick, SIX, 0) == no_hall && untouched());
    CHECK(give_hall(most + 1, list, 1, a_setpoint, SIX, 6) == no_hall && untouched());
    CHECK(give_hall(most + 1, list, most + 6, a_tick, SIX, 0) == no_hall && untouched());
    list[0] = UINT32_MAX;
    CHECK(give_hall(most + 1, list, 1, a_setpoint, SIX, 6) == no_hall && untouched());

    /* 15: no number is cut to a byte or to 16 bits before it is judged. */
    const uint32_t bad[8] = {8, 9, 63, 256, 263, 65536 + 7, 0x80000000, UINT32_MAX};
    for (size_t i = 0; i < 8; i++) {
        list[0] = bad[i];
        CHECK(give_hall(8, list, 1, a_setpoint, SIX, 1) == no_drive && untouched());
    }
    list[0] = 7;
    CHECK(give_hall(8, list, 7, a_setpoint, SIX, 7) == 0);
    CHECK(give_hall(7, list, 7, a_setpoint, SIX, 7) == no_drive && untouched());
    list[0] = DAMPER_HALL_MOST;
    CHECK(give_hall(most, list, 1, a_setpoint, SIX, 1) == no_drive && untouched());
    list[0] = 1;
    CHECK(give_hall(1, list, 1, a_setpoint, SIX, 1) == no_drive && untouched());
    list[0] = 0;

    /* Its place in the list does not matter, nor that 16 fits as well. */
    for (size_t k = 0; k < most + 6; k++) {
        uint32_t number = list[k];
        list[k] = DAMPER_HALL_MOST;
        CHECK(give_hall(most, list, most + 6, a_setpoint, SIX, most + 6) == no_drive && untouched());
        CHECK(give_hall(most, list, k + 1, a_tick, SIX, k + 1) == no_drive && untouched());
        CHECK(give_hall(most, list, k + 1, a_setpoint, SIX, k) == no_drive && untouched());
        CHECK(give_hall(most, list, k + 1, a_tick, SIX - 1, k + 1) == no_drive && untouched());
        list[k] = number;
    }

    /* 16: a tick, also with an empty list; a long list; few places. */
    CHECK(give_hall(most, list, 1, a_tick, SIX, 1) == no_call && untouched());
    CHECK(give_hall(most, list, 0, a_tick, SIX, 0) == no_call && untouched());
    CHECK(give_hall(1, list, 0, a_tick, SIX, 6) == no_call && untouched());
    CHECK(give_hall(most, list, most + 1, a_setpoint, SIX, most + 6) == no_call && untouched());
    CHECK(give_hall(most, list, most + 1, a_tick, SIX, 0) == no_call && untouched());
    CHECK(give_hall(most, list, 1, a_setpoint, SIX, 0) == no_call && untouched());
    CHECK(give_hall(most, list, most, a_setpoint, SIX, most - 1) == no_call && untouched());
    now.row[0].commands.hand = 2;
    CHECK(give_hall(1, list, 1, a_tick, SIX, 1) == no_call && untouched());
    CHECK(give_hall(1, list, 1, a_setpoint, 0, 0) == no_call && untouched());

    /* 19: one number at any two places of the list, also with bytes that no drive takes; none where the two differ. */
    fill_hall(fresh);
    for (size_t k = 1; k < most; k++)
        for (size_t j = 0; j < k; j++) {
            uint32_t number = list[k];
            list[k] = list[j];
            CHECK(give_hall(most, list, most, a_setpoint, SIX, most) == named_twice && untouched());
            CHECK(give_hall(most, list, k + 1, a_setpoint, 0, k + 1) == named_twice && untouched());
            CHECK(give_hall(most, list, k + 1, a_tick, SIX, k + 1) == no_call && untouched());
            CHECK(give_hall(most, list, k + 1, a_setpoint, SIX, k) == no_call && untouched());
            CHECK(give_hall(most, list, most + 1, a_setpoint, SIX, most + 6) == no_call && untouched());
            list[most - 1] = DAMPER_HALL_MOST;
            CHECK(give_hall(most, list, most, a_setpoint, SIX, most) == no_drive && untouched());
            list[most - 1] = DAMPER_HALL_MOST - 1;
            list[k] = number;
            CHECK(give_hall(most, list, k + 1, a_setpoint, 0, k + 1) == 0);
        }
    const uint32_t three[3] = {5, 0, 63};
    uint32_t many[DAMPER_HALL_MOST];
    for (size_t k = 0; k < most; k++)
        many[k] = three[k % 3];
    fill_hall(fresh);
    CHECK(give_hall(most, many, most, a_setpoint, SIX, most) == named_twice && untouched());
    CHECK(give_hall(most, many, 4, a_setpoint, SIX, 4) == named_twice && untouched());
    CHECK(give_hall(most, many, 3, a_setpoint, SIX, 3) == 0);

    fill_hall(fresh);
    CHECK(tick_hall(0, 1, 6) == no_hall && untouched() && tick_hall(0, 0, 0) == no_hall && untouched());
    CHECK(tick_hall(most + 1, 1, most + 6) == no_hall && untouched() && tick_hall(most + 1, 0, 0) == no_hall && untouched());
    CHECK(tick_hall(1, 1, 0) == no_call && untouched() && tick_hall(most, 0, most - 1) == no_call && untouched());
    /* 18: a quota of none, of over 64, and some whose lowest byte is a quota. */
    const uint32_t quotas[] = {0, DAMPER_HALL_QUOTA + 1, 256, 257, 65536 + 8, UINT32_MAX};
    for (size_t i = 0; i < sizeof quotas / sizeof quotas[0]; i++)
        CHECK(tick_hall(most, quotas[i], most) == DAMPER_HALL_REFUSAL_QUOTA && untouched());
    CHECK(tick_hall(1, 1, 1) == 0 && now.row[0].since == 1 && kept(1, most + 1) && rest_kept(0, 1));
    CHECK(tick_hall(most, DAMPER_HALL_QUOTA, most) == 0 && now.row[0].since == 2 && kept(most, most + 1) && rest_kept(0, most));
    for (size_t i = 1; i < most; i++)
        CHECK(now.row[i].since == 1 && now.numbers[i] == DAMPER_HALL_SILENT);
}

/* The numbers of a tick, and the helpers that take them apart. */
static void hall_numbers(damper_drive fresh)
{
    damper_drive quick = with_param(with_param(fresh, DAMPER_NUMBER_MIN_REP_TIME, 1), DAMPER_NUMBER_RATE, 255);
    damper_drive damaged = fresh;
    damaged.commands.hand = 2;
    const damper_drive row[5] = {
        fresh, damaged, after(quick, DAMPER_KIND_HAND, 1, 100, 0), with_setpoint(quick, 0),
        after(quick, DAMPER_KIND_FORCING, DAMPER_FORCING_TO_255, 0, 0),
    };
    const uint32_t due[5] = {0, 1, 65536 + 256 * 100 + 34, 65536, 65536 + 256 * 255 + 48};
    for (size_t i = 0; i < 5; i++) {
        fill_hall(fresh);
        now.row[0] = row[i];
        CHECK(tick_hall(1, 1, sizeof now.numbers / sizeof now.numbers[0]) == 0 && kept(1, DAMPER_HALL_MOST + 1) && rest_kept(0, 1));
        damper_stepped s = give(row[i], DAMPER_KIND_TICK, 0, 0, 0);
        uint32_t number = now.numbers[0];
        CHECK(number == due[i] && same(now.row[0], s.drive));
        CHECK((number == DAMPER_HALL_SILENT) == (i == 0) && (number == DAMPER_HALL_NOT_WELL_FORMED) == (i == 1));
        CHECK(damper_hall_is_report(number) == damper_is_report(s.word));
        CHECK(damper_hall_position(number) == (i < 2 ? 0 : damper_answer_position(s.word, s.code)));
        CHECK(damper_hall_status(number) == (i < 2 ? 0 : damper_answer_status(s.word, s.code)));
        CHECK(!damper_hall_is_report(number) ||
              number == DAMPER_HALL_REPORT + 256u * damper_hall_position(number) + damper_hall_status(number));
    }
    CHECK(!damper_hall_is_report(DAMPER_HALL_REPORT - 1) && damper_hall_is_report(DAMPER_HALL_REPORT));
    CHECK(damper_hall_position(130879) == 255 && damper_hall_status(130879) == 63);
}

/* The position nearest to a percent, halves down: the lowest of those that are as near as any. */
static unsigned nearest(unsigned percent)
{
    unsigned best = 0;
    for (int position = 0; position <= 255; position++)
        if (abs(100 * position - 255 * (int)percent) < abs(100 * (int)best - 255 * (int)percent))
            best = (unsigned)position;
    return best;
}

/* The position of every percent by each archive that makes one of it: as BackupValue in a hall tick, by a normal write and an override to
   a list, and in the three ways by step and by replay. */
static void percent_positions(damper_drive fresh)
{
    damper_drive quick = with_param(with_param(fresh, DAMPER_NUMBER_MIN_REP_TIME, 1), DAMPER_NUMBER_RATE, 255);
    const uint32_t listed[2] = {1, 2};
    for (unsigned percent = 0; percent <= 100; percent++) {
        const uint8_t property = DAMPER_LTE_PROPERTY(1), value = (uint8_t)percent;
        const uint8_t bytes[3 * SIX] = {
            DAMPER_MARK_0, DAMPER_MARK_1, DAMPER_KIND_LTE_SETPOINT, property, value, DAMPER_LTE_WRITE,
            DAMPER_MARK_0, DAMPER_MARK_1, DAMPER_KIND_LTE_SETPOINT, property, value, DAMPER_LTE_OVERRIDE,
            DAMPER_MARK_0, DAMPER_MARK_1, DAMPER_KIND_TICK, 0, 0, 0,
        };
        unsigned position = nearest(percent);
        fill_hall(quick);
        now.row[0] = with_param(quick, DAMPER_NUMBER_BACKUP_VALUE, percent);
        CHECK(give_hall(3, listed, 1, bytes, SIX, 1) == 0 && give_hall(3, listed + 1, 1, bytes + SIX, SIX, 1) == 0);
        CHECK(now.row[1].commands.setpoint == position && now.row[2].commands.toolpos == position);
        CHECK(tick_hall(3, 3, 3) == 0);
        for (unsigned i = 0; i < 3; i++)
            CHECK(now.row[i].position == position);

        uint8_t words[3];
        uint32_t codes[3];
        damper_drive d = damper_replay(quick, bytes, sizeof bytes, words, 3, codes, 3).drive;
        CHECK(d.commands.setpoint == position && d.commands.toolpos == position && d.position == position);
        damper_drive backed = with_param(quick, DAMPER_NUMBER_BACKUP_VALUE, percent);
        CHECK(damper_replay(backed, bytes + 2 * SIX, SIX, words, 3, codes, 3).drive.position == position);
        CHECK(tick(backed).drive.position == position && with_tool(quick, percent).commands.toolpos == position);
        CHECK(damper_step(quick, bytes, SIX).drive.commands.setpoint == position);
    }
}

/* Document 01's row m1 in a hall of three with a quota of 1: one a tick, in order. */
static void hall_quota(damper_drive fresh)
{
    fill_hall(fresh);
    for (unsigned ticks = 1; ticks <= 13; ticks++) {
        CHECK(tick_hall(3, 1, 3) == 0);
        for (unsigned i = 0; i < 3; i++) {
            CHECK(now.numbers[i] == (ticks == 10 + i ? DAMPER_HALL_REPORT + 32u : DAMPER_HALL_SILENT));
            CHECK(now.row[i].wait == (ticks >= 10 && ticks < 10 + i ? ticks - 9 : 0));
            CHECK(now.row[i].since == (ticks >= 10 + i ? ticks - 10 - i : ticks));
            CHECK(now.row[i].last.reported == (ticks >= 10 + i));
        }
    }

    /* The longest wait first, at 65,535 the lower number, and no tick alone, event or damage changes a wait but a restart. */
    damper_drive quick = with_setpoint(with_param(fresh, DAMPER_NUMBER_MIN_REP_TIME, 1), 128);
    fill_hall(quick);
    now.row[1].wait = 7;
    now.row[2].wait = now.row[3].wait = UINT16_MAX;
    now.row[4].commands.hand = 2;
    now.row[4].wait = 9;
    CHECK(tick_hall(5, 1, 5) == 0);
    CHECK(damper_hall_is_report(now.numbers[2]) && now.row[2].wait == 0 && now.row[2].since == 0);
    CHECK(now.numbers[0] == DAMPER_HALL_SILENT && now.row[0].wait == 1 && now.row[0].since == 1 && now.row[0].position == 5);
    CHECK(now.row[1].wait == 8 && now.row[3].wait == UINT16_MAX && now.row[4].wait == 9 && kept(4, DAMPER_HALL_MOST + 1));
    damper_drive waited = now.row[1];
    CHECK(give(waited, DAMPER_KIND_TICK, 0, 0, 0).drive.wait == 8 && after(waited, DAMPER_KIND_SETPOINT, 3, 0, 0).wait == 8);
    CHECK(after(waited, DAMPER_KIND_RESTART, 0, 0, 0).wait == 0 && damper_well_formed(waited) && fresh.wait == 0);

    /* Five that are due at every tick: as many as the quota, by the waits from before the tick and then by number. */
    const unsigned sent[] = {0x03, 0x0C, 0x11, 0x0E}, quotas[] = {2, 2, 2, 3};
    fill_hall(with_param(quick, DAMPER_NUMBER_REP_PER, 1));
    for (unsigned k = 0; k < sizeof quotas / sizeof quotas[0]; k++) {
        CHECK(tick_hall(5, quotas[k], 5) == 0);
        for (unsigned i = 0; i < 5; i++) {
            bool goes = sent[k] >> i & 1;
            CHECK(damper_hall_is_report(now.numbers[i]) == goes && (now.row[i].wait == 0) == goes);
        }
    }
    now.row[0].wait = 65534; /* rises to 65,535, and yet goes behind one that has stopped there */
    now.row[4].wait = UINT16_MAX;
    CHECK(tick_hall(5, 1, 5) == 0 && damper_hall_is_report(now.numbers[4]) && now.row[0].wait == UINT16_MAX);
}

/* The shift page: a line for each commander, a damaged drive, the status of the record as it is, and the refusals. */
static void hall_page(damper_drive fresh)
{
    const size_t most = DAMPER_HALL_MOST, line = DAMPER_HALL_LINE;
    const unsigned no_hall = DAMPER_HALL_REFUSAL_ROW, no_page = DAMPER_HALL_REFUSAL_PAGE;
    CHECK(line == 29 && no_page == 17);

    damper_drive damaged = fresh, last_tick = with_setpoint(fresh, 128);
    damaged.commands.hand = 2;
    damaged.position = 200;
    last_tick.age = last_tick.params[DAMPER_PLACE_TIMEOUT];
    last_tick.position = 254;
    const damper_drive row[] = {
        fresh,
        with_setpoint(fresh, 128),
        after(fresh, DAMPER_KIND_LTE_SETPOINT, DAMPER_LTE_PROPERTY(1), 50, DAMPER_LTE_OVERRIDE),
        after(fresh, DAMPER_KIND_HAND, 1, 100, 0),
        after(fresh, DAMPER_KIND_CALIBRATION, 0, 0, 0),
        after(fresh, DAMPER_KIND_FORCING, DAMPER_FORCING_TO_255, 0, 0),
        after(fresh, DAMPER_KIND_FAULT, 1, 0, 0),
        damaged,
        last_tick,
        give(after(fresh, DAMPER_KIND_FORCING, DAMPER_FORCING_TO_255, 0, 0), DAMPER_KIND_TICK, 0, 0, 0).drive,
        fresh,
    };
    const size_t drives = sizeof row / sizeof row[0];
    fill_hall(fresh);
    memcpy(now.row, row, sizeof row);
    CHECK(page_hall(drives, sizeof now.page) == 0);
    CHECK(page_is(" 0   0   0 backup   00100000\n"
                  " 1   0   0 bus      00000000\n"
                  " 2   0   0 tool     00100010\n"
                  " 3   0   0 hand     00100010\n"
                  " 4   0   0 run      00100100\n"
                  " 5   0   0 forced   00110000\n"
                  " 6   0   0 fault    00100001\n"
                  " 7 --- --- -------- --------\n"
                  " 8 254 100 bus      00000000\n"
                  " 9   5   2 forced   00110000\n"
                  "10   0   0 backup   00100000\n"));
    /* The tick that follows is ruled by backup. */
    damper_stepped s = damper_step(last_tick, a_tick, sizeof a_tick);
    CHECK(damper_answer_rank(s.word, s.code) == DAMPER_RANK_BACKUP);

    fill_hall(fresh);
    CHECK(page_hall(1, line) == 0 && page_is(" 0   0   0 backup   00100000\n"));
    CHECK(page_hall(0, sizeof now.page) == no_hall && untouched() && page_hall(0, 0) == no_hall && untouched());
    CHECK(page_hall(most + 1, sizeof now.page) == no_hall && untouched() && page_hall(most + 1, 0) == no_hall && untouched());
    CHECK(page_hall(SIZE_MAX, 0) == no_hall && untouched() && page_hall(SIZE_MAX / line + 1, 0) == no_hall && untouched());
    CHECK(page_hall(1, 0) == no_page && untouched() && page_hall(1, line - 1) == no_page && untouched());
    for (size_t many = 1; many <= most; many++) {
        CHECK(page_hall(many, many * line - 1) == no_page && untouched());
        CHECK(page_hall(many, many * (line - 1)) == no_page && untouched());
        CHECK(page_hall(many, many * line) == 0);
        CHECK(now.page[many * line - 1] == '\n' && now.page[many * line] == UNSET);
        CHECK(now.page[(many - 1) * line + 1] == '0' + (many - 1) % 10);
    }
}

/* The travel: each tick's move, up and down, alone and in a hall, sent or held; nothing else but the cap. */
static void travels(damper_drive fresh)
{
    damper_drive d = ticked(with_setpoint(fresh, 12), 3);
    CHECK(fresh.travel == 0 && d.position == 12 && d.travel == 12);
    d = ticked(with_setpoint(d, 0), 4);
    CHECK(d.position == 0 && d.travel == 24);
    CHECK(after(d, DAMPER_KIND_RESTART, 0, 0, 0).travel == 24 && with_setpoint(d, 255).travel == 24);
    CHECK(give(d, DAMPER_KIND_READ_POSITION, 0, 0, 0).drive.travel == 24);
    const uint8_t damaged[] = {DAMPER_MARK_0, DAMPER_MARK_1, DAMPER_KIND_TICK, 0, 0, 1};
    CHECK(damper_step(with_setpoint(d, 255), damaged, sizeof damaged).drive.travel == 24);
    d.travel = UINT32_MAX - 6;
    CHECK(damper_well_formed(d));
    d = ticked(with_setpoint(d, 255), 1);
    CHECK(d.travel == UINT32_MAX - 1);
    d = ticked(d, 1);
    CHECK(d.travel == UINT32_MAX && d.position == 10);
    d = ticked(d, 1);
    CHECK(d.travel == UINT32_MAX && d.position == 15);

    fill_hall(with_param(with_setpoint(fresh, 255), DAMPER_NUMBER_MIN_REP_TIME, 1));
    CHECK(tick_hall(2, 1, 2) == 0 && damper_hall_is_report(now.numbers[0]) && now.numbers[1] == DAMPER_HALL_SILENT);
    CHECK(now.row[0].travel == 5 && now.row[1].travel == 5 && now.row[1].wait == 1);
}

static unsigned share_out(size_t drives, uint64_t bill, size_t places)
{
    memcpy(&was, &now, sizeof now);
    return damper_hall_bill(now.row, drives, bill, now.shares, places);
}

/* Whether the first shares are these, and all else is as it was. */
static bool shares_are(const uint32_t *shares, size_t drives)
{
    bool same = !memcmp(now.shares, shares, drives * sizeof shares[0]);
    memcpy(now.shares, was.shares, drives * sizeof shares[0]);
    return same && untouched();
}

/* The bill: rounded-down shares, left-over cents to the largest remainders, ties by number, damaged drives, and the refusals. */
static void hall_bill(damper_drive fresh)
{
    const size_t most = DAMPER_HALL_MOST;
    const uint64_t dear = DAMPER_HALL_BILL;
    const unsigned no_hall = DAMPER_HALL_REFUSAL_ROW, no_bill = DAMPER_HALL_REFUSAL_BILL, unmoved = DAMPER_HALL_REFUSAL_UNMOVED;
    CHECK(no_bill == 20 && unmoved == 21 && dear == 1000000000);

    fill_hall(fresh);
    CHECK(share_out(0, dear + 1, 1) == no_hall && untouched() && share_out(most + 1, 0, 0) == no_hall && untouched());
    CHECK(share_out(SIZE_MAX, 0, SIZE_MAX) == no_hall && untouched());
    CHECK(share_out(3, dear + 1, 3) == no_bill && untouched() && share_out(3, UINT64_C(4294967301), 3) == no_bill && untouched());
    CHECK(share_out(3, UINT64_MAX, 3) == no_bill && untouched());
    CHECK(share_out(3, 5, 2) == no_bill && untouched() && share_out(3, 5, 4) == no_bill && untouched());
    CHECK(share_out(3, 5, 0) == no_bill && untouched());
    CHECK(share_out(3, 5, 3) == unmoved && untouched() && share_out(3, 0, 3) == unmoved && untouched());

    /* A larger bill may lower a share: the middle one here. */
    const uint32_t by_27[] = {15, 2, 10}, by_28[] = {16, 1, 11}, nothing[] = {0, 0, 0};
    now.row[0].travel = 10;
    now.row[1].travel = 1;
    now.row[2].travel = 7;
    CHECK(share_out(3, 27, 3) == 0 && shares_are(by_27, 3));
    CHECK(share_out(3, 28, 3) == 0 && shares_are(by_28, 3));
    CHECK(share_out(3, 0, 3) == 0 && shares_are(nothing, 3));

    /* Four drives that moved as far, one of them damaged, share three cents by number; one that has not moved pays nothing. */
    const uint32_t by_number[] = {0, 1, 1, 1, 0}, all_alike[] = {0, 250000000, 250000000, 250000000, 250000000};
    fill_hall(fresh);
    for (size_t i = 1; i < 5; i++)
        now.row[i].travel = UINT32_MAX;
    now.row[2].commands.hand = 2;
    CHECK(share_out(5, 3, 5) == 0 && shares_are(by_number, 5));
    CHECK(share_out(5, dear, 5) == 0 && shares_are(all_alike, 5));

    /* Each hall, up to the largest: the shares add up. */
    for (size_t i = 0; i < most; i++)
        now.row[i].travel = (uint32_t)(UINT32_MAX - 7919 * i * i);
    for (size_t drives = 1; drives <= most; drives++) {
        CHECK(share_out(drives, dear - drives, drives) == 0);
        uint64_t sum = 0;
        for (size_t i = 0; i < drives; i++)
            sum += now.shares[i];
        CHECK(sum == dear - drives && now.shares[drives] == was.shares[drives]);
    }
}

/* The tick that would follow is the one that does, and each of its reasons is there without the others. */
static void outlooks(damper_drive fresh)
{
    damper_drive d = with_param(with_param(fresh, DAMPER_NUMBER_MIN_REP_TIME, 2), DAMPER_NUMBER_REP_PER, 4);
    damper_outlook o = damper_look_ahead(with_setpoint(d, 200));
    CHECK(o.refusal == 0 && o.rank == DAMPER_RANK_BUS && o.target == 200 && o.position == 5 && o.status == 0);
    CHECK(!o.waited && o.first && !o.changed && !o.differs && !o.period);
    d = ticked(d, 1);
    o = damper_look_ahead(d);
    CHECK(o.rank == DAMPER_RANK_BACKUP && o.target == 0 && o.position == 0 && o.status == DAMPER_STATUS_NO_BUS);
    CHECK(o.waited && o.first && !o.changed && !o.differs && !o.period && reports(d));
    d = ticked(d, 2);
    o = damper_look_ahead(d);
    CHECK(o.waited && !o.first && !o.changed && !o.differs && !o.period && !reports(d));
    o = damper_look_ahead(after(d, DAMPER_KIND_HAND, 1, 0, 0));
    CHECK(o.waited && !o.first && !o.changed && o.differs && !o.period);
    o = damper_look_ahead(with_param(with_param(d, DAMPER_NUMBER_BACKUP_VALUE, 50), DAMPER_NUMBER_RATE, 7));
    CHECK(o.target == 127 && o.position == 7 && o.waited && !o.first && o.changed && !o.differs && !o.period);
    o = damper_look_ahead(ticked(d, 2));
    CHECK(o.waited && !o.first && !o.changed && !o.differs && o.period);
    damper_drive broken = fresh;
    broken.commands.fault = 2;
    o = damper_look_ahead(broken);
    CHECK(o.refusal == DAMPER_REFUSAL_RECORD && o.rank == 0 && o.target == 0 && o.position == 0 && o.status == 0);
    CHECK(!o.waited && !o.first && !o.changed && !o.differs && !o.period);
}

/* The findings, the last of which is the lowest bit. */
static unsigned findings(damper_findings f)
{
    const bool all[] = {f.spacing,   f.waiting,     f.moving, f.position, f.content,
                        f.othermove, f.otherreport, f.due,    f.refusal,  f.answer};
    unsigned bits = 0;
    for (size_t i = 0; i < sizeof all / sizeof all[0]; i++)
        bits = 2 * bits + all[i];
    return bits;
}

/* The audit after an answer to an event, and in `found` what it found. */
static unsigned found;

static damper_audit heard(damper_audit a, unsigned kind, unsigned v, unsigned b, unsigned c, uint8_t word, uint32_t code)
{
    uint8_t bytes[DAMPER_EVENT_LENGTH] = {DAMPER_MARK_0, DAMPER_MARK_1, (uint8_t)kind, (uint8_t)v, (uint8_t)b, (uint8_t)c};
    damper_audited r = damper_audit_hear(a, bytes, sizeof bytes, word, code);
    CHECK(r.refusal == 0);
    found = findings(r.findings);
    return r.audit;
}

/* The float of these bits. */
static float of_bits(uint32_t bits)
{
    float f;
    memcpy(&f, &bits, sizeof f);
    return f;
}

/* The refusal of a reading. */
static unsigned flow_refusal(damper_flow flow, uint32_t kind, float value)
{
    damper_flow_heard h = damper_flow_hear(flow, kind, value);
    CHECK(h.refusal == 0 || (h.reported == 0 && h.percent == 0 && h.flow == 0));
    CHECK((h.refusal == DAMPER_FLOW_REFUSAL_RECORD) == !damper_flow_well_formed(flow));
    /* What is refused leaves every field as it was, bit by bit. */
    CHECK(h.refusal == 0 || (h.state.since == flow.since && h.state.sent == flow.sent && h.state.time == flow.time &&
                             memcmp(&h.state.nominal, &flow.nominal, sizeof(float)) == 0 &&
                             memcmp(&h.state.cov, &flow.cov, sizeof(float)) == 0 &&
                             memcmp(&h.state.last, &flow.last, sizeof(float)) == 0));
    return h.refusal;
}

/* Each field of a flow box, kind of reading and refusal by what the box does with it. */
static void flows(void)
{
    damper_flow fresh = damper_flow_fresh(200, 10, 3);
    CHECK(fresh.nominal == 200 && fresh.cov == 10 && fresh.time == 3 && fresh.last == 0 && fresh.since == 0 && fresh.sent == 0);

    /* Ticks, the first report, and one that differs by enough and not too soon. */
    damper_flow_heard h = damper_flow_hear(fresh, DAMPER_FLOW_KIND_BROKEN, NAN);
    CHECK(h.refusal == 0 && h.reported == 0 && h.state.since == 1);
    h = damper_flow_hear(h.state, DAMPER_FLOW_KIND_FLOW, 60);
    CHECK(h.refusal == 0 && h.reported == 0 && h.state.since == 2 && h.state.sent == 0);
    h = damper_flow_hear(h.state, DAMPER_FLOW_KIND_SHARE, 0.25f);
    CHECK(h.reported == 1 && h.flow == 50 && h.percent == 25);
    CHECK(h.state.since == 0 && h.state.sent == 1 && h.state.last == 50);
    h = damper_flow_hear(h.state, DAMPER_FLOW_KIND_FLOW, 200);
    CHECK(h.reported == 0 && h.state.since == 1 && h.state.last == 50);
    h.state.since = 2;
    CHECK(damper_flow_hear(h.state, DAMPER_FLOW_KIND_FLOW, 60).reported == 1);
    CHECK(damper_flow_hear(h.state, DAMPER_FLOW_KIND_FLOW, 40).reported == 1);
    CHECK(damper_flow_hear(h.state, DAMPER_FLOW_KIND_FLOW, 59.5f).reported == 0);
    CHECK(damper_flow_hear(h.state, DAMPER_FLOW_KIND_FLOW, 200).percent == 100);
    h.state.since = 65535;
    CHECK(damper_flow_hear(h.state, DAMPER_FLOW_KIND_BROKEN, 0).state.since == 65535);

    /* Ends of the ranges, both in, and what is next to them. */
    CHECK(flow_refusal(damper_flow_fresh(DAMPER_FLOW_MOST, 1, DAMPER_FLOW_TIME), DAMPER_FLOW_KIND_FLOW, DAMPER_FLOW_MOST) == 0);
    CHECK(flow_refusal(damper_flow_fresh(1, 1, DAMPER_FLOW_TIME + 1), DAMPER_FLOW_KIND_FLOW, 0) == DAMPER_FLOW_REFUSAL_RECORD);
    CHECK(flow_refusal(fresh, DAMPER_FLOW_KIND_FLOW, DAMPER_FLOW_MOST + 1) == DAMPER_FLOW_REFUSAL_READING);
    const float below_0 = of_bits(0x80000001), below_1 = of_bits(0x3F7FFFFF), above_1 = of_bits(0x3F800001);
    const float above_million = of_bits(0x49742401);
    CHECK(flow_refusal(damper_flow_fresh(1, 1, 1), DAMPER_FLOW_KIND_FLOW, 0) == 0);
    CHECK(flow_refusal(damper_flow_fresh(1e6f, 1e6f, 3600), DAMPER_FLOW_KIND_FLOW, 1e6f) == 0);
    const struct {
        float nominal, cov, last;
        uint32_t time;
        uint8_t sent;
    } bad[] = {
        {below_1, 1, 0, 1, 0}, {above_million, 1, 0, 1, 0}, {NAN, 1, 0, 1, 0}, {INFINITY, 1, 0, 1, 0},
        {1, below_1, 0, 1, 0}, {1, above_million, 0, 1, 0}, {1, NAN, 0, 1, 0}, {1, INFINITY, 0, 1, 0},
        {1, 1, below_0, 1, 0}, {1, 1, above_million, 1, 0}, {1, 1, NAN, 1, 1}, {1, 1, -INFINITY, 1, 0},
        {1, 1, 0, 0, 0}, {1, 1, 0, 3601, 0}, {1, 1, 0, 65536 + 10, 0}, {1, 1, 0, 1, 2}, {1, 1, 0, 1, 255},
    };
    for (size_t i = 0; i < sizeof bad / sizeof *bad; i++) {
        damper_flow d = damper_flow_fresh(bad[i].nominal, bad[i].cov, bad[i].time);
        d.last = bad[i].last;
        d.sent = bad[i].sent;
        CHECK(flow_refusal(d, DAMPER_FLOW_KIND_FLOW, NAN) == DAMPER_FLOW_REFUSAL_RECORD);
        CHECK(flow_refusal(d, DAMPER_FLOW_KIND_BROKEN, 0) == DAMPER_FLOW_REFUSAL_RECORD);
    }
    CHECK(flow_refusal(fresh, DAMPER_FLOW_KIND_FLOW, below_0) == DAMPER_FLOW_REFUSAL_READING);
    CHECK(flow_refusal(fresh, DAMPER_FLOW_KIND_FLOW, above_million) == DAMPER_FLOW_REFUSAL_READING);
    CHECK(flow_refusal(fresh, DAMPER_FLOW_KIND_FLOW, NAN) == DAMPER_FLOW_REFUSAL_READING);
    CHECK(flow_refusal(fresh, DAMPER_FLOW_KIND_SHARE, 1) == 0);
    CHECK(flow_refusal(fresh, DAMPER_FLOW_KIND_SHARE, above_1) == DAMPER_FLOW_REFUSAL_READING);
    CHECK(flow_refusal(fresh, DAMPER_FLOW_KIND_SHARE, -NAN) == DAMPER_FLOW_REFUSAL_READING);
    CHECK(flow_refusal(fresh, DAMPER_FLOW_KIND_BROKEN, NAN) == 0);
    for (unsigned bit = 0; bit < 32; bit++)
        if (1u << bit > DAMPER_FLOW_KIND_BROKEN)
            CHECK(flow_refusal(fresh, 1u << bit | DAMPER_FLOW_KIND_BROKEN, 0) == DAMPER_FLOW_REFUSAL_READING);
    CHECK(flow_refusal(fresh, 3, 0) == DAMPER_FLOW_REFUSAL_READING);

    /* -0 is 0, and keeps its sign. */
    h = damper_flow_hear(damper_flow_fresh(1, 1, 1), DAMPER_FLOW_KIND_FLOW, -0.0f);
    CHECK(h.reported == 1 && signbit(h.flow) && signbit(h.state.last) && h.percent == 0);
}

/* Nothing in what the drive itself answers; each finding by a wrong answer, with those that follow from it. */
static void audits(damper_drive fresh)
{
    const damper_audit start = damper_audit_fresh();
    CHECK(same(start.drive, fresh) && start.seen == 0 && start.apart == 65535);
    damper_audit a = start;
    damper_drive d = fresh;
    for (unsigned i = 0; i < 600; i++) { /* ticks, and in turn every kind, accepted and refused */
        const unsigned kind = 1 + (i % 5 ? 0 : i / 5 % 11), v = i % 3 ? 0 : 1 + i % 2 * 116, c = i % 7;
        damper_stepped s = give(d, kind, v, 0, c);
        a = heard(a, kind, v, 0, c, s.word, s.code);
        CHECK(found == 0 && same(a.drive, s.drive));
        s = tick(s.drive);
        a = heard(a, DAMPER_KIND_TICK, 0, 0, 0, s.word, s.code);
        CHECK(found == 0 && same(a.drive, s.drive));
        d = s.drive;
    }
    const uint8_t silent = DAMPER_WORD_TICK, report = DAMPER_WORD_REPORT;
    const damper_audit each = heard(start, DAMPER_KIND_WRITE, DAMPER_NUMBER_MIN_REP_TIME, 0, 1, DAMPER_WORD_OK, 0);
    CHECK(found == 0);
    const damper_audit reported = heard(each, DAMPER_KIND_TICK, 0, 0, 0, report, DAMPER_STATUS_NO_BUS);
    CHECK(found == 0 && reported.apart == 0 && reported.drive.last.reported == 1);
    a = heard(reported, DAMPER_KIND_WRITE, DAMPER_NUMBER_MIN_REP_TIME, 0, 2, DAMPER_WORD_OK, 0);
    heard(a, DAMPER_KIND_TICK, 0, 0, 0, report, DAMPER_STATUS_NO_BUS);
    CHECK(found == (1u << 9 | 1u << 2 | 1)); /* spacing, due, answer */
    heard(each, DAMPER_KIND_TICK, 0, 0, 0, silent, 0);
    CHECK(found == (1u << 8 | 1u << 2 | 1)); /* waiting, due, answer */
    heard(start, DAMPER_KIND_TICK, 0, 0, 0, silent, 1u << 16);
    CHECK(found == (1u << 7 | 1u << 6 | 1)); /* moving, position, answer */
    heard(each, DAMPER_KIND_TICK, 0, 0, 0, report, 0);
    CHECK(found == (1u << 5 | 1)); /* content, answer */
    a = heard(start, DAMPER_KIND_READ_POSITION, 0, 0, 0, DAMPER_WORD_AT, 1u << 16 | DAMPER_STATUS_NO_BUS);
    CHECK(found == (1u << 6 | 1u << 4 | 1) && a.seen == 1); /* position, othermove, answer */
    heard(a, DAMPER_KIND_TICK, 0, 0, 0, silent, 0);
    CHECK(found == 0); /* and by a tick it is back where it belongs */
    heard(start, DAMPER_KIND_RESTART, 0, 0, 0, report, DAMPER_STATUS_NO_BUS);
    CHECK(found == (1u << 3 | 1)); /* otherreport, answer */
    heard(start, DAMPER_KIND_CALIBRATION, 0, 0, 0, DAMPER_WORD_NO, DAMPER_REFUSAL_CALIBRATION);
    CHECK(found == (1u << 1 | 1)); /* refusal, answer */
    heard(start, DAMPER_KIND_READ_PARAMETER, DAMPER_NUMBER_RATE, 0, 0, DAMPER_WORD_PAR, 6);
    CHECK(found == 1); /* answer */
    heard(each, DAMPER_KIND_TICK, 0, 0, 0, 255, DAMPER_STATUS_NO_BUS);
    CHECK(found == 0); /* a word above REPORT */
    a = start;
    a.drive.commands.fault = 2;
    damper_audited r = damper_audit_hear(a, NULL, 0, DAMPER_WORD_OK, 0);
    CHECK(r.refusal == DAMPER_REFUSAL_RECORD && findings(r.findings) == 0 && r.audit.drive.commands.fault == 2);
}

static void null_pointers(damper_drive fresh)
{
    uint8_t word = 9;
    uint32_t code = 9;
    const uint8_t record[6] = {DAMPER_MARK_0, DAMPER_MARK_1, DAMPER_KIND_TICK, 0, 0, 0};
    CHECK(damper_read(NULL, 0).refusal == DAMPER_REFUSAL_LENGTH);
    CHECK(damper_write(NULL, 0, DAMPER_KIND_TICK, 0, 0, 0) == DAMPER_REFUSAL_LENGTH);
    damper_stepped s = damper_step(fresh, NULL, 0);
    CHECK(s.word == DAMPER_WORD_NO && s.code == DAMPER_REFUSAL_LENGTH && s.drive.params[DAMPER_PLACE_RATE] == 5);
    CHECK(damper_replay(fresh, NULL, 0, NULL, 0, NULL, 0).count == 0);
    CHECK(damper_replay(fresh, NULL, 0, &word, 1, &code, 1).count == 0);
    CHECK(damper_replay(fresh, record, sizeof record, NULL, 0, &code, 1).count == 0);
    CHECK(damper_replay(fresh, record, sizeof record, &word, 1, NULL, 0).count == 0 && word == 9 && code == 9);

    const uint32_t list[1] = {0};
    CHECK(damper_hall_event(NULL, 0, NULL, 0, NULL, 0, NULL, 0) == DAMPER_HALL_REFUSAL_ROW);
    CHECK(damper_hall_event(&fresh, 1, NULL, 0, NULL, 0, NULL, 0) == 0);
    CHECK(damper_hall_event(&fresh, 1, list, 1, NULL, 0, &word, 1) == 0 && word == DAMPER_REFUSAL_LENGTH);
    CHECK(damper_hall_event(&fresh, 1, list, 1, NULL, 0, NULL, 0) == DAMPER_HALL_REFUSAL_CALL);
    CHECK(damper_hall_tick(NULL, 0, 1, NULL, 0) == DAMPER_HALL_REFUSAL_ROW);
    CHECK(damper_hall_tick(&fresh, 1, 1, NULL, 0) == DAMPER_HALL_REFUSAL_CALL && fresh.since == 0);
    CHECK(damper_hall_page(NULL, 0, NULL, 0) == DAMPER_HALL_REFUSAL_ROW);
    CHECK(damper_hall_page(&fresh, 1, NULL, 0) == DAMPER_HALL_REFUSAL_PAGE);
    CHECK(damper_hall_bill(NULL, 0, 1, NULL, 0) == DAMPER_HALL_REFUSAL_ROW);
    CHECK(damper_hall_bill(&fresh, 1, 1, NULL, 0) == DAMPER_HALL_REFUSAL_BILL);

    damper_audited r = damper_audit_hear(damper_audit_fresh(), NULL, 0, DAMPER_WORD_NO, DAMPER_REFUSAL_LENGTH);
    CHECK(r.refusal == 0 && findings(r.findings) == 0);
}

int main(void)
{
    damper_drive fresh = damper_fresh();
    CHECK(damper_well_formed(fresh));
    kinds(fresh);
    fields(fresh);
    table(fresh);
    parameters(fresh);
    refusals(fresh);
    ranks_and_status(fresh);
    decoders();
    answers(fresh);
    percents(fresh);
    reader_and_writer();
    replay(fresh);
    hall_events(fresh);
    hall_refusals(fresh);
    hall_numbers(fresh);
    percent_positions(fresh);
    hall_quota(fresh);
    hall_page(fresh);
    travels(fresh);
    hall_bill(fresh);
    outlooks(fresh);
    audits(fresh);
    flows();
    null_pointers(fresh);
    printf("header in %s: %u checks agree with the archives\n",
#ifdef __cplusplus
           "C++",
#else
           "C",
#endif
           checks);
    return 0;
}
