/*
 * The damper drive of document 01, with the percents of request W-202, the hall of request W-201 with the quota of requests
 * W-204 and W-210 and the refusal of repeats of request W-205, the shift page of request W-203, and the travel of request
 * W-208.
 */
#include "plain.h"

#include <string.h>

static const uint16_t least[DAMPER_PARAMETERS] = {1, 0, 1, 1, 0, 0, 0, 1, 1, 1, 0, 0};
static const uint16_t most[DAMPER_PARAMETERS] = {4, 1, 100, 3600, 1, 100, 2, 7200, 7200, 255, 255, 255};

/* The parameter of a number, or DAMPER_PARAMETERS. */
static unsigned numbered(uint8_t number)
{
    switch (number) {
    case DAMPER_NUMBER_MODE: return DAMPER_PLACE_MODE;
    case DAMPER_NUMBER_OPEN_CLOSE_DIRECTION: return DAMPER_PLACE_OPEN_CLOSE_DIRECTION;
    case DAMPER_NUMBER_ACT_POS_COV: return DAMPER_PLACE_ACT_POS_COV;
    case DAMPER_NUMBER_MIN_REP_TIME: return DAMPER_PLACE_MIN_REP_TIME;
    case DAMPER_NUMBER_BACKUP_MODE: return DAMPER_PLACE_BACKUP_MODE;
    case DAMPER_NUMBER_BACKUP_VALUE: return DAMPER_PLACE_BACKUP_VALUE;
    case DAMPER_NUMBER_START_SYNCHRONIZATION: return DAMPER_PLACE_START_SYNCHRONIZATION;
    case DAMPER_NUMBER_TIMEOUT: return DAMPER_PLACE_TIMEOUT;
    case DAMPER_NUMBER_REP_PER: return DAMPER_PLACE_REP_PER;
    case DAMPER_NUMBER_RATE: return DAMPER_PLACE_RATE;
    case DAMPER_NUMBER_LOW: return DAMPER_PLACE_LOW;
    case DAMPER_NUMBER_HIGH: return DAMPER_PLACE_HIGH;
    default: return DAMPER_PARAMETERS;
    }
}

typedef struct {
    uint8_t word;
    uint32_t code;
} answer;

static const answer ok = {DAMPER_WORD_OK, 0};

static answer refused(uint8_t number)
{
    return (answer){DAMPER_WORD_NO, number};
}

/* Three bytes of a code. */
static uint32_t code_of(uint8_t first, uint8_t second, uint8_t third)
{
    return (uint32_t)first << 16 | (uint32_t)second << 8 | third;
}

/* The nearest position, halves down. */
static uint8_t position_of(unsigned percent)
{
    return (uint8_t)((255 * percent + 49) / 100);
}

/* The nearest percent; there is no half. */
static uint8_t percent_of(unsigned position)
{
    return (uint8_t)((100 * position + 127) / 255);
}

static bool forced(const damper_drive *d)
{
    return d->commands.forcing >= DAMPER_FORCING_TO_0;
}

static bool bus_active(const damper_drive *d)
{
    return d->commands.stored && d->age <= d->params[DAMPER_PLACE_TIMEOUT];
}

/* The bits of enum damper_status: what is active, and not what rules. */
static uint8_t status(const damper_drive *d)
{
    return (uint8_t)(d->commands.fault | (d->commands.hand | d->commands.tool) << 1 |
                     (d->run.kind == DAMPER_RUN_CALIBRATION) << 2 | (d->run.kind >= DAMPER_RUN_SYNC_CLOSE) << 3 |
                     forced(d) << 4 | !bus_active(d) << 5);
}

/* Well-formedness. */

static bool params_in_range(const damper_drive *d)
{
    unsigned outside = 0;
    for (unsigned i = 0; i < DAMPER_PARAMETERS; i++)
        outside |= (d->params[i] < least[i]) | (d->params[i] > most[i]);
    return !outside;
}

static bool flags_are_flags(const damper_drive *d)
{
    return (d->commands.fault | d->commands.hand | d->commands.tool | d->commands.stored | d->last.reported) <= 1;
}

static bool run_fits(const damper_drive *d)
{
    if (d->run.kind == DAMPER_RUN_NONE)
        return d->run.left == 0;
    /* At most K ticks left, K being 255 / Rate rounded up, without the division. */
    bool at_most_k = (d->run.left - 1) * d->params[DAMPER_PLACE_RATE] < 255;
    return d->run.kind <= DAMPER_RUN_SYNC_OPEN && d->run.left > 0 && at_most_k && !d->commands.fault && !forced(d);
}

/* What stands beside a flag that is off. */
static unsigned stray(uint8_t flag, unsigned value)
{
    return flag ? 0 : value;
}

static bool absent_reads_0(const damper_drive *d)
{
    return !(stray(d->commands.hand, d->commands.handpos) | stray(d->commands.tool, d->commands.toolpos) |
             stray(d->commands.stored, d->commands.setpoint | d->age) |
             stray(d->last.reported, d->last.position | d->last.status));
}

static bool well_formed(const damper_drive *d)
{
    return params_in_range(d) && d->params[DAMPER_PLACE_LOW] <= d->params[DAMPER_PLACE_HIGH] && flags_are_flags(d) &&
           d->commands.forcing <= DAMPER_FORCING_TO_255 && run_fits(d) && absent_reads_0(d);
}

/* The run. */

static void start_run(damper_drive *d, uint8_t kind)
{
    d->run.kind = kind;
    d->run.left = (uint8_t)((254 + d->params[DAMPER_PLACE_RATE]) / d->params[DAMPER_PLACE_RATE]);
}

static void end_run(damper_drive *d)
{
    d->run.kind = DAMPER_RUN_NONE;
    d->run.left = 0;
}

static void pass_tick_of_run(damper_drive *d)
{
    if (d->run.left > 1)
        d->run.left--;
    else
        end_run(d);
}

/* The tick. */

static void count_one(uint16_t *ticks)
{
    if (*ticks < UINT16_MAX)
        ++*ticks;
}

static uint8_t limited(const damper_drive *d, uint8_t position)
{
    if (position < d->params[DAMPER_PLACE_LOW])
        return (uint8_t)d->params[DAMPER_PLACE_LOW];
    if (position > d->params[DAMPER_PLACE_HIGH])
        return (uint8_t)d->params[DAMPER_PLACE_HIGH];
    return position;
}

static uint8_t ruling_rank(const damper_drive *d)
{
    if (d->commands.fault)
        return DAMPER_RANK_FAULT;
    if (forced(d))
        return DAMPER_RANK_FORCING;
    if (d->run.kind)
        return DAMPER_RANK_RUN;
    if (d->commands.hand)
        return DAMPER_RANK_HAND;
    if (d->commands.tool)
        return DAMPER_RANK_TOOL;
    return bus_active(d) ? DAMPER_RANK_BUS : DAMPER_RANK_BACKUP;
}

static uint8_t backup_target(const damper_drive *d)
{
    if (d->params[DAMPER_PLACE_BACKUP_MODE] == 0)
        return limited(d, position_of(d->params[DAMPER_PLACE_BACKUP_VALUE]));
    return d->commands.stored ? limited(d, d->commands.setpoint) : d->position;
}

static uint8_t target_of(const damper_drive *d, uint8_t rank)
{
    switch (rank) {
    case DAMPER_RANK_FAULT: return d->position;
    case DAMPER_RANK_FORCING: return d->commands.forcing == DAMPER_FORCING_TO_255 ? 255 : 0;
    case DAMPER_RANK_RUN: return d->run.kind == DAMPER_RUN_SYNC_OPEN ? 255 : 0;
    case DAMPER_RANK_HAND: return limited(d, d->commands.handpos);
    case DAMPER_RANK_TOOL: return limited(d, d->commands.toolpos);
    case DAMPER_RANK_BUS: return limited(d, d->commands.setpoint);
    default: return backup_target(d);
    }
}

static uint8_t moved(int position, int target, int rate)
{
    if (target > position + rate)
        return (uint8_t)(position + rate);
    if (target < position - rate)
        return (uint8_t)(position - rate);
    return (uint8_t)target;
}

static uint8_t motor(const damper_drive *d, uint8_t before)
{
    if (d->position == before)
        return DAMPER_MOTOR_STILL;
    bool forward = (d->position > before) != d->params[DAMPER_PLACE_OPEN_CLOSE_DIRECTION];
    return forward ? DAMPER_MOTOR_FORWARD : DAMPER_MOTOR_REVERSE;
}

static bool report_due(const damper_drive *d, uint8_t now)
{
    if (d->since < d->params[DAMPER_PLACE_MIN_REP_TIME])
        return false;
    int distance = d->position - d->last.position;
    if (distance < 0)
        distance = -distance;
    return !d->last.reported || 100 * distance >= 255 * d->params[DAMPER_PLACE_ACT_POS_COV] || now != d->last.status ||
           d->since >= d->params[DAMPER_PLACE_REP_PER];
}

static void move_to(damper_drive *d, uint8_t position)
{
    uint8_t way = position > d->position ? position - d->position : d->position - position;
    d->travel = d->travel > UINT32_MAX - way ? UINT32_MAX : d->travel + way;
    d->position = position;
}

/* Steps 1 to 3; gives the rank that ruled. */
static uint8_t advance(damper_drive *d)
{
    count_one(&d->since);
    if (d->commands.stored)
        count_one(&d->age);
    uint8_t rank = ruling_rank(d);
    move_to(d, moved(d->position, target_of(d, rank), d->params[DAMPER_PLACE_RATE]));
    pass_tick_of_run(d);
    return rank;
}

/* Step 4 where it reports. */
static void report(damper_drive *d, uint8_t now)
{
    d->since = 0;
    d->last.reported = 1;
    d->last.position = d->position;
    d->last.status = now;
}

static answer tick(damper_drive *d)
{
    uint8_t before = d->position;
    uint8_t rank = advance(d);
    uint32_t code = code_of(d->position, rank, motor(d, before));
    uint8_t now = status(d);
    if (!report_due(d, now))
        return (answer){DAMPER_WORD_TICK, code};
    report(d, now);
    return (answer){DAMPER_WORD_REPORT, code << 8 | now};
}

/* The other events; unused bytes have been looked at. */

static answer store(damper_drive *d, uint8_t position)
{
    d->commands.stored = 1;
    d->commands.setpoint = position;
    d->age = 0;
    return ok;
}

static answer lte_setpoint(damper_drive *d, uint8_t property, uint8_t percent, uint8_t command)
{
    if (property < DAMPER_LTE_PROPERTY(1) || property > DAMPER_LTE_PROPERTY(4))
        return refused(DAMPER_REFUSAL_SELECTOR);
    if (command > DAMPER_LTE_RELEASE)
        return refused(DAMPER_REFUSAL_COMMAND);
    if (command != DAMPER_LTE_RELEASE && percent > 100)
        return refused(DAMPER_REFUSAL_PERCENT);
    if (property != DAMPER_LTE_PROPERTY(d->params[DAMPER_PLACE_MODE]))
        return refused(DAMPER_REFUSAL_PROPERTY);
    if (command == DAMPER_LTE_WRITE)
        return store(d, position_of(percent));
    d->commands.tool = command == DAMPER_LTE_OVERRIDE;
    d->commands.toolpos = command == DAMPER_LTE_OVERRIDE ? position_of(percent) : 0;
    return ok;
}

static answer force(damper_drive *d, uint8_t forcing)
{
    if (forcing > DAMPER_FORCING_TO_255)
        return refused(DAMPER_REFUSAL_SELECTOR);
    d->commands.forcing = forcing;
    if (forced(d))
        end_run(d);
    return ok;
}

static answer set_hand(damper_drive *d, uint8_t on, uint8_t position)
{
    if (on > 1)
        return refused(DAMPER_REFUSAL_SELECTOR);
    d->commands.hand = on;
    d->commands.handpos = on ? position : 0;
    return ok;
}

static answer calibrate(damper_drive *d, uint8_t trigger)
{
    if (trigger > 1)
        return refused(DAMPER_REFUSAL_SELECTOR);
    if (d->commands.fault || forced(d))
        return refused(DAMPER_REFUSAL_CALIBRATION);
    start_run(d, DAMPER_RUN_CALIBRATION);
    return ok;
}

static answer set_fault(damper_drive *d, uint8_t present)
{
    if (present > 1)
        return refused(DAMPER_REFUSAL_SELECTOR);
    d->commands.fault = present;
    if (present)
        end_run(d);
    return ok;
}

static answer write_parameter(damper_drive *d, uint8_t number, uint16_t value)
{
    unsigned param = numbered(number);
    if (param == DAMPER_PARAMETERS)
        return refused(DAMPER_REFUSAL_SELECTOR);
    if (value < least[param] || value > most[param])
        return refused(DAMPER_REFUSAL_RANGE);
    if ((param == DAMPER_PLACE_LOW && value > d->params[DAMPER_PLACE_HIGH]) ||
        (param == DAMPER_PLACE_HIGH && value < d->params[DAMPER_PLACE_LOW]))
        return refused(DAMPER_REFUSAL_LIMITS);
    if (param == DAMPER_PLACE_RATE && d->run.kind)
        return refused(DAMPER_REFUSAL_RATE);
    d->params[param] = value;
    return ok;
}

/* Position, parameters and travel stay. */
static answer restart(damper_drive *d)
{
    memset(&d->commands, 0, sizeof d->commands);
    memset(&d->last, 0, sizeof d->last);
    d->age = 0;
    d->since = 0;
    d->wait = 0;
    end_run(d);
    if (d->params[DAMPER_PLACE_START_SYNCHRONIZATION])
        start_run(d, d->params[DAMPER_PLACE_START_SYNCHRONIZATION] == 1 ? DAMPER_RUN_SYNC_CLOSE : DAMPER_RUN_SYNC_OPEN);
    return ok;
}

static answer read_position(const damper_drive *d)
{
    return (answer){DAMPER_WORD_AT, code_of(d->position, percent_of(d->position), status(d))};
}

static answer read_parameter(const damper_drive *d, uint8_t number)
{
    unsigned param = numbered(number);
    if (param == DAMPER_PARAMETERS)
        return refused(DAMPER_REFUSAL_SELECTOR);
    return (answer){DAMPER_WORD_PAR, d->params[param]};
}

static answer step(damper_drive *d, const uint8_t *bytes, size_t length)
{
    if (!well_formed(d))
        return refused(DAMPER_REFUSAL_RECORD);
    if (length != DAMPER_EVENT_LENGTH)
        return refused(DAMPER_REFUSAL_LENGTH);
    if (bytes[0] != DAMPER_MARK_0 || bytes[1] != DAMPER_MARK_1)
        return refused(DAMPER_REFUSAL_MARK);

    uint8_t a = bytes[3], b = bytes[4], c = bytes[5];
    switch (bytes[2]) {
    case DAMPER_KIND_TICK: return a | b | c ? refused(DAMPER_REFUSAL_UNUSED) : tick(d);
    case DAMPER_KIND_SETPOINT: return b | c ? refused(DAMPER_REFUSAL_UNUSED) : store(d, a);
    case DAMPER_KIND_LTE_SETPOINT: return lte_setpoint(d, a, b, c);
    case DAMPER_KIND_FORCING: return b | c ? refused(DAMPER_REFUSAL_UNUSED) : force(d, a);
    case DAMPER_KIND_HAND: return c ? refused(DAMPER_REFUSAL_UNUSED) : set_hand(d, a, b);
    case DAMPER_KIND_CALIBRATION: return b | c ? refused(DAMPER_REFUSAL_UNUSED) : calibrate(d, a);
    case DAMPER_KIND_FAULT: return b | c ? refused(DAMPER_REFUSAL_UNUSED) : set_fault(d, a);
    case DAMPER_KIND_WRITE: return write_parameter(d, a, (uint16_t)(b << 8 | c));
    case DAMPER_KIND_RESTART: return a | b | c ? refused(DAMPER_REFUSAL_UNUSED) : restart(d);
    case DAMPER_KIND_READ_POSITION: return a | b | c ? refused(DAMPER_REFUSAL_UNUSED) : read_position(d);
    case DAMPER_KIND_READ_PARAMETER: return b | c ? refused(DAMPER_REFUSAL_UNUSED) : read_parameter(d, a);
    default: return refused(DAMPER_REFUSAL_KIND);
    }
}

void plain_step(damper_drive *d, const uint8_t *bytes, size_t length, uint8_t *word, uint32_t *code)
{
    answer given = step(d, bytes, length);
    *word = given.word;
    *code = given.code;
}

size_t plain_replay(damper_drive *d, const uint8_t *bytes, size_t length, uint8_t *words, size_t words_length, uint32_t *codes,
                    size_t codes_length)
{
    size_t room = words_length < codes_length ? words_length : codes_length;
    size_t done = 0;
    for (size_t at = 0; at < length && done < room; at += DAMPER_EVENT_LENGTH, done++)
        plain_step(d, bytes + at, length - at < DAMPER_EVENT_LENGTH ? length - at : DAMPER_EVENT_LENGTH, &words[done],
                   &codes[done]);
    return done;
}

/* The hall. */

static bool hall_fits(size_t drives)
{
    return drives > 0 && drives <= DAMPER_HALL_MOST;
}

static bool is_tick(const uint8_t *bytes, size_t length)
{
    static const uint8_t good[DAMPER_EVENT_LENGTH] = {DAMPER_MARK_0, DAMPER_MARK_1, DAMPER_KIND_TICK, 0, 0, 0};
    return length == sizeof good && memcmp(bytes, good, sizeof good) == 0;
}

/* Goes through the list and stops at a drive that has been named before; the numbers are drives of a row. */
static bool names_again(const uint32_t *list, size_t entries)
{
    bool named[DAMPER_HALL_MOST] = {false};
    for (size_t k = 0; k < entries; k++) {
        if (named[list[k]])
            return true;
        named[list[k]] = true;
    }
    return false;
}

uint8_t plain_hall_event(damper_drive *row, size_t drives, const uint32_t *list, size_t entries, const uint8_t *bytes,
                         size_t length, uint8_t *answers, size_t places)
{
    if (!hall_fits(drives))
        return DAMPER_HALL_REFUSAL_ROW;
    for (size_t k = 0; k < entries; k++)
        if (list[k] >= drives)
            return DAMPER_HALL_REFUSAL_NUMBER;
    if (is_tick(bytes, length) || entries > DAMPER_HALL_MOST || places < entries)
        return DAMPER_HALL_REFUSAL_CALL;
    if (names_again(list, entries))
        return DAMPER_HALL_REFUSAL_TWICE;
    for (size_t k = 0; k < entries; k++) {
        answer given = step(&row[list[k]], bytes, length);
        answers[k] = damper_answer_refusal(given.word, given.code);
    }
    return 0;
}

static uint8_t judge_tick(size_t drives, uint32_t quota, size_t places)
{
    if (!hall_fits(drives))
        return DAMPER_HALL_REFUSAL_ROW;
    if (places < drives)
        return DAMPER_HALL_REFUSAL_CALL;
    return quota < 1 || quota > DAMPER_HALL_QUOTA ? DAMPER_HALL_REFUSAL_QUOTA : 0;
}

/* Steps 1 to 3 for every drive, and the numbers without a report. Gives the due drives, drive i at bit i; they have their wait
 * still, and `now` has the status of each. */
static uint64_t advance_all(damper_drive *row, size_t drives, uint32_t *numbers, uint8_t *now)
{
    uint64_t due = 0;
    for (size_t i = 0; i < drives; i++) {
        damper_drive *d = &row[i];
        if (!well_formed(d)) {
            numbers[i] = DAMPER_HALL_NOT_WELL_FORMED;
            continue;
        }
        advance(d);
        numbers[i] = DAMPER_HALL_SILENT;
        now[i] = status(d);
        if (report_due(d, now[i]))
            due |= (uint64_t)1 << i;
        else
            d->wait = 0;
    }
    return due;
}

/* How many of these waits are as long as this one or longer. */
static uint16_t as_long(const uint16_t *waits, size_t many, uint16_t wait)
{
    uint16_t count = 0;
    for (size_t k = 0; k < many; k++)
        count += waits[k] >= wait;
    return count;
}

/* The longest wait that as many as the quota have reached, found from its highest bit down. */
static uint16_t reached_by(const uint16_t *waits, size_t many, uint32_t quota)
{
    uint16_t wait = 0;
    for (uint16_t bit = 0x8000; bit != 0; bit >>= 1)
        if (as_long(waits, many, wait | bit) >= quota)
            wait |= bit;
    return wait;
}

/* The shortest wait of a drive that goes, and how many with just that wait do; all that waited longer go. */
typedef struct {
    uint16_t wait;
    uint32_t places;
} limit;

static limit limit_of(const damper_drive *row, size_t drives, uint64_t due, uint32_t quota)
{
    uint16_t waits[DAMPER_HALL_MOST];
    size_t many = 0;
    for (size_t i = 0; i < drives; i++)
        if (due >> i & 1)
            waits[many++] = row[i].wait;
    if (many <= quota)
        return (limit){0, quota};
    uint16_t wait = reached_by(waits, many, quota);
    uint16_t longer = wait == UINT16_MAX ? 0 : as_long(waits, many, wait + 1);
    return (limit){wait, quota - longer};
}

/* A drive that is due goes, or waits one hall tick more. */
static void settle(damper_drive *d, bool sent, uint8_t now, uint32_t *number)
{
    if (!sent) {
        count_one(&d->wait);
        return;
    }
    report(d, now);
    d->wait = 0;
    *number = DAMPER_HALL_REPORT + 256u * d->position + now;
}

/* Exactly the smaller of the quota and the number due go, longest wait first, lower number among equals. */
uint8_t plain_hall_tick(damper_drive *row, size_t drives, uint32_t quota, uint32_t *numbers, size_t places)
{
    uint8_t refusal = judge_tick(drives, quota, places), now[DAMPER_HALL_MOST];
    if (refusal != 0)
        return refusal;
    uint64_t due = advance_all(row, drives, numbers, now);
    if (due == 0)
        return 0;
    limit last = limit_of(row, drives, due, quota);
    for (size_t i = 0; i < drives; i++) {
        if (!(due >> i & 1))
            continue;
        bool equal = row[i].wait == last.wait;
        bool sent = row[i].wait > last.wait || (equal && last.places > 0);
        last.places -= equal && sent;
        settle(&row[i], sent, now[i], &numbers[i]);
    }
    return 0;
}

/* The shift page. */

/* The first column of each field, and the line feed. */
enum { NUMBER_AT = 0, POSITION_AT = 3, PERCENT_AT = 7, RULING_AT = 11, STATUS_AT = 20, FEED_AT = 28 };

#define RULING_COLUMNS 8
#define STATUS_COLUMNS 8

/* By rank, filled up with blanks. */
static const char rulings[][RULING_COLUMNS + 1] = {
    [DAMPER_RANK_BACKUP] = "backup  ", [DAMPER_RANK_BUS] = "bus     ", [DAMPER_RANK_TOOL] = "tool    ",
    [DAMPER_RANK_HAND] = "hand    ",   [DAMPER_RANK_RUN] = "run     ", [DAMPER_RANK_FORCING] = "forced  ",
    [DAMPER_RANK_FAULT] = "fault   ",
};

static uint8_t digit(unsigned number)
{
    return (uint8_t)('0' + number % 10);
}

/* Numbers to the right, up to 99 and up to 999. */

static void put_in_2(uint8_t *field, unsigned number)
{
    field[0] = number < 10 ? ' ' : digit(number / 10);
    field[1] = digit(number);
}

static void put_in_3(uint8_t *field, unsigned number)
{
    field[0] = number < 100 ? ' ' : digit(number / 100);
    field[1] = number < 10 ? ' ' : digit(number / 10);
    field[2] = digit(number);
}

static void put_bits(uint8_t *field, unsigned bits)
{
    for (unsigned i = 0; i < STATUS_COLUMNS; i++)
        field[i] = (uint8_t)('0' + (bits >> (STATUS_COLUMNS - 1 - i) & 1));
}

static void put_line(uint8_t *line, unsigned number, const damper_drive *d)
{
    /* A record that is not well formed, but for its number. */
    static const char dashes[] = "   --- --- -------- --------\n";
    memcpy(line, dashes, FEED_AT + 1);
    put_in_2(line + NUMBER_AT, number);
    if (!well_formed(d))
        return;
    put_in_3(line + POSITION_AT, d->position);
    put_in_3(line + PERCENT_AT, percent_of(d->position));
    memcpy(line + RULING_AT, rulings[ruling_rank(d)], RULING_COLUMNS);
    put_bits(line + STATUS_AT, status(d));
}

uint8_t plain_hall_page(const damper_drive *row, size_t drives, uint8_t *page, size_t bytes)
{
    if (!hall_fits(drives))
        return DAMPER_HALL_REFUSAL_ROW;
    if (bytes < drives * DAMPER_HALL_LINE)
        return DAMPER_HALL_REFUSAL_PAGE;
    for (unsigned i = 0; i < drives; i++)
        put_line(page + i * DAMPER_HALL_LINE, i, &row[i]);
    return 0;
}
