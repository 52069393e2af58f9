/*
 * The air-damper drive of document 01 (after KNX chapter 7/10/3, block ADA), written and proved in Rattle, for hosts in
 * C11 and C++ on x86-64 Linux. Link libhost.a for single events, libhost_replay.a for damper_replay, libhall_event.a,
 * libhall_tick.a, libhall_page.a and libhall_bill.a for the four calls of a hall, libhost_audit.a for what a tick goes by and
 * for the audit of any drive's answers, libhost_flow.a for flow boxes, or any of these together: none needs another.
 *
 * A drive is a record of 48 bytes, and the host holds it. The host gives it event records of six bytes, one after the
 * other: a tick each second, and setpoints, forcing, hand, calibration, faults, parameter writes, restarts and reads as
 * they come. Each call gives the record after the event, and an answer. At a tick the damper moves toward the target of
 * whoever commands, and the answer says how its motor turns. Some ticks report position and status; a log of what the
 * damper did is built from these reports alone.
 *
 *     const uint8_t tick[] = {DAMPER_MARK_0, DAMPER_MARK_1, DAMPER_KIND_TICK, 0, 0, 0};
 *     damper_stepped s = damper_step(drive, tick, sizeof tick);
 *     drive = s.drive;
 *     if (damper_is_report(s.word))
 *         printf("position %u\n", damper_answer_position(s.word, s.code));
 *
 * A host of a hall holds up to 64 records in one row and lends it: damper_hall_event gives an event to the drives that a
 * list names, damper_hall_tick ticks them all and sends as many reports as its quota allows, and the records are changed
 * where they are. damper_hall_page and damper_hall_bill only read them: the one writes the shift page, a printed line for each
 * drive, the other shares a bill out by how far each damper has travelled.
 *
 * A flow box is another maker's supply-air box, which measures flow: a record of 20 bytes that takes a reading each second and
 * says when flow and percent are to be sent.
 *
 *     damper_flow_heard h = damper_flow_hear(box, DAMPER_FLOW_KIND_FLOW, 125);
 *     box = h.state;
 *     if (h.reported)
 *         printf("%.9g m3/h, %u %%\n", (double)h.flow, h.percent);
 *
 * The layout of the records has a number, DAMPER_LAYOUT, and in the archives each function's name ends in it: damper_step is
 * damper_step_layout3 there. So a host that was built with a header of another layout does not link: the name that the linker
 * misses ends in that layout's number, or, from before layout 3, in none. It must be built again with this header. Layout 3 is
 * request W-208's, with the field `travel`; what was stored in layout 1 or 2, of 44 or 46 bytes, is taken over field by field,
 * with travel 0 (docs/RECORD.md has the offsets).
 *
 * Of every function below holds:
 *   - A pointer is valid for its length; NULL will do for a length of 0. Bytes that are written to overlap no others that
 *     the call is lent, and nobody else uses them until it returns. Apart from that nothing is asked: any bytes are a
 *     record, any bytes of any length an event record.
 *   - It returns, and what it gives depends on its arguments alone, of a flow box also on the processor's ways with floating
 *     point, as said at libhost_flow.a. It has no state, allocates nothing, calls nothing outside its archive and writes nothing
 *     but its result and the bytes lent for it, so any thread and any signal handler may call it at any time.
 *   - It takes at most DAMPER_STACK bytes of stack below the caller's frame, the red zone of the x86-64 ABI among them;
 *     damper_audit_hear, which is no work of every tick, at most DAMPER_AUDIT_STACK.
 *
 * Numbers are document 01's, those of a hall request W-201's, percents request W-202's, those of the shift page W-203's, those
 * of the quota W-204's and W-210's, those of the bill W-208's, those of flow boxes W-209's. A position is 0 to 255, where 255
 * is 100 %; a time is in ticks of a second, and a flow in m3/h.
 */
#ifndef DAMPER_H
#define DAMPER_H

#include <stdbool.h>
#include <stddef.h>
#include <stdint.h>

#ifdef __cplusplus
extern "C" {
#endif

/* The version of header and archives. */
#define DAMPER_VERSION "0.5.0"

/* The layout of the record, and with it the names of the functions in the archives. */
#define DAMPER_LAYOUT 3
#define damper_fresh damper_fresh_layout3
#define damper_well_formed damper_well_formed_layout3
#define damper_step damper_step_layout3
#define damper_read damper_read_layout3
#define damper_write damper_write_layout3
#define damper_replay damper_replay_layout3
#define damper_look_ahead damper_look_ahead_layout3
#define damper_audit_fresh damper_audit_fresh_layout3
#define damper_audit_hear damper_audit_hear_layout3
#define damper_hall_event damper_hall_event_layout3
#define damper_hall_tick damper_hall_tick_layout3
#define damper_hall_page damper_hall_page_layout3
#define damper_hall_bill damper_hall_bill_layout3
#define damper_flow_fresh damper_flow_fresh_layout3
#define damper_flow_well_formed damper_flow_well_formed_layout3
#define damper_flow_hear damper_flow_hear_layout3

/* A number to reckon with is a macro, one of a list an enumeration: C++ compilers object to reckoning with the latter. */
#define DAMPER_EVENT_LENGTH 6 /* bytes of an event record */
#define DAMPER_PARAMETERS 12  /* how many there are */
#define DAMPER_STACK 512      /* bytes of stack that a call takes at most */
#define DAMPER_AUDIT_STACK 1024 /* and one of damper_audit_hear */
#define DAMPER_HALL_MOST 64   /* drives of a hall, and entries of a list, at most */
#define DAMPER_HALL_LINE 29   /* bytes of a drive's line on the shift page, the line feed among them */
#define DAMPER_HALL_QUOTA 64  /* reports that a hall tick may be asked to send, at most */
#define DAMPER_HALL_BILL 1000000000 /* cents of a bill, at most */
#define DAMPER_FLOW_MOST 1000000 /* m3/h: nominal flow, ActFlowCOV and any flow, at most */
#define DAMPER_FLOW_TIME 3600 /* s: ActFlowMinRepTime, at most */

/* An event record: these two bytes, the kind, then data bytes a, b and c, of which unused ones are 0. */
#define DAMPER_MARK_0 0x5A
#define DAMPER_MARK_1 0xC3

/* The kinds of event. A percent becomes the nearest position, halves down: 1 % is 3, 50 % is 127. */
enum damper_kind {
    DAMPER_KIND_TICK = 1,            /* one second passes */
    DAMPER_KIND_SETPOINT = 2,        /* bus setpoint; a: position */
    DAMPER_KIND_LTE_SETPOINT = 3,    /* a: property, b: percent, 0 to 100, c: command; a release takes any b */
    DAMPER_KIND_FORCING = 4,         /* a: forcing, 0 to 3 */
    DAMPER_KIND_HAND = 5,            /* a: 1 on, with b: position; 0 off, with any b */
    DAMPER_KIND_CALIBRATION = 6,     /* a: 0 or 1, which both start it */
    DAMPER_KIND_FAULT = 7,           /* a: 1 present, 0 gone */
    DAMPER_KIND_WRITE = 8,           /* parameter write; a: number, value 256 * b + c */
    DAMPER_KIND_RESTART = 9,         /* after power loss: keeps position, parameters and travel, clears all else */
    DAMPER_KIND_READ_POSITION = 10,  /* position, nearest percent and status; changes nothing */
    DAMPER_KIND_READ_PARAMETER = 11  /* a: number; changes nothing */
};

/*
 * Byte a of DAMPER_KIND_LTE_SETPOINT: the property that belongs to DamperMode 1 to 4, which is 51 to 54. Of any other number,
 * 257 among them, it is 0, which belongs to none and is refused by 6. The number is evaluated more than once.
 */
#define DAMPER_LTE_PROPERTY(mode) ((mode) >= 1 && (mode) <= 4 ? 50 + (int)(mode) : 0)

/* Byte c of DAMPER_KIND_LTE_SETPOINT. */
enum damper_lte {
    DAMPER_LTE_WRITE = 0,    /* a bus setpoint; does not end an override */
    DAMPER_LTE_OVERRIDE = 1, /* the tool commands */
    DAMPER_LTE_RELEASE = 2   /* the tool commands no longer */
};

/* Byte a of DAMPER_KIND_FORCING, and the record's forcing. 1 is none as well. */
enum damper_forcing {
    DAMPER_FORCING_NONE = 0,
    DAMPER_FORCING_TO_0 = 2,
    DAMPER_FORCING_TO_255 = 3
};

/* The places of the parameters in damper_drive.params and damper_parameters. */
enum damper_place {
    DAMPER_PLACE_MODE = 0,
    DAMPER_PLACE_OPEN_CLOSE_DIRECTION = 1,
    DAMPER_PLACE_ACT_POS_COV = 2,
    DAMPER_PLACE_MIN_REP_TIME = 3,
    DAMPER_PLACE_BACKUP_MODE = 4,
    DAMPER_PLACE_BACKUP_VALUE = 5,
    DAMPER_PLACE_START_SYNCHRONIZATION = 6,
    DAMPER_PLACE_TIMEOUT = 7,
    DAMPER_PLACE_REP_PER = 8,
    DAMPER_PLACE_RATE = 9,
    DAMPER_PLACE_LOW = 10,
    DAMPER_PLACE_HIGH = 11
};

/* The numbers of the parameters, by which events name them: up to 122 the properties of KNX chapter 7/10/3. */
enum damper_number {
    DAMPER_NUMBER_MODE = 111,                  /* DamperMode: which LTE property commands */
    DAMPER_NUMBER_OPEN_CLOSE_DIRECTION = 115,  /* 1 exchanges the ways that the motor turns */
    DAMPER_NUMBER_ACT_POS_COV = 116,           /* % of 255: the change of position that is reported */
    DAMPER_NUMBER_MIN_REP_TIME = 117,          /* s: from one report to the next, at least */
    DAMPER_NUMBER_BACKUP_MODE = 120,           /* backup at 0: to BackupValue, 1: to the last bus setpoint, or still */
    DAMPER_NUMBER_BACKUP_VALUE = 121,          /* %, the nearest position, halves down */
    DAMPER_NUMBER_START_SYNCHRONIZATION = 122, /* the run that a restart starts: 0 none, 1 toward 0, 2 toward 255 */
    DAMPER_NUMBER_TIMEOUT = 201,               /* s: how long a bus setpoint commands */
    DAMPER_NUMBER_REP_PER = 202,               /* s: after which a report goes out without a change */
    DAMPER_NUMBER_RATE = 203,                  /* position units a tick */
    DAMPER_NUMBER_LOW = 204,                   /* position: the least target of hand, tool, bus and backup (which may stand still) */
    DAMPER_NUMBER_HIGH = 205                   /* position: and the greatest; never below Low */
};

/* A row of the parameter table. Values are in the unit said above. */
typedef struct damper_parameter {
    uint8_t number; /* enum damper_number */
    uint16_t least; /* a write of less is refused by 10 */
    uint16_t most;  /* and so is one of more */
    uint16_t fresh; /* the value in a fresh drive */
} damper_parameter;

/* The parameter table, by place: number, least, most, fresh. */
static const damper_parameter damper_parameters[DAMPER_PARAMETERS] = {
    {DAMPER_NUMBER_MODE, 1, 4, 1},
    {DAMPER_NUMBER_OPEN_CLOSE_DIRECTION, 0, 1, 0},
    {DAMPER_NUMBER_ACT_POS_COV, 1, 100, 1},
    {DAMPER_NUMBER_MIN_REP_TIME, 1, 3600, 10},
    {DAMPER_NUMBER_BACKUP_MODE, 0, 1, 0},
    {DAMPER_NUMBER_BACKUP_VALUE, 0, 100, 0},
    {DAMPER_NUMBER_START_SYNCHRONIZATION, 0, 2, 0},
    {DAMPER_NUMBER_TIMEOUT, 1, 7200, 1860},
    {DAMPER_NUMBER_REP_PER, 1, 7200, 900},
    {DAMPER_NUMBER_RATE, 1, 255, 5},
    {DAMPER_NUMBER_LOW, 0, 255, 0},
    {DAMPER_NUMBER_HIGH, 0, 255, 255}
};

/* The record's run. A run has K ticks, K being 255 / Rate rounded up. */
enum damper_run_kind {
    DAMPER_RUN_NONE = 0,
    DAMPER_RUN_CALIBRATION = 1, /* toward 0 */
    DAMPER_RUN_SYNC_CLOSE = 2,  /* toward 0 */
    DAMPER_RUN_SYNC_OPEN = 3    /* toward 255 */
};

/* Who commands. Of those that are active the highest rank rules. */
enum damper_rank {
    DAMPER_RANK_BACKUP = 0,  /* always active */
    DAMPER_RANK_BUS = 1,     /* a bus setpoint whose age is at most Timeout */
    DAMPER_RANK_TOOL = 2,    /* an override */
    DAMPER_RANK_HAND = 3,
    DAMPER_RANK_RUN = 4,
    DAMPER_RANK_FORCING = 5, /* forcing of 2 or 3 */
    DAMPER_RANK_FAULT = 6    /* the damper stands still */
};

/* The bits of a status: what is active, and not only what rules. */
enum damper_status {
    DAMPER_STATUS_FAULT = 0x01,
    DAMPER_STATUS_HAND = 0x02,        /* hand or tool */
    DAMPER_STATUS_CALIBRATION = 0x04,
    DAMPER_STATUS_SYNC = 0x08,
    DAMPER_STATUS_FORCED = 0x10,
    DAMPER_STATUS_NO_BUS = 0x20       /* no bus setpoint, or one older than Timeout */
};

/* The motor during a tick. */
enum damper_motor {
    DAMPER_MOTOR_STILL = 0,
    DAMPER_MOTOR_FORWARD = 1, /* position rises; under OpenCloseDirection 1 it falls */
    DAMPER_MOTOR_REVERSE = 2  /* position falls; under OpenCloseDirection 1 it rises */
};

/* Why an event is turned down: the first that fits. */
enum damper_refusal {
    DAMPER_REFUSAL_NONE = 0,
    DAMPER_REFUSAL_RECORD = 1,      /* the drive record is not well formed */
    DAMPER_REFUSAL_LENGTH = 2,      /* not exactly six bytes; for damper_write, fewer than six */
    DAMPER_REFUSAL_MARK = 3,        /* the first two bytes are not the mark */
    DAMPER_REFUSAL_KIND = 4,        /* the kind is not 1 to 11 */
    DAMPER_REFUSAL_UNUSED = 5,      /* an unused byte is not 0 */
    DAMPER_REFUSAL_SELECTOR = 6,    /* a is none of the values that its kind takes */
    DAMPER_REFUSAL_COMMAND = 7,     /* LTE setpoint: the command exceeds 2 */
    DAMPER_REFUSAL_PERCENT = 8,     /* LTE setpoint: more than 100 % in a write or override */
    DAMPER_REFUSAL_PROPERTY = 9,    /* LTE setpoint: not the property of the DamperMode in force */
    DAMPER_REFUSAL_RANGE = 10,      /* parameter write: the value is out of range */
    DAMPER_REFUSAL_LIMITS = 11,     /* parameter write: Low would exceed High */
    DAMPER_REFUSAL_RATE = 12,       /* parameter write: Rate during a run */
    DAMPER_REFUSAL_CALIBRATION = 13 /* calibration: there is a fault, or forcing of 2 or 3 */
};

/* Why a call of a hall is turned down as a whole: the first that fits. No drive is given anything then, and nothing is written. */
enum damper_hall_refusal {
    DAMPER_HALL_REFUSAL_ROW = 14,    /* the row has no drive, or over DAMPER_HALL_MOST */
    DAMPER_HALL_REFUSAL_NUMBER = 15, /* a number of the list is not below the row's length */
    DAMPER_HALL_REFUSAL_CALL = 16,   /* an accepted tick, a list over DAMPER_HALL_MOST, or too few places for answers or numbers */
    DAMPER_HALL_REFUSAL_PAGE = 17,   /* the page has fewer than DAMPER_HALL_LINE bytes for each drive */
    DAMPER_HALL_REFUSAL_QUOTA = 18,  /* the quota is not 1 to DAMPER_HALL_QUOTA */
    DAMPER_HALL_REFUSAL_TWICE = 19,  /* the list names a drive twice */
    DAMPER_HALL_REFUSAL_BILL = 20,   /* the bill is over DAMPER_HALL_BILL, or there is not exactly one share for each drive */
    DAMPER_HALL_REFUSAL_UNMOVED = 21 /* no drive has moved */
};

/* What damper_hall_tick says of a drive: one of the first two, or the third + 256 * position + status. */
#define DAMPER_HALL_SILENT 0          /* a tick with no report: none is due, or it is held */
#define DAMPER_HALL_NOT_WELL_FORMED 1 /* no tick: the drive record is not well formed */
#define DAMPER_HALL_REPORT 65536      /* a tick with a report */

/*
 * The word of an answer. With it comes a code, whose bytes are these, from the highest on:
 *
 *     NO         0, 0, 0, refusal
 *     OK         0, 0, 0, 0
 *     PAR        0, 0, the value in two bytes
 *     AT         0, position, percent, status
 *     TICK       0, position, rank, motor
 *     REPORT     position, rank, motor, status
 */
enum damper_word {
    DAMPER_WORD_NO = 0,    /* turned down */
    DAMPER_WORD_OK = 1,    /* carried out */
    DAMPER_WORD_PAR = 2,   /* a parameter is read */
    DAMPER_WORD_AT = 3,    /* the position is read */
    DAMPER_WORD_TICK = 4,  /* a tick with no report */
    DAMPER_WORD_REPORT = 5 /* a tick with a report */
};

/* What the latest commands say. A flag is 0 or 1. A position is as it came, before Low and High, and 0 if its flag is. */
typedef struct damper_commands {
    uint8_t fault;    /* flag */
    uint8_t forcing;  /* 0 to 3, as it came: 0 and 1 none, 2 to position 0, 3 to position 255 */
    uint8_t hand;     /* flag */
    uint8_t handpos;  /* position */
    uint8_t tool;     /* flag: an override */
    uint8_t toolpos;  /* position */
    uint8_t stored;   /* flag: there is a bus setpoint, also one too old to command */
    uint8_t setpoint; /* position */
} damper_commands;

/* A run. */
typedef struct damper_run {
    uint8_t kind; /* enum damper_run_kind */
    uint8_t left; /* ticks left, 1 to K; 0 with no run */
} damper_run;

/* The last report. */
typedef struct damper_report {
    uint8_t reported; /* flag: there was one since the last restart; if 0, the next two are 0 */
    uint8_t position; /* as reported */
    uint8_t status;   /* as reported, bits of enum damper_status; a record may hold any here */
} damper_report;

/*
 * The drive record, in layout 3. A host may store its 48 bytes (numbers have their low byte first) and restore them: any bytes
 * are a record, and one that is not well formed is refused by 1. No byte belongs to no field, so records may be compared byte by
 * byte.
 */
typedef struct damper_drive {
    uint16_t params[DAMPER_PARAMETERS];  /* values, by place, each in the range of its row; Low at most High */
    damper_commands commands;
    uint16_t age;                        /* ticks since the bus setpoint came, stopping at 65,535; 0 with none */
    damper_run run;                      /* none beside a fault or forcing of 2 or 3 */
    uint16_t since;                      /* ticks since the last report or restart, stopping at 65,535 */
    damper_report last;
    uint8_t position;                    /* present position, 0 to 255 */
    uint16_t wait;                       /* hall ticks in a row with a report due and not sent, stopping at 65,535 */
    uint32_t travel;                     /* position units moved by ticks, stopping at 4,294,967,295; a restart keeps it */
} damper_drive;

/* What damper_step gives. */
typedef struct damper_stepped {
    damper_drive drive; /* the record after the event; that before it, if the event is turned down */
    uint8_t word;       /* of the answer, enum damper_word */
    uint32_t code;      /* of the answer, packed as said at enum damper_word */
} damper_stepped;

/* What damper_read gives. */
typedef struct damper_event {
    uint8_t refusal; /* 0, or a refusal from 2 to 8, and then the other four are 0 */
    uint8_t kind;    /* enum damper_kind */
    uint8_t a;       /* data, as said at enum damper_kind */
    uint8_t b;
    uint8_t c;
} damper_event;

/* What damper_replay gives. */
typedef struct damper_replayed {
    damper_drive drive; /* the record after the last record that was given to it */
    size_t count;       /* how many were */
} damper_replayed;

/* What damper_look_ahead gives: of a tick that would find the drive as it is. */
typedef struct damper_outlook {
    uint8_t refusal;  /* 0, or 1 if the record is not well formed, and then all else is 0 */
    uint8_t rank;     /* who would rule the move, enum damper_rank */
    uint8_t target;   /* the position to which that leads */
    uint8_t position; /* that the tick would leave */
    uint8_t status;   /* that the tick would leave, bits of enum damper_status */
    bool waited;      /* MinRepTime has passed, by `since` with this tick; only then a report goes out, if: */
    bool first;       /* there was none yet, or none since the last restart, */
    bool changed;     /* or the position differs from the last reported one by ActPosCOV or more, */
    bool differs;     /* or the status from the last reported one, */
    bool period;      /* or RepPer has passed, by `since` with this tick */
} damper_outlook;

/* An audit: what it keeps from one event record to the next. Only damper_audit_fresh and damper_audit_hear make it. */
typedef struct damper_audit {
    damper_drive drive; /* the drive that the event records make, with the reports that were heard in place of its own */
    uint8_t seen;       /* the position that was last shown */
    uint16_t apart;     /* ticks since the latest report, past restarts; 65,535 for as many, more, or no report yet */
} damper_audit;

/* What damper_audit_hear found at an event record: the sentences that do not hold there. */
typedef struct damper_findings {
    bool spacing;     /* two reports fewer ticks apart than MinRepTime */
    bool waiting;     /* MinRepTime ticks without report and restart, and what the last leaves differs from what was reported */
    bool moving;      /* a tick does not move the damper by Rate or the distance toward the target of who rules */
    bool position;    /* the position is not the one that the event records make */
    bool content;     /* a report does not give the position and the status that its tick leaves, by the event records */
    bool othermove;   /* another event than a tick moves the damper */
    bool otherreport; /* another event than a tick sends a report */
    bool due;         /* a tick is silent though a report is due, or reports though none is, by the reports so far */
    bool refusal;     /* not refused by the first fitting number, or refused though none fits */
    bool answer;      /* not the answer that this drive would give, had it sent the reports so far */
} damper_findings;

/* What damper_audit_hear gives. */
typedef struct damper_audited {
    damper_audit audit;       /* after the event record */
    uint8_t refusal;          /* 0, or 1 if the audit's drive is not well formed, and then it is unchanged and nothing is found */
    damper_findings findings;
} damper_audited;

/*
 * The record of a flow box. A host may store its 20 bytes (numbers have their low byte first, floats are IEEE 754's of 32 bits)
 * and restore them: any bytes are a record, and one whose fields are not as said here is refused by 22. The fourth byte belongs
 * to no field, is not looked at and may hold anything: set it to 0 where stored bytes are to be the same for the same record.
 * Stored after each call and before what it reports is sent, a record lets no report come too early after power was lost, but the
 * one that was about to be sent may be lost; stored afterwards, that one may be sent twice.
 *
 * A flow box knows no restart: a restored one goes on where it stood, and the time without power does not count. A host that wants
 * the flow told again sets `sent` to 0. To change a setting it writes `time`, `nominal` or `cov`, and the next reading goes by
 * it; that alone sends nothing, also where another nominal makes another percent of what was sent. What is said of one call holds
 * of every record; what is proved of a whole list of readings, of a fresh one that nobody writes in between.
 */
typedef struct damper_flow {
    uint16_t since; /* ticks since the last report, or since the record was fresh, stopping at 65,535 */
    uint8_t sent;   /* flag: whether any was sent, 0 or 1 */
    uint32_t time;  /* ActFlowMinRepTime: from one report to the next, at least; 1 to DAMPER_FLOW_TIME */
    float nominal;  /* nominal flow, 1 to DAMPER_FLOW_MOST */
    float cov;      /* ActFlowCOV: the change of flow that is reported, 1 to DAMPER_FLOW_MOST */
    float last;     /* the last flow sent, 0 to DAMPER_FLOW_MOST; not looked at before the first report, but for its range */
} damper_flow;

/* The kinds of reading. */
enum damper_flow_kind {
    DAMPER_FLOW_KIND_FLOW = 0,  /* a flow, 0 to DAMPER_FLOW_MOST */
    DAMPER_FLOW_KIND_SHARE = 1, /* a share of nominal, 0 to 1 */
    DAMPER_FLOW_KIND_BROKEN = 2 /* the sensor is broken; its value is not looked at */
};

/* Why a reading is turned down: the first of these that fits. */
enum damper_flow_refusal {
    DAMPER_FLOW_REFUSAL_RECORD = 22, /* a field of the record is out of its range */
    DAMPER_FLOW_REFUSAL_READING = 23 /* the value is not in the range of its kind, or a NaN, or the kind is none */
};

/* What damper_flow_hear gives. */
typedef struct damper_flow_heard {
    damper_flow state; /* the record after the reading; that before it, if the reading is turned down */
    float flow;        /* of a report; else 0 */
    uint8_t refusal;   /* 0, or enum damper_flow_refusal */
    uint8_t reported;  /* flag: there is a report */
    uint8_t percent;   /* of a report, 0 to 100; else 0 */
} damper_flow_heard;

/*
 * libhost.a
 */

/*
 * The fresh drive: position 0, fresh parameters, nothing else set. Where a damper may stand elsewhere than at 0, a
 * calibration comes first.
 */
damper_drive damper_fresh(void);

/* Whether a record is well formed: its fields are as their comments say. An event leaves it as well formed as it was. */
bool damper_well_formed(damper_drive drive);

/*
 * Gives one event record to the drive: the record after it, and the answer. The first of the refusals 1 to 13 that fits
 * turns it down, and then the record comes back with every field unchanged; so does, by 1, any that is not well formed.
 */
damper_stepped damper_step(damper_drive drive, const uint8_t *bytes, size_t length);

/* Reads an event record without giving it to a drive: kind and data, or the first of the refusals 2 to 8 that fits. */
damper_event damper_read(const uint8_t *bytes, size_t length);

/*
 * Writes an event record to the first six bytes of the buffer, no others, and gives 0; or gives the first of the refusals
 * 2 and 4 to 8 that fits, and writes nothing. What is written, damper_read reads back.
 */
uint8_t damper_write(uint8_t *buffer, size_t length, uint8_t kind, uint8_t a, uint8_t b, uint8_t c);

/*
 * libhost_replay.a
 */

/*
 * Gives the records in the bytes to the drive, one after the other, as damper_step would: six bytes each, and a shorter
 * rest as one more, which is refused by 2. It stops where the bytes end or one of the rows is full. The answer to record i
 * has its word in words[i] and its code in codes[i]; places from the count on are left as they are. The lengths of the rows
 * count elements.
 */
damper_replayed damper_replay(damper_drive drive, const uint8_t *bytes, size_t length, uint8_t *words,
                              size_t words_length, uint32_t *codes, size_t codes_length);

/*
 * libhost_audit.a
 */

/* What a tick would go by, if it were given to the drive now: who rules and toward what, and whether and why it would report. */
damper_outlook damper_look_ahead(damper_drive drive);

/* The audit of a drive that is fresh. */
damper_audit damper_audit_fresh(void);

/*
 * Holds the answer that a drive, this one or another maker's, gave to an event record against the list of event records that it
 * was given, fresh at first; word and code are as said at enum damper_word, and a word above REPORT is taken as REPORT. Of that
 * drive nothing is known but its answers: where one shows no position, the damper is taken to stand where it was last shown.
 * Each finding but `answer` is true exactly where its sentence of demand 3's claim does not hold at this record. Where `answer`
 * is never found, each answer was that of damper_step, in whose answers nothing is ever found.
 */
damper_audited damper_audit_hear(damper_audit audit, const uint8_t *bytes, size_t length, uint8_t word, uint32_t code);

/*
 * libhall_event.a
 */

/*
 * Gives one event record, of any kind but a tick, to the drives that the list names, in its order, and gives 0. A drive's
 * number is its place in the row, from 0 on. What damper_step would make of the drive numbered list[k] then stands in its
 * place, and answers[k] is 0 or the refusal, 1 to 13. A read answers 0 as well; its values are not handed back. Drives that are
 * not named stay as they are, and so do the places of the answers from `entries` on. The order of the list decides where the
 * answers stand, and nothing else.
 *
 * The first of these refusals that fits turns the call down, and then both rows stay as they are:
 *
 *     14  drives is 0 or over 64
 *     15  a number of the list, those beyond the 64th among them, is not below drives
 *     16  the bytes are a tick that damper_read accepts, entries is over 64, or places is below entries
 *     19  the list names a drive twice: one number stands at two places of it
 *
 * Any other bytes go to each drive and, where they are no event, are refused there, a damaged tick among them. With an empty
 * list nothing is given, and the call still gives 0, 14 or 16.
 */
uint8_t damper_hall_event(damper_drive *row, size_t drives, const uint32_t *list, size_t entries, const uint8_t *bytes,
                          size_t length, uint8_t *answers, size_t places);

/*
 * libhall_tick.a
 */

/*
 * Ticks every well-formed drive of the row, and gives 0; of the reports that are due it sends `quota`, or all if they are
 * fewer. A report is due where a tick given to the drive alone would report. Of the due drives those with the larger `wait`
 * before the call are sent first, of equal ones those with the lower number; drives that are not due, or not well formed, take
 * no place of the quota. One that is due and not sent is held: it moves and its counts rise as at any tick, `last` stays,
 * `since` goes on rising, and `wait` rises by one, up to 65,535. Sent, or well formed and not due, it has wait 0. A restart sets
 * wait to 0 too; no other event changes it, nor does a tick given to the drive alone.
 *
 * A report shows what the tick that sends it leaves. What is held and no longer due at the next hall tick is not told of: a
 * drive that is due at every second hall tick may never be sent.
 *
 * numbers[i] is then DAMPER_HALL_REPORT + 256 * position + status if drive i is sent, DAMPER_HALL_SILENT if it is not, and
 * DAMPER_HALL_NOT_WELL_FORMED if its record is not well formed, which stays as it is. So do the places of the numbers from
 * `drives` on. Rank and motor are not said; where a damper is to stand after the tick, its record says.
 *
 * A drive that is due at each of some consecutive hall ticks, and is not restarted between them, is sent at one of these if
 * their quotas add up to the number of drives or more; with one quota throughout, within drives / quota hall ticks, rounded up.
 * (Between them only damper_hall_event changes the row, and its length stays the same. A record that is put back brings its
 * wait with it.)
 *
 * The call is turned down by 14 if drives is 0 or over 64, otherwise by 16 if places is below drives, otherwise by 18 if the
 * quota is not 1 to 64, and then both rows stay as they are.
 */
uint8_t damper_hall_tick(damper_drive *row, size_t drives, uint32_t quota, uint32_t *numbers, size_t places);

/*
 * libhall_page.a
 */

/*
 * Writes the shift page, a line of 28 columns and a line feed for each drive of the row, in its order, and gives 0. The line
 * has the drive's number, its position and its percent, to the right in 2, 3 and 3 columns; who rules, to the left in 8; and
 * the status, the highest bit first, in 8; a blank between two of these:
 *
 *      0 128  50 bus      00000000
 *
 * Who rules is fault, forced, run, hand, tool, bus or backup, and that and the status are of the record as it is, so a setpoint
 * that the next tick ends still rules. A record that is not well formed shows its number, and minus signs in all other columns
 * but the blanks. Bytes of the page behind the last line stay as they are, and every record does. No 0 byte ends the page: its
 * length is DAMPER_HALL_LINE * drives.
 *
 * The call is turned down by 14 if drives is 0 or over 64, otherwise by 17 if the page has fewer than 29 bytes for each drive,
 * and then the page stays as it is.
 */
uint8_t damper_hall_page(const damper_drive *row, size_t drives, uint8_t *page, size_t bytes);

/*
 * libhall_bill.a
 */

/*
 * Shares a bill in whole cents out over the hall by `travel`, and gives 0: shares[i] is then what drive i pays. Each pays the
 * part of the bill that its travel is of all travel together, rounded down; cents that are left over go one each to the largest
 * remainders, of equal ones to the lower number. So the shares add up to the bill, a drive that has not moved pays nothing, and
 * none is off by a cent or more. Nothing but the travel is looked at: a record that is not well formed pays as well.
 *
 * The call is turned down by 14 if drives is 0 or over 64, otherwise by 20 if the bill is over DAMPER_HALL_BILL or places is not
 * exactly drives, otherwise by 21 if no drive has moved, and then the shares stay as they are. Records are never changed.
 */
uint8_t damper_hall_bill(const damper_drive *row, size_t drives, uint64_t bill, uint32_t *shares, size_t places);

/*
 * libhost_flow.a
 */

/*
 * Of these functions is assumed that the processor rounds to nearest, keeps subnormal numbers and has the exceptions of floating
 * point masked, as it does where a program starts; a host that has set it otherwise (fesetround, feenableexcept, -ffast-math, a
 * library that flushes to zero) sets it back for the call. Flushed to zero, shares below 1.2e-38 become the flow 0, and a reading
 * just below 0 is taken. The flags of exceptions that the processor keeps may be set by a call.
 */

/*
 * The fresh record of a flow box: since 0, nothing sent, 0 as last flow. Whatever the settings are, it is made; damper_flow_hear
 * refuses bad ones.
 */
damper_flow damper_flow_fresh(float nominal, float cov, uint32_t time);

/* Whether a record's fields are as their comments say, so that 22 does not refuse it. A reading leaves it so. */
bool damper_flow_well_formed(damper_flow flow);

/*
 * Gives a flow box a reading, a kind and a value, and that is a tick. A share becomes a flow by one product with nominal. The
 * first reading with a flow once `time` ticks have passed, its own counted, is reported, and from then on each whose flow differs
 * from the last one sent by `cov` or more, `time` ticks after that one or later; no report goes out without a change. The percent
 * of a report is the greatest whole number p from 0 to 100 for which p times nominal is not above 100 times the flow. Products
 * and differences are those of single floats, each rounded once: 0.01 of nominal 1 shows 1, 0.53 of it 52. A broken sensor is a
 * tick without report. A value of -0 is 0, and keeps its sign in report and record.
 *
 * Refused by 22 or else by 23, a reading is no tick, and the record comes back as it was. That holds of the bits of a NaN in it
 * as well, though only by test: the proof has one NaN. A host that wants a second with a bad reading, or with none, counted gives
 * BROKEN for it.
 *
 * A value that a host has as a double or as text is rounded to a float before the call sees it: 1.00000001 is a share of 1 then,
 * and -1e-50 is -0, which is taken.
 */
damper_flow_heard damper_flow_hear(damper_flow flow, uint32_t kind, float value);

/*
 * An answer taken apart. Each function says for which words it holds, and gives 0 for the others.
 */

/* Whether the event was a tick that was carried out, with a report or without. */
static inline bool damper_is_tick(uint8_t word)
{
    return word == DAMPER_WORD_TICK || word == DAMPER_WORD_REPORT;
}

/* Whether the event was a tick that reports. */
static inline bool damper_is_report(uint8_t word)
{
    return word == DAMPER_WORD_REPORT;
}

/* NO: the refusal, 1 to 13. So 0 says that the event was carried out. */
static inline uint8_t damper_answer_refusal(uint8_t word, uint32_t code)
{
    return word == DAMPER_WORD_NO ? (uint8_t)code : 0;
}

/* PAR: the parameter's value. */
static inline uint16_t damper_answer_value(uint8_t word, uint32_t code)
{
    return word == DAMPER_WORD_PAR ? (uint16_t)code : 0;
}

/* AT, TICK, REPORT: the position, after the tick. */
static inline uint8_t damper_answer_position(uint8_t word, uint32_t code)
{
    if (word == DAMPER_WORD_AT || word == DAMPER_WORD_TICK)
        return (uint8_t)(code >> 16);
    return word == DAMPER_WORD_REPORT ? (uint8_t)(code >> 24) : 0;
}

/* AT: the position in %, the nearest. Where the damper stands at what a percent became, it is that percent. */
static inline uint8_t damper_answer_percent(uint8_t word, uint32_t code)
{
    return word == DAMPER_WORD_AT ? (uint8_t)(code >> 8) : 0;
}

/* AT, REPORT: the status, bits of enum damper_status. */
static inline uint8_t damper_answer_status(uint8_t word, uint32_t code)
{
    return word == DAMPER_WORD_AT || word == DAMPER_WORD_REPORT ? (uint8_t)code : 0;
}

/* TICK, REPORT: the rank that ruled the move, enum damper_rank. */
static inline uint8_t damper_answer_rank(uint8_t word, uint32_t code)
{
    if (word == DAMPER_WORD_TICK)
        return (uint8_t)(code >> 8);
    return word == DAMPER_WORD_REPORT ? (uint8_t)(code >> 16) : 0;
}

/* TICK, REPORT: the motor, enum damper_motor. */
static inline uint8_t damper_answer_motor(uint8_t word, uint32_t code)
{
    if (word == DAMPER_WORD_TICK)
        return (uint8_t)code;
    return word == DAMPER_WORD_REPORT ? (uint8_t)(code >> 8) : 0;
}

/*
 * A number of damper_hall_tick taken apart.
 */

/* Whether the drive reports. */
static inline bool damper_hall_is_report(uint32_t number)
{
    return number >= DAMPER_HALL_REPORT;
}

/* The position that it reports; 0 if it does not. */
static inline uint8_t damper_hall_position(uint32_t number)
{
    return damper_hall_is_report(number) ? (uint8_t)(number >> 8) : 0;
}

/* The status that it reports, bits of enum damper_status; 0 if it does not. */
static inline uint8_t damper_hall_status(uint32_t number)
{
    return damper_hall_is_report(number) ? (uint8_t)number : 0;
}

/*
 * The layout that the archives have.
 */

#ifdef __cplusplus
#define DAMPER_ASSERT static_assert
#else
#define DAMPER_ASSERT _Static_assert
#endif
#define DAMPER_SIZE(type, size) DAMPER_ASSERT(sizeof(type) == (size), "size of " #type)
#define DAMPER_AT(type, field, offset) DAMPER_ASSERT(offsetof(type, field) == (offset), "offset of " #field " in " #type)

DAMPER_SIZE(damper_commands, 8);
DAMPER_SIZE(damper_run, 2);
DAMPER_SIZE(damper_report, 3);
DAMPER_SIZE(damper_drive, 48);
DAMPER_AT(damper_drive, params, 0);
DAMPER_AT(damper_drive, commands, 24);
DAMPER_AT(damper_drive, commands.fault, 24);
DAMPER_AT(damper_drive, commands.forcing, 25);
DAMPER_AT(damper_drive, commands.hand, 26);
DAMPER_AT(damper_drive, commands.handpos, 27);
DAMPER_AT(damper_drive, commands.tool, 28);
DAMPER_AT(damper_drive, commands.toolpos, 29);
DAMPER_AT(damper_drive, commands.stored, 30);
DAMPER_AT(damper_drive, commands.setpoint, 31);
DAMPER_AT(damper_drive, age, 32);
DAMPER_AT(damper_drive, run, 34);
DAMPER_AT(damper_drive, run.kind, 34);
DAMPER_AT(damper_drive, run.left, 35);
DAMPER_AT(damper_drive, since, 36);
DAMPER_AT(damper_drive, last, 38);
DAMPER_AT(damper_drive, last.reported, 38);
DAMPER_AT(damper_drive, last.position, 39);
DAMPER_AT(damper_drive, last.status, 40);
DAMPER_AT(damper_drive, position, 41);
DAMPER_AT(damper_drive, wait, 42);
DAMPER_AT(damper_drive, travel, 44);
DAMPER_SIZE(damper_stepped, 56);
DAMPER_AT(damper_stepped, drive, 0);
DAMPER_AT(damper_stepped, word, 48);
DAMPER_AT(damper_stepped, code, 52);
DAMPER_SIZE(damper_event, 5);
DAMPER_AT(damper_event, refusal, 0);
DAMPER_AT(damper_event, kind, 1);
DAMPER_AT(damper_event, a, 2);
DAMPER_AT(damper_event, b, 3);
DAMPER_AT(damper_event, c, 4);
DAMPER_SIZE(damper_replayed, 56);
DAMPER_AT(damper_replayed, drive, 0);
DAMPER_AT(damper_replayed, count, 48);
DAMPER_SIZE(damper_outlook, 10);
DAMPER_AT(damper_outlook, refusal, 0);
DAMPER_AT(damper_outlook, rank, 1);
DAMPER_AT(damper_outlook, target, 2);
DAMPER_AT(damper_outlook, position, 3);
DAMPER_AT(damper_outlook, status, 4);
DAMPER_AT(damper_outlook, waited, 5);
DAMPER_AT(damper_outlook, first, 6);
DAMPER_AT(damper_outlook, changed, 7);
DAMPER_AT(damper_outlook, differs, 8);
DAMPER_AT(damper_outlook, period, 9);
DAMPER_SIZE(damper_audit, 52);
DAMPER_AT(damper_audit, drive, 0);
DAMPER_AT(damper_audit, seen, 48);
DAMPER_AT(damper_audit, apart, 50);
DAMPER_SIZE(damper_findings, 10);
DAMPER_AT(damper_findings, spacing, 0);
DAMPER_AT(damper_findings, waiting, 1);
DAMPER_AT(damper_findings, moving, 2);
DAMPER_AT(damper_findings, position, 3);
DAMPER_AT(damper_findings, content, 4);
DAMPER_AT(damper_findings, othermove, 5);
DAMPER_AT(damper_findings, otherreport, 6);
DAMPER_AT(damper_findings, due, 7);
DAMPER_AT(damper_findings, refusal, 8);
DAMPER_AT(damper_findings, answer, 9);
DAMPER_SIZE(damper_audited, 64);
DAMPER_AT(damper_audited, audit, 0);
DAMPER_AT(damper_audited, refusal, 52);
DAMPER_AT(damper_audited, findings, 53);
DAMPER_SIZE(damper_flow, 20);
DAMPER_AT(damper_flow, since, 0);
DAMPER_AT(damper_flow, sent, 2);
DAMPER_AT(damper_flow, time, 4);
DAMPER_AT(damper_flow, nominal, 8);
DAMPER_AT(damper_flow, cov, 12);
DAMPER_AT(damper_flow, last, 16);
DAMPER_SIZE(damper_flow_heard, 28);
DAMPER_AT(damper_flow_heard, state, 0);
DAMPER_AT(damper_flow_heard, flow, 20);
DAMPER_AT(damper_flow_heard, refusal, 24);
DAMPER_AT(damper_flow_heard, reported, 25);
DAMPER_AT(damper_flow_heard, percent, 26);

#undef DAMPER_AT
#undef DAMPER_SIZE
#undef DAMPER_ASSERT

#ifdef __cplusplus
}
#endif

#endif
