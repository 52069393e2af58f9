/*
 * The stack that each call takes below its caller's frame, return address and red zone included. The calls run on a stack
 * of their own that is painted before: the deepest byte that has lost its paint was written to. Standard input has the
 * event records to call with. For gcc and clang on x86-64.
 */
#include "damper.h"

#include <stdio.h>
#include <string.h>

#define ROOM 20000

static _Alignas(16) uint8_t stack[65536];

/* Runs a function on the painted stack. */
static void on_stack(void (*run)(void))
{
    __asm__ volatile("mov %%rsp, %%rbx\n\t"
                     "mov %0, %%rsp\n\t"
                     "call *%1\n\t"
                     "mov %%rbx, %%rsp"
                     :
                     : "r"(stack + sizeof stack), "r"(run)
                     : "rax", "rbx", "rcx", "rdx", "rsi", "rdi", "r8", "r9", "r10", "r11", "xmm0", "xmm1", "xmm2", "xmm3",
                       "xmm4", "xmm5", "xmm6", "xmm7", "xmm8", "xmm9", "xmm10", "xmm11", "xmm12", "xmm13", "xmm14",
                       "xmm15", "cc", "memory");
}

/* In place of a function: gives the address of its result, as the ABI wants it, and takes no stack but the return address. */
void nothing(void);
__asm__(".text\n.globl nothing\nnothing:\n\tmov %rdi, %rax\n\tret\n");

/* The functions as they are called, each the archive's or `nothing`. */
static damper_drive (*volatile fresh)(void);
static bool (*volatile well_formed)(damper_drive);
static damper_stepped (*volatile step)(damper_drive, const uint8_t *, size_t);
static damper_event (*volatile read_event)(const uint8_t *, size_t);
static uint8_t (*volatile write_event)(uint8_t *, size_t, uint8_t, uint8_t, uint8_t, uint8_t);
static damper_replayed (*volatile replay)(damper_drive, const uint8_t *, size_t, uint8_t *, size_t, uint32_t *, size_t);
static damper_outlook (*volatile look_ahead)(damper_drive);
static damper_audit (*volatile audit_fresh)(void);
static damper_audited (*volatile audit_hear)(damper_audit, const uint8_t *, size_t, uint8_t, uint32_t);
static uint8_t (*volatile hall_event)(damper_drive *, size_t, const uint32_t *, size_t, const uint8_t *, size_t, uint8_t *,
                                      size_t);
static uint8_t (*volatile hall_tick)(damper_drive *, size_t, uint32_t, uint32_t *, size_t);
static uint8_t (*volatile hall_page)(const damper_drive *, size_t, uint8_t *, size_t);
static uint8_t (*volatile hall_bill)(const damper_drive *, size_t, uint64_t, uint32_t *, size_t);
static damper_flow (*volatile flow_fresh)(float, float, uint32_t);
static bool (*volatile flow_well_formed)(damper_flow);
static damper_flow_heard (*volatile flow_hear)(damper_flow, uint32_t, float);

static damper_drive drive;
static damper_stepped stepped;
static damper_event found;
static damper_replayed replayed;
static damper_outlook outlook;
static damper_audit audit;
static damper_audited audited;
static bool formed;
static uint8_t events[ROOM][DAMPER_EVENT_LENGTH], *event, buffer[DAMPER_EVENT_LENGTH], written, words[ROOM];
static uint32_t codes[ROOM];
static size_t records;
static damper_drive row[DAMPER_HALL_MOST];
static uint32_t list[DAMPER_HALL_MOST], numbers[DAMPER_HALL_MOST], shares[DAMPER_HALL_MOST];
static damper_flow flow;
static damper_flow_heard heard;
static uint8_t answers[DAMPER_HALL_MOST], page[DAMPER_HALL_MOST * DAMPER_HALL_LINE], refusal;

static void call_fresh(void) { drive = fresh(); }
static void call_well_formed(void) { formed = well_formed(drive); }
static void call_step(void) { stepped = step(drive, event, DAMPER_EVENT_LENGTH); }
static void call_read(void) { found = read_event(event, DAMPER_EVENT_LENGTH); }
static void call_write(void) { written = write_event(buffer, sizeof buffer, event[2], event[3], event[4], event[5]); }
static void call_replay(void) { replayed = replay(drive, events[0], records * DAMPER_EVENT_LENGTH, words, ROOM, codes, ROOM); }
static void call_look_ahead(void) { outlook = look_ahead(drive); }
static void call_audit_fresh(void) { audit = audit_fresh(); }
static void call_audit_hear(void) { audited = audit_hear(audit, event, DAMPER_EVENT_LENGTH, stepped.word, stepped.code); }

/* The whole row, and a list that names each drive. */
static void call_hall_event(void)
{
    refusal = hall_event(row, DAMPER_HALL_MOST, list, DAMPER_HALL_MOST, event, DAMPER_EVENT_LENGTH, answers, DAMPER_HALL_MOST);
}
static void call_hall_tick(void) { refusal = hall_tick(row, DAMPER_HALL_MOST, 8, numbers, DAMPER_HALL_MOST); }
static void call_hall_page(void) { refusal = hall_page(row, DAMPER_HALL_MOST, page, sizeof page); }
static void call_hall_bill(void) { refusal = hall_bill(row, DAMPER_HALL_MOST, DAMPER_HALL_BILL, shares, DAMPER_HALL_MOST); }

static void call_flow_fresh(void) { flow = flow_fresh(100, 1, 2); }
static void call_flow_well_formed(void) { formed = flow_well_formed(flow); }

/* The data bytes of the event as a reading of 0 to 255, or of 0 to 255 hundredths, which are refused from 101 on. */
static void call_flow_hear(void)
{
    heard = flow_hear(flow, event[2] % 3, event[2] % 3 == DAMPER_FLOW_KIND_SHARE ? event[3] / 100.0f : event[3]);
}

#define POINT(pointer, function) pointer = archive ? function : (__typeof__(&function))nothing

static void point(bool archive)
{
    POINT(fresh, damper_fresh);
    POINT(well_formed, damper_well_formed);
    POINT(step, damper_step);
    POINT(read_event, damper_read);
    POINT(write_event, damper_write);
    POINT(replay, damper_replay);
    POINT(look_ahead, damper_look_ahead);
    POINT(audit_fresh, damper_audit_fresh);
    POINT(audit_hear, damper_audit_hear);
    POINT(hall_event, damper_hall_event);
    POINT(hall_tick, damper_hall_tick);
    POINT(hall_page, damper_hall_page);
    POINT(hall_bill, damper_hall_bill);
    POINT(flow_fresh, damper_flow_fresh);
    POINT(flow_well_formed, damper_flow_well_formed);
    POINT(flow_hear, damper_flow_hear);
}

/* A hall of fresh drives, the last of them damaged. */
static void fill_hall(void)
{
    for (uint32_t i = 0; i < DAMPER_HALL_MOST; i++) {
        row[i] = damper_fresh();
        list[i] = DAMPER_HALL_MOST - 1 - i;
    }
    row[DAMPER_HALL_MOST - 1].commands.hand = 2;
}

/*
 * The bytes from the deepest one without paint on, after calls over the list of events from a fresh drive. Of the hall each
 * drive but the last becomes now and then what that drive is; the audit hears of each event what the event before was answered;
 * a flow box goes on from the call before, and is fresh at each eighth.
 */
static size_t depth(void (*call)(void), bool archive, size_t calls, uint8_t paint)
{
    point(archive);
    memset(stack, paint, sizeof stack);
    drive = damper_fresh();
    fill_hall();
    for (size_t i = 0; i < calls; i++) {
        event = events[i];
        row[i % (DAMPER_HALL_MOST - 1)] = drive;
        audit.drive = drive;
        flow = i % 8 ? heard.state : damper_flow_fresh(100, 1, 2);
        on_stack(call);
        stepped = damper_step(drive, event, DAMPER_EVENT_LENGTH);
        drive = stepped.drive;
    }
    size_t painted = 0;
    while (painted < sizeof stack && stack[painted] == paint)
        painted++;
    return sizeof stack - painted;
}

/* Two paints, since the deepest byte may have the colour of one. */
static size_t deeper(void (*call)(void), bool archive, size_t calls)
{
    size_t x = depth(call, archive, calls, 0x55), y = depth(call, archive, calls, 0xAA);
    return x > y ? x : y;
}

static bool fits = true;

static void measure(const char *name, void (*call)(void), size_t calls, size_t most)
{
    size_t taken = deeper(call, true, calls) - deeper(call, false, 1) + sizeof(void *);
    printf(" %s %zu", name, taken);
    fits = fits && taken <= most;
}

int main(void)
{
    records = fread(events, DAMPER_EVENT_LENGTH, ROOM, stdin);
    printf("bytes of stack, over %zu records:", records);
    measure("fresh", call_fresh, 1, DAMPER_STACK);
    measure("well_formed", call_well_formed, records, DAMPER_STACK);
    measure("step", call_step, records, DAMPER_STACK);
    measure("read", call_read, records, DAMPER_STACK);
    measure("write", call_write, records, DAMPER_STACK);
    measure("replay", call_replay, 1, DAMPER_STACK);
    measure("look_ahead", call_look_ahead, records, DAMPER_STACK);
    measure("audit_fresh", call_audit_fresh, 1, DAMPER_STACK);
    measure("audit_hear", call_audit_hear, records, DAMPER_AUDIT_STACK);
    measure("hall_event", call_hall_event, records, DAMPER_STACK);
    measure("hall_tick", call_hall_tick, records, DAMPER_STACK);
    measure("hall_page", call_hall_page, records, DAMPER_STACK);
    measure("hall_bill", call_hall_bill, records, DAMPER_STACK);
    measure("flow_fresh", call_flow_fresh, 1, DAMPER_STACK);
    measure("flow_well_formed", call_flow_well_formed, records, DAMPER_STACK);
    measure("flow_hear", call_flow_hear, records, DAMPER_STACK);
    printf("; DAMPER_STACK is %d, DAMPER_AUDIT_STACK %d\n", DAMPER_STACK, DAMPER_AUDIT_STACK);
    if (fits)
        return 0;
    printf("stack: one takes more than that\n");
    return 1;
}
