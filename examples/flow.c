/*
 * A host of a flow box: each second it gives it what the sensor answers, and logs what is to be sent.
 *
 *     cc -I include examples/flow.c target/staticlib/libhost_flow.a -o flow && ./flow
 */
#include "damper.h"

#include <math.h>
#include <stdio.h>

typedef struct answer {
    uint32_t kind; /* enum damper_flow_kind */
    float value;
} answer;

int main(void)
{
    const answer sensor[] = {
        {DAMPER_FLOW_KIND_FLOW, 120}, {DAMPER_FLOW_KIND_FLOW, 125},    /* the first report waits for its time, too */
        {DAMPER_FLOW_KIND_SHARE, 0.26f}, {DAMPER_FLOW_KIND_FLOW, 134}, /* 130 and 134: less than ActFlowCOV from 125 */
        {DAMPER_FLOW_KIND_FLOW, 136}, {DAMPER_FLOW_KIND_BROKEN, 0},
        {DAMPER_FLOW_KIND_FLOW, NAN}, {DAMPER_FLOW_KIND_SHARE, 1.5f},  /* no readings, and no seconds of the box */
        {DAMPER_FLOW_KIND_SHARE, 0.53f},
    };
    damper_flow box = damper_flow_fresh(500, 10, 2); /* nominal 500, ActFlowCOV 10, a report each 2 s at most */
    for (size_t i = 0; i < sizeof sensor / sizeof *sensor; i++) {
        damper_flow_heard h = damper_flow_hear(box, sensor[i].kind, sensor[i].value);
        box = h.state;
        if (h.refusal)
            printf("reading %zu refused by %u\n", i + 1, h.refusal);
        if (h.reported)
            printf("reading %zu: %.9g m3/h, %u %%\n", i + 1, (double)h.flow, h.percent);
    }
    return 0;
}
