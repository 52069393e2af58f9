/*
 * What a flow box assumes of the processor: that it rounds to nearest and keeps subnormal numbers. Elsewhere some readings become
 * other flows, or are taken though they are below 0, and once the processor is set back none is. For gcc and clang on x86-64.
 */
#include "damper.h"

#include <stdio.h>
#include <string.h>
#include <xmmintrin.h>

#define SHARES 1000000
#define FLUSH 0x8040u   /* results and operands that are subnormal become 0 */
#define ROUNDING 0x6000u
#define UP 0x4000u
#define TO_ZERO 0x6000u

static uint64_t state = 88172645463325252u;

static uint32_t drawn(void)
{
    state ^= state << 13;
    state ^= state >> 7;
    state ^= state << 17;
    return (uint32_t)(state >> 16);
}

/* The float of these bits. */
static float of_bits(uint32_t bits)
{
    float f;
    memcpy(&f, &bits, sizeof f);
    return f;
}

static uint32_t bits_of(float f)
{
    uint32_t bits;
    memcpy(&bits, &f, sizeof bits);
    return bits;
}

static damper_flow_heard heard(unsigned control, damper_flow box, float share)
{
    unsigned before = _mm_getcsr();
    _mm_setcsr(control);
    damper_flow_heard h = damper_flow_hear(box, DAMPER_FLOW_KIND_SHARE, share);
    _mm_setcsr(before);
    return h;
}

/* How many of random shares, of any size, are reported otherwise with other control bits. */
static long others(unsigned control)
{
    const uint32_t one = bits_of(1), million = bits_of(1e6f);
    long differ = 0;
    for (long i = 0; i < SHARES; i++) {
        damper_flow box = damper_flow_fresh(of_bits(one + drawn() % (million - one + 1)), 1, 1);
        float share = of_bits(drawn() % (one + 1));
        damper_flow_heard a = damper_flow_hear(box, DAMPER_FLOW_KIND_SHARE, share), b = heard(control, box, share);
        differ += bits_of(a.flow) != bits_of(b.flow) || a.percent != b.percent;
    }
    return differ;
}

/* Whether a reading just below 0 is refused. */
static bool refused_below_0(unsigned control)
{
    return heard(control, damper_flow_fresh(1, 1, 1), of_bits(0x80000001)).refusal == DAMPER_FLOW_REFUSAL_READING;
}

int main(void)
{
    unsigned plain = _mm_getcsr();
    if (plain & (FLUSH | ROUNDING)) {
        printf("floats: this program does not start with rounding to nearest and subnormal numbers\n");
        return 1;
    }
    long same = others(plain), flushed = others(plain | FLUSH), up = others(plain | UP), to_zero = others(plain | TO_ZERO);
    printf("floats: of %d shares %ld differ as a program starts, %ld flushed to zero, %ld rounding up, %ld toward zero\n", SHARES, same,
           flushed, up, to_zero);
    printf("floats: a reading just below 0 is %s as a program starts, and %s flushed to zero\n",
           refused_below_0(plain) ? "refused" : "taken", refused_below_0(plain | FLUSH) ? "refused" : "taken");
    return same == 0 && flushed > 0 && up > 0 && to_zero > 0 && refused_below_0(plain) && !refused_below_0(plain | FLUSH) ? 0 : 1;
}
