/*
 * A caller of the first interface, whose nodes had no population: tools/old-callers asks that none can be built any more.
 * With CALL it is an old object file, which knows the name of a symbol alone; with SOURCE from 1 to 3 it is an old source. With
 * STOCKS too the source has the populations and must compile, so that it is for want of them that the other one does not.
 */
#ifdef CALL
unsigned long long CALL(void);

int main(void) {
    return CALL() != 0;
}
#else
#include "ffridwelan.h"

#define W words, 4
#define B bytes, 4
#ifdef STOCKS
#define P stocks, 4,
static uint16_t stocks[4];
#else
#define P
#endif

static uint32_t words[4];
static uint8_t bytes[4];

int main(void) {
#if SOURCE == 1
    return ffr_clean(10, W, W, P W, W, W, W, W, B, W, W, B, W, W, W, P W, W, W, W, W, B, W, W, B, W, W) != 0;
#elif SOURCE == 2
    return ffr_join(10, W, W, P W, W, W, W, W, B, W, W, B, W, W, P W, W, W, W, W, W, B, W, W, P W, W, W, W, W, B, W, W, B, W) != 0;
#else
    return ffr_alleles(10, W, W, P W, W, W, W, W, B, W, W, B, W, W, B, B) != 0;
#endif
}
#endif
