/* SplitMix64 (Steele, Lea and Flood, 2014): a counter in steps of one odd constant, each value of
   it scrambled by two rounds of shift and multiply. */
#include "draw.h"

/* The seed is scrambled first, so that the cases of neighbouring seeds are not the same. */
uint64_t draws_of(uint64_t seed, uint64_t number)
{
    return draw(&seed) + number;
}

uint64_t draw(uint64_t *state)
{
    uint64_t drawn = *state += UINT64_C(0x9E3779B97F4A7C15);
    drawn = (drawn ^ drawn >> 30) * UINT64_C(0xBF58476D1CE4E5B9);
    drawn = (drawn ^ drawn >> 27) * UINT64_C(0x94D049BB133111EB);
    return drawn ^ drawn >> 31;
}

uint32_t draw_below(uint64_t *state, uint32_t limit)
{
    return (uint32_t)((draw(state) >> 32) * limit >> 32);
}

uint32_t draw_set(uint64_t *state, unsigned limit)
{
    uint32_t whole = (UINT32_C(1) << limit) - 1;
    return draw_below(state, 2) == 0 ? whole : 1 + draw_below(state, whole);
}
