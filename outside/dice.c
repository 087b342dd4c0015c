#include "dice.h"

static uint64_t state;

void dice_seed(uint64_t seed)
{
    state = seed;
}

/* splitmix64 */
uint64_t dice(void)
{
    uint64_t z = (state += UINT64_C(0x9e3779b97f4a7c15));

    z = (z ^ (z >> 30)) * UINT64_C(0xbf58476d1ce4e5b9);
    z = (z ^ (z >> 27)) * UINT64_C(0x94d049bb133111eb);
    return z ^ (z >> 31);
}

uint64_t below(uint64_t end)
{
    return dice() % end;
}

bool one_in(uint64_t n)
{
    return below(n) == 0;
}

uint64_t spread(uint64_t most)
{
    switch (below(8)) {
    case 0: return 0;
    case 1: return most < 1 ? most : 1;
    case 2: return most < 1 ? most : most - 1;
    case 3: return most;
    default: return below(most + 1);
    }
}
