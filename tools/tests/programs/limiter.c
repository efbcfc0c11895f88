/* Limits how fast a valve moves. This file has the valve; limiter_filter.c smooths what is asked of it. */
#include "limiter.h"

static int state = 20;
static int moves;
int out[8];
struct limits limits = {-50, 50, 12};

static int limited(int wanted)
{
    static int last;
    int step = wanted - state;

    if (step > limits.step)
        step = limits.step;
    else if (step < -limits.step)
        step = -limits.step;
    if (step != 0 && (step < 0) != (last < 0))
        moves += 100;
    last = step;
    moves++;
    return state += step;
}

int main(void)
{
    static const signed char asked[] = {10, 90, -100, -100, -100, 0, 127, -128, 5, 5};
    int i, sum = 0;

    for (i = 0; i < (int)sizeof asked; i++) {
        sum = sum * 3 + limited(filtered(asked[i]));
        if (i == 4)
            limits.step *= 2;
        out[i & 3] = state;
    }
    out[4] = moves;
    out[5] = clipped;
    out[6] = filtered_mean();
    out[7] = limits.step;
    return sum;
}
