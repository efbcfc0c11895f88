/* The mean of the last four values, within limits. */
#include "limiter.h"
#define SIZE 4

static short state[SIZE];
static unsigned at;
unsigned clipped;

static int limited(int value)
{
    if (value > limits.most || value < limits.least) {
        clipped++;
        return value < 0 ? limits.least : limits.most;
    }
    return value;
}

int filtered_mean(void)
{
    int i, sum = 0;

    for (i = 0; i < SIZE; i++)
        sum += state[i];
    return sum / SIZE;
}

int filtered(int value)
{
    state[at++ % SIZE] = limited(value);
    return filtered_mean();
}
