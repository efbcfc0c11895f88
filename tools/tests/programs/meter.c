/* A meter of energy: it counts pulses in 64 bits, and tells hours, tariffs and means by division. */
#include <stdint.h>
#define WATT_SECONDS_OF_A_PULSE 2250
#define MICRO 1000000LL

struct meter {
    uint64_t watt_seconds;
    int64_t microcents;
    unsigned pulses;
};

static struct meter meter;
static const int64_t price[2] = {21450000LL, 33990000LL};
int out[8];

static int64_t rounded(int64_t value, int64_t by)
{
    return value < 0 ? -((-value + by / 2) / by) : (value + by / 2) / by;
}

/* `pulses` came in the tariff; a negative number is energy that goes back, at two thirds of the price. */
static void count(int pulses, int tariff)
{
    int64_t amount = (int64_t)pulses * WATT_SECONDS_OF_A_PULSE;
    int64_t cost = amount / 1000 * price[tariff] / 3600;

    meter.watt_seconds += amount;
    meter.pulses += pulses < 0 ? -pulses : pulses;
    if (pulses < 0)
        cost = rounded(cost * 2, 3);
    meter.microcents += cost;
}

static unsigned digits(uint64_t value, int base, int *length)
{
    unsigned sum = 0;

    *length = 0;
    _Pragma("loopbound min 1 max 24")
    do {
        sum += value % base;
        value /= base;
        ++*length;
    } while (value);
    return sum;
}

int main(void)
{
    static const int day[] = {120000, 83000, 1999999, -450000, 7, -1, 2000000000};
    int i, length;
    uint64_t mask = 1;

    for (i = 0; i < 7; i++)
        count(day[i], i & 1);
    out[0] = (int)(meter.watt_seconds / 3600000);
    out[1] = (int)(meter.watt_seconds % 3600000);
    out[2] = (int)(meter.microcents / MICRO);
    out[3] = (int)(meter.microcents % MICRO);
    out[4] = (int)rounded(-meter.microcents, meter.pulses);
    out[5] = digits(meter.watt_seconds, 10, &length) * 100;
    out[5] += length;
    out[6] = digits(~(uint64_t)0, 7, &length) * 100 + 1;
    mask <<= length + 20;
    mask -= meter.pulses;
    out[7] = (int)(mask >> 32) ^ (int)mask ^ (mask > meter.watt_seconds);
    return meter.microcents > 0x7fffffffffLL ? 1 : meter.watt_seconds > 4000000000u ? 2 : 3;
}
