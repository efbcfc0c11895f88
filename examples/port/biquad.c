/* A filter of second order with coefficients of 30 bits behind the point: its sums need 64 bits. */
#include <stdint.h>
#define ONE (1 << 30)

typedef struct {
    int32_t b0, b1, b2, a1, a2;
    int32_t x1, x2, y1, y2;
} biquad;

int in[16] = {1000, 2000, -3000, 4000, 25000, -25000, 700, 0, 0, 0, 12345, -1, 32767, -32768, 5, 6};
int out[16];

static int16_t saturated(int64_t value)
{
    return value > INT16_MAX ? INT16_MAX : value < INT16_MIN ? INT16_MIN : (int16_t)value;
}

static int16_t next(biquad *f, int16_t x)
{
    int64_t sum = (int64_t)f->b0 * x;

    sum += (int64_t)f->b1 * f->x1;
    sum += (int64_t)f->b2 * f->x2;
    sum -= (int64_t)f->a1 * f->y1;
    sum -= (int64_t)f->a2 * f->y2;
    f->x2 = f->x1;
    f->x1 = x;
    f->y2 = f->y1;
    f->y1 = saturated(sum >> 30);
    return f->y1;
}

int main(void)
{
    static biquad low = {ONE / 50, ONE / 25, ONE / 50, -(ONE / 16 * 25), ONE / 100 * 64};
    const int *sample;
    int *result = out, sum = 0;

    for (sample = in; sample < in + 16; sample++) {
        *result = next(&low, *sample);
        sum = sum * 31 + *result++;
    }
    return sum;
}
