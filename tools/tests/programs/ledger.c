/* Accounts in short numbers: what goes over their width wraps or is held, and sums are split into parts by out
   parameters. */
#include <limits.h>
#define COUNT(a) ((int)(sizeof(a) / sizeof *(a)))

struct money {
    short whole;
    signed char cents;
};
struct account {
    struct money has, owes;
    unsigned char bookings;
    struct { char letter; unsigned short digits; } name;
};

static struct account accounts[3] = {
    {.has = {100, 50}, .name = {'K', 65530}},
    {{-5, -99}, {12}, 254, {'L', 7}},
    {.owes.cents = 9, .bookings = 1},
};
static signed char wrapped;
int out[8];

static int in_cents(struct money m)
{
    return m.whole * 100 + m.cents;
}

static int split(int cents, short *whole, signed char *rest)
{
    *rest = cents % 100;
    cents /= 100;
    *whole = cents;
    return *whole == cents;
}

static struct money added(struct money a, struct money b, int *held)
{
    struct money sum;
    int cents = in_cents(a) + in_cents(b);

    if (!split(cents, &sum.whole, &sum.cents)) {
        sum.whole = cents < 0 ? SHRT_MIN : SHRT_MAX;
        ++*held;
    }
    return sum;
}

static struct account *book(struct account *to, int cents, int *held)
{
    struct money by;

    if (!split(cents, &by.whole, &by.cents))
        return (void *)0;
    to->has = added(to->has, by, held);
    to->bookings++;
    to->name.digits += to->bookings;
    wrapped += by.cents;
    return to;
}

int main(void)
{
    static const int cents[] = {1995, -25050, 3276699, 3000000, -7, 40000000, 99, 98, -3276800};
    struct account *last = accounts, *got;
    int i, held = 0, lost = 0;
    unsigned char small = 250;

    for (i = 0; i < COUNT(cents); i++) {
        got = book(&accounts[i % 3], cents[i], &held);
        if (got)
            last = got;
        else
            lost++;
        small += i;
    }
    for (i = 0; i < COUNT(accounts); i++) {
        out[i] = in_cents(accounts[i].has) + accounts[i].owes.cents;
        out[3] = out[3] * 1000 + accounts[i].bookings;
    }
    out[4] = last - accounts;
    out[5] = accounts[0].name.digits * 2 + accounts[1].name.letter;
    out[6] = wrapped;
    out[7] = small;
    return held * 10 + lost;
}
