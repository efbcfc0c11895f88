/* A machine that sells drinks: coins and keys come as letters, and the states are a `switch` with arms that fall
   through. Change is given in the largest coins that are left. */
#include <stdbool.h>
enum state { IDLE, PAID, CHOSEN, STOPPED };
enum { WATER = 120, JUICE = 180, SUGAR = 10 };

static const char keys[] = "2j1w5js.21jsw5?12jc52jr1j1w.";
static unsigned char coins[3] = {3, 2, 1};
static const unsigned short worth[3] = {50, 100, 200};
static enum state state;
static short credit;
static int sold, till;
int out[8];

static bool give_change(short *left)
{
    int i;

    for (i = 2; i >= 0; i--) {
        int most = *left / worth[i];
        if (most > coins[i])
            most = coins[i];
        coins[i] -= most;
        *left -= most * worth[i];
    }
    return *left == 0;
}

static int key(char c)
{
    int price = 0;

    switch (c) {
    case '2':
        credit += 100;
        /* fall through */
    case '1':
        credit += 50;
        /* fall through */
    case '5':
        credit += 50;
        coins[c == '5' ? 0 : c - '0']++;
        state = PAID;
        break;
    case 's':
        price += SUGAR;
        /* fall through */
    case 'j':
        price += JUICE - WATER;
        /* fall through */
    case 'w':
        price += WATER;
        if (state == PAID && credit >= price) {
            credit -= price;
            till += price;
            sold++;
            state = credit >= WATER ? PAID : CHOSEN;
            break;
        }
        return 0;
    case 'r': case 'c': case '.':
        if (!give_change(&credit))
            state = STOPPED;
        else
            state = IDLE;
        break;
    default:
        return -1;
    }
    return 1;
}

int main(void)
{
    const char *at;
    int taken = 0, wrong = 0;

    _Pragma("loopbound min 0 max 40")
    for (at = keys; *at; at++) {
        switch (key(*at)) {
        case 1: taken++; continue;
        case -1: wrong += 10;
        default: wrong++;
        }
        if (state == STOPPED)
            break;
    }
    out[0] = sold, out[1] = till, out[2] = credit, out[3] = state;
    out[4] = coins[0], out[5] = coins[1], out[6] = coins[2], out[7] = at - keys;
    return taken * 100 + wrong;
}
