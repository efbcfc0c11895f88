/* Sends blocks over a bad line: a block is tried again by a jump back, and each way out of the function goes
   through the same end. The line answers by a shift register that stands for chance. */
#include <stdint.h>
#define TRIES 5
#define BLOCKS 6

enum answer { TAKEN, LOST, BROKEN };
static uint16_t chance = 0xace1;
static int on, switched, waited;
int out[8];

static int noise(void)
{
    unsigned bit = (chance ^ chance >> 2 ^ chance >> 3 ^ chance >> 5) & 1;

    chance = chance >> 1 | bit << 15;
    return chance % 10;
}

static enum answer transmit(int block, int power)
{
    int dice = noise() - power;

    return dice > 6 - block % 3 ? BROKEN : dice > 2 ? LOST : TAKEN;
}

static int send_block(int block, int *tries)
{
    int power = 1, result = -1, pause;

    *tries = 0;
    if (block % 4 == 3)
        goto out;
    on = 1;
    switched++;
again:
    ++*tries;
    switch (transmit(block, power)) {
    case TAKEN:
        result = power;
        break;
    case BROKEN:
        power++;
        /* fall through */
    case LOST:
        if (*tries == TRIES)
            goto off;
        pause = 1 << *tries;
        _Pragma("loopbound min 2 max 16")
        do
            waited++;
        while (--pause);
        goto again;
    }
off:
    on = 0;
out:
    return result;
}

int main(void)
{
    int block, tries, sum = 0, failed = 0;

    for (block = 0; block < BLOCKS; block++) {
        int result = send_block(block, &tries);
        if (result < 0) {
            failed++;
            continue;
        }
        out[block] = tries * 10 + result;
        sum += tries;
    }
    out[6] = waited * 10 + on;
    out[7] = chance;
    return sum * 100 + failed * 10 + switched;
}
