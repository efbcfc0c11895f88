/* Numbers of 64 bits as two words: what takes more than a line. The upper word of a result stands in wide_high. */
unsigned wide_high;
unsigned wide_rest_low;
unsigned wide_rest_high;

/* The upper word of a product of two words. */
unsigned wide_product(unsigned a, unsigned b)
{
    unsigned a_low = a & 0xFFFFu, a_high = a >> 16, b_low = b & 0xFFFFu, b_high = b >> 16;
    unsigned middle = a_high * b_low + ((a_low * b_low) >> 16);
    unsigned other = (middle & 0xFFFFu) + a_low * b_high;
    return a_high * b_high + (middle >> 16) + (other >> 16);
}

unsigned wide_left(unsigned low, unsigned high, unsigned by)
{
    by &= 63u;
    wide_high = high;
    if (by >= 32u) {
        wide_high = low << (by - 32u);
        low = 0u;
    } else if (by > 0u) {
        wide_high = (high << by) | (low >> (32u - by));
        low = low << by;
    }
    return low;
}

unsigned wide_right(unsigned low, unsigned high, unsigned by)
{
    by &= 63u;
    wide_high = high;
    if (by >= 32u) {
        low = high >> (by - 32u);
        wide_high = 0u;
    } else if (by > 0u) {
        low = (low >> by) | (high << (32u - by));
        wide_high = high >> by;
    }
    return low;
}

unsigned wide_right_signed(unsigned low, int high, unsigned by)
{
    by &= 63u;
    wide_high = (unsigned)high;
    if (by >= 32u) {
        low = (unsigned)(high >> (by - 32u));
        wide_high = (unsigned)(high >> 31);
    } else if (by > 0u) {
        low = (low >> by) | ((unsigned)high << (32u - by));
        wide_high = (unsigned)(high >> by);
    }
    return low;
}

/* Division bit by bit. */
unsigned wide_quotient(unsigned low, unsigned high, unsigned by_low, unsigned by_high)
{
    unsigned rest_low = 0u, rest_high = 0u, out;
    int bit;
    for (bit = 0; bit < 64; bit++) {
        out = rest_high >> 31;
        rest_high = (rest_high << 1) | (rest_low >> 31);
        rest_low = (rest_low << 1) | (high >> 31);
        high = (high << 1) | (low >> 31);
        low = low << 1;
        if (out || rest_high > by_high || (rest_high == by_high && rest_low >= by_low)) {
            rest_high = rest_high - by_high - (rest_low < by_low);
            rest_low = rest_low - by_low;
            low = low | 1u;
        }
    }
    wide_high = high;
    wide_rest_low = rest_low;
    wide_rest_high = rest_high;
    return low;
}

unsigned wide_quotient_signed(unsigned low, int high, unsigned by_low, int by_high)
{
    unsigned above = (unsigned)high, below = (unsigned)by_high, found;
    if (high < 0) {
        above = ~above + (low == 0u);
        low = -low;
    }
    if (by_high < 0) {
        below = ~below + (by_low == 0u);
        by_low = -by_low;
    }
    found = wide_quotient(low, above, by_low, below);
    if ((high < 0) != (by_high < 0)) {
        wide_high = ~wide_high + (found == 0u);
        found = -found;
    }
    if (high < 0) {
        wide_rest_high = ~wide_rest_high + (wide_rest_low == 0u);
        wide_rest_low = -wide_rest_low;
    }
    return found;
}
