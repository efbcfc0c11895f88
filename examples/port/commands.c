/* Reads lines of commands: a letter, a number and a checksum in two hexadecimal digits, as "S250*5B". */
enum state { LETTER, NUMBER, CHECK, WRONG };

static const char text[] = "S250*66;R7*65;S13*51;X1*69;R40*52;S9*6A;";
static short speed, way;
int out[4];

static int digit(char c)
{
    switch (c) {
    case 'A': case 'B': case 'C': case 'D': case 'E': case 'F':
        return c - 'A' + 10;
    default:
        return c >= '0' && c <= '9' ? c - '0' : -1;
    }
}

static int done(char letter, int number, unsigned char sum, int check)
{
    if (sum != check)
        return 0;
    switch (letter) {
    case 'R':
        speed = -speed;
        /* fall through */
    case 'S':
        speed += number;
        way += speed;
        return 1;
    }
    return 0;
}

int main(void)
{
    const char *at = text;
    enum state state = LETTER;
    unsigned char sum = 0;
    char letter = 0, c;
    int number = 0, check = 0, taken = 0, refused = 0;

    _Pragma( "loopbound min 1 max 40" )
    while ((c = *at++) != '\0') {
        if (c == ';') {
            done(letter, number, sum, check) ? taken++ : refused++;
            state = LETTER;
            sum = number = check = 0;
            continue;
        }
        switch (state) {
        case LETTER:
            letter = c;
            state = NUMBER;
            sum += c;
            break;
        case NUMBER:
            if (c == '*') {
                state = CHECK;
                break;
            }
            number = number * 10 + digit(c);
            sum ^= c;
            break;
        case CHECK:
            check = check * 16 + digit(c);
            break;
        default:
            state = WRONG;
        }
    }
    out[0] = speed, out[1] = way, out[2] = taken, out[3] = refused;
    return taken * 100 + refused;
}
