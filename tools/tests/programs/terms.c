/* Reads terms with brackets and gives their values: three functions that call one another. */
enum fault { NONE, NUMBER, BRACKET, DIVISOR, REST };

static const char *at;
static enum fault fault;
int out[8];

static int sum(void);

static int fail(enum fault found)
{
    if (!fault)
        fault = found;
    return 0;
}

static int factor(void)
{
    int value = 0, sign = 1;

    if (*at == '-') {
        sign = -1;
        at++;
    }
    if (*at == '(') {
        at++;
        value = sum();
        if (*at != ')')
            return fail(BRACKET);
        at++;
        return sign * value;
    }
    if (*at < '0' || *at > '9')
        return fail(NUMBER);
    _Pragma("loopbound min 1 max 4")
    while (*at >= '0' && *at <= '9')
        value = value * 10 + (*at++ - '0');
    return sign * value;
}

static int product(void)
{
    int value = factor(), by;

    _Pragma("loopbound min 0 max 2")
    while (*at == '*' || *at == '/') {
        char sign = *at++;
        by = factor();
        if (sign == '*')
            value *= by;
        else if (by == 0)
            return fail(DIVISOR);
        else
            value /= by;
    }
    return value;
}

static int sum(void)
{
    int value = product();

    _Pragma("loopbound min 0 max 2")
    while (*at == '+' || *at == '-')
        value += *at++ == '+' ? product() : -product();
    return value;
}

static int value_of(const char *term)
{
    int value;

    at = term;
    fault = NONE;
    value = sum();
    if (*at && !fault)
        fail(REST);
    return fault ? -1000 * fault : value;
}

int main(void)
{
    static const char *const terms[] = {"12+3*4", "-(2-7)*(1+1)", "100/7/2-1", "2*(3+4", "8/(4-4)", "5*-x", "7)", ""};
    int i, good = 0;

    for (i = 0; i < 8; i++) {
        out[i] = value_of(terms[i]);
        good += !fault;
    }
    return good;
}
