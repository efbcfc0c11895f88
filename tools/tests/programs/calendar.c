/* Dates as records by value: days between two of them, the day of the week, and the next working day. */
#include <stdbool.h>

enum weekday { MONDAY, TUESDAY, WEDNESDAY, THURSDAY, FRIDAY, SATURDAY, SUNDAY };
typedef struct {
    short year;
    unsigned char month, day;
} date;

static const unsigned char length[2][12] = {
    {31, 28, 31, 30, 31, 30, 31, 31, 30, 31, 30, 31},
    {31, 29, 31, 30, 31, 30, 31, 31, 30, 31, 30, 31},
};
int out[8];

static bool leap(int year)
{
    return year % 4 == 0 && (year % 100 != 0 || year % 400 == 0);
}

/* The days from 1 January 2000 on. */
static int number(date d)
{
    int year = d.year - 2000, month, days = d.day - 1;

    days += year * 365 + (year + 3) / 4 - (year + 99) / 100 + (year + 399) / 400;
    _Pragma("loopbound min 0 max 11")
    for (month = 1; month < d.month; month++)
        days += length[leap(d.year)][month - 1];
    return days;
}

static enum weekday weekday(date d)
{
    return (number(d) + SATURDAY) % 7;
}

static date tomorrow(date d)
{
    if (++d.day > length[leap(d.year)][d.month - 1]) {
        d.day = 1;
        if (++d.month > 12) {
            d.month = 1;
            d.year++;
        }
    }
    return d;
}

static date working_day(date d)
{
    _Pragma("loopbound min 1 max 3")
    do
        d = tomorrow(d);
    while (weekday(d) >= SATURDAY);
    return d;
}

static int shown(date d)
{
    return (d.year * 100 + d.month) * 100 + d.day;
}

int main(void)
{
    date begin = {2023, 12, 29}, end = {2024, 3, 1}, century = {.day = 28, .month = 2, .year = 2100}, at;
    const date february = {2024, 2, 20};
    int i, rests = 0;

    out[0] = number(end) - number(begin);
    out[1] = weekday(begin) * 10 + weekday(end);
    at = working_day(begin);
    out[2] = shown(at);
    out[3] = shown(tomorrow(century));
    out[4] = number(century);
    at = february;
    for (i = 0; i < 15; i++) {
        rests += weekday(at) == SATURDAY || weekday(at) == SUNDAY;
        at = tomorrow(at);
    }
    out[5] = shown(at);
    out[6] = rests;
    begin = end;
    begin.day += 30;
    out[7] = shown(tomorrow(begin));
    return out[0] * 1000 + rests;
}
