/* A garden of beds that closes at its sides: plants grow, spread and wither by what stands round them. */
#include <stdbool.h>
#define ROWS 5
#define COLUMNS 6
#define WRAPPED(x, n) (((x) + (n)) % (n))
#define MOST(a, b) ((a) > (b) ? (a) : (b))

typedef unsigned char bed;
static bed garden[2][ROWS][COLUMNS] = {{[1] = {0, 3, 0, 1}, [2] = {0, 0, 2, [5] = 4}, {1, 1}}};
static int withered;
int out[8];

static int around(bed (*from)[COLUMNS], int row, int column)
{
    int i, j, sum = 0;

    for (i = -1; i <= 1; i++)
        for (j = -1; j <= 1; j++)
            if (i || j)
                sum += from[WRAPPED(row + i, ROWS)][WRAPPED(column + j, COLUMNS)];
    return sum;
}

static bool season(int from)
{
    bool changed = false;
    int row, column;

    for (row = 0; row < ROWS; row++) {
        for (column = 0; column < COLUMNS; column++) {
            bed old = garden[from][row][column], made = old;
            int sum = around(garden[from], row, column);

            if (sum > 9 && old) {
                made = 0;
                withered++;
            } else if (sum >= 3 && sum <= 7) {
                made = old < 4 ? old + 1 : old;
            } else if (old) {
                made--;
            }
            garden[!from][row][column] = made;
            changed |= made != old;
        }
    }
    return changed;
}

int main(void)
{
    int year, now = 0, highest = 0, row, column, sum = 0;

    for (year = 0; year < 4; year++) {
        if (!season(now))
            break;
        now = !now;
    }
    for (row = 0; row < ROWS; row++) {
        const bed *at = garden[now][row];
        for (column = 0; column < COLUMNS; column++) {
            highest = MOST(highest, *at);
            out[row] = out[row] * 10 + *at++;
        }
        sum += out[row];
    }
    out[5] = withered;
    out[6] = highest;
    out[7] = year;
    return sum;
}
