/* Shortest ways between six places, with a waiting list of records that point to one another. */
#include <stddef.h>
#define PLACES 6
#define FAR 9999

struct entry {
    int place;
    struct entry *next;
};

static const unsigned char length[PLACES][PLACES] = {
    {0, 7, 9, 0, 0, 14}, {7, 0, 10, 15, 0, 0}, {9, 10, 0, 11, 0, 2},
    {0, 15, 11, 0, 6, 0}, {0, 0, 0, 6, 0, 9}, {14, 0, 2, 0, 9, 0},
};
static struct entry entries[20];
static struct entry *first = NULL;
static int used;
int out[PLACES];

static void append(int place)
{
    struct entry *last = first, *made = &entries[used++];

    made->place = place;
    made->next = NULL;
    if (!last) {
        first = made;
        return;
    }
    _Pragma( "loopbound min 0 max 8" )
    while (last->next)
        last = last->next;
    last->next = made;
}

static int take(void)
{
    int place = first->place;

    first = first->next;
    return place;
}

int main(void)
{
    int i, place, sum = 0;

    for (i = 0; i < PLACES; i++)
        out[i] = FAR;
    out[0] = 0;
    append(0);
    _Pragma( "loopbound min 1 max 12" )
    while (first) {
        place = take();
        for (i = 0; i < PLACES; i++) {
            int step = length[place][i];
            if (step && out[place] + step < out[i]) {
                out[i] = out[place] + step;
                append(i);
            }
        }
    }
    for (i = 0; i < PLACES; i++)
        sum += out[i];
    return sum;
}
