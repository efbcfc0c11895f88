/* Orders of a workshop wait in two lists, the urgent and the others. Their records come from one store, in which
   the free ones hang together as a third list. */
#include <stddef.h>
#define RECORDS 6
#define IS_URGENT(o) ((o)->minutes <= 5 || (o)->client == 'V')

struct order {
    struct order *next;
    short minutes;
    char client;
};
struct list {
    struct order *first;
    int length;
};

static struct order store[RECORDS];
static struct order *spare;
static struct list urgent, others;
int out[8];

static void empty(struct list *list)
{
    list->first = NULL;
    list->length = 0;
}

static void prepare(void)
{
    int i;

    spare = NULL;
    for (i = RECORDS - 1; i >= 0; i--) {
        store[i].next = spare;
        spare = &store[i];
    }
    empty(&urgent);
    empty(&others);
}

/* Puts an order to the end of its list, and tells how long that is; -1 where no record is free. */
static int put(int minutes, char client)
{
    struct order *made = spare, *last;
    struct list *list;

    if (made == NULL)
        return -1;
    spare = made->next;
    made->minutes = minutes;
    made->client = client;
    made->next = NULL;
    list = IS_URGENT(made) ? &urgent : &others;
    if (list->first == NULL) {
        list->first = made;
    } else {
        last = list->first;
        _Pragma("loopbound min 0 max 5")
        while (last->next != NULL)
            last = last->next;
        last->next = made;
    }
    return ++list->length;
}

/* Takes the next order out; 0 where nobody waits. */
static int take(int *minutes, char *client)
{
    struct list *list = urgent.first ? &urgent : &others;
    struct order *taken = list->first;

    if (!taken)
        return 0;
    list->first = taken->next;
    list->length--;
    *minutes = taken->minutes;
    *client = taken->client;
    taken->next = spare;
    spare = taken;
    return 1;
}

int main(void)
{
    static const struct { short minutes; char client; } day[] = {
        {30, 'A'}, {4, 'B'}, {45, 'V'}, {12, 'C'}, {3, 'A'}, {60, 'D'}, {7, 'E'}, {2, 'V'}, {9, 'B'},
    };
    int i, refused = 0, longest = 0, clock = 0, minutes, served = 0;
    char client;

    prepare();
    for (i = 0; i < (int)(sizeof day / sizeof day[0]); i++) {
        int length = put(day[i].minutes, day[i].client);
        if (length < 0)
            refused++;
        else if (length > longest)
            longest = length;
        if (i % 3 == 2 && take(&minutes, &client)) {
            clock += minutes;
            out[served++ % 8] = client * 1000 + clock;
        }
    }
    _Pragma("loopbound min 0 max 6")
    while (take(&minutes, &client)) {
        clock += minutes;
        out[served++ % 8] = client * 1000 + clock;
    }
    return clock * 1000 + served * 100 + longest * 10 + refused;
}
