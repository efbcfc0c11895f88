/* Prints what a program gives: the value of its `main`, which is renamed, and the words of its array `out`. */
#include <stdio.h>
#undef main
int task_main(void);
#if WORDS
extern int out[WORDS];
#endif

int main(void)
{
    printf("value %d\n", task_main());
#if WORDS
    for (int i = 0; i < WORDS; i++)
        printf("out %d %d\n", i, out[i]);
#endif
    return 0;
}
