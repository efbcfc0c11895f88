/* Stands for the `host.h` of a program from outside, whose `main` is renamed: what that one prints goes into `out`. */
#undef main
#undef long
#define HOST(count, word)             \
    int out[count];                   \
    int main(void)                    \
    {                                 \
        int value = bench_main(), i;  \
        for (i = 0; i < (count); i++) \
            out[i] = (int)(word);     \
        return value;                 \
    }
