/* What the two files of the limiter share. */
#ifndef LIMITER_H
#define LIMITER_H
struct limits {
    int least, most, step;
};
extern struct limits limits;
extern unsigned clipped;
int filtered(int value);
int filtered_mean(void);
#endif
