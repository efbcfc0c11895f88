/* A machine with a stack runs a small program out of a table: it multiplies and adds until a number is passed. */
#include <stdint.h>
enum code { PUSH, ADD, SUB, MUL, DUP, SWAP, OVER, LOAD, STORE, JUMP, ZERO, HALT };
enum stop { RUNS, HALTED, TOO_DEEP, EMPTY, TOO_LONG };
#define DEPTH 6
#define NEED(n) do { if (cpu->top < (n)) { cpu->stop = EMPTY; return; } } while (0)

struct step {
    uint8_t code;
    int16_t value;
};
struct cpu {
    int32_t stack[DEPTH];
    int32_t cell[4];
    uint8_t top, pc;
    enum stop stop;
};

static const struct step program[16] = {
    {PUSH, 5}, {STORE, 0}, {PUSH, 1}, {STORE, 1},
    [4] = {LOAD, 0}, {ZERO, 13}, {LOAD, 1}, {LOAD, .value = 0}, {MUL}, {DUP}, {STORE, 1}, {PUSH, 7}, {JUMP, 14},
    [13] = {HALT}, {.code = SUB, .value = 0}, {HALT, 0},
};
static struct cpu cpus[2];
int out[8];

static void push(struct cpu *cpu, int32_t value)
{
    if (cpu->top == DEPTH)
        cpu->stop = TOO_DEEP;
    else
        cpu->stack[cpu->top++] = value;
}

static void step(struct cpu *cpu, const struct step *code)
{
    int32_t *end = cpu->stack + cpu->top, kept;

    cpu->pc++;
    switch (code->code) {
    case PUSH: push(cpu, code->value); break;
    case ADD: case SUB: case MUL:
        NEED(2);
        kept = *--end;
        cpu->top--;
        end[-1] = code->code == MUL ? end[-1] * kept : code->code == ADD ? end[-1] + kept : end[-1] - kept;
        break;
    case DUP: NEED(1); push(cpu, end[-1]); break;
    case SWAP: NEED(2); kept = end[-2]; end[-2] = end[-1]; end[-1] = kept; break;
    case OVER: NEED(2); push(cpu, *(end - 2)); break;
    case LOAD: push(cpu, cpu->cell[code->value & 3]); break;
    case STORE: NEED(1); cpu->cell[code->value & 3] = *--end; cpu->top--; break;
    case ZERO:
        NEED(1);
        cpu->top--;
        if (*--end)
            break;
        /* fall through */
    case JUMP: cpu->pc = code->value; break;
    default: cpu->stop = HALTED;
    }
}

static int run(struct cpu *cpu, const struct step *from, int most)
{
    int count = 0;

    _Pragma("loopbound min 1 max 20")
    while (cpu->stop == RUNS) {
        step(cpu, &from[cpu->pc & 15]);
        if (++count == most)
            cpu->stop = TOO_LONG;
    }
    return count;
}

int main(void)
{
    static const struct step endless[16] = {{PUSH, 3}, {OVER}, {ADD}, {PUSH, -2}, {SWAP}, {JUMP, 2}};
    static const struct step deep[16] = {{PUSH, -9}, {DUP}, {JUMP, 1}};
    struct cpu other = {.cell = {1, 2}, .stop = RUNS};

    out[0] = run(cpus, program, 20);
    out[1] = cpus[0].stack[0] * 10 + cpus->stop;
    out[2] = run(&cpus[1], endless, 20) * 10 + cpus[1].stop;
    out[3] = run(&other, deep, 20) * 10 + other.stop;
    out[4] = cpus[0].cell[1];
    out[5] = other.top * 100 + other.stack[DEPTH - 1];
    cpus[1] = other;
    cpus[1].stop = RUNS;
    cpus[1].top = 2;
    cpus[1].pc = 9;
    out[6] = run(cpus + 1, program, 20);
    out[7] = cpus[1].cell[1] + (int)cpus[1].stop * 1000;
    return cpus[0].top * 10 + cpus[1].top;
}
