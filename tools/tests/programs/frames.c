/* Frames of a bus between machines: a head of bit fields, data that are seen as bytes, halves or a word, and a
   checksum. Each frame is written into bytes and read out of them again. */
#include <stdint.h>
#define BYTES 8
#define LOW(w) ((w) & 0xff)
#define HIGH(w) (((w) >> 8) & 0xff)

struct head {
    unsigned kind : 3;
    int priority : 4;
    unsigned wants_answer : 1;
    unsigned sender : 9;
};
union data {
    uint32_t word;
    uint16_t half[2];
    uint8_t byte[4];
    struct { int8_t warmth; uint8_t load; int16_t turns; } motor;
};
struct frame {
    struct head head;
    union data data;
};

static uint8_t line[BYTES];
int out[8];

static uint8_t checksum(const uint8_t *from, int count)
{
    uint8_t sum = 0x5a;

    _Pragma("loopbound min 0 max 8")
    while (count-- > 0) {
        sum = (uint8_t)(sum << 1 | sum >> 7);
        sum ^= *from++;
    }
    return ~sum;
}

static void write_frame(const struct frame *f)
{
    uint16_t head = f->head.kind | (f->head.priority & 15) << 3 | f->head.wants_answer << 7;
    int i;

    line[0] = LOW(head);
    line[1] = LOW(f->head.sender);
    line[2] = HIGH(f->head.sender);
    for (i = 0; i < 4; i++)
        line[3 + i] = f->data.byte[i];
    line[7] = checksum(line, BYTES - 1);
}

static int read_frame(struct frame *f)
{
    int i;

    if (checksum(line, BYTES - 1) != line[BYTES - 1])
        return 0;
    f->head.kind = line[0];
    f->head.priority = line[0] >> 3;
    f->head.wants_answer = line[0] >> 7;
    f->head.sender = line[1] | line[2] << 8;
    for (i = 3; i >= 0; i--)
        f->data.byte[i] = line[i + 3];
    return 1;
}

int main(void)
{
    struct frame sent = {{5, -3, 1, 300}, {0x01020304u}}, taken;
    int good = 0;

    write_frame(&sent);
    out[0] = line[0] << 16 | line[1] << 8 | line[7];
    good += read_frame(&taken);
    out[1] = taken.head.kind * 100 + taken.head.priority;
    out[2] = taken.data.half[1] + taken.head.sender * 3;
    sent.data.motor.warmth = -40;
    sent.data.motor.load = 250;
    sent.data.motor.turns = -1200;
    sent.head.kind += 4;
    sent.head.priority -= 6;
    sent.head.sender = 511;
    sent.head.wants_answer = !sent.head.wants_answer;
    write_frame(&sent);
    good += read_frame(&taken);
    out[3] = (int)taken.data.word;
    out[4] = taken.data.motor.warmth + taken.data.motor.turns;
    out[5] = taken.head.kind * 1000 + taken.head.priority * 10 + taken.head.wants_answer;
    line[4] ^= 0x10;
    good += read_frame(&taken) * 10;
    line[4] ^= 0x10;
    line[7]++;
    good += read_frame(&taken) * 100;
    out[6] = taken.head.sender;
    out[7] = sizeof(union data);
    return good;
}
