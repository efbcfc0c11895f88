/* Works on lines of text: words, their first letters, what reads the same from both ends, and how two words
   compare. */
#include <stddef.h>
#define IS_LETTER(c) (((c) >= 'a' && (c) <= 'z') || ((c) >= 'A' && (c) <= 'Z'))
#define LOWER(c) ((c) >= 'A' && (c) <= 'Z' ? (c) - 'A' + 'a' : (c))

static char text[] = "Level ground, a noon rotor; ANNA saw a Kayak!";
static const char *const names[] = {"kayak", "anna", "noon", "wind"};
static char initials[12], copy[16];
int out[8];

static const char *next_word(const char *from, int *length)
{
    const char *end;

    _Pragma("loopbound min 0 max 4")
    while (*from && !IS_LETTER(*from))
        from++;
    if (!*from)
        return NULL;
    end = from;
    _Pragma("loopbound min 1 max 8")
    while (IS_LETTER(*end))
        end++;
    *length = (int)(end - from);
    return from;
}

static int same_from_behind(const char *word, int length)
{
    const char *last = word + length - 1;

    _Pragma("loopbound min 0 max 5")
    while (word < last) {
        if (LOWER(*word) != LOWER(*last))
            return 0;
        word++, last--;
    }
    return 1;
}

static char *copied(char *to, const char *from, int length)
{
    _Pragma("loopbound min 0 max 8")
    while (length--)
        *to++ = LOWER(*from), from++;
    *to = '\0';
    return to;
}

static int compared(const char *a, const char *b)
{
    _Pragma("loopbound min 0 max 8")
    while (*a && *a == *b)
        a++, b++;
    return *a < *b ? -1 : *a > *b;
}

int main(void)
{
    const char *word = text;
    char *initial = initials;
    int length = 0, count = 0, mirrored = 0, found = 0, i;

    _Pragma("loopbound min 0 max 12")
    while ((word = next_word(word, &length)) != NULL) {
        count++;
        *initial++ = *word;
        if (length > 1 && same_from_behind(word, length))
            mirrored++;
        copied(copy, word, length);
        for (i = 0; i < 4; i++)
            if (compared(copy, names[i]) == 0)
                found = found * 10 + i + 1;
        word += length;
    }
    out[0] = count;
    out[1] = mirrored;
    out[2] = found;
    out[3] = initials[0] + initials[count - 1] * 256;
    out[4] = copied(copy, names[1], 3) - copy;
    out[5] = compared(copy, names[1]) * 10 + compared(names[0], names[2]);
    text[2] = '\0';
    out[6] = compared("Le", text) + (int)sizeof text * 10;
    out[7] = names[3][1] - "\x41\101A"[1];
    return count * 10 + mirrored;
}
