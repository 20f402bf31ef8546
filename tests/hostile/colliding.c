/* Names and units whose hashes fall together in a table of indexmap that begins with no key: the hashes have one tag, and the first group where
   each is looked for is among the first eighth of all groups.

   colliding names COUNT LENGTH SIZE MASK WANTED BEFORE.. - BEHIND..    names of so many units of so many bytes; BEFORE and BEHIND are
                                                                       what is hashed before and behind the units of a name, as VALUE/SIZE
   colliding steps COUNT LENGTH MASK WANTED                            the units of texts of at most so many units, each step from a node by a unit */
#include <stdint.h>
#include <stdio.h>
#include <stdlib.h>
#include <string.h>

#define START 0x243f6a8885a308d3ull
#define MULTIPLIER 0x9e3779b97f4a7c15ull
#define MOST 16

static const char LETTERS[] = "ABCDEFGHIJKLMNOPQRSTUVWXYZabcdefghijklmnopqrstuvwxyz0123456789$_";

struct write { uint64_t value; unsigned size; };

static uint64_t folded(uint64_t a, uint64_t b)
{
    unsigned __int128 product = (unsigned __int128) a * b;
    return (uint64_t) product ^ (uint64_t) (product >> 64);
}

/* A hash that has read a number of 1, 2, 4 or 8 bytes more. */
static uint64_t with(uint64_t state, uint64_t value, unsigned size)
{
    uint64_t read = value;
    if (size == 4) read = value | value << 32;
    if (size == 2) read = (value & 0xff) | (value >> 8) << 8 | (value >> 8) << 16;
    if (size == 1) read = value * 0x010101;
    return folded(state ^ read, MULTIPLIER ^ (2 * size));
}

static int fits(uint64_t state, uint32_t mask, uint32_t wanted)
{
    return ((uint32_t) (state ^ state >> 32) & mask) == wanted;
}

static int writes_of(char **words, struct write *writes)
{
    int count = 0;
    for (; *words && strcmp(*words, "-"); words++, count++)
        sscanf(*words, "%lu/%u", &writes[count].value, &writes[count].size);
    return count;
}

static void names(long count, int length, unsigned size, uint32_t mask, uint32_t wanted, char **words)
{
    struct write before[MOST], behind[MOST];
    int first = writes_of(words, before), rest = writes_of(words + first + 1, behind);
    uint64_t states[MOST + 1] = {START};
    int letters[MOST] = {0}, depth = 0;
    for (int i = 0; i < first; i++) states[0] = with(states[0], before[i].value, before[i].size);
    while (count && depth >= 0) {
        if (depth == length) {
            uint64_t state = states[depth];
            for (int i = 0; i < rest; i++) state = with(state, behind[i].value, behind[i].size);
            if (fits(state, mask, wanted)) {
                for (int i = 0; i < length; i++) putchar(LETTERS[letters[i]]);
                putchar('\n');
                count--;
            }
            depth--;
            letters[depth]++;
        } else if (letters[depth] == 64) {
            if (--depth >= 0) letters[depth]++;
        } else {
            states[depth + 1] = with(states[depth], LETTERS[letters[depth]], size);
            if (++depth < length) letters[depth] = 0;
        }
    }
}

static void steps(long count, long length, uint32_t mask, uint32_t wanted)
{
    uint64_t made = 0;
    unsigned first = 0x800;
    while (made < (uint64_t) count) {
        uint64_t node = 0;
        for (long i = 0; i < length && made < (uint64_t) count; i++) {
            uint64_t state = with(START, node, 8);
            unsigned unit = i ? 0x800 : first;
            while (unit < 0xd800 && !fits(with(state, unit, 2), mask, wanted)) unit++;
            if (!i) first = unit + 1;
            printf(i ? " %u" : "%u", unit < 0xd800 ? unit : 0x800);
            node = ++made;
        }
        putchar('\n');
    }
}

int main(int count, char **words)
{
    uint32_t mask, wanted;
    if (count > 6 && !strcmp(words[1], "names")) {
        mask = strtoul(words[5], 0, 0), wanted = strtoul(words[6], 0, 0);
        names(atol(words[2]), atoi(words[3]), atoi(words[4]), mask, wanted, words + 7);
        return 0;
    }
    if (count > 5 && !strcmp(words[1], "steps")) {
        mask = strtoul(words[4], 0, 0), wanted = strtoul(words[5], 0, 0);
        steps(atol(words[2]), atol(words[3]), mask, wanted);
        return 0;
    }
    return 2;
}
