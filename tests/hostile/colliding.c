/* Names that collide once a hasher was fed other names.

       colliding COUNT BITS < FED

   Feeds SipHash-1-3 with both keys 0 each line of FED and the byte 255, as `NamesHasher` of ar_manifest does. Then
   prints COUNT names, a line each, whose hashes from there are in one place of a hash map of the kit: they agree in
   their BITS low bits, by which the map chooses a group of places, and in the eight high bits of 32, which it compares
   before the names. That takes some 2 ^ (BITS + 8) tries a name. */

#include <stdint.h>
#include <stdio.h>
#include <stdlib.h>
#include <string.h>

struct hasher {
    uint64_t v0, v1, v2, v3, tail, length;
};

static uint64_t rotated(uint64_t word, int by)
{
    return word << by | word >> (64 - by);
}

static void mix(struct hasher *h)
{
    h->v0 += h->v1;
    h->v2 += h->v3;
    h->v1 = rotated(h->v1, 13) ^ h->v0;
    h->v3 = rotated(h->v3, 16) ^ h->v2;
    h->v0 = rotated(h->v0, 32);
    h->v2 += h->v1;
    h->v0 += h->v3;
    h->v1 = rotated(h->v1, 17) ^ h->v2;
    h->v3 = rotated(h->v3, 21) ^ h->v0;
    h->v2 = rotated(h->v2, 32);
}

static void put_word(struct hasher *h, uint64_t word)
{
    h->v3 ^= word;
    mix(h);
    h->v0 ^= word;
}

static void put_byte(struct hasher *h, unsigned char byte)
{
    h->tail |= (uint64_t)byte << 8 * (h->length % 8);
    h->length++;
    if (h->length % 8 == 0) {
        put_word(h, h->tail);
        h->tail = 0;
    }
}

static void feed(struct hasher *h, const char *name, size_t length)
{
    for (size_t i = 0; i < length; i++)
        put_byte(h, (unsigned char)name[i]);
    put_byte(h, 255);
}

/* The 32 bits that a map keeps of the hash of a name of eight bytes, the first of them lowest. */
static uint32_t kept(struct hasher h, uint64_t name)
{
    int pending = 8 * (h.length % 8);
    put_word(&h, h.tail | name << pending);
    h.tail = (pending ? name >> (64 - pending) : 0) | 255ull << pending;
    h.length += 9;
    if (h.length % 8 == 0) {
        put_word(&h, h.tail);
        h.tail = 0;
    }
    put_word(&h, h.length << 56 | h.tail);
    h.v2 ^= 255;
    mix(&h);
    mix(&h);
    mix(&h);
    uint64_t hash = h.v0 ^ h.v1 ^ h.v2 ^ h.v3;
    return (uint32_t)(hash ^ hash >> 32);
}

/* The name of a number: a letter from a to p for each of its eight digits of four bits, the lowest first. */
static uint64_t name_of(uint32_t number)
{
    uint64_t digits = number;
    digits = (digits | digits << 16) & 0x0000ffff0000ffff;
    digits = (digits | digits << 8) & 0x00ff00ff00ff00ff;
    digits = (digits | digits << 4) & 0x0f0f0f0f0f0f0f0f;
    return digits + 0x6161616161616161;
}

int main(int count, char **words)
{
    if (count != 3)
        return 2;
    long wanted = atol(words[1]);
    uint32_t agreeing = 0xff000000u | ((1u << atoi(words[2])) - 1);
    struct hasher started = {0x736f6d6570736575, 0x646f72616e646f6d, 0x6c7967656e657261, 0x7465646279746573, 0, 0};
    char line[4096];
    while (fgets(line, sizeof line, stdin))
        feed(&started, line, strcspn(line, "\n"));
    uint32_t place = kept(started, name_of(0)) & agreeing;
    long found = 0;
    for (uint64_t number = 0; found < wanted && number >> 32 == 0; number++) {
        uint64_t name = name_of((uint32_t)number);
        if ((kept(started, name) & agreeing) != place)
            continue;
        for (int i = 0; i < 8; i++)
            putchar((int)(name >> 8 * i & 255));
        putchar('\n');
        found++;
    }
    return found < wanted;
}
