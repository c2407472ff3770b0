// Prints keys that collide in the hash tables of a room, for bench/collisions:
//
//     collisions TABLE COUNT MASK SEED
//
// TABLE is `ids` (ids of messages of the first author), `elements` (ids of new elements) or `authors` (names). Each key
// has the hash whose bits in MASK are 0. With the mask 0 all keys count, so they are random.
#include <stdint.h>
#include <stdio.h>
#include <stdlib.h>
#include <string.h>

// The constants and the steps of FoldHasher, the kit's hash for tables (core/src/hash/fold.rt).
static const uint64_t START = 0x243f6a8885a308d3, MULTIPLIER = 0x9e3779b97f4a7c15;

static uint64_t folded(uint64_t a, uint64_t b) {
    unsigned __int128 product = (unsigned __int128)a * b;
    return (uint64_t)product ^ (uint64_t)(product >> 64);
}

static uint64_t with_number(uint64_t state, uint64_t number) { return folded(state ^ number, MULTIPLIER ^ 16); }

static uint64_t with_byte(uint64_t state, uint8_t byte) { return folded(state ^ byte * 0x010101u, MULTIPLIER ^ 2); }

// The 32 bits that a table uses: the low ones choose the group, and the top eight are compared in it.
static uint32_t in_table(uint64_t hash) { return (uint32_t)(hash ^ hash >> 32); }

// The next number of a generator (splitmix64).
static uint64_t next(uint64_t *state) {
    uint64_t number = *state += 0x9e3779b97f4a7c15;
    number = (number ^ number >> 30) * 0xbf58476d1ce4e5b9;
    number = (number ^ number >> 27) * 0x94d049bb133111eb;
    return number ^ number >> 31;
}

static uint32_t of_id(uint64_t id) { return in_table(with_number(with_number(START, id), 0)); }

// A new element changes whether it is present, which is access 1.
static uint32_t of_element(uint64_t id) { return in_table(with_byte(with_number(START, id), 1)); }

static uint32_t of_author(const char *name) {
    uint64_t state = with_number(START, strlen(name));
    for (; *name; name++)
        state = with_byte(state, (uint8_t)*name);
    return in_table(state);
}

int main(int count, char **arguments) {
    if (count != 5)
        return 2;
    const char *table = arguments[1];
    long wanted = atol(arguments[2]);
    uint32_t mask = (uint32_t)strtoul(arguments[3], NULL, 0);
    uint64_t state = strtoull(arguments[4], NULL, 0);
    while (wanted) {
        uint64_t number = next(&state) >> 12;
        char name[13];
        if (!number)
            continue;
        if (!strcmp(table, "authors")) {
            for (int at = 0; at < 12; at++, number /= 16)
                name[at] = (char)('a' + number % 16);
            name[12] = 0;
            if (of_author(name) & mask)
                continue;
            puts(name);
        } else {
            if ((!strcmp(table, "ids") ? of_id(number) : of_element(number)) & mask)
                continue;
            printf("%llu\n", (unsigned long long)number);
        }
        wanted--;
    }
    return 0;
}
