// Prints how long a put takes in a tree that has none of the table's proofs: leaves of 16 bytes a segment, below two levels of first
// sectors. It tells what part of the time of bench/table.sh is the reaching of memory. Build and run:
//     cc -O2 -o /tmp/tree bench/tree.c && /tmp/tree
#include <stdint.h>
#include <stdio.h>
#include <stdlib.h>
#include <string.h>
#include <time.h>

enum { LEAVES = 256 };

struct segment { uint64_t place; uint32_t at, count; };
struct leaf { uint32_t count; struct segment segments[]; };
struct branch { uint32_t count; uint32_t firsts[LEAVES + 1]; struct leaf *leaves[LEAVES + 1]; };

// A leaf is split past so many segments.
static uint32_t most;
static struct branch *branches[1 << 18];
static uint32_t firsts[1 << 18];
static size_t count;

static void *must(void *made)
{
    if (!made)
        exit(1);
    return made;
}

static struct leaf *new_leaf(void)
{
    struct leaf *leaf = must(malloc(sizeof *leaf + (most + 1) * sizeof *leaf->segments));
    leaf->count = 0;
    return leaf;
}

static double now(void)
{
    struct timespec time;
    clock_gettime(CLOCK_MONOTONIC, &time);
    return time.tv_sec * 1e9 + time.tv_nsec;
}

static uint32_t draw(void)
{
    static uint64_t state = 88172645463325252;
    state ^= state << 13;
    state ^= state >> 7;
    state ^= state << 17;
    return state >> 33;
}

// How many of the sectors are at most that one.
static size_t before(const uint32_t *sectors, size_t high, uint32_t sector)
{
    size_t low = 0;
    while (low < high) {
        size_t middle = (low + high) / 2;
        if (sectors[middle] <= sector)
            low = middle + 1;
        else
            high = middle;
    }
    return low;
}

static void start(void)
{
    for (size_t number = 0; number < count; number++) {
        for (uint32_t leaf = 0; leaf < branches[number]->count; leaf++)
            free(branches[number]->leaves[leaf]);
        free(branches[number]);
    }
    branches[0] = must(calloc(1, sizeof **branches));
    branches[0]->leaves[0] = new_leaf();
    branches[0]->count = 1;
    count = 1;
}

static void split_branch(size_t number)
{
    struct branch *branch = branches[number], *half = must(malloc(sizeof *half));
    uint32_t cut = branch->count / 2;
    half->count = branch->count - cut;
    memcpy(half->firsts, branch->firsts + cut, half->count * sizeof *half->firsts);
    memcpy(half->leaves, branch->leaves + cut, half->count * sizeof *half->leaves);
    branch->count = cut;
    memmove(branches + number + 2, branches + number + 1, (count - number - 1) * sizeof *branches);
    memmove(firsts + number + 2, firsts + number + 1, (count - number - 1) * sizeof *firsts);
    branches[number + 1] = half;
    firsts[number + 1] = half->firsts[0];
    count++;
}

static void split_leaf(size_t number, size_t place)
{
    struct branch *branch = branches[number];
    struct leaf *leaf = branch->leaves[place], *half = new_leaf();
    uint32_t cut = leaf->count / 2, behind = branch->count - place - 1;
    half->count = leaf->count - cut;
    memcpy(half->segments, leaf->segments + cut, half->count * sizeof *half->segments);
    leaf->count = cut;
    memmove(branch->firsts + place + 2, branch->firsts + place + 1, behind * sizeof *branch->firsts);
    memmove(branch->leaves + place + 2, branch->leaves + place + 1, behind * sizeof *branch->leaves);
    branch->firsts[place + 1] = half->segments[0].at;
    branch->leaves[place + 1] = half;
    if (++branch->count > LEAVES)
        split_branch(number);
}

static void put(uint32_t at)
{
    size_t number = before(firsts + 1, count - 1, at);
    struct branch *branch = branches[number];
    size_t place = before(branch->firsts + 1, branch->count - 1, at);
    struct leaf *leaf = branch->leaves[place];
    uint32_t low = 0, high = leaf->count;
    while (low < high) {
        uint32_t middle = (low + high) / 2;
        if (leaf->segments[middle].at <= at)
            low = middle + 1;
        else
            high = middle;
    }
    memmove(leaf->segments + low + 1, leaf->segments + low, (leaf->count - low) * sizeof *leaf->segments);
    leaf->segments[low] = (struct segment){at, at, 8};
    if (++leaf->count > most)
        split_leaf(number, place);
}

// The nanoseconds of each of so many puts into a table of so many segments, drawn all over 2^31 sectors.
static double timed(size_t segments, size_t puts, size_t rounds)
{
    double used = 0;
    for (size_t round = 0; round < rounds; round++) {
        start();
        for (size_t number = 0; number < segments; number++)
            put(draw());
        double begun = now();
        for (size_t number = 0; number < puts; number++)
            put(draw());
        used += now() - begun;
    }
    return used / puts / rounds;
}

int main(void)
{
    static const uint32_t sizes[] = {30, 62, 126, 254};
    for (size_t number = 0; number < 4; number++) {
        most = sizes[number];
        double few = timed(1000, 100, 2000), many = timed(4000000, 200000, 1);
        printf("leaves of at most %u: %.0f ns a put among 1,000 segments, %.0f ns among 4,000,000\n", most, few, many);
    }
    return 0;
}
