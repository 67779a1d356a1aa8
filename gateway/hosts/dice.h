/* Random calls for valgrind, with a digest of their answers: for the host.c of each library. */
#include <inttypes.h>
#include <stdio.h>
#include <stdlib.h>

static uint64_t state;  /* of the dice: splitmix64 */
static uint64_t digest; /* of all answers: the same for the same seed */

static uint64_t roll(void) {
    uint64_t z = (state += 0x9e3779b97f4a7c15u);
    z = (z ^ (z >> 30)) * 0xbf58476d1ce4e5b9u;
    z = (z ^ (z >> 27)) * 0x94d049bb133111ebu;
    return z ^ (z >> 31);
}

static uint64_t below(uint64_t limit) { return roll() % limit; }

/* Any number, small ones as often as large ones. Rolls stand one to a statement, so that their order is fixed. */
static uint64_t any_number(void) {
    uint64_t number = roll();
    return number >> below(64);
}

/* A number at most so large, mostly; now and then any. */
static uint32_t number_to(uint32_t most) {
    return below(400) == 0 ? (uint32_t)roll() : (uint32_t)below((uint64_t)most + 1);
}

/* Exactly so many bytes, so that valgrind sees the first one beyond; never null. */
static void *lend(size_t bytes) {
    void *slice = malloc(bytes);
    if (slice == NULL)
        slice = malloc(1);
    if (slice == NULL)
        exit(2);
    return slice;
}

/* The right count of numbers, now and then another. */
static size_t count_of(size_t right) {
    if (below(40) != 0)
        return right;
    return below(2) == 0 ? right + 1 + below(3) : below(right + 1);
}

/* Take an answer and what it wrote into the digest. */
static void note(uint64_t answer, const void *bytes, size_t count) {
    const uint8_t *byte = bytes;
    digest = (digest ^ answer) * 0x100000001b3u;
    for (size_t i = 0; i < count; i++)
        digest = (digest ^ byte[i]) * 0x100000001b3u;
}

/* So many random calls from a seed, and what they come to. */
static void make_calls(const char *host, const char *seed, const char *count, void (*call_any)(void)) {
    state = strtoull(seed, NULL, 10);
    uint64_t calls = strtoull(count, NULL, 10);
    for (uint64_t i = 0; i < calls; i++)
        call_any();
    printf("%s: seed=%s calls=%" PRIu64 " digest=%016" PRIx64 "\n", host, seed, calls, digest);
}
