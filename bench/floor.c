/* The floor of a ring pass: the words and slots of one FILL and one RX ring, moved by two threads without the rule that
   ties them to a history. Prints the nanoseconds of one descriptor's pass through one ring (put in and taken out).

     floor PASSES BATCH     counts 128 bytes apart, every word sequentially consistent, a plain read and a plain write of a
                            slot a side, as the program has them (the words order them); a thread that finds its ring
                            empty or full yields, as those of the program do */
#include <pthread.h>
#include <sched.h>
#include <stdatomic.h>
#include <stdint.h>
#include <stdio.h>
#include <stdlib.h>
#include <time.h>

enum { SIZE = 2048, FRAMES = 1024, CHUNK = 4096 };

struct count { _Atomic uint32_t n; char pad[124]; };
struct ring { struct count produced, consumed; _Atomic uint64_t words[2 * SIZE]; };

static struct ring fill, rx;
static void *slots[FRAMES];
static uint32_t passes, batch;

/* Puts frames in, so many as are free, at most n. An RX entry has two words, of which the address is written last. */
static uint32_t put(struct ring *r, int two, void **frames, uint32_t *numbers, uint32_t n)
{
    uint32_t at = atomic_load(&r->produced.n), free = SIZE - (at - atomic_load(&r->consumed.n));
    if (n > free) return 0;
    for (uint32_t i = 0; i < n; i++) {
        uint32_t place = (at + i) & (SIZE - 1);
        if (two) atomic_store(&r->words[2 * place + 1], 60);
        slots[numbers[i]] = frames[i];
        atomic_store(&r->words[two ? 2 * place : place], (uint64_t)numbers[i] * CHUNK);
    }
    atomic_store(&r->produced.n, at + n);
    return n;
}

static uint32_t take(struct ring *r, int two, void **frames, uint32_t *numbers, uint32_t n)
{
    uint32_t at = atomic_load(&r->consumed.n), there = atomic_load(&r->produced.n) - at;
    if (n > there) n = there;
    for (uint32_t i = 0; i < n; i++) {
        uint32_t place = (at + i) & (SIZE - 1);
        numbers[i] = (uint32_t)(atomic_load(&r->words[two ? 2 * place : place]) / CHUNK);
        frames[i] = slots[numbers[i]];
        slots[numbers[i]] = NULL;
        if (two) (void)atomic_load(&r->words[2 * place + 1]);
    }
    if (n) atomic_store(&r->consumed.n, at + n);
    return n;
}

static void *moves(struct ring *from, int two_from, struct ring *to, int two_to)
{
    void *frames[32];
    uint32_t numbers[32];
    for (uint32_t done = 0; done < passes;) {
        uint32_t got = take(from, two_from, frames, numbers, batch);
        if (!got) sched_yield();
        while (got && !put(to, two_to, frames, numbers, got)) sched_yield();
        done += got;
    }
    return NULL;
}

static void *driver(void *none) { return moves(&fill, 0, &rx, 1); }

int main(int argc, char **argv)
{
    struct timespec a, b;
    pthread_t thread;
    passes = argc > 1 ? atoi(argv[1]) : 1000000;
    batch = argc > 2 ? atoi(argv[2]) : 32;
    for (uint32_t i = 0; i < FRAMES; i++) {
        void *frame = malloc(64);
        put(&fill, 0, &frame, &i, 1);
    }
    clock_gettime(CLOCK_MONOTONIC, &a);
    pthread_create(&thread, NULL, driver, NULL);
    moves(&rx, 1, &fill, 0);
    pthread_join(thread, NULL);
    clock_gettime(CLOCK_MONOTONIC, &b);
    printf("%.1f\n", ((b.tv_sec - a.tv_sec) * 1e9 + (b.tv_nsec - a.tv_nsec)) / (2.0 * passes));
    return 0;
}
