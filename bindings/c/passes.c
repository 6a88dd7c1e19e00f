/* Passes entries from producers to takers through a queue. Each has to come once and as it was put,
   and those of one producer in its order. Usage: passes PRODUCERS TAKERS ITEMS WIDTH BLOCKS SIZE */
#define _GNU_SOURCE
#include "zemuschida.h"
#include <pthread.h>
#include <sched.h>
#include <stdatomic.h>
#include <stdio.h>
#include <stdlib.h>

enum { MOST_THREADS = 64, MOST_WIDTH = 8 };

static uint64_t producers, takers, items, width, blocks, size;
/* by entry: how often it was taken; by place: how often it was made */
static _Atomic unsigned char *taken, *made;
static _Atomic uint64_t taken_count;

struct worker {
    zem_seat seat;
    uint64_t number;
    char apart[104];
};

static void fail(const char *what, uint64_t first, uint64_t second) {
    fprintf(stderr, "passes: %s: %llu, %llu\n", what, (unsigned long long)first,
            (unsigned long long)second);
    exit(1);
}

static uint64_t word(uint64_t entry, uint64_t at) {
    return at ? ((entry + at) * 0x9E3779B97F4A7C15u) ^ (entry >> 7) : entry;
}

static bool is_busy(uint32_t code) { return code == ZEM_UNFINISHED || code == ZEM_MOVED; }

static void *produce(void *given) {
    struct worker *worker = given;
    uint64_t share = items / producers, entry[MOST_WIDTH], last = 0;
    for (uint64_t i = 0; i < share; i++) {
        uint64_t id = worker->number * share + i;
        for (uint64_t at = 0; at < width; at++) entry[at] = word(id, at);
        zem_answer answer;
        for (;;) {
            uint32_t code = zem_put(&worker->seat, entry, width, &answer);
            if (code == ZEM_OK) break;
            if (code != ZEM_FULL && !is_busy(code)) fail("a put answers", code, id);
            sched_yield();
        }
        if (i && answer.place <= last) fail("places of puts", last, answer.place);
        if (answer.place >= share * producers) fail("place of a put", answer.place, id);
        if (atomic_fetch_add(&made[answer.place], 1)) fail("made twice", answer.place, id);
        last = answer.place;
    }
    return 0;
}

static void check(const uint64_t *out, uint64_t place, uint64_t *seen) {
    uint64_t share = items / producers, id = out[0], producer = id / share;
    if (producer >= producers) fail("unknown entry", id, place);
    for (uint64_t at = 1; at < width; at++)
        if (out[at] != word(id, at)) fail("another word", id, at);
    if (id % share + 1 <= seen[producer]) fail("order of a producer", producer, id);
    seen[producer] = id % share + 1;
    if (atomic_fetch_add(&taken[id], 1)) fail("taken twice", id, place);
}

static void *take(void *given) {
    struct worker *worker = given;
    uint64_t all = items / producers * producers, next = 0, out[MOST_WIDTH];
    uint64_t seen[MOST_THREADS] = {0};
    while (taken_count < all) {
        zem_answer answer;
        uint32_t code = zem_take(&worker->seat, out, width, &answer);
        if (code == ZEM_OK) {
            if (answer.place < next) fail("places of takes", next, answer.place);
            next = answer.place + 1;
            check(out, answer.place, seen);
            taken_count++;
        } else {
            if (code != ZEM_EMPTY && !is_busy(code)) fail("a take answers", code, 0);
            sched_yield();
        }
    }
    return 0;
}

int main(int count, char **words) {
    if (count != 7) return 2;
    producers = strtoull(words[1], 0, 10), takers = strtoull(words[2], 0, 10);
    items = strtoull(words[3], 0, 10), width = strtoull(words[4], 0, 10);
    blocks = strtoull(words[5], 0, 10), size = strtoull(words[6], 0, 10);
    uint64_t threads = producers + takers, all = items / producers * producers;
    taken = calloc(all, 1), made = calloc(all, 1);
    zem_seat seats[MOST_THREADS] = {{0}};
    uint32_t code = zem_make(blocks, size, width, seats, threads);
    if (code != ZEM_OK) fail(zem_text(code), code, threads);
    struct worker *workers = aligned_alloc(128, sizeof *workers * threads);
    pthread_t started[MOST_THREADS];
    for (uint64_t i = 0; i < threads; i++) {
        workers[i] = (struct worker){.seat = seats[i], .number = i};
        seats[i] = (zem_seat){0};
        pthread_create(&started[i], 0, i < producers ? produce : take, &workers[i]);
    }
    for (uint64_t i = 0; i < threads; i++) pthread_join(started[i], 0);
    for (uint64_t i = 0; i < all; i++)
        if (!made[i] || !taken[i]) fail("lost", i, taken[i]);
    uint64_t out[MOST_WIDTH];
    zem_answer answer;
    code = zem_take(&workers[0].seat, out, width, &answer);
    if (code != ZEM_EMPTY || answer.place != all) fail("the end", code, answer.place);
    for (uint64_t i = 0; i < threads; i++) zem_free(&workers[i].seat);
    free(workers), free((void *)taken), free((void *)made);
    return 0;
}
