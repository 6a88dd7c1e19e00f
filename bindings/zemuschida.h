/* Bounded queues of entries of one to eight 64-bit words, for many threads, without a lock.

   A seat is the right of one caller to put and take, and the only handle of a queue: the queue goes
   with its last seat. `zem_seat` is a seat of a queue that refuses entries when it is full, and
   `zem_ring_seat` one of a queue that then drops its oldest block of entries. A log refuses entries
   when it is full, too: `zem_log_seat` is a seat of it that only puts, and `zem_log_consumer` the one
   seat that takes.

   What the caller owes, which nothing checks:
   1. A seat begins as {0}, and is as a call left it. It is moved (by assignment, leaving {0} behind),
      and never copied. No pointer is null, each has as many elements as the call is told, and those
      of one call don't overlap.
   2. A seat is used by one call at a time, of any thread.
   3. A seat goes to another thread by a lock, by the start or end of a thread, or by a sequentially
      consistent atomic.
   4. malloc, realloc and free are those of one allocator.
   5. No call is made from a signal handler, nor in the forked child of a process with threads.
   6. The seats that a close is given are of one queue.

   Who may call what at the same time:
     a put or a take of one seat     puts and takes of all other seats
     a put of a log's seat           puts of its other seats, and takes of its consumer
     a view or look of a ring's seat puts, takes, views and looks of all other seats
     the making or giving up         anything of other seats
     a close                         anything of other queues

   The library is for x86-64 (x86-64-v2) and Linux. */
#ifndef ZEMUSCHIDA_H
#define ZEMUSCHIDA_H

#include <stdbool.h>
#include <stddef.h>
#include <stdint.h>

#ifdef __cplusplus
extern "C" {
#endif

/* Answers of puts and takes, with the numbers that they have; the others are 0. */
#define ZEM_OK 0u         /* place */
#define ZEM_FULL 1u       /* put: block (the newest), first (consumed, in the block to be reused) */
#define ZEM_EMPTY 2u      /* take: place (the first that isn't made) */
#define ZEM_UNFINISHED 3u /* another call was in the way: block, first, second */
#define ZEM_MOVED 4u      /* another call was in the way: first, second */
#define ZEM_OVERRUN 5u    /* take of a ring: place, first. What the call read was overwritten */
#define ZEM_UNOPENED 6u   /* look at a block of a ring: no put has come to it */
#define ZEM_GIVEN_UP 7u   /* close: the queue has an owner beside the seats. They are given up */
/* Refusals: nothing was done. */
#define ZEM_CLOSED 16u     /* a handle is {0} */
#define ZEM_WIDTH 17u      /* not as many words as the queue's entries have */
#define ZEM_SPENT 18u      /* the seat had as many entries accepted as a seat may (at least 2^32) */
#define ZEM_MEMORY 19u     /* no memory */
#define ZEM_BAD_BLOCKS 20u /* a queue has 2 to 256 blocks */
#define ZEM_BAD_SIZE 21u   /* a block has 1 to 65536 entries */
#define ZEM_BAD_WIDTH 22u  /* an entry has 1 to 8 words */
#define ZEM_BAD_SEATS 23u  /* a queue has 1 to 1024 seats; a log's consumer has one of them */
#define ZEM_ROOM 24u       /* zem_ring_view: a view has more items, or more gaps, than there is room */
#define ZEM_BAD_BLOCK 25u  /* look at a block: the first has the number of how many blocks there are */
#define ZEM_NOT_ALL_SEATS 26u /* close: the queue has other seats than these */

/* Hold no two seats of different threads on one cache line. */
typedef struct zem_seat {
    bool full;
    void *at;
} zem_seat;

typedef struct zem_ring_seat {
    bool full;
    void *at;
} zem_ring_seat;

typedef struct zem_log_seat {
    bool full;
    void *at;
} zem_log_seat;

typedef struct zem_log_consumer {
    bool full;
    void *at;
} zem_log_consumer;

/* What a closed queue had. It begins as {0}, too, and goes with zem_done. */
typedef struct zem_closed {
    bool full;
    void *at;
} zem_closed;

typedef struct zem_cursor {
    uint64_t block, offset;
} zem_cursor;

typedef struct zem_answer {
    uint64_t place, block;
    zem_cursor first, second;
} zem_answer;

/* An item of a view. The words that an entry doesn't have are 0. */
typedef struct zem_item {
    uint64_t place, words[8];
} zem_item;

/* A block of which a view may lack items, as calls were under way in it: the two cursors differ, or
   are of another block. */
typedef struct zem_gap {
    uint64_t block;
    zem_cursor committed, allocated;
} zem_gap;

/* How many items and gaps a view has. */
typedef struct zem_view {
    uint64_t items, gaps;
} zem_view;

/* What a look at a block found: how many entries it has, where they are all there, and how far they
   stand and are given out to puts. A number that a look doesn't have is 0. */
typedef struct zem_look {
    uint64_t count;
    zem_cursor committed, allocated;
} zem_look;

/* How many entries a closed queue had accepted, and how many of them were left. */
typedef struct zem_closed_counts {
    uint64_t accepted, left;
} zem_closed_counts;

/* Makes a queue with a seat for each of the n handles. A seat that a handle had is given up. */
uint32_t zem_make(uint64_t blocks, uint64_t size, uint64_t width, zem_seat *seats, size_t n);
/* Puts an entry of width words. A refusal leaves *answer as it was. */
uint32_t zem_put(zem_seat *seat, const uint64_t *entry, size_t width, zem_answer *answer);
/* Takes an entry into width words, which only ZEM_OK changes. */
uint32_t zem_take(zem_seat *seat, uint64_t *out, size_t width, zem_answer *answer);
/* Gives up a seat, and leaves {0}. */
void zem_free(zem_seat *seat);
/* Closes a queue with all its n seats, in any order, and leaves {0} in their handles. What the queue
   had goes into *closed. It takes its memory before its first step. */
uint32_t zem_close(zem_seat *seats, size_t n, zem_closed *closed);
/* Tells how much a closed queue had. */
uint32_t zem_counts(zem_closed *closed, zem_closed_counts *counts);
/* Copies the left entry of a number, from 0 on in order of place, or answers ZEM_EMPTY behind the
   last, and leaves *out and *place as they were. */
uint32_t zem_left(zem_closed *closed, size_t number, uint64_t *out, size_t width, uint64_t *place);
/* Gives up what a closed queue had, and leaves {0}. */
void zem_done(zem_closed *closed);

/* The same for a queue that overwrites. No put is answered ZEM_FULL, and after ZEM_OVERRUN the words
   hold any numbers. */
uint32_t zem_ring_make(uint64_t blocks, uint64_t size, uint64_t width, zem_ring_seat *seats,
                       size_t n);
uint32_t zem_ring_put(zem_ring_seat *seat, const uint64_t *entry, size_t width,
                      zem_answer *answer);
uint32_t zem_ring_take(zem_ring_seat *seat, uint64_t *out, size_t width, zem_answer *answer);
/* Copies what the queue holds while it runs, and takes nothing: its items, in rising order of place,
   and the blocks of which it may lack some. There are at most twice as many as the queue has room for.
   It takes memory of its own. A refusal copies nothing, and leaves *view as it was. */
uint32_t zem_ring_view(zem_ring_seat *seat, zem_item *items, size_t items_room, zem_gap *gaps,
                       size_t gaps_room, zem_view *view);
/* Looks how far the queue has come: the cursor that gives out entries to puts in its newest block. */
uint32_t zem_ring_look_head(zem_ring_seat *seat, zem_cursor *newest);
/* Looks at a block: ZEM_OK with the count of its entries, which are all there; ZEM_UNOPENED with
   committed; or ZEM_UNFINISHED with both cursors, where calls are under way in it, or where another
   block has its memory by now. */
uint32_t zem_ring_look_block(zem_ring_seat *seat, uint64_t block, zem_look *look);
/* Looks at a block, and then at its entry of an offset. Beside what a look at a block answers: ZEM_OK
   with the words of the entry; ZEM_EMPTY where a whole block has none there; ZEM_OVERRUN where the
   block was overwritten while it was read: allocated tells by which, and the words hold any numbers. */
uint32_t zem_ring_look_entry(zem_ring_seat *seat, uint64_t block, uint64_t offset, uint64_t *out,
                             size_t width, zem_look *look);
void zem_ring_free(zem_ring_seat *seat);
uint32_t zem_ring_close(zem_ring_seat *seats, size_t n, zem_closed *closed);

/* The same for a log, which is made with its consumer and n seats that put. */
uint32_t zem_log_make(uint64_t blocks, uint64_t size, uint64_t width, zem_log_consumer *consumer,
                      zem_log_seat *seats, size_t n);
uint32_t zem_log_put(zem_log_seat *seat, const uint64_t *entry, size_t width, zem_answer *answer);
uint32_t zem_log_take(zem_log_consumer *consumer, uint64_t *out, size_t width, zem_answer *answer);
void zem_log_free(zem_log_seat *seat);
/* Gives up the consumer's seat, after which nobody takes. */
void zem_log_consumer_free(zem_log_consumer *consumer);

static inline const char *zem_text(uint32_t code) {
    switch (code) {
    case ZEM_OK: return "done";
    case ZEM_FULL: return "the queue is full";
    case ZEM_EMPTY: return "the queue is empty";
    case ZEM_UNFINISHED: return "another call isn't finished";
    case ZEM_MOVED: return "another call was in the way";
    case ZEM_OVERRUN: return "the entry was overwritten";
    case ZEM_UNOPENED: return "the block isn't opened";
    case ZEM_GIVEN_UP: return "the queue has another owner, and its seats are given up";
    case ZEM_CLOSED: return "the handle is empty";
    case ZEM_WIDTH: return "an entry has another number of words";
    case ZEM_SPENT: return "the seat has put as many entries as it may";
    case ZEM_MEMORY: return "there is no memory";
    case ZEM_BAD_BLOCKS: return "a queue has 2 to 256 blocks";
    case ZEM_BAD_SIZE: return "a block has 1 to 65536 entries";
    case ZEM_BAD_WIDTH: return "an entry has 1 to 8 words";
    case ZEM_BAD_SEATS: return "a queue has 1 to 1024 seats";
    case ZEM_ROOM: return "a view has no room";
    case ZEM_BAD_BLOCK: return "there is no block of this number";
    case ZEM_NOT_ALL_SEATS: return "the queue has other seats, too";
    default: return "no code of this library";
    }
}

#ifdef __cplusplus
}
#endif

#endif
