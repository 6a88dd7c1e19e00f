/* Each code by hand, by one thread. */
#include "zemuschida.h"
#include <stdio.h>
#include <string.h>

#define WANT(holds)                                                                                \
    do {                                                                                           \
        if (!(holds)) {                                                                            \
            fprintf(stderr, "answers: line %d: %s\n", __LINE__, #holds);                           \
            return 1;                                                                              \
        }                                                                                          \
    } while (0)

static int refusals(void) {
    zem_seat seats[2] = {{0}};
    uint64_t entry[8] = {5, 6, 7};
    zem_answer answer, before;
    memset(&answer, 1, sizeof answer);
    before = answer;
    WANT(zem_put(&seats[0], entry, 1, &answer) == ZEM_CLOSED);
    WANT(zem_take(&seats[0], entry, 1, &answer) == ZEM_CLOSED);
    WANT(zem_make(1, 64, 1, seats, 2) == ZEM_BAD_BLOCKS);
    WANT(zem_make(257, 64, 1, seats, 2) == ZEM_BAD_BLOCKS);
    WANT(zem_make(2, 0, 1, seats, 2) == ZEM_BAD_SIZE);
    WANT(zem_make(2, 65537, 9, seats, 2) == ZEM_BAD_SIZE);
    WANT(zem_make(2, 64, 9, seats, 0) == ZEM_BAD_WIDTH);
    WANT(zem_make(2, 64, 1, seats, 0) == ZEM_BAD_SEATS);
    WANT(!seats[0].full && !seats[1].full);
    WANT(zem_make(2, 2, 3, seats, 2) == ZEM_OK);
    WANT(zem_put(&seats[0], entry, 2, &answer) == ZEM_WIDTH);
    WANT(zem_take(&seats[0], entry, 4, &answer) == ZEM_WIDTH);
    WANT(memcmp(&answer, &before, sizeof answer) == 0);
    WANT(entry[0] == 5 && entry[1] == 6 && entry[2] == 7);
    zem_free(&seats[0]), zem_free(&seats[0]), zem_free(&seats[1]);
    return 0;
}

static int refusing(void) {
    zem_seat seats[2] = {{0}};
    uint64_t entry[1];
    zem_answer answer;
    WANT(zem_make(2, 2, 1, seats, 2) == ZEM_OK);
    WANT(zem_take(&seats[0], entry, 1, &answer) == ZEM_EMPTY && answer.place == 0);
    for (uint64_t i = 0; i < 4; i++) {
        entry[0] = i;
        WANT(zem_put(&seats[i % 2], entry, 1, &answer) == ZEM_OK && answer.place == i);
    }
    WANT(zem_put(&seats[0], entry, 1, &answer) == ZEM_FULL && answer.block == 3);
    WANT(answer.first.block == 2 && answer.first.offset == 0);
    WANT(zem_take(&seats[1], entry, 1, &answer) == ZEM_OK && answer.place == 0 && entry[0] == 0);
    zem_free(&seats[1]);
    WANT(zem_take(&seats[0], entry, 1, &answer) == ZEM_OK && answer.place == 1 && entry[0] == 1);
    WANT(zem_put(&seats[1], entry, 1, &answer) == ZEM_CLOSED);
    WANT(zem_make(2, 2, 1, seats, 2) == ZEM_OK); /* the seat that stood there is given up */
    zem_free(&seats[0]), zem_free(&seats[1]);
    return 0;
}

static int overwriting(void) {
    zem_ring_seat seat = {0};
    uint64_t entry[2] = {0};
    zem_answer answer;
    WANT(zem_ring_put(&seat, entry, 2, &answer) == ZEM_CLOSED);
    WANT(zem_ring_make(2, 2, 2, &seat, 1) == ZEM_OK);
    WANT(zem_ring_put(&seat, entry, 1, &answer) == ZEM_WIDTH);
    for (uint64_t i = 0; i < 100; i++) {
        entry[0] = i, entry[1] = 2 * i;
        WANT(zem_ring_put(&seat, entry, 2, &answer) == ZEM_OK && answer.place == i);
    }
    for (uint64_t i = 96; i < 100; i++) {
        WANT(zem_ring_take(&seat, entry, 2, &answer) == ZEM_OK && answer.place == i);
        WANT(entry[0] == i && entry[1] == 2 * i);
    }
    WANT(zem_ring_take(&seat, entry, 2, &answer) == ZEM_EMPTY && answer.place == 100);
    zem_ring_free(&seat);
    return 0;
}

static int viewing(void) {
    zem_ring_seat seats[2] = {{0}};
    uint64_t entry[2] = {0};
    zem_answer answer;
    zem_item items[8] = {{0}};
    zem_gap gaps[5] = {{0}};
    zem_view view = {7, 7};
    zem_cursor newest = {7, 7};
    WANT(zem_ring_view(&seats[0], items, 8, gaps, 5, &view) == ZEM_CLOSED);
    WANT(zem_ring_look_head(&seats[0], &newest) == ZEM_CLOSED && newest.block == 7);
    WANT(zem_ring_make(2, 2, 2, seats, 2) == ZEM_OK);
    WANT(zem_ring_view(&seats[0], items, 0, gaps, 0, &view) == ZEM_OK && view.items == 0);
    for (uint64_t i = 0; i < 100; i++) {
        entry[0] = i, entry[1] = 2 * i;
        WANT(zem_ring_put(&seats[i % 2], entry, 2, &answer) == ZEM_OK);
    }
    WANT(zem_ring_look_head(&seats[1], &newest) == ZEM_OK);
    WANT(newest.block == 51 && newest.offset == 2);
    view = (zem_view){7, 7};
    WANT(zem_ring_view(&seats[1], items, 3, gaps, 5, &view) == ZEM_ROOM);
    WANT(view.items == 7 && view.gaps == 7 && items[0].words[1] == 0);
    items[4].place = 9;
    WANT(zem_ring_view(&seats[1], items, 8, gaps, 5, &view) == ZEM_OK);
    WANT(view.items == 4 && view.gaps == 0 && items[4].place == 9);
    for (uint64_t i = 0; i < 4; i++) {
        WANT(items[i].place == 96 + i && items[i].words[0] == 96 + i);
        WANT(items[i].words[1] == 2 * (96 + i) && items[i].words[2] == 0);
    }
    WANT(zem_ring_take(&seats[0], entry, 2, &answer) == ZEM_OK && answer.place == 96);
    WANT(zem_ring_view(&seats[0], items, 4, gaps, 0, &view) == ZEM_OK && view.items == 4);
    zem_ring_free(&seats[0]), zem_ring_free(&seats[1]);
    return 0;
}

static int looking(void) {
    zem_ring_seat seats[2] = {{0}};
    uint64_t entry[2] = {0}, out[2] = {7, 7};
    zem_answer answer;
    zem_look look = {7, {7, 7}, {7, 7}};
    WANT(zem_ring_look_block(&seats[0], 2, &look) == ZEM_CLOSED);
    WANT(zem_ring_look_entry(&seats[0], 2, 0, out, 2, &look) == ZEM_CLOSED && look.count == 7);
    WANT(zem_ring_make(2, 2, 2, seats, 2) == ZEM_OK);
    WANT(zem_ring_look_block(&seats[0], 1, &look) == ZEM_BAD_BLOCK);
    WANT(zem_ring_look_entry(&seats[0], 1, 0, out, 2, &look) == ZEM_BAD_BLOCK);
    WANT(zem_ring_look_entry(&seats[0], 2, 0, out, 1, &look) == ZEM_WIDTH);
    WANT(look.count == 7 && look.committed.block == 7 && out[0] == 7);
    for (uint64_t i = 0; i < 3; i++) {
        entry[0] = i, entry[1] = 2 * i;
        WANT(zem_ring_put(&seats[0], entry, 2, &answer) == ZEM_OK);
    }
    WANT(zem_ring_look_block(&seats[1], 2, &look) == ZEM_OK && look.count == 2);
    WANT(zem_ring_look_block(&seats[1], 3, &look) == ZEM_OK && look.count == 1);
    WANT(look.committed.block == 3 && look.committed.offset == 1 && look.allocated.offset == 1);
    WANT(zem_ring_look_block(&seats[1], 4, &look) == ZEM_UNOPENED && look.count == 0);
    WANT(look.committed.block == 2 && look.allocated.block == 0);
    WANT(zem_ring_look_entry(&seats[1], 3, 1, out, 2, &look) == ZEM_EMPTY && look.count == 1);
    WANT(zem_ring_look_entry(&seats[1], 4, 0, out, 2, &look) == ZEM_UNOPENED && out[0] == 7);
    WANT(zem_ring_look_entry(&seats[1], 3, 0, out, 2, &look) == ZEM_OK && look.count == 1);
    WANT(out[0] == 2 && out[1] == 4);
    WANT(zem_ring_take(&seats[0], out, 2, &answer) == ZEM_OK && answer.place == 0);
    for (uint64_t i = 3; i < 100; i++) {
        WANT(zem_ring_put(&seats[0], entry, 2, &answer) == ZEM_OK);
    }
    WANT(zem_ring_look_block(&seats[1], 2, &look) == ZEM_UNFINISHED && look.committed.block == 50);
    WANT(zem_ring_look_entry(&seats[1], 2, 0, out, 2, &look) == ZEM_UNFINISHED);
    zem_ring_free(&seats[0]), zem_ring_free(&seats[1]);
    return 0;
}

static int logging(void) {
    zem_log_consumer consumer = {0};
    zem_log_seat seats[2] = {{0}};
    uint64_t entry[1] = {9};
    zem_answer answer;
    WANT(zem_log_put(&seats[0], entry, 1, &answer) == ZEM_CLOSED);
    WANT(zem_log_take(&consumer, entry, 1, &answer) == ZEM_CLOSED);
    WANT(zem_log_make(2, 2, 0, &consumer, seats, 2) == ZEM_BAD_WIDTH && !consumer.full);
    WANT(zem_log_make(2, 2, 1, &consumer, seats, 2) == ZEM_OK && consumer.full);
    WANT(zem_log_put(&seats[0], entry, 2, &answer) == ZEM_WIDTH);
    WANT(zem_log_take(&consumer, entry, 0, &answer) == ZEM_WIDTH && entry[0] == 9);
    WANT(zem_log_take(&consumer, entry, 1, &answer) == ZEM_EMPTY && answer.place == 0);
    for (uint64_t i = 0; i < 4; i++) {
        entry[0] = 10 * i;
        WANT(zem_log_put(&seats[i % 2], entry, 1, &answer) == ZEM_OK && answer.place == i);
    }
    WANT(zem_log_put(&seats[0], entry, 1, &answer) == ZEM_FULL && answer.block == 3);
    zem_log_free(&seats[0]), zem_log_free(&seats[1]);
    for (uint64_t i = 0; i < 4; i++) {
        WANT(zem_log_take(&consumer, entry, 1, &answer) == ZEM_OK && answer.place == i);
        WANT(entry[0] == 10 * i);
    }
    WANT(zem_log_take(&consumer, entry, 1, &answer) == ZEM_EMPTY && answer.place == 4);
    zem_log_consumer_free(&consumer), zem_log_consumer_free(&consumer);
    WANT(zem_log_make(2, 2, 1, &consumer, seats, 0) == ZEM_OK); /* a log that nobody fills */
    WANT(zem_log_take(&consumer, entry, 1, &answer) == ZEM_EMPTY);
    zem_log_consumer_free(&consumer);
    return 0;
}

static int closing(void) {
    zem_seat seats[3] = {{0}}, moved;
    zem_closed closed = {0};
    zem_closed_counts counts = {7, 7};
    uint64_t entry[1] = {7}, wide[2] = {0}, place = 7;
    zem_answer answer;
    WANT(zem_close(seats, 3, &closed) == ZEM_CLOSED);
    WANT(zem_close(seats, 0, &closed) == ZEM_NOT_ALL_SEATS);
    WANT(zem_counts(&closed, &counts) == ZEM_CLOSED && counts.left == 7);
    WANT(zem_left(&closed, 0, entry, 1, &place) == ZEM_CLOSED && place == 7 && entry[0] == 7);
    WANT(zem_make(4, 2, 1, seats, 3) == ZEM_OK);
    for (uint64_t i = 0; i < 5; i++) {
        entry[0] = 10 * i;
        WANT(zem_put(&seats[i % 3], entry, 1, &answer) == ZEM_OK);
    }
    for (uint64_t i = 0; i < 2; i++) {
        WANT(zem_take(&seats[i], entry, 1, &answer) == ZEM_OK && answer.place == i);
    }
    WANT(zem_close(seats, 2, &closed) == ZEM_NOT_ALL_SEATS && !closed.full);
    WANT(seats[0].full && seats[1].full && seats[2].full);
    WANT(zem_put(&seats[2], entry, 1, &answer) == ZEM_OK && answer.place == 5);
    moved = seats[0], seats[0] = seats[2], seats[2] = moved; /* in any order */
    WANT(zem_close(seats, 3, &closed) == ZEM_OK && closed.full);
    WANT(!seats[0].full && !seats[1].full && !seats[2].full);
    WANT(zem_put(&seats[0], entry, 1, &answer) == ZEM_CLOSED);
    WANT(zem_counts(&closed, &counts) == ZEM_OK && counts.accepted == 6 && counts.left == 4);
    WANT(zem_left(&closed, 0, wide, 2, &place) == ZEM_WIDTH && place == 7);
    for (uint64_t i = 0; i < 3; i++) {
        WANT(zem_left(&closed, i, entry, 1, &place) == ZEM_OK && place == i + 2);
        WANT(entry[0] == 10 * place);
    }
    WANT(zem_left(&closed, 4, entry, 1, &place) == ZEM_EMPTY && place == 4 && entry[0] == 40);
    WANT(zem_make(2, 2, 1, seats, 3) == ZEM_OK);
    WANT(zem_close(seats, 3, &closed) == ZEM_OK); /* what the other queue had is given up */
    WANT(zem_counts(&closed, &counts) == ZEM_OK && counts.accepted == 0 && counts.left == 0);
    zem_done(&closed), zem_done(&closed);
    WANT(zem_counts(&closed, &counts) == ZEM_CLOSED);
    return 0;
}

static int closing_a_ring(void) {
    zem_ring_seat seats[2] = {{0}};
    zem_closed closed = {0};
    zem_closed_counts counts;
    uint64_t entry[2], place;
    zem_answer answer;
    WANT(zem_ring_close(seats, 2, &closed) == ZEM_CLOSED);
    WANT(zem_ring_make(2, 2, 2, seats, 2) == ZEM_OK);
    for (uint64_t i = 0; i < 99; i++) {
        entry[0] = i, entry[1] = 2 * i;
        WANT(zem_ring_put(&seats[i % 2], entry, 2, &answer) == ZEM_OK);
    }
    WANT(zem_ring_take(&seats[0], entry, 2, &answer) == ZEM_OK && answer.place == 96);
    WANT(zem_ring_close(seats, 1, &closed) == ZEM_NOT_ALL_SEATS && seats[0].full);
    WANT(zem_ring_close(seats, 2, &closed) == ZEM_OK && !seats[0].full && !seats[1].full);
    WANT(zem_counts(&closed, &counts) == ZEM_OK && counts.accepted == 99 && counts.left == 2);
    for (uint64_t i = 0; i < 2; i++) {
        WANT(zem_left(&closed, i, entry, 2, &place) == ZEM_OK && place == 97 + i);
        WANT(entry[0] == place && entry[1] == 2 * place);
    }
    zem_done(&closed);
    return 0;
}

int main(void) {
    return refusals() || refusing() || overwriting() || viewing() || looking() || logging()
           || closing() || closing_a_ring();
}
