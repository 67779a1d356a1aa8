/* The stack of each call of the outbox, over outboxes of every filling and every way out of form.
 * node-stack-c    measures what each call touches, runs it on a stack of just the stated size with an unmapped page
 *                 below, prints a line per call, and ends with 1 where a stated number of outbox.h does not hold */
#define _GNU_SOURCE
#include "outbox.h"

/* What the calls are lent: an outbox and an entry with their counts, and the numbers that go by themselves. */
struct lent {
    uint32_t box[OUTBOX_BOX], entry[OUTBOX_ENTRY];
    size_t box_len, entry_len;
    uint32_t cell, life, next;
};

#include "../../gateway/hosts/ground.h"

/* ---- the calls, each from a function that does nothing else ---- */

static void make_fresh(void) { number = outbox_fresh(lent.cell, lent.box, lent.box_len); }

static void make_offer(void) { number = outbox_offer(lent.box, lent.box_len, lent.entry, lent.entry_len); }

static void make_add(void) { number = outbox_add(lent.box, lent.box_len, lent.entry, lent.entry_len); }

static void make_replace(void) { number = outbox_replace(lent.box, lent.box_len); }

static void make_acknowledge(void) { number = outbox_acknowledge(lent.box, lent.box_len, lent.life, lent.next); }

static void make_swap(void) { number = outbox_swap(lent.box, lent.box_len, lent.life); }

/* ---- what a case gives ---- */

/* An outbox of cell 255 in life 3 that holds so many entries below a next count, each third of them a void, and the
 * reading that comes next. */
static void give_filled(uint32_t filled, uint32_t next) {
    memset(&given, 0, sizeof given);
    given.box_len = OUTBOX_BOX;
    given.entry_len = OUTBOX_ENTRY;
    given.box[0] = given.entry[1] = given.cell = 255;
    given.box[1] = given.entry[2] = given.life = 3;
    given.box[2] = given.entry[3] = given.next = next;
    given.box[3] = filled;
    for (uint32_t i = 0; i < filled; i++) {
        uint32_t *place = given.box + 4 + OUTBOX_ENTRY * i;
        place[0] = i % 3 == 2 ? OUTBOX_VOID : OUTBOX_READING;
        place[1] = 255;
        place[2] = 3;
        place[3] = next - filled + i;
        if (place[0] == OUTBOX_READING)
            memset(place + 4, 0xff, 7 * sizeof *place);
    }
    memset(given.entry + 4, 0xff, 7 * sizeof *given.entry);
}

static void give_all(void) { give_filled(29, 999999); }

/* ---- the cases of each call ---- */

/* Each number of a full outbox and of one that has room, out of form; box slices with a number too few. A reading's
 * figures are never out of form. */
static void damaged_boxes(void) {
    for (uint32_t filled = 29; filled <= 30; filled++) {
        give_filled(filled, 999999);
        for (size_t at = 0; at < OUTBOX_BOX; at++) {
            size_t place = (at - 4) / OUTBOX_ENTRY, part = (at - 4) % OUTBOX_ENTRY;
            if (at < 4 || part < 4 || place >= filled || given.box[at - part] == OUTBOX_VOID)
                try_with(&given.box[at], at == 3 ? 31 : 7000000, OUTBOX_BAD_FORM);
        }
        try_shorter(&given.box_len, OUTBOX_NOT_THE_SHAPE);
    }
    give_all();
}

static void fresh_cases(void) {
    for (uint32_t cell = 0; cell <= 256; cell++) {
        given.cell = cell;
        try(cell <= 255 ? OUTBOX_DONE : OUTBOX_NOT_NEXT);
    }
    try_shorter(&given.box_len, OUTBOX_NOT_THE_SHAPE);
}

static void offer_cases(void) {
    for (uint32_t filled = 0; filled <= 30; filled++) {
        give_filled(filled, 999999);
        try(filled > 0 ? OUTBOX_DONE : OUTBOX_EMPTY);
    }
    damaged_boxes();
    try_shorter(&given.entry_len, OUTBOX_NOT_THE_SHAPE);
}

static void add_cases(void) {
    for (uint32_t filled = 0; filled <= 30; filled++) {
        give_filled(filled, 999999);
        try(filled < 30 ? OUTBOX_DONE : OUTBOX_FULL);
        memset(given.entry + 4, 0, 7 * sizeof *given.entry);
        try_with(&given.entry[0], OUTBOX_VOID, filled < 30 ? OUTBOX_DONE : OUTBOX_FULL);
        give_filled(filled, 1000000);
        try(OUTBOX_NOT_NEXT);
    }
    damaged_boxes();
    for (size_t i = 1; i <= 3; i++)
        try_with(&given.entry[i], 5, OUTBOX_NOT_NEXT);
    try_with(&given.entry[0], OUTBOX_VOID, OUTBOX_NOT_THE_SHAPE);
    try_with(&given.entry[0], 2, OUTBOX_NOT_THE_SHAPE);
    try_shorter(&given.entry_len, OUTBOX_NOT_THE_SHAPE);
}

static void replace_cases(void) {
    for (uint32_t filled = 0; filled <= 30; filled++) {
        give_filled(filled, 1000000);
        try(filled > 0 ? OUTBOX_DONE : OUTBOX_EMPTY);
    }
    given.box[4] = OUTBOX_VOID;
    memset(given.box + 8, 0, 7 * sizeof *given.box);
    try(OUTBOX_DONE);
    damaged_boxes();
}

static void acknowledge_cases(void) {
    for (uint32_t filled = 0; filled <= 30; filled++) {
        give_filled(filled, 1000000);
        for (uint32_t below = 0; below <= filled; below++)
            try_with(&given.next, 1000000 - below, OUTBOX_DONE);
        try_with(&given.next, 1000001, OUTBOX_DONE);
        try_with(&given.next, 0, OUTBOX_DONE);
        try_with(&given.life, 2, OUTBOX_DONE);
    }
    damaged_boxes();
}

static void swap_cases(void) {
    for (uint32_t filled = 0; filled <= 30; filled++) {
        give_filled(filled, 1000000);
        try_with(&given.life, 65535, OUTBOX_DONE);
        try_with(&given.life, 65536, OUTBOX_NOT_NEXT);
        try(OUTBOX_NOT_NEXT);
    }
    damaged_boxes();
}

int main(void) {
    lay_ground();
    int all = held("outbox_fresh", OUTBOX_STACK_FRESH, make_fresh, fresh_cases);
    all &= held("outbox_offer", OUTBOX_STACK_OFFER, make_offer, offer_cases);
    all &= held("outbox_add", OUTBOX_STACK_ADD, make_add, add_cases);
    all &= held("outbox_replace", OUTBOX_STACK_REPLACE, make_replace, replace_cases);
    all &= held("outbox_acknowledge", OUTBOX_STACK_ACKNOWLEDGE, make_acknowledge, acknowledge_cases);
    all &= held("outbox_swap", OUTBOX_STACK_SWAP, make_swap, swap_cases);
    return all ? 0 : 1;
}
