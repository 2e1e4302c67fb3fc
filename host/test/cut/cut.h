/*
 * The parts of the test that cuts calls short: calls of all kinds, drawn and made (calls.c); the words that a call
 * stores, one after another (stores.c); and a block played on, with what is promised held against what is shown
 * (goes_on.c).
 */
#ifndef CUT_H
#define CUT_H

#include "koolvent.h"

/* Words of the block (docs/LAYOUT.md): how many versions and messages there are, and where they lie, with their sizes.
 * A version has its item, value, stamp and set; a prepare has the same from its word 2 on. */
enum {
    VERSION_COUNT = 3,
    MESSAGE_COUNT = 4,
    MESSAGE_WORDS = 8,
    FIRST_MESSAGE = KOOLVENT_WORDS - MESSAGE_WORDS * KOOLVENT_MOST_LOAD,
    VERSION_WORDS = 4,
    FIRST_VERSION = FIRST_MESSAGE - VERSION_WORDS * KOOLVENT_MOST_VERSIONS
};

/* ---- Calls ---- */

struct sizes {
    unsigned clients, partitions, items;
};

/* The writes started so far. Of the write at a place the value of item k is 64 * (place + 1) + k, so that an entry
 * tells its write. A stamp, number * 16 + client, is 0 until an entry or a frame tells the number. */
struct writes {
    unsigned count;
    struct write {
        unsigned client;
        uint64_t set, stamp;
    } of[200];
};

/* The write that may have made an entry of the item, by its value, its stamp and what is known of writes; or NULL. */
struct write *write_of(struct writes *writes, uint64_t item, uint64_t value, uint64_t stamp);

struct call {
    enum { NO_CALL, READ, FAST_READ, WRITE, MIXED, DELIVER, CLEAR, HAND_OVER, FRESH } kind;
    /* Who starts, or gives; and who receives. */
    unsigned client, receiver;
    /* What is read, and the items and the place of what is written. */
    uint64_t set, written;
    unsigned write;
    uint64_t place;
};

/* A number below the bound. */
unsigned draw(uint64_t *random, unsigned bound);

int is_busy(const uint64_t *block, unsigned client);

/* The set of all items. */
uint64_t all_items(const struct sizes *sizes);

/* A start of that kind by the client; its write is added to the writes. */
struct call start_of(int kind, unsigned client, uint64_t set, uint64_t written, struct writes *writes);

/* Some call that the block accepts: a delivery, or where starts are wanted also a start of an idle client, a hand-over
 * or a clearing. No call where nothing is in flight and none can or shall start. */
struct call drawn_call(uint64_t *random, const uint64_t *block, const struct sizes *sizes, struct writes *writes,
                       int starts_are_wanted);

uint64_t make(uint64_t *block, const struct sizes *sizes, const struct call *call);

/* ---- Stores ---- */

/* Words that change, one after another. */
struct changes {
    unsigned count;
    struct change {
        unsigned word;
        uint64_t value;
    } of[3 * KOOLVENT_WORDS];
};

/* The words that the call changes on a copy of the block, in the order of its stores. */
void changes_as_stored(const uint64_t *block, const struct sizes *sizes, const struct call *call,
                       struct changes *changes);

/* ---- Going on ---- */

enum fault {
    NO_FAULT,
    BUSY_FOR_EVER,
    CALL_REFUSED,
    UNWRITTEN,
    FRACTURED,
    OWN_WRITE_MISSED,
    FALLEN,
    COMMITTED_MISSED,
    WRITE_NOT_LATER,
    LOG_AT_FAULT,
    FAULTS
};

/* Goes on from a copy of the block, in the order of the seed, and tells the first promise that is broken to a read or
 * write started from then on. A version that the block held may be shown; it is told whether one was that none of the
 * writes started before has made. */
enum fault goes_on(const uint64_t *block, const struct sizes *sizes, const struct writes *before, uint64_t seed,
                   int *shows_another);

#endif
