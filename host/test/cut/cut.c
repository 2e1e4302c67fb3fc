/*
 * Cuts calls short, as a power failure does, and counts which blocks the next call and koolvent_check take then.
 *
 *     cut                every block that koolvent_check takes must keep all promises from then on
 *     cut --next-call    the same of every block that the next call takes: that fails, and shows that the test can
 *
 * Sessions are drawn, of a few clients, partitions and items. Calls of each kind are cut: the block is as before the
 * call but for the first j words that the call changes, for every j but none and all. The words come in three orders:
 * by ascending word, by descending word, and as the call stores them (stores.c; a fresh start has the C library fill
 * its words, and is cut in the first two orders alone). Each block that is taken goes on in two orders of messages,
 * with reads, fast reads, writes, mixed transactions, hand-overs and clearings (goes_on.c).
 *
 * A clearing moves versions. Cut short, it may leave a version with the stamp of one write and the value of another,
 * and no check tells that from a write. It is counted where a read then shows such a version.
 *
 * Not covered are words of which a part is written, other orders of words, sheets of more items and clients, and blocks
 * in which two calls were cut.
 */
#include <stdio.h>
#include <stdlib.h>
#include <string.h>

#include "cut.h"

/* So many calls of each kind are cut, in at most so many sessions of so many calls. Each block that is taken goes on so
 * many times. */
enum { CALLS = 6, SESSIONS = 1000, LENGTH = 60, TIMES = 2 };

enum row {
    OF_READ,
    OF_FAST_READ,
    OF_WRITE,
    OF_MIXED,
    OF_PREPARE,
    OF_PREPARED,
    OF_LAST_PREPARED,
    OF_COMMIT,
    OF_GET,
    OF_GOT,
    OF_LAST_GOT,
    OF_FIRST_GET,
    OF_FIRST_REPLY,
    OF_LAST_FIRST_REPLY,
    OF_FETCHING_AGAIN,
    OF_LAST_GOT_OF_MIXED,
    OF_CLEAR,
    OF_HAND_OVER,
    OF_FRESH,
    ROWS
};

static const char *const row_names[ROWS] = {
    "start a read",
    "start a fast read",
    "start a write",
    "start a mixed transaction",
    "deliver a prepare",
    "deliver a prepared",
    "deliver a prepared, and a write ends",
    "deliver a commit",
    "deliver a get",
    "deliver a got",
    "deliver a got, and a read ends",
    "deliver a first get",
    "deliver a first reply",
    "deliver a first reply, and a read ends",
    "deliver a first reply, and items are fetched again",
    "deliver a got, and a mixed transaction ends",
    "clear",
    "hand over",
    "fresh start",
};

enum order { ASCENDING, DESCENDING, AS_STORED, ORDERS };

static const char *const order_names[ORDERS] = {"by ascending word", "by descending word", "as the calls store them"};

static const char *const fault_names[FAULTS] = {
    "keep all promises",
    "leave a client busy for ever",
    "refuse a call",
    "show what no write made",
    "show a fractured read",
    "miss an own write",
    "show an item older than before",
    "miss what was committed before a fast read",
    "have a write that is not later than what was shown",
    "have a log at fault",
};

/* Of the calls that are cut: the states between two stores, those that the next call takes, those that koolvent_check
 * refuses by 1 and by 19 and those that it takes, and of all that go on those that show a version that no write
 * made. */
struct counts {
    unsigned calls, states, next_call_takes, refused_by_1, refused_by_19, taken, show_another;
};

static struct counts counts[ORDERS][ROWS];
static unsigned faults[FAULTS], played;
static int is_by_next_call;

static struct {
    struct sizes sizes;
    struct writes writes;
    uint64_t random, block[KOOLVENT_WORDS];
} session;

static void fail(const char *what)
{
    fprintf(stderr, "cut: %s\n", what);
    exit(1);
}

/* The kind of a call that was accepted, by its answer and how many messages were in flight before it. */
static enum row row_of(const struct call *call, uint64_t answer, uint64_t messages)
{
    static const enum row of_calls[] = {ROWS, OF_READ,  OF_FAST_READ, OF_WRITE, OF_MIXED,
                                        ROWS, OF_CLEAR, OF_HAND_OVER, OF_FRESH};
    static const enum row of_kinds[] = {ROWS,   OF_PREPARE, OF_PREPARED,  OF_COMMIT,
                                        OF_GET, OF_GOT,     OF_FIRST_GET, OF_FIRST_REPLY};
    unsigned kind = koolvent_delivered_kind(answer), outcome = koolvent_delivered_outcome(answer);

    if (call->kind != DELIVER)
        return of_calls[call->kind];
    if (outcome == KOOLVENT_READ_ENDED)
        return kind == KOOLVENT_GOT ? OF_LAST_GOT : OF_LAST_FIRST_REPLY;
    if (outcome == KOOLVENT_WRITE_ENDED)
        return kind == KOOLVENT_GOT ? OF_LAST_GOT_OF_MIXED : OF_LAST_PREPARED;
    if (kind == KOOLVENT_FIRST_REPLY && koolvent_delivered_messages(answer) >= messages)
        return OF_FETCHING_AGAIN;
    return of_kinds[kind];
}

/* Whether the next call takes the block: one that looks at the range of all words, and changes nothing. */
static int next_call_takes(const uint64_t *block)
{
    return koolvent_refusal(koolvent_compare(block, KOOLVENT_WORDS, 1, 1)) == KOOLVENT_ACCEPTED;
}

static void play_on(struct counts *row, const uint64_t *block)
{
    enum fault fault = NO_FAULT;
    int shows_another = 0;

    for (unsigned time = 0; time < TIMES && fault == NO_FAULT && !shows_another; time++)
        fault = goes_on(block, &session.sizes, &session.writes, session.random + time, &shows_another);
    faults[fault]++;
    played++;
    row->show_another += shows_another;
}

static void count_state(struct counts *row, const uint64_t *block)
{
    int next_call = next_call_takes(block);
    unsigned refusal = koolvent_refusal(koolvent_check(block, KOOLVENT_WORDS));

    row->states++;
    row->next_call_takes += next_call;
    row->refused_by_1 += refusal == KOOLVENT_REFUSED_BLOCK;
    row->refused_by_19 += refusal == KOOLVENT_REFUSED_UNSOUND;
    row->taken += refusal == KOOLVENT_ACCEPTED;
    if (next_call == (refusal == KOOLVENT_REFUSED_BLOCK))
        fail("koolvent_check and the next call differ on what is in range");
    if (is_by_next_call ? next_call : refusal == KOOLVENT_ACCEPTED)
        play_on(row, block);
}

/* The states between two changes. */
static void cut(struct counts *row, const uint64_t *before, const struct changes *changes)
{
    static uint64_t block[KOOLVENT_WORDS];

    row->calls++;
    memcpy(block, before, sizeof block);
    for (unsigned i = 0; i + 1 < changes->count; i++) {
        block[changes->of[i].word] = changes->of[i].value;
        count_state(row, block);
    }
}

/* The words that differ, by ascending or descending word. */
static void differences(const uint64_t *before, const uint64_t *after, enum order order, struct changes *changes)
{
    changes->count = 0;
    for (unsigned i = 0; i < KOOLVENT_WORDS; i++) {
        unsigned word = order == ASCENDING ? i : KOOLVENT_WORDS - 1 - i;
        struct change change = {word, after[word]};
        if (before[word] != after[word])
            changes->of[changes->count++] = change;
    }
}

/* Cuts the call, which leads from one block to the other and changes some words. */
static void cut_in_all_orders(enum row row, const struct call *call, const uint64_t *before, const uint64_t *after)
{
    static struct changes changes;

    for (int order = ASCENDING; order <= DESCENDING; order++) {
        differences(before, after, order, &changes);
        if (changes.count < 2)
            return;
        cut(&counts[order][row], before, &changes);
    }
    if (call->kind == FRESH)
        return;
    changes_as_stored(before, &session.sizes, call, &changes);
    cut(&counts[AS_STORED][row], before, &changes);
}

/* Makes the call on the session's block, and cuts it if its kind is still wanted. */
static void make_and_cut(const struct call *call)
{
    static uint64_t before[KOOLVENT_WORDS];
    uint64_t answer;
    enum row row;

    memcpy(before, session.block, sizeof before);
    answer = make(session.block, &session.sizes, call);
    if (koolvent_refusal(answer) != KOOLVENT_ACCEPTED)
        fail("a call of a session is refused");
    if (koolvent_refusal(koolvent_check(session.block, KOOLVENT_WORDS)) != KOOLVENT_ACCEPTED)
        fail("a block that the calls have made is refused");
    row = row_of(call, answer, before[MESSAGE_COUNT]);
    if (counts[ASCENDING][row].calls < CALLS)
        cut_in_all_orders(row, call, before, session.block);
}

static int all_are_cut(void)
{
    for (int row = 0; row < ROWS; row++)
        if (counts[ASCENDING][row].calls < CALLS)
            return 0;
    return 1;
}

static void play(uint64_t seed)
{
    struct call fresh = {FRESH, 0, 0, 0, 0, 0, 0};

    session.random = seed;
    session.sizes.clients = 2 + draw(&session.random, 3);
    session.sizes.partitions = 1 + draw(&session.random, 3);
    session.sizes.items = 1 + draw(&session.random, 6);
    session.writes.count = 0;
    if (koolvent_refusal(make(session.block, &session.sizes, &fresh)) != KOOLVENT_ACCEPTED)
        fail("a fresh start is refused");
    for (unsigned i = 0; i < LENGTH; i++) {
        struct call call = drawn_call(&session.random, session.block, &session.sizes, &session.writes, 1);
        make_and_cut(&call);
    }
    make_and_cut(&fresh);
}

static void add(struct counts *sum, const struct counts *other)
{
    sum->calls += other->calls;
    sum->states += other->states;
    sum->next_call_takes += other->next_call_takes;
    sum->refused_by_1 += other->refused_by_1;
    sum->refused_by_19 += other->refused_by_19;
    sum->taken += other->taken;
    sum->show_another += other->show_another;
}

/* The sum over some orders and rows. */
static void print_sum(const char *name, int first_order, int last_order, int first_row, int last_row)
{
    struct counts sum = {0, 0, 0, 0, 0, 0, 0};

    for (int order = first_order; order <= last_order; order++)
        for (int row = first_row; row <= last_row; row++)
            add(&sum, &counts[order][row]);
    printf("%-51s %6u %6u %6u %6u %6u %6u %6u\n", name, sum.calls, sum.states, sum.next_call_takes, sum.refused_by_1,
           sum.refused_by_19, sum.taken, sum.show_another);
}

static void print_counts(void)
{
    printf("%-51s %6s %6s %6s %6s %6s %6s %6s\n", "cut short", "calls", "states", "next", "by 1", "by 19", "taken",
           "other");
    for (int row = 0; row < ROWS; row++)
        print_sum(row_names[row], 0, ORDERS - 1, row, row);
    for (int order = 0; order < ORDERS; order++)
        print_sum(order_names[order], order, order, 0, ROWS - 1);
    print_sum("all", 0, ORDERS - 1, 0, ROWS - 1);
    printf("of %u states that %s takes\n", played, is_by_next_call ? "the next call" : "koolvent_check");
    for (int fault = 0; fault < FAULTS; fault++)
        if (faults[fault] > 0)
            printf("%8u %s\n", faults[fault], fault_names[fault]);
}

int main(int argc, char **argv)
{
    is_by_next_call = argc == 2 && strcmp(argv[1], "--next-call") == 0;
    if (argc > 1 && !is_by_next_call) {
        fprintf(stderr, "usage: cut [--next-call]\n");
        return 2;
    }
    for (uint64_t seed = 0; seed < SESSIONS && !all_are_cut(); seed++)
        play(seed);
    print_counts();
    if (!all_are_cut())
        fail("too few calls of a kind are cut");
    return played != faults[NO_FAULT];
}
