#include <string.h>

#include "cut.h"

enum { ITEMS = KOOLVENT_MOST_ITEMS, CLIENTS = KOOLVENT_MOST_CLIENTS };

/* How many calls other than deliveries are drawn in each of the two parts that are drawn. */
enum { STARTS = 8 };

/* What is known of a client's reads and writes that were started from then on. */
struct client {
    /* A transaction of its is under way, which was started from then on; and what that was. */
    int is_followed;
    struct call start;
    /* The latest stamps of its own writes, or taken over, and of what it was shown, of each item; and of all. */
    uint64_t own[ITEMS], shown[ITEMS], latest;
    /* The same, and all that was committed if nothing was in flight, when its transaction started. */
    uint64_t own_then[ITEMS], shown_then[ITEMS], latest_then, committed_then[ITEMS];
};

static struct {
    const uint64_t *held;
    uint64_t block[KOOLVENT_WORDS];
    const struct sizes *sizes;
    struct writes writes;
    unsigned writes_before;
    int shows_another;
    uint64_t random;
    struct client clients[CLIENTS + 1];
    /* The latest writes that have ended, of each item. */
    uint64_t ended[ITEMS];
    /* Transactions that start are put into the log when they end. */
    int is_logged;
    char log[KOOLVENT_MOST_LOG_BYTES];
    size_t log_length;
    enum fault fault;
} on;

/* The first fault counts. */
static void hold(int is_kept, enum fault fault)
{
    if (!is_kept && on.fault == NO_FAULT)
        on.fault = fault;
}

static void raise_to(uint64_t *stamp, uint64_t other)
{
    if (*stamp < other)
        *stamp = other;
}

static void add_to_log(const uint8_t *frame, size_t length)
{
    static const char digits[] = "0123456789abcdef";

    if (!on.is_logged || on.log_length + 2 * length + 1 > sizeof on.log)
        return;
    for (size_t i = 0; i < length; i++) {
        on.log[on.log_length++] = digits[frame[i] >> 4];
        on.log[on.log_length++] = digits[frame[i] & 15];
    }
    on.log[on.log_length++] = '\n';
}

/* The set of a version that the block held, stored or in a prepare; empty where it held none such. */
static uint64_t held_set(unsigned item, struct koolvent_entry entry, uint64_t stamp)
{
    const uint64_t *version = on.held + FIRST_VERSION, *message = on.held + FIRST_MESSAGE;

    for (unsigned i = 0; i < on.held[VERSION_COUNT]; i++, version += VERSION_WORDS)
        if (version[0] == item && version[1] == entry.value && version[2] == stamp)
            return version[3];
    for (unsigned i = 0; i < on.held[MESSAGE_COUNT]; i++, message += MESSAGE_WORDS)
        if (message[0] == KOOLVENT_PREPARE && message[2] == item && message[3] == entry.value && message[4] == stamp)
            return message[5];
    return 0;
}

/* The stamp of an entry; and its write's set, which is empty for none. */
static uint64_t stamp_of(unsigned item, struct koolvent_entry entry, uint64_t *set)
{
    uint64_t stamp = (uint64_t)entry.number * 16 + entry.client;
    struct write *write = write_of(&on.writes, item, entry.value, stamp);

    if (write != NULL)
        write->stamp = stamp;
    if (write != NULL && write >= on.writes.of + on.writes_before) {
        *set = write->set;
    } else {
        *set = held_set(item, entry, stamp);
        on.shows_another |= stamp != 0 && write == NULL;
    }
    hold(stamp == 0 ? entry.value == 0 : *set != 0, UNWRITTEN);
    return stamp;
}

/* What a read shows, or the read part of a mixed transaction. */
static void reads(struct client *client, const uint8_t *frame)
{
    uint64_t set = koolvent_frame_set(frame), stamps[ITEMS] = {0}, sets[ITEMS] = {0};
    unsigned place = 0;

    hold(set == client->start.set, UNWRITTEN);
    for (unsigned item = 0; item < on.sizes->items; item++) {
        if (!(set >> item & 1))
            continue;
        stamps[item] = stamp_of(item, koolvent_frame_entry(frame, place++), &sets[item]);
        if (client->start.kind == FAST_READ) {
            hold(stamps[item] >= client->committed_then[item], COMMITTED_MISSED);
        } else {
            hold(stamps[item] >= client->own_then[item], OWN_WRITE_MISSED);
            hold(stamps[item] >= client->shown_then[item], FALLEN);
        }
        raise_to(&client->shown[item], stamps[item]);
        raise_to(&client->latest, stamps[item]);
    }
    for (unsigned item = 0; item < on.sizes->items; item++)
        for (unsigned other = 0; other < on.sizes->items; other++)
            if (set & sets[item] & UINT64_C(1) << other)
                hold(stamps[other] >= stamps[item], FRACTURED);
}

/* What a write wrote, or the write part of a mixed transaction. */
static void wrote(struct client *client, const uint8_t *frame)
{
    uint64_t stamp = (uint64_t)koolvent_frame_number(frame) * 16 + client->start.client;
    struct write *write = &on.writes.of[client->start.write];

    hold(koolvent_frame_set(frame) == client->start.written, UNWRITTEN);
    hold(write->stamp == 0 || write->stamp == stamp, UNWRITTEN);
    hold(stamp > client->latest_then, WRITE_NOT_LATER);
    write->stamp = stamp;
    for (unsigned item = 0; item < on.sizes->items; item++)
        if (write->set >> item & 1) {
            raise_to(&client->own[item], stamp);
            raise_to(&on.ended[item], stamp);
        }
    raise_to(&client->latest, stamp);
}

static void ended(struct client *client, unsigned number)
{
    uint8_t frame[KOOLVENT_FRAME_ROOM];
    uint64_t answer = koolvent_show(on.block, KOOLVENT_WORDS, number, frame, sizeof frame);

    hold(koolvent_refusal(answer) == KOOLVENT_ACCEPTED, CALL_REFUSED);
    if (koolvent_refusal(answer) != KOOLVENT_ACCEPTED)
        return;
    client->is_followed = 0;
    if (client->start.kind != WRITE)
        reads(client, frame);
    if (client->start.kind == WRITE)
        wrote(client, frame);
    if (client->start.kind == MIXED)
        wrote(client, koolvent_frame_write_part(frame));
    add_to_log(frame, koolvent_shown_bytes(answer));
}

static void started(const struct call *call, int nothing_was_in_flight)
{
    struct client *client = &on.clients[call->client];

    client->is_followed = 1;
    client->start = *call;
    memcpy(client->own_then, client->own, sizeof client->own);
    memcpy(client->shown_then, client->shown, sizeof client->shown);
    client->latest_then = client->latest;
    memset(client->committed_then, 0, sizeof client->committed_then);
    if (nothing_was_in_flight)
        memcpy(client->committed_then, on.ended, sizeof on.ended);
}

static void handed_over(const struct call *call)
{
    uint8_t frame[KOOLVENT_HAND_OVER_FRAME_BYTES];

    for (unsigned item = 0; item < on.sizes->items; item++)
        raise_to(&on.clients[call->receiver].own[item], on.clients[call->client].own[item]);
    koolvent_put_hand_over(frame, call->client, call->receiver);
    add_to_log(frame, sizeof frame);
}

/* Makes the call, and holds what follows from it against the promises. */
static void go(const struct call *call)
{
    int nothing_was_in_flight = on.block[MESSAGE_COUNT] == 0;
    uint64_t answer = make(on.block, on.sizes, call);

    hold(koolvent_refusal(answer) == KOOLVENT_ACCEPTED, CALL_REFUSED);
    if (koolvent_refusal(answer) != KOOLVENT_ACCEPTED)
        return;
    if (call->kind == HAND_OVER)
        handed_over(call);
    if (call->kind == READ || call->kind == FAST_READ || call->kind == WRITE || call->kind == MIXED)
        started(call, nothing_was_in_flight);
    for (unsigned number = 1; number <= on.sizes->clients; number++)
        if (call->kind == DELIVER && on.clients[number].is_followed && !is_busy(on.block, number))
            ended(&on.clients[number], number);
}

/* So many calls other than deliveries, with deliveries between them, until nothing is in flight. */
static void go_on_with(unsigned starts)
{
    while (on.fault == NO_FAULT) {
        struct call call = drawn_call(&on.random, on.block, on.sizes, &on.writes, starts > 0);
        if (call.kind == NO_CALL)
            return;
        starts -= call.kind != DELIVER;
        go(&call);
    }
}

/* Every client starts such a transaction of all items, and everything is delivered. */
static void each_starts(int kind)
{
    uint64_t all = all_items(on.sizes);

    for (unsigned client = 1; client <= on.sizes->clients && on.fault == NO_FAULT; client++) {
        struct call call = start_of(kind, client, all, all, &on.writes);
        go(&call);
    }
    go_on_with(0);
}

/* Delivers whatever is accepted, and tells whether a client is busy when nothing more is. */
static int stays_busy(void)
{
    uint64_t place = 0;

    while (place < on.block[MESSAGE_COUNT])
        if (koolvent_refusal(koolvent_deliver(on.block, KOOLVENT_WORDS, place)) == KOOLVENT_ACCEPTED)
            place = 0;
        else
            place++;
    for (unsigned client = 1; client <= on.sizes->clients; client++)
        if (is_busy(on.block, client))
            return 1;
    return 0;
}

/* What was in flight arrives among new reads and writes. Then each client reads all items fast, and writes all: from
 * then on whatever is shown is of a write in the log, and the judge takes the log. */
static enum fault go_on(void)
{
    uint64_t verdict;

    go_on_with(STARTS);
    if (stays_busy())
        return BUSY_FOR_EVER;
    each_starts(FAST_READ);
    on.is_logged = 1;
    each_starts(WRITE);
    go_on_with(STARTS);
    if (on.fault != NO_FAULT)
        return on.fault;
    verdict = koolvent_judge((const uint8_t *)on.log, on.log_length);
    return koolvent_refusal(verdict) == KOOLVENT_ACCEPTED && koolvent_verdict_finding(verdict) == KOOLVENT_CLEAN
               ? NO_FAULT
               : LOG_AT_FAULT;
}

enum fault goes_on(const uint64_t *block, const struct sizes *sizes, const struct writes *before, uint64_t seed,
                   int *shows_another)
{
    enum fault fault;

    memset(&on, 0, sizeof on);
    on.held = block;
    memcpy(on.block, block, sizeof on.block);
    on.sizes = sizes;
    on.writes = *before;
    on.writes_before = before->count;
    on.random = seed;
    fault = go_on();
    *shows_another = on.shows_another;
    return fault;
}
