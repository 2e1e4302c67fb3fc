/*
 * The header's numbers, held against the library: each is found by calls and compared with the name that the header
 * gives it. Says nothing and exits with 0 where all agree.
 */
#include <inttypes.h>
#include <stdio.h>
#include <string.h>

#include "koolvent.h"

/* More than any call needs, by no constant of the header. */
enum { WORDS = 8000, ROOM = 1000, LOG = 70000 };

static uint64_t block[WORDS];
static uint8_t output[ROOM];
static uint8_t values[ROOM];
static uint8_t text[LOG];
static int differences;

static void compare(int line, const char *name, uint64_t found, uint64_t stated)
{
    if (found == stated)
        return;
    fprintf(stderr, "line %d: %s is %" PRIu64 ", the library says %" PRIu64 "\n", line, name, stated, found);
    differences++;
}

#define SAME(found, stated) compare(__LINE__, #stated, found, stated)

static void fresh(uint64_t clients, uint64_t partitions, uint64_t items)
{
    SAME(koolvent_refusal(koolvent_fresh(block, WORDS, clients, partitions, items)), KOOLVENT_ACCEPTED);
}

static uint64_t read_items(uint64_t client, uint64_t set)
{
    return koolvent_start_read(block, WORDS, client, set);
}

static uint64_t fast_read_items(uint64_t client, uint64_t set)
{
    return koolvent_start_fast_read(block, WORDS, client, set);
}

static uint64_t write_items(uint64_t client, uint64_t set, size_t value_bytes)
{
    return koolvent_start_write(block, WORDS, client, set, values, value_bytes);
}

static uint64_t mix_items(uint64_t client, uint64_t read_set, uint64_t write_set, size_t value_bytes)
{
    return koolvent_start_mixed(block, WORDS, client, read_set, write_set, values, value_bytes);
}

static uint64_t deliver(uint64_t place)
{
    return koolvent_deliver(block, WORDS, place);
}

static uint64_t show(uint64_t client, size_t room)
{
    return koolvent_show(block, WORDS, client, output, room);
}

/* The set of the first items. */
static uint64_t first(unsigned items)
{
    return ~UINT64_C(0) >> (64 - items);
}

static void deliver_all(void)
{
    while (koolvent_refusal(deliver(0)) == KOOLVENT_ACCEPTED)
        ;
}

/* Document 01's session: every kind and outcome, and the messages in flight after each call. */
static void session(void)
{
    static const struct {
        unsigned place, kind, messages, outcome;
    } written[] = {
        {0, KOOLVENT_PREPARE, 2, KOOLVENT_NONE_ENDED},  {0, KOOLVENT_PREPARE, 2, KOOLVENT_NONE_ENDED},
        {0, KOOLVENT_PREPARED, 1, KOOLVENT_NONE_ENDED}, {0, KOOLVENT_PREPARED, 2, KOOLVENT_WRITE_ENDED},
        {0, KOOLVENT_COMMIT, 1, KOOLVENT_NONE_ENDED},
    }, shown[] = {
        {1, KOOLVENT_GET, 3, KOOLVENT_NONE_ENDED}, {1, KOOLVENT_GET, 3, KOOLVENT_NONE_ENDED},
        {1, KOOLVENT_GOT, 2, KOOLVENT_NONE_ENDED}, {1, KOOLVENT_GOT, 1, KOOLVENT_READ_ENDED},
    };
    size_t i;

    fresh(2, 2, 2);
    SAME(koolvent_started_messages(write_items(1, 3, 8)), 2);
    for (i = 0; i < sizeof written / sizeof *written; i++) {
        uint64_t answer = deliver(written[i].place);
        SAME(koolvent_refusal(answer), KOOLVENT_ACCEPTED);
        SAME(koolvent_delivered_kind(answer), written[i].kind);
        SAME(koolvent_delivered_messages(answer), written[i].messages);
        SAME(koolvent_delivered_outcome(answer), written[i].outcome);
    }
    SAME(deliver(1), KOOLVENT_REFUSED_PLACE);
    SAME(koolvent_started_messages(read_items(2, 3)), 3);
    for (i = 0; i < sizeof shown / sizeof *shown; i++) {
        uint64_t answer = deliver(shown[i].place);
        SAME(koolvent_delivered_kind(answer), shown[i].kind);
        SAME(koolvent_delivered_messages(answer), shown[i].messages);
        SAME(koolvent_delivered_outcome(answer), shown[i].outcome);
    }
}

/* Of client 1's write item 1's commit stays in flight; client 2 reads both items fast, and fetches that one again. */
static void fast_reads(void)
{
    static const struct {
        unsigned kind, messages, outcome;
    } read[] = {
        {KOOLVENT_FIRST_GET, 3, KOOLVENT_NONE_ENDED},   {KOOLVENT_FIRST_GET, 3, KOOLVENT_NONE_ENDED},
        {KOOLVENT_FIRST_REPLY, 2, KOOLVENT_NONE_ENDED}, {KOOLVENT_FIRST_REPLY, 2, KOOLVENT_NONE_ENDED},
        {KOOLVENT_GET, 2, KOOLVENT_NONE_ENDED},         {KOOLVENT_GOT, 1, KOOLVENT_READ_ENDED},
    };

    fresh(2, 2, 2);
    koolvent_put_value(values, 7);
    koolvent_put_value(values + 4, 8);
    write_items(1, 3, 8);
    for (unsigned i = 0; i < 5; i++)
        deliver(0);
    SAME(koolvent_started_messages(fast_read_items(2, 3)), 3);
    SAME(fast_read_items(2, 3), KOOLVENT_REFUSED_BUSY);
    SAME(show(2, ROOM), KOOLVENT_REFUSED_BUSY);
    for (size_t i = 0; i < sizeof read / sizeof *read; i++) {
        uint64_t answer = deliver(1);
        SAME(koolvent_delivered_kind(answer), read[i].kind);
        SAME(koolvent_delivered_messages(answer), read[i].messages);
        SAME(koolvent_delivered_outcome(answer), read[i].outcome);
    }
    SAME(koolvent_shown_bytes(show(2, ROOM)), KOOLVENT_READ_FRAME_BYTES(2));
    SAME(output[0], KOOLVENT_FAST_READ_FRAME);
    SAME(koolvent_frame_set(output), 3);
    for (unsigned item = 0; item < 2; item++) {
        SAME(koolvent_frame_entry(output, item).number, 1);
        SAME(koolvent_frame_entry(output, item).client, 1);
        SAME(koolvent_frame_entry(output, item).value, 7 + item);
    }

    /* The own write of client 1 is not committed for item 1. */
    fast_read_items(1, 2);
    deliver(1);
    SAME(koolvent_delivered_outcome(deliver(1)), KOOLVENT_READ_ENDED);
    show(1, ROOM);
    SAME(koolvent_frame_entry(output, 0).number, 0);

    SAME(fast_read_items(3, 1), KOOLVENT_REFUSED_CLIENT);
    SAME(fast_read_items(1, 0), KOOLVENT_REFUSED_SET);
    SAME(fast_read_items(1, 4), KOOLVENT_REFUSED_SET);
    SAME(koolvent_start_fast_read(block, KOOLVENT_WORDS - 1, 1, 1), KOOLVENT_REFUSED_BLOCK);
    fresh(3, 2, 64);
    SAME(koolvent_started_messages(fast_read_items(1, first(64))), 64);
    SAME(koolvent_started_messages(fast_read_items(2, first(64))), KOOLVENT_MOST_LOAD);
    SAME(fast_read_items(3, 1), KOOLVENT_REFUSED_LOAD);
}

/* Client 1 reads item 0 and writes items 0 and 2; a got ends it. Client 2 corrects item 2, and a prepared reply ends
 * that. */
static void mixed(void)
{
    static const struct {
        unsigned place, kind, messages, outcome;
    } mixed[] = {
        {1, KOOLVENT_PREPARE, 3, KOOLVENT_NONE_ENDED},  {1, KOOLVENT_PREPARE, 3, KOOLVENT_NONE_ENDED},
        {1, KOOLVENT_PREPARED, 2, KOOLVENT_NONE_ENDED}, {1, KOOLVENT_PREPARED, 1, KOOLVENT_NONE_ENDED},
        {0, KOOLVENT_GET, 1, KOOLVENT_NONE_ENDED},      {0, KOOLVENT_GOT, 1, KOOLVENT_WRITE_ENDED},
    };

    fresh(2, 2, 3);
    koolvent_put_value(values, 7);
    koolvent_put_value(values + 4, 8);
    SAME(koolvent_started_messages(mix_items(1, 1, 5, 8)), 3);
    SAME(mix_items(1, 1, 1, 4), KOOLVENT_REFUSED_BUSY);
    SAME(show(1, ROOM), KOOLVENT_REFUSED_BUSY);
    for (size_t i = 0; i < sizeof mixed / sizeof *mixed; i++) {
        uint64_t answer = deliver(mixed[i].place);
        SAME(koolvent_delivered_kind(answer), mixed[i].kind);
        SAME(koolvent_delivered_messages(answer), mixed[i].messages);
        SAME(koolvent_delivered_outcome(answer), mixed[i].outcome);
    }
    SAME(koolvent_shown_bytes(show(1, ROOM)), KOOLVENT_MIXED_FRAME_BYTES(1, 2));
    SAME(output[0], KOOLVENT_MIXED_FRAME);
    SAME(koolvent_frame_set(output), 1);
    SAME(koolvent_frame_entry(output, 0).number, 0);
    SAME(koolvent_frame_set(koolvent_frame_write_part(output)), 5);
    SAME(koolvent_frame_number(koolvent_frame_write_part(output)), 1);
    SAME(koolvent_frame_value(koolvent_frame_write_part(output), 1), 8);
    deliver_all();

    read_items(2, 4);
    deliver_all();
    mix_items(2, 5, 4, 4);
    for (unsigned i = 0; i < 2; i++)
        deliver(0);
    for (unsigned i = 0; i < 2; i++)
        SAME(koolvent_delivered_outcome(deliver(1)), KOOLVENT_NONE_ENDED);
    deliver(0);
    SAME(koolvent_delivered_outcome(deliver(0)), KOOLVENT_WRITE_ENDED);
    show(2, ROOM);
    SAME(koolvent_frame_entry(output, 1).number, 1);
    SAME(koolvent_frame_entry(output, 1).client, 1);
    SAME(koolvent_frame_entry(output, 1).value, 8);
    SAME(koolvent_frame_number(koolvent_frame_write_part(output)), 2);

    SAME(mix_items(3, 1, 1, 4), KOOLVENT_REFUSED_CLIENT);
    SAME(mix_items(1, 0, 1, 4), KOOLVENT_REFUSED_SET);
    SAME(mix_items(1, 1, 8, 4), KOOLVENT_REFUSED_SET);
    SAME(mix_items(1, 3, 1, 8), KOOLVENT_REFUSED_VALUES);
    SAME(koolvent_start_mixed(block, KOOLVENT_WORDS - 1, 1, 1, 1, values, 4), KOOLVENT_REFUSED_BLOCK);
    fresh(3, 1, 64);
    SAME(mix_items(1, 1, first(13), 52), KOOLVENT_REFUSED_WRITE_TOO_WIDE);
    SAME(koolvent_started_messages(mix_items(1, first(64), first(12), 48)), 76);
    SAME(mix_items(2, first(41), first(12), 48), KOOLVENT_REFUSED_LOAD);
    SAME(koolvent_started_messages(mix_items(2, first(40), first(12), 48)), KOOLVENT_MOST_LOAD);
}

static void sizes(void)
{
    uint64_t words = 0, clients = 1, partitions = 1, items = 1;

    while (words < WORDS && koolvent_fresh(block, words, 1, 1, 1) == KOOLVENT_REFUSED_BLOCK)
        words++;
    SAME(words, KOOLVENT_WORDS);
    while (clients < 100 && koolvent_fresh(block, WORDS, clients + 1, 1, 1) != KOOLVENT_REFUSED_SIZES)
        clients++;
    SAME(clients, KOOLVENT_MOST_CLIENTS);
    while (partitions < 100 && koolvent_fresh(block, WORDS, 1, partitions + 1, 1) != KOOLVENT_REFUSED_SIZES)
        partitions++;
    SAME(partitions, KOOLVENT_MOST_PARTITIONS);
    while (items < 100 && koolvent_fresh(block, WORDS, 1, 1, items + 1) != KOOLVENT_REFUSED_SIZES)
        items++;
    SAME(items, KOOLVENT_MOST_ITEMS);
}

/* Of a block full of one client's writes of eight items the last stays, and there is room again. */
static void clearings(unsigned versions)
{
    uint64_t answer = koolvent_clear(block, WORDS);

    SAME(koolvent_refusal(answer), KOOLVENT_ACCEPTED);
    SAME(koolvent_cleared_versions(answer), versions - 8);
    SAME(koolvent_clear(block, WORDS), KOOLVENT_ACCEPTED);
    SAME(koolvent_refusal(write_items(1, first(8), 32)), KOOLVENT_ACCEPTED);
    SAME(koolvent_clear(block, KOOLVENT_WORDS - 1), KOOLVENT_REFUSED_BLOCK);
}

/* The greatest load, and the most versions, are those at which even one item is refused. */
static void starts(void)
{
    uint64_t answer, client;
    unsigned value_bytes = 0, items = 0, load = 0, versions = 0;

    fresh(3, 2, 2);
    SAME(read_items(4, 1), KOOLVENT_REFUSED_CLIENT);
    SAME(read_items(1, 0), KOOLVENT_REFUSED_SET);
    SAME(read_items(1, 4), KOOLVENT_REFUSED_SET);
    while (value_bytes < 100 && write_items(1, 1, value_bytes) == KOOLVENT_REFUSED_VALUES)
        value_bytes++;
    SAME(value_bytes, KOOLVENT_VALUE_BYTES);
    SAME(read_items(1, 1), KOOLVENT_REFUSED_BUSY);
    SAME(show(1, ROOM), KOOLVENT_REFUSED_BUSY);
    SAME(show(2, ROOM), KOOLVENT_REFUSED_NOTHING_ENDED);

    do {
        fresh(1, 1, 64);
        items++;
        answer = write_items(1, first(items), 4 * items);
    } while (items < 64 && koolvent_refusal(answer) == KOOLVENT_ACCEPTED);
    SAME(answer, KOOLVENT_REFUSED_WRITE_TOO_WIDE);
    SAME(items - 1, KOOLVENT_MOST_WRITE_ITEMS);
    SAME(write_items(1, first(items), 4 * items - 1), KOOLVENT_REFUSED_VALUES);
    SAME(write_items(1, first(64), 256), KOOLVENT_REFUSED_WRITE_TOO_WIDE);

    fresh(8, 2, 64);
    for (client = 1; koolvent_refusal(answer = read_items(client, first(64))) == 0; client++)
        load = koolvent_started_messages(answer);
    SAME(read_items(client, 1), KOOLVENT_REFUSED_LOAD);
    SAME(load, KOOLVENT_MOST_LOAD);

    fresh(1, 1, 64);
    while (koolvent_refusal(answer = write_items(1, first(8), 32)) == 0) {
        versions += koolvent_started_messages(answer);
        deliver_all();
    }
    SAME(write_items(1, 1, 4), KOOLVENT_REFUSED_VERSIONS);
    SAME(versions, KOOLVENT_MOST_VERSIONS);
    clearings(versions);
}

static uint64_t hand_over(uint64_t giver, uint64_t receiver)
{
    return koolvent_hand_over(block, WORDS, giver, receiver);
}

/* How the first client's knowledge stands to the second's. */
static unsigned standing(uint64_t first, uint64_t second)
{
    uint64_t answer = koolvent_compare(block, WORDS, first, second);

    SAME(koolvent_refusal(answer), KOOLVENT_ACCEPTED);
    return koolvent_compared_standing(answer);
}

/* Clients 1 and 3 each write an item, and nobody learns of it by messages. */
static void hand_overs(void)
{
    fresh(3, 1, 2);
    SAME(hand_over(1, 4), KOOLVENT_REFUSED_CLIENT);
    SAME(hand_over(4, 1), KOOLVENT_REFUSED_CLIENT);
    SAME(hand_over(4, 4), KOOLVENT_REFUSED_CLIENT);
    SAME(koolvent_compare(block, WORDS, 1, 4), KOOLVENT_REFUSED_CLIENT);
    SAME(koolvent_compare(block, WORDS, 4, 1), KOOLVENT_REFUSED_CLIENT);
    SAME(koolvent_hand_over(block, KOOLVENT_WORDS - 1, 1, 2), KOOLVENT_REFUSED_BLOCK);
    SAME(koolvent_compare(block, KOOLVENT_WORDS - 1, 1, 2), KOOLVENT_REFUSED_BLOCK);
    SAME(standing(1, 2), KOOLVENT_SAME);

    write_items(1, 1, 4);
    SAME(hand_over(1, 2), KOOLVENT_REFUSED_BUSY);
    SAME(hand_over(2, 1), KOOLVENT_REFUSED_BUSY);
    SAME(hand_over(1, 1), KOOLVENT_REFUSED_SAME_CLIENT);
    SAME(standing(1, 1), KOOLVENT_SAME);
    deliver(0);
    deliver(0);
    SAME(standing(1, 2), KOOLVENT_AHEAD);
    SAME(standing(2, 1), KOOLVENT_BEHIND);
    write_items(3, 2, 4);
    deliver(1);
    deliver(1);
    SAME(standing(1, 3), KOOLVENT_NEITHER);

    SAME(hand_over(1, 2), KOOLVENT_ACCEPTED);
    SAME(standing(1, 2), KOOLVENT_SAME);
    SAME(hand_over(2, 3), KOOLVENT_ACCEPTED);
    SAME(standing(2, 3), KOOLVENT_BEHIND);
    read_items(3, 3);
    deliver_all();
    show(3, ROOM);
    SAME(koolvent_frame_entry(output, 0).number, 1);
    SAME(koolvent_frame_entry(output, 0).client, 1);
    SAME(koolvent_frame_entry(output, 1).client, 3);

    memset(output, 0xee, ROOM);
    koolvent_put_hand_over(output, 2, 1);
    SAME(memcmp(output, "\x22\x02\x01\xee", 4), 0);
}

/* Refusals that no block gives which only the calls have written. The words are those of docs/LAYOUT.md. */
static void damaged_blocks(void)
{
    enum { MODE = 16, COUNT = 17, SET = 18, AWAITED = 19, STAMP_OF_VIEW = 272 };
    /* Messages come last, 8 words each. */
    enum { STAMP_OF_MESSAGE = KOOLVENT_WORDS - 8 * KOOLVENT_MOST_LOAD + 4 };

    fresh(1, 1, 1);
    block[COUNT] = UINT32_MAX;
    SAME(write_items(1, 1, 4), KOOLVENT_REFUSED_COUNT);

    fresh(1, 1, 13);
    block[STAMP_OF_VIEW] = (uint64_t)UINT32_MAX << 4 | 1;
    SAME(write_items(1, 1, 4), KOOLVENT_REFUSED_COUNT);
    SAME(write_items(1, first(13), 52), KOOLVENT_REFUSED_WRITE_TOO_WIDE);

    fresh(1, 1, 1);
    read_items(1, 1);
    SAME(koolvent_delivered_kind(deliver(0)), KOOLVENT_GET);
    block[MODE] = block[SET] = block[AWAITED] = 0;
    SAME(deliver(0), KOOLVENT_REFUSED_UNEXPECTED);

    fresh(1, 1, 1);
    read_items(1, 1);
    block[STAMP_OF_MESSAGE] = 17;
    SAME(deliver(0), KOOLVENT_REFUSED_MISSING);
}

/* A block is checked while a read is under way, and then without the message that this awaits. */
static void checks(void)
{
    /* The word with how many messages are in flight (docs/LAYOUT.md). */
    enum { MESSAGES = 4 };

    fresh(2, 2, 2);
    SAME(koolvent_check(block, WORDS), KOOLVENT_ACCEPTED);
    write_items(1, 3, 8);
    deliver_all();
    read_items(2, 1);
    SAME(koolvent_check(block, KOOLVENT_WORDS), KOOLVENT_ACCEPTED);
    SAME(koolvent_check(block, KOOLVENT_WORDS - 1), KOOLVENT_REFUSED_BLOCK);
    block[MESSAGES]--;
    SAME(koolvent_check(block, WORDS), KOOLVENT_REFUSED_UNSOUND);
    SAME(koolvent_check(block, KOOLVENT_WORDS - 1), KOOLVENT_REFUSED_BLOCK);
    block[MESSAGES]++;
    SAME(koolvent_check(block, WORDS), KOOLVENT_ACCEPTED);
    block[0] = 9;
    SAME(koolvent_check(block, WORDS), KOOLVENT_REFUSED_BLOCK);
}

/* Frames of items with other bytes everywhere, and the longest. */
static void frames(void)
{
    enum { LAST_WRITE_SET = 26 };
    const uint64_t set = UINT64_C(0x8040201008040201);
    uint64_t answer;
    size_t room = 0;
    unsigned item;

    fresh(2, 3, 64);
    for (item = 0; item < 8; item++)
        koolvent_put_value(values + 4 * item, 0x01020304 + item);
    write_items(2, set, 32);
    deliver_all();
    answer = show(2, ROOM);
    SAME(koolvent_shown_bytes(answer), KOOLVENT_WRITE_FRAME_BYTES(8));
    SAME(output[0], KOOLVENT_WRITE_FRAME);
    SAME(koolvent_frame_set(output), set);
    SAME(memcmp(output + 14, "\1\2\3\4\1\2\3\5", 8), 0);
    SAME(koolvent_frame_number(output), 1);
    for (item = 0; item < 8; item++)
        SAME(koolvent_frame_value(output, item), 0x01020304 + item);

    read_items(2, set);
    deliver_all();
    answer = show(2, ROOM);
    SAME(koolvent_shown_bytes(answer), KOOLVENT_READ_FRAME_BYTES(8));
    SAME(output[0], KOOLVENT_READ_FRAME);
    SAME(koolvent_frame_set(output), set);
    for (item = 0; item < 8; item++) {
        SAME(koolvent_frame_entry(output, item).number, 1);
        SAME(koolvent_frame_entry(output, item).client, 2);
        SAME(koolvent_frame_entry(output, item).value, 0x01020304 + item);
    }

    read_items(1, first(64));
    deliver_all();
    SAME(koolvent_shown_bytes(show(1, ROOM)), KOOLVENT_READ_FRAME_BYTES(64));
    mix_items(1, first(64), first(12), 48);
    deliver_all();
    SAME(koolvent_shown_bytes(show(1, ROOM)), KOOLVENT_MIXED_FRAME_BYTES(64, 12));

    /* In range, of all items, though no call leaves it so. The words are those of docs/LAYOUT.md. */
    block[LAST_WRITE_SET] = first(64);
    while (room < ROOM && show(1, room) == KOOLVENT_REFUSED_ROOM)
        room++;
    SAME(room, KOOLVENT_FRAME_ROOM);
    SAME(koolvent_shown_bytes(show(1, room)), KOOLVENT_MIXED_FRAME_BYTES(64, 64));
}

/* A copy of a block goes on elsewhere, and the first goes on without it. */
static void copies(void)
{
    static uint64_t elsewhere[KOOLVENT_WORDS];
    uint8_t frame[KOOLVENT_FRAME_ROOM];

    fresh(1, 1, 2);
    koolvent_put_value(values, 7);
    write_items(1, 1, 4);
    deliver(0);
    memcpy(elsewhere, block, sizeof elsewhere);
    fresh(1, 1, 2);
    while (koolvent_refusal(koolvent_deliver(elsewhere, KOOLVENT_WORDS, 0)) == KOOLVENT_ACCEPTED)
        ;
    SAME(koolvent_refusal(koolvent_show(elsewhere, KOOLVENT_WORDS, 1, frame, sizeof frame)), KOOLVENT_ACCEPTED);
    SAME(koolvent_frame_value(frame, 0), 7);
    SAME(show(1, ROOM), KOOLVENT_REFUSED_NOTHING_ENDED);
}

static uint64_t judge(const char *log)
{
    return koolvent_judge((const uint8_t *)log, strlen(log));
}

/* The greatest length that is not too long, of a text of one byte alone. */
static size_t longest(int byte)
{
    size_t fits = 0, too_long = LOG;
    memset(text, byte, LOG);
    while (too_long - fits > 1) {
        size_t middle = (fits + too_long) / 2;
        if (koolvent_judge(text, middle) == KOOLVENT_REFUSED_LOG_TOO_LONG)
            too_long = middle;
        else
            fits = middle;
    }
    return fits;
}

#define WRITE_BY_1 "20010000000000000003000000010000000700000008\n"
#define HALF_READ_BY(client) "21" client "0000000000000003000000010100000007000000000000000000\n"
#define HAND_OVER "220102\n"
#define INITIAL_READ_BY(client) "21" client "0000000000000001000000000000000000\n"
#define MIXED_BY_1 "24010000000000000001000000000000000000000000000000000100000001000000a9\n"
#define INITIAL_FAST_READ_BY(client) "23" client "0000000000000001000000000000000000\n"

static void verdicts(void)
{
    char long_log[256 * sizeof INITIAL_READ_BY("02")] = "";
    uint64_t verdict = judge("");

    SAME(koolvent_refusal(verdict), KOOLVENT_ACCEPTED);
    SAME(koolvent_verdict_finding(verdict), KOOLVENT_CLEAN);
    SAME(koolvent_verdict_line(verdict), 0);
    verdict = judge(HALF_READ_BY("02"));
    SAME(koolvent_verdict_finding(verdict), KOOLVENT_UNWRITTEN);
    SAME(koolvent_verdict_line(verdict), 1);
    verdict = judge(WRITE_BY_1 HALF_READ_BY("02"));
    SAME(koolvent_verdict_finding(verdict), KOOLVENT_FRACTURED);
    SAME(koolvent_verdict_line(verdict), 2);
    verdict = judge(WRITE_BY_1 INITIAL_READ_BY("02") INITIAL_READ_BY("01"));
    SAME(koolvent_verdict_finding(verdict), KOOLVENT_OWN_WRITE_MISSED);
    SAME(koolvent_verdict_line(verdict), 3);
    verdict = judge(WRITE_BY_1 INITIAL_READ_BY("02") HAND_OVER INITIAL_READ_BY("02"));
    SAME(koolvent_verdict_finding(verdict), KOOLVENT_OWN_WRITE_MISSED);
    SAME(koolvent_verdict_line(verdict), 4);
    verdict = judge(WRITE_BY_1 INITIAL_FAST_READ_BY("01"));
    SAME(koolvent_refusal(verdict), KOOLVENT_ACCEPTED);
    SAME(koolvent_verdict_finding(verdict), KOOLVENT_CLEAN);
    verdict = judge(MIXED_BY_1 INITIAL_READ_BY("01"));
    SAME(koolvent_verdict_finding(verdict), KOOLVENT_OWN_WRITE_MISSED);
    SAME(koolvent_verdict_line(verdict), 2);
    SAME(koolvent_verdict_finding(judge(MIXED_BY_1)), KOOLVENT_CLEAN);
    SAME(strlen(MIXED_BY_1), 2 * KOOLVENT_MIXED_FRAME_BYTES(1, 1) + 1);
    SAME(strlen(HAND_OVER), 2 * KOOLVENT_HAND_OVER_FRAME_BYTES + 1);
    for (int line = 1; line < 256; line++)
        strcat(long_log, INITIAL_READ_BY("02"));
    verdict = judge(strcat(long_log, "x"));
    SAME(koolvent_refusal(verdict), KOOLVENT_REFUSED_MALFORMED);
    SAME(koolvent_verdict_line(verdict), 256);
    SAME(longest('x'), KOOLVENT_MOST_LOG_BYTES);
    SAME(longest('\n'), KOOLVENT_MOST_LOG_LINES);
}

int main(void)
{
    session();
    fast_reads();
    mixed();
    sizes();
    starts();
    hand_overs();
    damaged_blocks();
    checks();
    frames();
    copies();
    verdicts();
    return differences > 0;
}
