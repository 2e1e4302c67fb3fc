#include "cut.h"

/* Splitmix64. */
unsigned draw(uint64_t *random, unsigned bound)
{
    uint64_t mixed = *random += UINT64_C(0x9e3779b97f4a7c15);
    mixed = (mixed ^ mixed >> 30) * UINT64_C(0xbf58476d1ce4e5b9);
    mixed = (mixed ^ mixed >> 27) * UINT64_C(0x94d049bb133111eb);
    return (unsigned)((mixed ^ mixed >> 31) % bound);
}

int is_busy(const uint64_t *block, unsigned client)
{
    uint8_t frame[KOOLVENT_FRAME_ROOM];

    return koolvent_refusal(koolvent_show(block, KOOLVENT_WORDS, client, frame, 0)) == KOOLVENT_REFUSED_BUSY;
}

struct write *write_of(struct writes *writes, uint64_t item, uint64_t value, uint64_t stamp)
{
    uint64_t place = value / 64;
    struct write *write;

    if (place == 0 || place > writes->count || value % 64 != item)
        return NULL;
    write = &writes->of[place - 1];
    if (write->client != stamp % 16 || !(write->set >> item & 1) || (write->stamp != 0 && write->stamp != stamp))
        return NULL;
    return write;
}

uint64_t all_items(const struct sizes *sizes)
{
    return (UINT64_C(1) << sizes->items) - 1;
}

struct call start_of(int kind, unsigned client, uint64_t set, uint64_t written, struct writes *writes)
{
    struct call call = {kind, client, 0, set, written, writes->count, 0};

    if (kind == WRITE || kind == MIXED) {
        struct write write = {client, written, 0};
        writes->of[writes->count++] = write;
    }
    return call;
}

static uint64_t some_items(uint64_t *random, const struct sizes *sizes)
{
    return 1 + draw(random, (unsigned)all_items(sizes));
}

/* Some call other than a delivery, of an idle client. */
static struct call some_start(uint64_t *random, unsigned client, unsigned other_idle, const struct sizes *sizes,
                              struct writes *writes)
{
    static const int kinds[] = {READ,  READ,  FAST_READ, FAST_READ, WRITE, WRITE,
                                WRITE, MIXED, MIXED,     HAND_OVER, CLEAR};
    int kind = kinds[draw(random, sizeof kinds / sizeof *kinds)];
    uint64_t set = some_items(random, sizes), written = some_items(random, sizes);
    struct call call;

    if (kind == HAND_OVER && other_idle == 0)
        kind = READ;
    call = start_of(kind, client, set, written, writes);
    call.receiver = other_idle;
    return call;
}

struct call drawn_call(uint64_t *random, const uint64_t *block, const struct sizes *sizes, struct writes *writes,
                       int starts_are_wanted)
{
    struct call none = {NO_CALL, 0, 0, 0, 0, 0, 0}, delivery = {DELIVER, 0, 0, 0, 0, 0, 0};
    unsigned messages = (unsigned)block[MESSAGE_COUNT], first = draw(random, sizes->clients);
    unsigned idle[2] = {0, 0}, count = 0;

    for (unsigned i = 0; i < sizes->clients && count < 2; i++) {
        unsigned client = 1 + (first + i) % sizes->clients;
        if (!is_busy(block, client))
            idle[count++] = client;
    }
    if (messages > 0 && (!starts_are_wanted || count == 0 || draw(random, 4) > 0)) {
        delivery.place = draw(random, messages);
        return delivery;
    }
    return starts_are_wanted && count > 0 ? some_start(random, idle[0], idle[1], sizes, writes) : none;
}

uint64_t make(uint64_t *block, const struct sizes *sizes, const struct call *call)
{
    uint8_t values[KOOLVENT_MOST_ITEMS * KOOLVENT_VALUE_BYTES];
    size_t bytes = 0;

    for (unsigned item = 0; item < sizes->items; item++)
        if (call->written >> item & 1) {
            koolvent_put_value(values + bytes, 64 * (call->write + 1) + item);
            bytes += KOOLVENT_VALUE_BYTES;
        }
    switch (call->kind) {
    case READ:
        return koolvent_start_read(block, KOOLVENT_WORDS, call->client, call->set);
    case FAST_READ:
        return koolvent_start_fast_read(block, KOOLVENT_WORDS, call->client, call->set);
    case WRITE:
        return koolvent_start_write(block, KOOLVENT_WORDS, call->client, call->written, values, bytes);
    case MIXED:
        return koolvent_start_mixed(block, KOOLVENT_WORDS, call->client, call->set, call->written, values, bytes);
    case DELIVER:
        return koolvent_deliver(block, KOOLVENT_WORDS, call->place);
    case CLEAR:
        return koolvent_clear(block, KOOLVENT_WORDS);
    case HAND_OVER:
        return koolvent_hand_over(block, KOOLVENT_WORDS, call->client, call->receiver);
    case FRESH:
        return koolvent_fresh(block, KOOLVENT_WORDS, sizes->clients, sizes->partitions, sizes->items);
    default:
        return KOOLVENT_ACCEPTED;
    }
}
