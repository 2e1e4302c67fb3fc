/*
 * Koolvent: a store whose reads are never fractured and never wait, and a judge of its logs.
 *
 * A sheet is a number of items (entries of 32 bits), spread over partitions. Clients read any set of items, and write
 * up to 12 at a time, in transactions. A read that shows one item of a write never shows another item of that write
 * older. An ordinary read never misses what its own client had written before it started, and never shows an item older
 * than an earlier read of its client did. It ends after one reply for each item, whatever the order in which messages
 * arrive. A write is later than everything that its client was shown before it started. A client may take over what
 * another has seen: what that one had written by then, or taken over itself, counts as its own for every ordinary read
 * that it starts afterwards.
 *
 * A fast read asks each partition for the latest committed write of each item, whatever its client knows of. It is
 * never fractured either. It ends after one reply for each item, and one more for each item that it fetches again; it
 * fetches no item a third time. It shows no item older than the item's latest was when the partition answered the first
 * get. So it misses no write, of its own client or another, whose commit the item's partition had got before the fast
 * read started. It may miss any other write, also where its client wrote that or an earlier read of its client showed
 * it. No ordinary read that starts after a fast read of its client shows an item older than the fast read did.
 *
 * A mixed transaction reads one set of items and writes another in one, as a correction does that follows the old
 * entries. What it reads is what a read started then would show, also of items that it writes itself. Its write is one
 * like any other. It ends with the last reply, after one for each item read and one for each item written.
 *
 * The host owns all memory and moves all messages. It lends a block of words to each call, and the store keeps
 * everything there: nothing is allocated, no thread is started, no clock is read, nothing is kept elsewhere.
 *
 *     static uint64_t block[KOOLVENT_WORDS];
 *     uint8_t frame[KOOLVENT_FRAME_ROOM];
 *
 *     koolvent_fresh(block, KOOLVENT_WORDS, 2, 3, 4);                 2 clients, 3 partitions, 4 items
 *     answer = koolvent_start_read(block, KOOLVENT_WORDS, 1, 0x3);    client 1 reads items 0 and 1
 *     while (koolvent_refusal(answer) == KOOLVENT_ACCEPTED
 *            && koolvent_delivered_outcome(answer) != KOOLVENT_READ_ENDED)
 *         answer = koolvent_deliver(block, KOOLVENT_WORDS, 0);        any message in flight, in any order
 *     answer = koolvent_show(block, KOOLVENT_WORDS, 1, frame, sizeof frame);
 *
 * A start puts messages in flight, one for each item, by ascending item. Those of a mixed transaction are first for
 * the items read and then for the items written. A delivery takes one out, does what it says, and may put others in
 * flight. They are numbered 0, 1, .. by their place: the one delivered is taken out, those after it move up by one,
 * and new ones join at the end. On a block that only the calls have written since a fresh start, or since
 * koolvent_check accepted it, a delivery at any place below the number in flight is accepted. example.c plays a whole
 * session.
 *
 * What is proved. Each call's answer, and every word and byte that was lent as the call leaves it, are fixed by what
 * it was given, for all numbers, lengths and contents of the block, damaged ones included; a refused call changes
 * nothing. Reads and writes are as said above on every block that koolvent_fresh made and only the calls have written
 * since. A block that something else wrote is refused where a number in it is out of range, and only there: garbage
 * that happens to be in range is taken for a store. koolvent_check tells more: on a block that it accepts, wherever it
 * comes from, all reads and writes that are started from then on are as said above.
 *
 * Saving a block. Calls are not atomic against a crash of the host. If the power fails inside a call, some of the
 * call's words are written and others are not. The next call may accept such a block, since every number may be in
 * range. Then a client may stay busy for ever, and nothing is promised of any read or write. koolvent_check refuses
 * such a block by 1 or 19, or else its promise holds. If it accepts, the call that was cut short is made, not made, or
 * made in part: of a hand-over, some items may be taken over and others not. koolvent_check does not notice a value
 * that no write made. So a host does three things:
 *   - It saves a block between two calls, never while a call runs.
 *   - It never writes over its only copy. It saves to two copies in turn, or it writes a file beside the last one and
 *     renames it when all of it is on the disk.
 *   - It calls koolvent_check on what it has loaded, before any other call. If that is refused, it loads the older
 *     copy.
 * example.c does so.
 *
 * What no proof covers, and the host must see to:
 *   - a block is aligned to 8 bytes, as an array of uint64_t is;
 *   - a length is no more than what is there: words for a block, bytes for the others;
 *   - no pointer is null, even where the length is 0;
 *   - block, values and output do not overlap;
 *   - there is stack enough: some 89,000 bytes for koolvent_check, 44,000 for koolvent_clear, 28,000 for
 *     koolvent_judge, 1,400 for any other call;
 *   - one caller at a time: while a call runs, nobody else reads or writes what was lent to it. Two threads may work on
 *     two blocks, and on the judge beside them: nothing is shared;
 *   - between calls the host leaves the block's words as they are. It may copy them: a copy of all KOOLVENT_WORDS
 *     words, wherever it lies, is a store like the first and goes on from there by itself. Where something else may
 *     have changed the copy, koolvent_check is the first call on it.
 *
 * Link with libstore.a (the calls on a block) and libjudge.a (the judge); installed, with -lkoolvent_store and
 * -lkoolvent_judge, or by pkg-config: koolvent. For Linux on x86-64.
 */
#ifndef KOOLVENT_H
#define KOOLVENT_H

#include <stddef.h>
#include <stdint.h>

#ifdef __cplusplus
extern "C" {
#endif

/* ---- Sizes and limits ---- */

/* The words of 64 bits that a block needs, whatever its sizes. More may be lent: no call changes them. */
#define KOOLVENT_WORDS 7440

/* The most clients (desks; numbered from 1), partitions (cabinets; from 0) and items (lines; from 0), 1 being the
 * least of each. Item k lies in partition k mod the number of partitions. */
#define KOOLVENT_MOST_CLIENTS 8
#define KOOLVENT_MOST_PARTITIONS 8
#define KOOLVENT_MOST_ITEMS 64

/* The most items of a write, alone or of a mixed transaction; a read may be of all. A block in which an older store
 * left wider writes stays valid. */
#define KOOLVENT_MOST_WRITE_ITEMS 12

/* The greatest load: messages in flight (the pile), and replies that have come. For each write or mixed transaction
 * under way these are the items whose prepared reply has come. For each fast read that still awaits a first reply they
 * are the items whose first reply has. And the most stored versions, prepares in flight counted with them.
 * koolvent_clear takes away those that nothing names any more. But for koolvent_fresh nothing else takes one away. */
#define KOOLVENT_MOST_LOAD 128
#define KOOLVENT_MOST_VERSIONS 512

/* The bytes of an item's value, most significant byte first. */
#define KOOLVENT_VALUE_BYTES 4

/* The longest log that the judge takes: its bytes, and its line ends (bytes 0a). */
#define KOOLVENT_MOST_LOG_BYTES 32768
#define KOOLVENT_MOST_LOG_LINES 256

/* ---- Log frames: what koolvent_show writes, and of a hand-over koolvent_put_hand_over ----
 *
 * Numbers of several bytes have the most significant byte first. For each item of the set, ascending:
 *
 *     a write       kind 20 (1 byte), client (1), set (8), number of the write (4), then for each item its value (4)
 *     a read        kind 21 (1 byte), client (1), set (8), then for each item the number of the write that is shown
 *                   (4), the client that wrote it (1), and the value (4); all three are 0 where nobody's write is shown
 *     a hand-over   kind 22 (1 byte), giver (1), receiver (1)
 *     a fast read   kind 23, and then as a read
 *     a mixed transaction
 *                   kind 24 (1 byte), client (1), then as a read from its set on, of the items read, and after that
 *                   as a write from its set on, of the items written
 *
 * A log is a text: each frame as lowercase hexadecimal digits, two a byte, and then the byte 0a. Its lines are in the
 * order in which transactions ended and hand-overs were made: what the receiver has ended before a hand-over is logged
 * above it, or the judge takes it for a read after it. */
#define KOOLVENT_WRITE_FRAME 0x20
#define KOOLVENT_READ_FRAME 0x21
#define KOOLVENT_HAND_OVER_FRAME 0x22
#define KOOLVENT_FAST_READ_FRAME 0x23
#define KOOLVENT_MIXED_FRAME 0x24

/* The bytes of a frame of so many items (a fast read's has those of a read's; a mixed transaction's goes by the items
 * read and those written), those of a hand-over's, and room enough for any frame. The store's own calls fill at most
 * 646 bytes of that; only a block that they did not make may need it all. */
#define KOOLVENT_WRITE_FRAME_BYTES(items) (14 + 4 * (items))
#define KOOLVENT_READ_FRAME_BYTES(items) (10 + 9 * (items))
#define KOOLVENT_HAND_OVER_FRAME_BYTES 3
#define KOOLVENT_MIXED_FRAME_BYTES(read, written) (22 + 9 * (read) + 4 * (written))
#define KOOLVENT_FRAME_ROOM 854

/* ---- Refusals: the lowest byte of an answer; 0 is accepted ---- */

enum koolvent_refusal {
    KOOLVENT_ACCEPTED = 0,
    /* The block is shorter than KOOLVENT_WORDS; or (not for koolvent_fresh) it holds a number out of its range, a load
     * over KOOLVENT_MOST_LOAD, or versions and prepares over KOOLVENT_MOST_VERSIONS: it is damaged, or koolvent_fresh
     * was never accepted on it. */
    KOOLVENT_REFUSED_BLOCK = 1,
    /* koolvent_fresh: a size is 0 or over its limit. */
    KOOLVENT_REFUSED_SIZES = 2,
    /* There is no such client; of two, either. */
    KOOLVENT_REFUSED_CLIENT = 3,
    /* A start, or koolvent_show: the client has a transaction under way. koolvent_hand_over: either client has. */
    KOOLVENT_REFUSED_BUSY = 4,
    /* A start: the set is empty, or holds an item that does not exist; of a mixed transaction either set. */
    KOOLVENT_REFUSED_SET = 5,
    /* koolvent_start_write, koolvent_start_mixed: there are not 4 value bytes for each item written. */
    KOOLVENT_REFUSED_VALUES = 6,
    /* koolvent_start_write, koolvent_start_mixed: the client has written, or knows of, a write with the number
     * 4,294,967,295. */
    KOOLVENT_REFUSED_COUNT = 7,
    /* A start: the load would exceed KOOLVENT_MOST_LOAD. Deliver, and try again. */
    KOOLVENT_REFUSED_LOAD = 8,
    /* koolvent_start_write, koolvent_start_mixed: versions would exceed KOOLVENT_MOST_VERSIONS. Clear old ones away
     * with koolvent_clear, and try again. If that frees too few, the others are in use: deliver what is in flight and
     * let every client read all items, so that each learns of later writes, and clear again. What they have learnt
     * stays. If that is too much, copy the sheet to a fresh block, in several writes if it has more than
     * KOOLVENT_MOST_WRITE_ITEMS items: reads between them show it in part. Reads go on meanwhile. */
    KOOLVENT_REFUSED_VERSIONS = 9,
    /* koolvent_deliver: no message lies at that place. */
    KOOLVENT_REFUSED_PLACE = 10,
    /* koolvent_deliver: a version that is already stored, or a reply that nobody awaits. Never on a block that only the
     * calls have written since a fresh start, or since koolvent_check accepted it. */
    KOOLVENT_REFUSED_UNEXPECTED = 11,
    /* koolvent_deliver: a request for a version that is not stored. Never on a block that only the calls have written
     * since a fresh start, or since koolvent_check accepted it. */
    KOOLVENT_REFUSED_MISSING = 12,
    /* koolvent_show: no transaction of the client has ended yet. */
    KOOLVENT_REFUSED_NOTHING_ENDED = 13,
    /* koolvent_show: the output is shorter than the frame. */
    KOOLVENT_REFUSED_ROOM = 14,
    /* koolvent_judge: a line of the log is malformed; koolvent_verdict_line says which. */
    KOOLVENT_REFUSED_MALFORMED = 15,
    /* koolvent_judge: the log is longer than the judge takes. */
    KOOLVENT_REFUSED_LOG_TOO_LONG = 16,
    /* koolvent_start_write, koolvent_start_mixed: more than KOOLVENT_MOST_WRITE_ITEMS items would be written. */
    KOOLVENT_REFUSED_WRITE_TOO_WIDE = 17,
    /* koolvent_hand_over: giver and receiver are one client. */
    KOOLVENT_REFUSED_SAME_CLIENT = 18,
    /* koolvent_check: every number is in its range, but the calls make no such block. A version is missing that a
     * client knows of, or a message that a client awaits, or the like. The other calls take the block for a store all
     * the same, and promise nothing of reads and writes on it. Load an older copy, or make a fresh start. Never on a
     * block that only the calls have written since a fresh start, or since a check accepted it. */
    KOOLVENT_REFUSED_UNSOUND = 19
};

/* The refusal of any answer, or KOOLVENT_ACCEPTED. A call on a block that is refused answers exactly that number, with
 * nothing above the lowest byte; of the judge's, KOOLVENT_REFUSED_MALFORMED alone has a line beside it. */
static inline unsigned koolvent_refusal(uint64_t answer)
{
    return (unsigned)(answer & 0xff);
}

/* ---- The calls on a block ----
 *
 * A set holds item k as the bit worth 2 to the power k. Of several refusals that apply to a call the lowest is given,
 * but for koolvent_fresh, where 2 goes before 1, koolvent_start_write and koolvent_start_mixed, where 17 goes between 6
 * and 7, and koolvent_hand_over, where 18 goes between 3 and 4. */

/* Makes a store of so many clients, partitions and items, nothing written, every value 0. What the block held is lost;
 * it may hold anything. Refused by 1 and 2. */
uint64_t koolvent_fresh(uint64_t *block, size_t words, uint64_t clients, uint64_t partitions, uint64_t items);

/* Starts a read of the items of a set. It asks for the newest write of each item that the client knows of, and learns
 * from the replies of later ones, for its next read. Refused by 1, 3, 4, 5 and 8. */
uint64_t koolvent_start_read(uint64_t *block, size_t words, uint64_t client, uint64_t set);

/* Starts a fast read of the items of a set. It asks for the latest committed write of each item. Where the replies show
 * that a write of one item also wrote another, which was answered with an earlier one, it asks for that write of the
 * other as well, and shows what comes then. Its client learns from all replies, as from those of a read. Refused by 1,
 * 3, 4, 5 and 8. */
uint64_t koolvent_start_fast_read(uint64_t *block, size_t words, uint64_t client, uint64_t set);

/* Starts a write of the items of a set, at most KOOLVENT_MOST_WRITE_ITEMS, with KOOLVENT_VALUE_BYTES bytes for each, by
 * ascending item. Its number is 1 more than the greatest of the client's own writes and of all that it knows of,
 * whoever wrote them and whatever their items: so it is later than everything that the client has been shown. Refused
 * by 1, 3 to 9 and 17. */
uint64_t koolvent_start_write(uint64_t *block, size_t words, uint64_t client, uint64_t set, const uint8_t *values,
                              size_t value_bytes);

/* Starts a mixed transaction, which reads the items of one set and writes those of another, with values as of a write.
 * The sets may share items; of such an item it shows what was there before. It asks for what a read would ask for, and
 * its number is a write's. When its last reply has come, of either kind, it has ended as a write: its client knows of
 * it from then on, and its commits are in flight. An item in both sets counts twice in the load. Refused by 1, 3 to 9
 * and 17. */
uint64_t koolvent_start_mixed(uint64_t *block, size_t words, uint64_t client, uint64_t read_set, uint64_t write_set,
                              const uint8_t *values, size_t value_bytes);

/* Delivers the message at a place, from 0. Refused by 1, 10, 11 and 12. */
uint64_t koolvent_deliver(uint64_t *block, size_t words, uint64_t place);

/* Writes the log frame of the client's last ended transaction to the front of the output; bytes past the frame stay as
 * they are. Refused by 1, 3, 4, 13 and 14. */
uint64_t koolvent_show(const uint64_t *block, size_t words, uint64_t client, uint8_t *output, size_t room);

/* Takes away exactly those stored versions whose write nothing names any more, by number and client. A write is named
 * by a client that has it as the latest that it wrote of an item, learnt by a reply for the item, or took over. It is
 * named by an item that has it as its latest committed, and by a message in flight. It is named while it is under way
 * itself, and by a fast read under way that has had a first reply of it. Other versions stay, in their order, and the
 * places freed serve the next writes. It may be called at any time: every read still ends after its own replies,
 * unfractured, no delivery is refused for it, and what a client ended last can still be shown. Refused by 1 alone. It
 * takes some 44,000 bytes of stack. */
uint64_t koolvent_clear(uint64_t *block, size_t words);

/* The receiver takes over what the giver has seen, as at a change of shift: of each item it has from then on the later
 * of the two writes that they had as their latest, and what the giver has stays as it was. So the receiver's ordinary
 * reads miss nothing that the giver had written, or taken over, before. An accepted hand-over answers 0. A host that
 * keeps a log adds a line with its frame, and the judge then counts the giver's writes above that line, and those that
 * it had taken over by then, as the receiver's own. They must be two different clients, and both idle. Refused by 1,
 * 3, 18 and 4. */
uint64_t koolvent_hand_over(uint64_t *block, size_t words, uint64_t giver, uint64_t receiver);

/* Tells how what the first client knows stands to what the second knows, by what each has as the latest write of each
 * item, its number and client alone; koolvent_compared_standing reads the answer. Clients may be busy, and may be the
 * same. Refused by 1 and 3. */
uint64_t koolvent_compare(const uint64_t *block, size_t words, uint64_t first, uint64_t second);

/* Tells whether a block that the calls may not have made is as good as one that they have made. Then every write that a
 * client knows of is stored with all its items. So is every write that is the latest of an item, or that a commit, a
 * get or a reply in flight names. Each of these, but for a commit's, is named for an item that it wrote. No item of a
 * write is stored twice, and a reply in flight has its version's value. Whatever is said of one write agrees, and no
 * number is above its client's count. A write under way is stored as far as its replies have come. Each item that a
 * transaction awaits has exactly one message in flight, which fits the transaction; every other message is a commit.
 *
 * If koolvent_check accepts, all that is promised from a fresh start holds of the reads and writes started from then
 * on. What looks back at a client's earlier reads and writes looks back to these alone. A read may also show a write
 * that the block held then, complete or under way. Every block that the calls have made from a fresh start, or from an
 * accepted block, is accepted, whatever is in flight and whoever is busy. It changes nothing, and an accepted check
 * answers 0. Refused by 1 and 19. It takes some 89,000 bytes of stack. */
uint64_t koolvent_check(const uint64_t *block, size_t words);

/* ---- What an accepted call answers ---- */

/* The kind of a message. */
enum koolvent_kind {
    /* A partition stores a version. */
    KOOLVENT_PREPARE = 1,
    /* It says so to the writing client. */
    KOOLVENT_PREPARED = 2,
    /* A partition takes the write as its latest, if it is later than that. */
    KOOLVENT_COMMIT = 3,
    /* A partition is asked for a version. */
    KOOLVENT_GET = 4,
    /* It gives the version, with its write set, to the reading client, and says which write is its latest. */
    KOOLVENT_GOT = 5,
    /* A partition is asked for the version of its latest, by a fast read. */
    KOOLVENT_FIRST_GET = 6,
    /* It gives that, as a got. */
    KOOLVENT_FIRST_REPLY = 7
};

/* What a delivery ended, a fast read being a read, and a mixed transaction a write, also where a got ends it. The
 * answer does not name the client: of those with a transaction under way it is the one to whom koolvent_show is no
 * longer refused by KOOLVENT_REFUSED_BUSY. */
enum koolvent_outcome {
    KOOLVENT_NONE_ENDED = 0,
    KOOLVENT_READ_ENDED = 1,
    KOOLVENT_WRITE_ENDED = 2
};

/* How what one client knows stands to what another knows. */
enum koolvent_standing {
    KOOLVENT_SAME = 0,
    /* Of no item it knows a later write, and of some an earlier one or none. */
    KOOLVENT_BEHIND = 1,
    /* Of some item it knows a later write, and of none an earlier one. */
    KOOLVENT_AHEAD = 2,
    /* Of some item it knows a later write, and of another an earlier one or none. */
    KOOLVENT_NEITHER = 3
};

/* After a start: how many messages are in flight. */
static inline unsigned koolvent_started_messages(uint64_t answer)
{
    return (unsigned)(answer >> 8 & 0xffff);
}

/* After a delivery: the kind of the message delivered, an enum koolvent_kind. */
static inline unsigned koolvent_delivered_kind(uint64_t answer)
{
    return (unsigned)(answer >> 8 & 0xff);
}

/* After a delivery: how many messages are in flight. */
static inline unsigned koolvent_delivered_messages(uint64_t answer)
{
    return (unsigned)(answer >> 16 & 0xffff);
}

/* After a delivery: what it ended, an enum koolvent_outcome. */
static inline unsigned koolvent_delivered_outcome(uint64_t answer)
{
    return (unsigned)(answer >> 32 & 0xff);
}

/* After a showing: the bytes of the frame. */
static inline size_t koolvent_shown_bytes(uint64_t answer)
{
    return (size_t)(answer >> 8 & 0xffff);
}

/* After a clearing: how many versions went. */
static inline unsigned koolvent_cleared_versions(uint64_t answer)
{
    return (unsigned)(answer >> 8 & 0xffff);
}

/* After a comparison: how the first client's knowledge stands to the second's, an enum koolvent_standing. */
static inline unsigned koolvent_compared_standing(uint64_t answer)
{
    return (unsigned)(answer >> 8 & 0xff);
}

/* ---- The judge ---- */

/* What is wrong with a read of the log. */
enum koolvent_finding {
    KOOLVENT_CLEAN = 0,
    /* It shows what no write of the log put on that item. */
    KOOLVENT_UNWRITTEN = 1,
    /* It shows one item of a write, and another item of that write older. */
    KOOLVENT_FRACTURED = 2,
    /* It shows an item older than its own client had written it, in a line above, or had taken it over: at a hand-over
     * above, what counted as the giver's own there counts as the receiver's below. A fast read may do so. */
    KOOLVENT_OWN_WRITE_MISSED = 3
};

/* Judges a log, whoever wrote it: the first read at fault, and there the lowest of the findings above. Refused by 15
 * and 16, the latter tested first. It takes some 28,000 bytes of stack; the calls on a block, but for koolvent_clear
 * and koolvent_check, take less than 1,400, of which 512 are a stamp for each item when a read or a mixed transaction
 * starts or a fast read's first part ends. */
uint64_t koolvent_judge(const uint8_t *log, size_t length);

/* After an accepted judging: an enum koolvent_finding. */
static inline unsigned koolvent_verdict_finding(uint64_t verdict)
{
    return (unsigned)(verdict >> 8 & 0xff);
}

/* The line at fault, or with KOOLVENT_REFUSED_MALFORMED the malformed line, from 1; 0 where no line is named. */
static inline unsigned koolvent_verdict_line(uint64_t verdict)
{
    return (unsigned)(verdict >> 16 & 0xffff);
}

/* ---- Bytes of values and frames ---- */

/* Puts a value into 4 bytes. */
static inline void koolvent_put_value(uint8_t *bytes, uint32_t value)
{
    bytes[0] = (uint8_t)(value >> 24);
    bytes[1] = (uint8_t)(value >> 16);
    bytes[2] = (uint8_t)(value >> 8);
    bytes[3] = (uint8_t)value;
}

/* Puts the log frame of a hand-over into KOOLVENT_HAND_OVER_FRAME_BYTES bytes. */
static inline void koolvent_put_hand_over(uint8_t *frame, unsigned giver, unsigned receiver)
{
    frame[0] = KOOLVENT_HAND_OVER_FRAME;
    frame[1] = (uint8_t)giver;
    frame[2] = (uint8_t)receiver;
}

/* The number of 4 bytes. */
static inline uint32_t koolvent_number(const uint8_t *bytes)
{
    return (uint32_t)bytes[0] << 24 | (uint32_t)bytes[1] << 16 | (uint32_t)bytes[2] << 8 | bytes[3];
}

/* The set of a log frame. */
static inline uint64_t koolvent_frame_set(const uint8_t *frame)
{
    return (uint64_t)koolvent_number(frame + 2) << 32 | koolvent_number(frame + 6);
}

/* How many items a set holds. */
static inline unsigned koolvent_set_items(uint64_t set)
{
    unsigned items = 0;
    for (; set != 0; set &= set - 1)
        items++;
    return items;
}

/* The write part of a mixed transaction's frame, to be asked for its set, number and values as a write's frame is. (The
 * frame itself answers for its read part as a read's frame does.) */
static inline const uint8_t *koolvent_frame_write_part(const uint8_t *frame)
{
    return frame + KOOLVENT_READ_FRAME_BYTES((size_t)koolvent_set_items(koolvent_frame_set(frame))) - 2;
}

/* The number of a write's frame, and the value at a place, from 0, among its items. */
static inline uint32_t koolvent_frame_number(const uint8_t *frame)
{
    return koolvent_number(frame + 10);
}

static inline uint32_t koolvent_frame_value(const uint8_t *frame, unsigned place)
{
    return koolvent_number(frame + KOOLVENT_WRITE_FRAME_BYTES((size_t)place));
}

/* What a read shows of an item: the number of the write and the client that wrote it, both 0 for none; the value. */
struct koolvent_entry {
    uint32_t number;
    unsigned client;
    uint32_t value;
};

/* The entry at a place, from 0, among the items of a read's frame, of a fast one and a mixed transaction's too. */
static inline struct koolvent_entry koolvent_frame_entry(const uint8_t *frame, unsigned place)
{
    const uint8_t *bytes = frame + KOOLVENT_READ_FRAME_BYTES((size_t)place);
    struct koolvent_entry entry;
    entry.number = koolvent_number(bytes);
    entry.client = bytes[4];
    entry.value = koolvent_number(bytes + 5);
    return entry;
}

#ifdef __cplusplus
}
#endif

#endif
