/*
 * A change of shift, played on the store: two clients, a sheet of four items in three partitions, and an edit that
 * races a read. Messages arrive in another order for each seed.
 *
 *     example SEED LOG       prints each step and what each client sees, and writes the log to the file LOG
 *     example --seeds N LOG  plays the seeds 0 to N - 1 in silence, judges each log, and writes the last to LOG
 *
 * The block is saved to the file LOG.block.
 *
 * The morning client fills in the sheet. The afternoon client reads it for the first time, and fast: it knows of no
 * write, but what is committed is shown at once. Then the morning client corrects tape speed and equaliser curve,
 * which must never be seen apart, while the afternoon client reads on, the second time fast. When all has arrived both
 * read again, and have the same sheet. At the change of shift the morning client notes the minutes done and hands
 * over: the afternoon client, which was behind, reads them at once, whatever of them is still in flight, and the log
 * has a line on it for the judge. Then the afternoon client, which has written nothing so far, corrects the curve in
 * one transaction that also reads the old sheet: its one write is later than all of the morning client's, and is what
 * it reads from then on, and the morning client once it has learnt of it. By then nobody knows of the first correction
 * any more: it is cleared away, and both read the sheet as it was. Over the weekend the block is kept in a file, with
 * a read of the morning client under way: what is loaded on Monday is checked first, and then the read goes on.
 */
#define _POSIX_C_SOURCE 200112L

#include <inttypes.h>
#include <stdio.h>
#include <stdlib.h>
#include <string.h>
#include <unistd.h>

#include "koolvent.h"

enum { MORNING = 1, AFTERNOON = 2, CLIENTS = 2, PARTITIONS = 3 };
enum { SPEED, CURVE, LEVEL, MINUTES, ITEMS };

static const char *const client_names[] = {"nobody", "morning", "afternoon"};
static const char *const item_names[ITEMS] = {"tape speed", "equaliser curve", "reference level", "minutes done"};
static const char *const kind_names[] = {"",    "prepare",   "prepared reply", "commit",
                                        "get", "got reply", "first get",      "first reply"};

#define SET(item) (UINT64_C(1) << (item))
#define WHOLE_SHEET (SET(ITEMS) - 1)

/* A transaction to come: a write with a value for each item of its set, ascending, or a read where there are none,
 * which may be fast. A mixed one also reads the whole sheet beside its write. */
struct plan {
    uint64_t set;
    uint32_t values[ITEMS];
    size_t value_count;
    enum { PLAIN, FAST, MIXED } manner;
};

/* What a client has still to do, one after another. */
struct client {
    const struct plan *plans;
    size_t plans_left;
    int busy;
    /* What its last read showed, and of each item the latest that any of its reads did. */
    struct koolvent_entry sheet[ITEMS], latest[ITEMS];
};

/* The names of the log, of the saved block, and of the file beside it to which a block is saved first. */
struct files {
    const char *log, *saved, *beside;
};

/* One play of the shift. */
struct shift {
    /* The block of the week, and the one that is loaded after the weekend; the calls are made on one of them. */
    uint64_t of_the_week[KOOLVENT_WORDS], loaded[KOOLVENT_WORDS], *block;
    unsigned messages;
    struct client clients[CLIENTS + 1];
    uint64_t random;
    enum { ANY, OLD, NEW } leaning;
    char log[KOOLVENT_MOST_LOG_BYTES];
    size_t log_length;
    int aloud;
    /* While the edit and the reads race: how many reads have ended, and how many of them showed the edit. */
    int racing;
    unsigned reads_ended, edits_shown;
};

static void fail(const char *what)
{
    fprintf(stderr, "example: %s\n", what);
    exit(1);
}

/* Goes on where the call was accepted. */
static uint64_t accepted(uint64_t answer, const char *call)
{
    if (koolvent_refusal(answer) != KOOLVENT_ACCEPTED) {
        fprintf(stderr, "example: %s: refused by %u\n", call, koolvent_refusal(answer));
        exit(1);
    }
    return answer;
}

/* A number below the bound (splitmix64). */
static size_t draw(struct shift *shift, size_t bound)
{
    uint64_t mixed = shift->random += UINT64_C(0x9e3779b97f4a7c15);
    mixed = (mixed ^ mixed >> 30) * UINT64_C(0xbf58476d1ce4e5b9);
    mixed = (mixed ^ mixed >> 27) * UINT64_C(0x94d049bb133111eb);
    return (size_t)((mixed ^ mixed >> 31) % bound);
}

/* One of so many choices, messages from the oldest on and then starts: any, or with a leaning to the old or the new. */
static size_t choose(struct shift *shift, size_t choices)
{
    size_t one = draw(shift, choices);
    size_t other = draw(shift, choices);

    if (shift->leaning == OLD)
        return one < other ? one : other;
    if (shift->leaning == NEW)
        return one > other ? one : other;
    return one;
}

/* ---- What is said aloud ---- */

static void say_start(const struct shift *shift, unsigned client, const struct plan *plan)
{
    size_t place = 0;
    printf("%s starts to %s", client_names[client],
           plan->manner == MIXED   ? "read the sheet and write"
           : plan->value_count > 0 ? "write"
           : plan->manner == FAST  ? "read the sheet fast"
                                   : "read the sheet");
    for (unsigned item = 0; item < ITEMS && plan->value_count > 0; item++)
        if (plan->set & SET(item)) {
            printf("%s %s %" PRIu32, place > 0 ? "," : "", item_names[item], plan->values[place]);
            place++;
        }
    printf("; %u in flight\n", shift->messages);
}

static void say_sheet(const struct shift *shift, unsigned client)
{
    printf("%s has read\n", client_names[client]);
    for (unsigned item = 0; item < ITEMS; item++) {
        const struct koolvent_entry *entry = &shift->clients[client].sheet[item];
        printf("    %-16s %5" PRIu32 "    ", item_names[item], entry->value);
        if (entry->number == 0)
            printf("no write known\n");
        else
            printf("write number %" PRIu32 ", of %s\n", entry->number, client_names[entry->client]);
    }
}

static void say_written(const struct shift *shift, unsigned client, uint32_t number)
{
    if (shift->aloud)
        printf("%s has written, with number %" PRIu32 "\n", client_names[client], number);
}

/* ---- The shift ---- */

/* Adds a frame to the log: its digits, and a line end. */
static void add_to_log(struct shift *shift, const uint8_t *frame, size_t length)
{
    static const char digits[] = "0123456789abcdef";
    if (shift->log_length + 2 * length + 1 > sizeof shift->log)
        fail("the log is full");
    for (size_t i = 0; i < length; i++) {
        shift->log[shift->log_length++] = digits[frame[i] >> 4];
        shift->log[shift->log_length++] = digits[frame[i] & 15];
    }
    shift->log[shift->log_length++] = '\n';
}

static void start(struct shift *shift, unsigned client)
{
    struct client *starting = &shift->clients[client];
    const struct plan *plan = starting->plans;
    uint8_t values[ITEMS * KOOLVENT_VALUE_BYTES];
    uint64_t answer;

    for (size_t i = 0; i < plan->value_count; i++)
        koolvent_put_value(values + i * KOOLVENT_VALUE_BYTES, plan->values[i]);
    if (plan->manner == MIXED)
        answer = koolvent_start_mixed(shift->block, KOOLVENT_WORDS, client, WHOLE_SHEET, plan->set, values,
                                      plan->value_count * KOOLVENT_VALUE_BYTES);
    else if (plan->value_count > 0)
        answer = koolvent_start_write(shift->block, KOOLVENT_WORDS, client, plan->set, values,
                                      plan->value_count * KOOLVENT_VALUE_BYTES);
    else if (plan->manner == FAST)
        answer = koolvent_start_fast_read(shift->block, KOOLVENT_WORDS, client, plan->set);
    else
        answer = koolvent_start_read(shift->block, KOOLVENT_WORDS, client, plan->set);
    shift->messages = koolvent_started_messages(accepted(answer, "a start"));
    starting->busy = 1;
    starting->plans++;
    starting->plans_left--;
    if (shift->aloud)
        say_start(shift, client, plan);
}

/* Whether an entry is of an earlier write: with equal numbers, of the lesser client's. */
static int is_older(struct koolvent_entry entry, struct koolvent_entry other)
{
    return entry.number < other.number || (entry.number == other.number && entry.client < other.client);
}

/* Keeps what a read shows. An ordinary read shows nothing older than an earlier read did; a fast read may. Speed and
 * curve are always written together, and so must be seen together. */
static void keep_sheet(struct shift *shift, unsigned client, const uint8_t *frame)
{
    struct koolvent_entry *sheet = shift->clients[client].sheet, *latest = shift->clients[client].latest;

    for (unsigned item = 0; item < ITEMS; item++) {
        sheet[item] = koolvent_frame_entry(frame, item);
        if (!is_older(sheet[item], latest[item]))
            latest[item] = sheet[item];
        else if (frame[0] != KOOLVENT_FAST_READ_FRAME)
            fail("an entry is older than the client was shown before");
    }
    if (sheet[SPEED].number != sheet[CURVE].number || sheet[SPEED].client != sheet[CURVE].client)
        fail("speed and curve are of different writes");
    if (shift->racing) {
        shift->reads_ended++;
        shift->edits_shown += sheet[SPEED].number == 2;
    }
    if (shift->aloud)
        say_sheet(shift, client);
}

/* If the client's transaction has ended, shows it and puts it in the log. */
static void show_ended(struct shift *shift, unsigned client)
{
    uint8_t frame[KOOLVENT_FRAME_ROOM];
    uint64_t answer = koolvent_show(shift->block, KOOLVENT_WORDS, client, frame, sizeof frame);

    if (koolvent_refusal(answer) == KOOLVENT_REFUSED_BUSY)
        return;
    add_to_log(shift, frame, koolvent_shown_bytes(accepted(answer, "a showing")));
    shift->clients[client].busy = 0;
    if (frame[0] != KOOLVENT_WRITE_FRAME)
        keep_sheet(shift, client, frame);
    if (frame[0] == KOOLVENT_WRITE_FRAME)
        say_written(shift, client, koolvent_frame_number(frame));
    if (frame[0] == KOOLVENT_MIXED_FRAME)
        say_written(shift, client, koolvent_frame_number(koolvent_frame_write_part(frame)));
}

static void deliver(struct shift *shift, size_t place)
{
    unsigned before = shift->messages;
    uint64_t answer = accepted(koolvent_deliver(shift->block, KOOLVENT_WORDS, place), "a delivery");

    shift->messages = koolvent_delivered_messages(answer);
    if (shift->aloud)
        printf("  message %zu of %u arrives: %s; %u in flight\n", place + 1, before,
               kind_names[koolvent_delivered_kind(answer)], shift->messages);
    if (koolvent_delivered_outcome(answer) == KOOLVENT_NONE_ENDED)
        return;
    for (unsigned client = 1; client <= CLIENTS; client++)
        if (shift->clients[client].busy)
            show_ended(shift, client);
}

/* Clears away the versions that nothing names any more, as a host does when KOOLVENT_REFUSED_VERSIONS meets a write, or
 * sooner. */
static void clear(struct shift *shift, unsigned expected)
{
    uint64_t answer = accepted(koolvent_clear(shift->block, KOOLVENT_WORDS), "a clearing");

    if (koolvent_cleared_versions(answer) != expected)
        fail("other versions than the first correction's are cleared away");
    if (shift->aloud)
        printf("%u versions are cleared away\n", koolvent_cleared_versions(answer));
}

static unsigned standing(const struct shift *shift, unsigned first, unsigned second)
{
    uint64_t answer = koolvent_compare(shift->block, KOOLVENT_WORDS, first, second);

    return koolvent_compared_standing(accepted(answer, "a comparison"));
}

/* The receiver, which is behind, takes over what the giver has seen; the log says so. */
static void hand_over(struct shift *shift, unsigned giver, unsigned receiver)
{
    uint8_t frame[KOOLVENT_HAND_OVER_FRAME_BYTES];

    if (standing(shift, receiver, giver) != KOOLVENT_BEHIND)
        fail("the receiver is not behind the giver");
    accepted(koolvent_hand_over(shift->block, KOOLVENT_WORDS, giver, receiver), "a hand-over");
    if (standing(shift, receiver, giver) != KOOLVENT_SAME)
        fail("the receiver has not taken over what the giver knows");
    koolvent_put_hand_over(frame, giver, receiver);
    add_to_log(shift, frame, sizeof frame);
    if (shift->aloud)
        printf("%s hands over to %s\n", client_names[giver], client_names[receiver]);
}

/* Saves the block, between two calls. It is written beside the copy that is there, and takes that one's name when all
 * of it is on the disk: whenever the power fails, a whole copy is there. */
static void save(const uint64_t *block, const struct files *files)
{
    FILE *file = fopen(files->beside, "wb");

    if (file == NULL || fwrite(block, sizeof *block, KOOLVENT_WORDS, file) != KOOLVENT_WORDS)
        fail("the block is not written");
    if (fflush(file) != 0 || fsync(fileno(file)) != 0 || fclose(file) != 0)
        fail("the block is not on the disk");
    if (rename(files->beside, files->saved) != 0)
        fail("the saved block does not take its name");
}

static void load(uint64_t *block, const struct files *files)
{
    FILE *file = fopen(files->saved, "rb");

    if (file == NULL || fread(block, sizeof *block, KOOLVENT_WORDS, file) != KOOLVENT_WORDS)
        fail("the saved block is not there, or too short");
    fclose(file);
}

/* The block is saved, loaded to another place and checked there, and that one goes on; without files it is copied. */
static void keep_over_the_weekend(struct shift *shift, const struct files *files)
{
    if (files != NULL) {
        save(shift->block, files);
        load(shift->loaded, files);
    } else {
        memcpy(shift->loaded, shift->block, sizeof shift->loaded);
    }
    accepted(koolvent_check(shift->loaded, KOOLVENT_WORDS), "a check");
    shift->block = shift->loaded;
    if (shift->aloud)
        printf("the block is loaded and accepted, with %u in flight\n", shift->messages);
}

static unsigned can_start(const struct client *client)
{
    return !client->busy && client->plans_left > 0;
}

/* Whether both have done what was planned. */
static int has_ended(const struct shift *shift)
{
    const struct client *morning = &shift->clients[MORNING], *afternoon = &shift->clients[AFTERNOON];

    return !morning->busy && !afternoon->busy && morning->plans_left == 0 && afternoon->plans_left == 0;
}

/* Starts what is planned and delivers what is in flight, in any order, until nothing is left; or until nobody has
 * anything to do, whatever is in flight then. */
static void run_until(struct shift *shift, int all_has_arrived)
{
    for (;;) {
        unsigned morning = can_start(&shift->clients[MORNING]);
        unsigned afternoon = can_start(&shift->clients[AFTERNOON]);
        size_t choices = shift->messages + morning + afternoon;
        size_t choice;
        if (choices == 0 || (!all_has_arrived && has_ended(shift)))
            return;
        choice = choose(shift, choices);
        if (choice < shift->messages)
            deliver(shift, choice);
        else
            start(shift, morning && choice == shift->messages ? MORNING : AFTERNOON);
    }
}

static void run(struct shift *shift)
{
    run_until(shift, 1);
}

static void plan(struct shift *shift, unsigned client, const struct plan *plans, size_t count)
{
    shift->clients[client].plans = plans;
    shift->clients[client].plans_left = count;
}

static void part(const struct shift *shift, const char *title)
{
    if (shift->aloud)
        printf("\n-- %s\n", title);
}

/* Both clients have read the sheet last, and the same one, with speed and curve of this client's write. */
static void compare_sheets(const struct shift *shift, unsigned writer)
{
    const struct koolvent_entry *morning = shift->clients[MORNING].sheet, *afternoon = shift->clients[AFTERNOON].sheet;

    for (unsigned item = 0; item < ITEMS; item++)
        if (morning[item].value != afternoon[item].value)
            fail("morning and afternoon end with different sheets");
    if (morning[CURVE].client != writer || afternoon[CURVE].client != writer)
        fail("the last correction is not what is read");
}

static void play(struct shift *shift, const struct files *files, uint64_t seed, int aloud)
{
    static const struct plan fill_in = {WHOLE_SHEET, {190, 70, 320, 12}, ITEMS, PLAIN};
    static const struct plan correct = {SET(SPEED) | SET(CURVE), {381, 35}, 2, PLAIN};
    static const struct plan note_minutes = {SET(MINUTES), {47}, 1, PLAIN};
    static const struct plan correct_again = {SET(SPEED) | SET(CURVE), {381, 18}, 2, MIXED};
    static const struct plan fast_read = {WHOLE_SHEET, {0}, 0, FAST};
    static const struct plan reads[2] = {{WHOLE_SHEET, {0}, 0, PLAIN}, {WHOLE_SHEET, {0}, 0, PLAIN}};
    static const struct plan racing_reads[3] = {
        {WHOLE_SHEET, {0}, 0, PLAIN}, {WHOLE_SHEET, {0}, 0, FAST}, {WHOLE_SHEET, {0}, 0, PLAIN}};

    memset(shift, 0, sizeof *shift);
    shift->block = shift->of_the_week;
    shift->random = seed;
    shift->leaning = draw(shift, 3) == 0 ? ANY : draw(shift, 2) == 0 ? OLD : NEW;
    shift->aloud = aloud;
    accepted(koolvent_fresh(shift->block, KOOLVENT_WORDS, CLIENTS, PARTITIONS, ITEMS), "a fresh start");

    part(shift, "the morning client fills in the sheet");
    plan(shift, MORNING, &fill_in, 1);
    run(shift);
    part(shift, "the afternoon client reads for the first time: it knows of no write, and a fast read shows them");
    plan(shift, AFTERNOON, &fast_read, 1);
    run(shift);
    for (unsigned item = 0; item < ITEMS; item++)
        if (shift->clients[AFTERNOON].sheet[item].value != fill_in.values[item])
            fail("what is committed is not read fast");
    part(shift, "the morning client corrects speed and curve while the afternoon client reads three times, once fast");
    shift->racing = 1;
    plan(shift, MORNING, &correct, 1);
    plan(shift, AFTERNOON, racing_reads, 3);
    run(shift);
    shift->racing = 0;
    part(shift, "all has arrived: both read again, the afternoon client twice");
    plan(shift, MORNING, reads, 1);
    plan(shift, AFTERNOON, reads, 2);
    run(shift);
    compare_sheets(shift, MORNING);
    part(shift, "change of shift: the morning client notes the minutes done, and hands over");
    plan(shift, MORNING, &note_minutes, 1);
    run_until(shift, 0);
    hand_over(shift, MORNING, AFTERNOON);
    part(shift, "the afternoon client's next read shows them, whatever is still in flight");
    plan(shift, AFTERNOON, reads, 1);
    run(shift);
    if (shift->clients[AFTERNOON].sheet[MINUTES].value != note_minutes.values[0])
        fail("what was taken over is not read");
    part(shift, "the afternoon client, which has written nothing so far, reads the sheet and corrects it in one");
    plan(shift, AFTERNOON, &correct_again, 1);
    run(shift);
    if (shift->clients[AFTERNOON].sheet[CURVE].value != correct.values[1])
        fail("a correction does not show what it corrects");
    part(shift, "its next read shows the correction, and so does the morning client's, once it has learnt of it");
    plan(shift, MORNING, reads, 2);
    plan(shift, AFTERNOON, reads, 1);
    run(shift);
    compare_sheets(shift, AFTERNOON);
    part(shift, "nobody knows of the first correction any more: it is cleared away, and both read as before");
    clear(shift, 2);
    plan(shift, MORNING, reads, 1);
    plan(shift, AFTERNOON, reads, 1);
    run(shift);
    compare_sheets(shift, AFTERNOON);
    part(shift, "the morning client has begun to read when the block is put away over the weekend: its read goes on");
    plan(shift, MORNING, reads, 1);
    start(shift, MORNING);
    keep_over_the_weekend(shift, files);
    run(shift);
    compare_sheets(shift, AFTERNOON);
}

/* ---- The command line ---- */

/* Of so many plays in silence one saves its block to the file: a disk is slow. */
enum { SEEDS_A_FILE = 100 };

static void write_log(const struct shift *shift, const char *name)
{
    FILE *file = fopen(name, "wb");

    if (file == NULL || fwrite(shift->log, 1, shift->log_length, file) != shift->log_length || fclose(file) != 0) {
        perror(name);
        exit(1);
    }
}

static void play_silently(struct shift *shift, const struct files *files, uint64_t seeds)
{
    uint64_t reads = 0, shown = 0;

    for (uint64_t seed = 0; seed < seeds; seed++) {
        uint64_t verdict;
        play(shift, seed % SEEDS_A_FILE == 0 ? files : NULL, seed, 0);
        verdict = koolvent_judge((const uint8_t *)shift->log, shift->log_length);
        if (koolvent_verdict_finding(accepted(verdict, "a judging")) != KOOLVENT_CLEAN) {
            fprintf(stderr, "%.*s", (int)shift->log_length, shift->log);
            fprintf(stderr, "example: seed %" PRIu64 ": this log has finding %u at line %u\n", seed,
                    koolvent_verdict_finding(verdict), koolvent_verdict_line(verdict));
            exit(1);
        }
        reads += shift->reads_ended;
        shown += shift->edits_shown;
    }
    printf("%" PRIu64 " logs, all clean; of %" PRIu64 " reads that raced the edit %" PRIu64
           " showed it whole, the others not at all\n",
           seeds, reads, shown);
}

/* A number in tens, or exits. */
static uint64_t number(const char *text)
{
    char *end;
    uintmax_t value = strtoumax(text, &end, 10);

    if (end == text || *end != '\0') {
        fprintf(stderr, "example: %s is no number\n", text);
        exit(2);
    }
    return value;
}

/* A name with an ending. */
static char *named(const char *name, const char *ending)
{
    char *all = malloc(strlen(name) + strlen(ending) + 1);

    if (all == NULL)
        fail("no memory for a name");
    return strcat(strcpy(all, name), ending);
}

int main(int argc, char **argv)
{
    static struct shift shift;
    int is_silent = argc == 4 && strcmp(argv[1], "--seeds") == 0;
    struct files files;
    char *saved, *beside;

    if (!is_silent && argc != 3) {
        fprintf(stderr, "usage: example SEED LOG, or example --seeds N LOG\n");
        return 2;
    }
    files.log = argv[argc - 1];
    files.saved = saved = named(files.log, ".block");
    files.beside = beside = named(files.log, ".block.new");
    if (is_silent)
        play_silently(&shift, &files, number(argv[2]));
    else
        play(&shift, &files, number(argv[1]), 1);
    write_log(&shift, files.log);
    free(saved);
    free(beside);
    return 0;
}
