/* Each sentence of the header is tried on the engine, with the header's own constants and words: both sides of every limit, every word,
 * every refusal and every abort. */
#include <assert.h>
#include <stdio.h>
#include <string.h>

#include "ponsevran.h"
#include "sentences.h"

/* Tables with room for one too many of each. */
struct tables {
    uint64_t values[PONSEVRAN_MOST_RECORDS + 1], words[PONSEVRAN_MOST_RECORDS + 1], seats[PONSEVRAN_SEAT_TABLE + 1];
};

/* Those that are lent to the calls, and a copy of them. */
static struct tables lent, kept;
static uint64_t plan[PONSEVRAN_PLAN], number;
static size_t records;

#define TABLES lent.values, records, lent.words, records, lent.seats, PONSEVRAN_SEAT_TABLE
#define SETUP(start) ponsevran_setup(TABLES, start, plan, &number)
#define OPEN(owner) ponsevran_open(TABLES, owner, &number)
#define READ(owner, seat, record) ponsevran_read(TABLES, owner, seat, record, &number)
#define WRITE(owner, seat, record, value) ponsevran_write(TABLES, owner, seat, record, value, &number)
#define ADVANCE(owner, seat) ponsevran_advance(TABLES, owner, seat, &number)
#define ABANDON(owner, seat) ponsevran_abandon(TABLES, owner, seat, &number)

#define IS_WHOLE(call) static_assert(sizeof(call) == sizeof(uint64_t), "a call returns a number of 64 bits")
IS_WHOLE(SETUP(0));
IS_WHOLE(OPEN(0));
IS_WHOLE(READ(0, 0, 0));
IS_WHOLE(WRITE(0, 0, 0, 0));
IS_WHOLE(ADVANCE(0, 0));
IS_WHOLE(ABANDON(0, 0));
static_assert(PONSEVRAN_PLAN == 2 * PONSEVRAN_OWNERS, "the plan is a share and a limit to each owner");
static_assert(PONSEVRAN_SEAT_TABLE == PONSEVRAN_PLAN + PONSEVRAN_MOST_SEATS * PONSEVRAN_ROW, "the seat table is the plan, then a row to each seat");

/* Whether the call gives this word with this number. */
#define GIVES(call, word, carried) ((call) == (word) && number == (carried))
/* Whether the call is refused for this reason, with nothing changed. */
#define REFUSES(call, reason) (keep(), GIVES(call, PONSEVRAN_REFUSED, reason) && is_kept())
#define ABORTS(call, reason) GIVES(call, PONSEVRAN_ABORTED, reason)

static void keep(void) {
    kept = lent;
}

static int is_kept(void) {
    return memcmp(&lent, &kept, sizeof lent) == 0;
}

/* A Setup of so many records with value 0. No owner has a share, and each may hold every seat. */
static int begins(size_t count, uint64_t start) {
    records = count;
    memset(&lent, 0, sizeof lent);
    for (size_t owner = 0; owner < PONSEVRAN_OWNERS; owner++) {
        plan[owner] = 0;
        plan[PONSEVRAN_OWNERS + owner] = PONSEVRAN_MOST_SEATS;
    }
    return GIVES(SETUP(start), PONSEVRAN_READY, count);
}

/* The same, and owners 0 and 1 have seats 0 and 1. */
static int begins_with_two(size_t count) {
    return begins(count, 5) && GIVES(OPEN(0), PONSEVRAN_SEAT, 0) && GIVES(OPEN(1), PONSEVRAN_SEAT, 1);
}

/* Owner 1 writes the value to the record and is done. */
static int stores(uint64_t record, uint64_t value) {
    return GIVES(WRITE(1, 1, record, value), PONSEVRAN_NOTED, record) && GIVES(ADVANCE(1, 1), PONSEVRAN_LOCKED, record) &&
           ADVANCE(1, 1) == PONSEVRAN_TIMED && ADVANCE(1, 1) == PONSEVRAN_SEALED &&
           GIVES(ADVANCE(1, 1), PONSEVRAN_STORED, record) && ADVANCE(1, 1) == PONSEVRAN_DONE;
}

static int takes_the_most_records(void) {
    if (!begins(PONSEVRAN_MOST_RECORDS, 0))
        return 0;
    records = PONSEVRAN_MOST_RECORDS + 1;
    if (!REFUSES(SETUP(0), PONSEVRAN_REFUSED_LENGTHS))
        return 0;
    records = 0;
    return REFUSES(SETUP(0), PONSEVRAN_REFUSED_LENGTHS);
}

static int compares_the_lengths(void) {
    return begins(2, 0) &&
           REFUSES(ponsevran_open(lent.values, 2, lent.words, 1, lent.seats, PONSEVRAN_SEAT_TABLE, 0, &number), PONSEVRAN_REFUSED_LENGTHS) &&
           REFUSES(ponsevran_open(lent.values, 2, lent.words, 2, lent.seats, PONSEVRAN_SEAT_TABLE - 1, 0, &number), PONSEVRAN_REFUSED_LENGTHS) &&
           REFUSES(ponsevran_open(lent.values, 2, lent.words, 2, lent.seats, PONSEVRAN_SEAT_TABLE + 1, 0, &number), PONSEVRAN_REFUSED_LENGTHS) &&
           REFUSES(ponsevran_open(NULL, 0, NULL, 0, NULL, 0, 0, &number), PONSEVRAN_REFUSED_LENGTHS);
}

static int sets_up_over_anything(void) {
    if (!begins(2, 0))
        return 0;
    memset(&lent, 0xff, sizeof lent);
    return GIVES(SETUP(0), PONSEVRAN_READY, 2) && GIVES(OPEN(0), PONSEVRAN_SEAT, 0) && GIVES(READ(0, 0, 1), PONSEVRAN_VALUE, UINT64_MAX);
}

static int knows_the_owners(void) {
    return begins(1, 0) && GIVES(OPEN(PONSEVRAN_OWNERS - 1), PONSEVRAN_SEAT, 0) && REFUSES(OPEN(PONSEVRAN_OWNERS), PONSEVRAN_REFUSED_OUT_OF_RANGE);
}

static int gives_every_seat(void) {
    if (!begins(1, 0))
        return 0;
    for (uint64_t seat = 0; seat < PONSEVRAN_MOST_SEATS; seat++)
        if (!GIVES(OPEN(seat % PONSEVRAN_OWNERS), PONSEVRAN_SEAT, seat))
            return 0;
    return REFUSES(OPEN(0), PONSEVRAN_REFUSED_NO_SEAT) && REFUSES(READ(0, PONSEVRAN_MOST_SEATS, 0), PONSEVRAN_REFUSED_OUT_OF_RANGE);
}

static int keeps_to_the_limit(void) {
    if (!begins(1, 0))
        return 0;
    plan[PONSEVRAN_OWNERS] = 1;
    return GIVES(SETUP(0), PONSEVRAN_READY, 1) && GIVES(OPEN(0), PONSEVRAN_SEAT, 0) && REFUSES(OPEN(0), PONSEVRAN_REFUSED_AT_LIMIT);
}

/* Owner 1 has all seats but one for its share, and still gets them when owner 0 has taken the one that is left. */
static int keeps_the_shares(void) {
    if (!begins(1, 0))
        return 0;
    plan[1] = PONSEVRAN_MOST_SEATS - 1;
    if (!GIVES(SETUP(0), PONSEVRAN_READY, 1) || !GIVES(OPEN(0), PONSEVRAN_SEAT, 0) || !REFUSES(OPEN(0), PONSEVRAN_REFUSED_NO_SEAT))
        return 0;
    for (uint64_t seat = 1; seat < PONSEVRAN_MOST_SEATS; seat++)
        if (!GIVES(OPEN(1), PONSEVRAN_SEAT, seat))
            return 0;
    return 1;
}

/* Whether Setup refuses the plan in which owner 0 has these and owner 1 a share of one seat. */
static int refuses_plan(uint64_t share, uint64_t limit) {
    plan[0] = share;
    plan[1] = 1;
    plan[PONSEVRAN_OWNERS] = limit;
    return REFUSES(SETUP(0), PONSEVRAN_REFUSED_BAD_PLAN);
}

static int refuses_bad_plans(void) {
    return begins(1, 0) && refuses_plan(2, 1) && refuses_plan(0, PONSEVRAN_MOST_SEATS + 1) &&
           refuses_plan(PONSEVRAN_MOST_SEATS, PONSEVRAN_MOST_SEATS);
}

static int reads_the_most(void) {
    if (!begins_with_two(PONSEVRAN_MOST_READS + 1))
        return 0;
    for (uint64_t record = 0; record < PONSEVRAN_MOST_READS; record++)
        if (!GIVES(READ(0, 0, record), PONSEVRAN_VALUE, 0))
            return 0;
    return REFUSES(READ(0, 0, PONSEVRAN_MOST_READS), PONSEVRAN_REFUSED_READS_FULL);
}

static int writes_the_most(void) {
    if (!begins_with_two(PONSEVRAN_MOST_WRITES + 1))
        return 0;
    for (uint64_t record = 0; record < PONSEVRAN_MOST_WRITES; record++)
        if (!GIVES(WRITE(0, 0, record, 7), PONSEVRAN_NOTED, record))
            return 0;
    return REFUSES(WRITE(0, 0, PONSEVRAN_MOST_WRITES, 7), PONSEVRAN_REFUSED_WRITES_FULL);
}

static int locks_a_write(void) {
    return GIVES(OPEN(0), PONSEVRAN_SEAT, 0) && GIVES(WRITE(0, 0, 0, 7), PONSEVRAN_NOTED, 0) && GIVES(ADVANCE(0, 0), PONSEVRAN_LOCKED, 0);
}

/* A second try is aborted as the first, until a Setup begins at an earlier time. */
static int reaches_the_greatest_time(void) {
    return begins(1, PONSEVRAN_GREATEST_TIME) && REFUSES(SETUP(PONSEVRAN_GREATEST_TIME + 1), PONSEVRAN_REFUSED_OUT_OF_RANGE) &&
           locks_a_write() && ABORTS(ADVANCE(0, 0), PONSEVRAN_ABORTED_END_OF_TIME) &&
           locks_a_write() && ABORTS(ADVANCE(0, 0), PONSEVRAN_ABORTED_END_OF_TIME) &&
           GIVES(SETUP(PONSEVRAN_GREATEST_TIME - 1), PONSEVRAN_READY, 1) && locks_a_write() &&
           GIVES(ADVANCE(0, 0), PONSEVRAN_TIMED, PONSEVRAN_GREATEST_TIME);
}

/* With seats given, a lock held and a value stored, Setup frees the seats and clears the lock, and the value stays. */
static int begins_anew(void) {
    return begins_with_two(2) && stores(1, 7) && GIVES(WRITE(0, 0, 0, 8), PONSEVRAN_NOTED, 0) && GIVES(ADVANCE(0, 0), PONSEVRAN_LOCKED, 0) &&
           GIVES(SETUP(9), PONSEVRAN_READY, 2) && GIVES(OPEN(1), PONSEVRAN_SEAT, 0) && GIVES(READ(1, 0, 0), PONSEVRAN_VALUE, 0) &&
           GIVES(READ(1, 0, 1), PONSEVRAN_VALUE, 7) && GIVES(ADVANCE(1, 0), PONSEVRAN_TIMED, 9);
}

static int keeps_numbers_whole(void) {
    const uint64_t wide = (UINT64_C(1) << 32) + 7;
    return begins_with_two(2) && GIVES(WRITE(1, 1, 0, wide), PONSEVRAN_NOTED, 0) && GIVES(READ(1, 1, 0), PONSEVRAN_VALUE, wide) &&
           stores(0, wide) && GIVES(READ(0, 0, 0), PONSEVRAN_VALUE, wide) && lent.values[0] == wide;
}

static int puts_a_call_through(void) {
    return begins_with_two(2) && GIVES(READ(0, 0, 0), PONSEVRAN_VALUE, 0) && GIVES(WRITE(0, 0, 1, 7), PONSEVRAN_NOTED, 1) &&
           GIVES(ADVANCE(0, 0), PONSEVRAN_LOCKED, 1) && GIVES(ADVANCE(0, 0), PONSEVRAN_TIMED, 6) &&
           GIVES(ADVANCE(0, 0), PONSEVRAN_CHECKED, 0) && GIVES(ADVANCE(0, 0), PONSEVRAN_SEALED, 6) && lent.values[1] == 0 &&
           GIVES(ADVANCE(0, 0), PONSEVRAN_STORED, 1) && lent.values[1] == 7 && GIVES(ADVANCE(0, 0), PONSEVRAN_DONE, 6);
}

/* Owner 0 reads what it has read before, though owner 1 has stored since, and then what it is to write itself. */
static int reads_what_it_knows(void) {
    return begins_with_two(1) && GIVES(READ(0, 0, 0), PONSEVRAN_VALUE, 0) && stores(0, 7) && GIVES(READ(0, 0, 0), PONSEVRAN_VALUE, 0) &&
           GIVES(WRITE(0, 0, 0, 8), PONSEVRAN_NOTED, 0) && GIVES(READ(0, 0, 0), PONSEVRAN_VALUE, 8) && lent.values[0] == 7;
}

/* A seat that has only read back its own write has nothing to check. */
static int counts_only_what_it_read(void) {
    return begins_with_two(1) && GIVES(WRITE(0, 0, 0, 8), PONSEVRAN_NOTED, 0) && GIVES(READ(0, 0, 0), PONSEVRAN_VALUE, 8) &&
           GIVES(ADVANCE(0, 0), PONSEVRAN_LOCKED, 0) && GIVES(ADVANCE(0, 0), PONSEVRAN_TIMED, 6) && GIVES(ADVANCE(0, 0), PONSEVRAN_SEALED, 6);
}

static int refuses_what_is_late(void) {
    return begins_with_two(1) && GIVES(ADVANCE(0, 0), PONSEVRAN_TIMED, 0) && REFUSES(READ(0, 0, 0), PONSEVRAN_REFUSED_WRONG_PHASE) &&
           REFUSES(WRITE(0, 0, 0, 7), PONSEVRAN_REFUSED_WRONG_PHASE) && GIVES(ADVANCE(0, 0), PONSEVRAN_SEALED, 0) &&
           REFUSES(ABANDON(0, 0), PONSEVRAN_REFUSED_WRONG_PHASE);
}

static int knows_whose_seat_it_is(void) {
    return begins_with_two(1) && REFUSES(ADVANCE(0, 1), PONSEVRAN_REFUSED_NOT_YOURS) && REFUSES(ADVANCE(0, 2), PONSEVRAN_REFUSED_NOT_YOURS);
}

/* With one number of the seat table changed: what seat 0 and an Open of owner 2 are told of it. */
static int finds_damage_at(size_t place, int at_seat, int at_open) {
    if (!begins_with_two(1))
        return 0;
    lent.seats[place] = PONSEVRAN_MOST_SEATS + 1;
    return (at_seat ? REFUSES(ADVANCE(0, 0), PONSEVRAN_REFUSED_DAMAGED) : GIVES(ADVANCE(0, 0), PONSEVRAN_TIMED, 0)) &&
           (at_open ? REFUSES(OPEN(2), PONSEVRAN_REFUSED_DAMAGED) : GIVES(OPEN(2), PONSEVRAN_SEAT, 2));
}

/* In a row: its phase, its owner, how many it has read, and a place that is not in use. */
static int finds_damage(void) {
    return finds_damage_at(PONSEVRAN_PLAN, 1, 1) && finds_damage_at(PONSEVRAN_PLAN + 1, 1, 1) && finds_damage_at(PONSEVRAN_PLAN + 3, 1, 0) &&
           finds_damage_at(PONSEVRAN_PLAN + PONSEVRAN_ROW - 1, 0, 0) && finds_damage_at(0, 0, 1);
}

/* A seat that is damaged, and named by an owner that there is not or that does not hold it; an owner at its limit, with no seat left. */
static int tells_the_lowest(void) {
    if (!begins_with_two(1))
        return 0;
    lent.seats[PONSEVRAN_PLAN] = UINT64_MAX;
    if (!REFUSES(ADVANCE(PONSEVRAN_OWNERS, 0), PONSEVRAN_REFUSED_OUT_OF_RANGE) || !REFUSES(ADVANCE(1, 0), PONSEVRAN_REFUSED_DAMAGED))
        return 0;
    plan[0] = PONSEVRAN_MOST_SEATS;
    if (!GIVES(SETUP(0), PONSEVRAN_READY, 1))
        return 0;
    for (uint64_t seat = 0; seat < PONSEVRAN_MOST_SEATS; seat++)
        if (!GIVES(OPEN(0), PONSEVRAN_SEAT, seat))
            return 0;
    return REFUSES(OPEN(0), PONSEVRAN_REFUSED_AT_LIMIT);
}

/* Owner 1's lock keeps owner 0 from reading the record, and from locking it. The abort clears owner 0's own lock and frees its seat alone. */
static int keeps_others_off_a_lock(void) {
    uint64_t unlocked;
    if (!begins_with_two(2))
        return 0;
    unlocked = lent.words[0];
    return GIVES(WRITE(1, 1, 1, 7), PONSEVRAN_NOTED, 1) && GIVES(ADVANCE(1, 1), PONSEVRAN_LOCKED, 1) &&
           REFUSES(READ(0, 0, 1), PONSEVRAN_REFUSED_RECORD_LOCKED) && GIVES(WRITE(0, 0, 0, 8), PONSEVRAN_NOTED, 0) &&
           GIVES(WRITE(0, 0, 1, 8), PONSEVRAN_NOTED, 1) && GIVES(ADVANCE(0, 0), PONSEVRAN_LOCKED, 0) && lent.words[0] != unlocked &&
           ABORTS(ADVANCE(0, 0), PONSEVRAN_ABORTED_LOCK_MET) && lent.words[0] == unlocked &&
           REFUSES(ADVANCE(0, 0), PONSEVRAN_REFUSED_NOT_YOURS) && GIVES(ADVANCE(1, 1), PONSEVRAN_TIMED, 6);
}

/* Owner 0 has read record 0, and its write of record 1 gives it a later time. */
static int reads_and_is_timed(void) {
    return GIVES(READ(0, 0, 0), PONSEVRAN_VALUE, 0) && GIVES(WRITE(0, 0, 1, 8), PONSEVRAN_NOTED, 1) && GIVES(ADVANCE(0, 0), PONSEVRAN_LOCKED, 1) &&
           GIVES(ADVANCE(0, 0), PONSEVRAN_TIMED, 6);
}

static int aborts_what_was_overwritten(void) {
    return begins_with_two(2) && reads_and_is_timed() && stores(0, 7) && ABORTS(ADVANCE(0, 0), PONSEVRAN_ABORTED_OVERWRITTEN);
}

static int aborts_what_another_has_locked(void) {
    return begins_with_two(2) && reads_and_is_timed() && GIVES(WRITE(1, 1, 0, 7), PONSEVRAN_NOTED, 0) &&
           GIVES(ADVANCE(1, 1), PONSEVRAN_LOCKED, 0) && ABORTS(ADVANCE(0, 0), PONSEVRAN_ABORTED_LOCKED_BY_ANOTHER);
}

/* Abandoned with a lock held: the tables are as they were before its Open. */
static int gives_a_call_up(void) {
    if (!begins(2, 5))
        return 0;
    keep();
    return GIVES(OPEN(1), PONSEVRAN_SEAT, 0) && GIVES(WRITE(1, 0, 1, 9), PONSEVRAN_NOTED, 1) && GIVES(ADVANCE(1, 0), PONSEVRAN_LOCKED, 1) &&
           lent.words[1] != kept.words[1] && GIVES(ABANDON(1, 0), PONSEVRAN_DROPPED, 0) && is_kept();
}

/* A sentence of the header, and whether it is true. */
struct sentence {
    const char *says;
    int (*holds)(void);
};

static const struct sentence SENTENCES[] = {
    {"there are 1 to PONSEVRAN_MOST_RECORDS records", takes_the_most_records},
    {"words are as many as values, and the seat table is exactly PONSEVRAN_SEAT_TABLE long", compares_the_lengths},
    {"before Setup, words and seats may hold anything, and values are the opening values", sets_up_over_anything},
    {"owners are below PONSEVRAN_OWNERS", knows_the_owners},
    {"there are PONSEVRAN_MOST_SEATS seats", gives_every_seat},
    {"an owner never holds more seats than its limit", keeps_to_the_limit},
    {"below its share an owner always gets a seat", keeps_the_shares},
    {"a share above its limit, a limit above the seats there are, and shares above them together are refused", refuses_bad_plans},
    {"a seat reads PONSEVRAN_MOST_READS records", reads_the_most},
    {"a seat writes PONSEVRAN_MOST_WRITES records", writes_the_most},
    {"times are 0 to PONSEVRAN_GREATEST_TIME, and only a new Setup gives more", reaches_the_greatest_time},
    {"a later Setup begins anew, and values stay", begins_anew},
    {"numbers have 64 bits", keeps_numbers_whole},
    {"an alarm call is locked, timed, checked, sealed, stored and done", puts_a_call_through},
    {"Read gives what is noted, or what was read before, or the record's value", reads_what_it_knows},
    {"a record counts as read only where Read gave its own value", counts_only_what_it_read},
    {"Read and Write end with the first Advance, Abandon once it is sealed", refuses_what_is_late},
    {"a seat that is free or another owner's is refused", knows_whose_seat_it_is},
    {"a damaged row is refused; Open looks at the plan, and at whose the seats are", finds_damage},
    {"where several reasons are true, the lowest is told", tells_the_lowest},
    {"a locked record is not read anew nor locked again, and an abort clears its locks and frees its seat", keeps_others_off_a_lock},
    {"a record stored over since it was read aborts", aborts_what_was_overwritten},
    {"a record read and locked by another aborts", aborts_what_another_has_locked},
    {"Abandon clears its locks and frees its seat", gives_a_call_up},
};

int sentences_hold(void) {
    int all = 1;
    for (size_t place = 0; place < sizeof SENTENCES / sizeof SENTENCES[0]; place++) {
        if (SENTENCES[place].holds())
            continue;
        fprintf(stderr, "host: the engine does not do as the header says: %s\n", SENTENCES[place].says);
        all = 0;
    }
    return all;
}
