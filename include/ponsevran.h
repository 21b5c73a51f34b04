/* Ponsevran, the engine of the lift monitor: six calls on tables that the host lends. For hosts in C and in C++. A whole host:
 *
 *     #include <stdio.h>
 *     #include "ponsevran.h"
 *
 *     static uint64_t values[2], words[2], seats[PONSEVRAN_SEAT_TABLE], plan[PONSEVRAN_PLAN];
 *
 *     int main(void) {
 *         uint64_t number;
 *         plan[0] = 1;                // the share of owner 0: it is sure of one seat
 *         plan[PONSEVRAN_OWNERS] = 2; // its limit: it never holds more than two
 *         if (ponsevran_setup(values, 2, words, 2, seats, PONSEVRAN_SEAT_TABLE, 0, plan, &number) != PONSEVRAN_READY)
 *             return 1;
 *         if (ponsevran_open(values, 2, words, 2, seats, PONSEVRAN_SEAT_TABLE, 0, &number) != PONSEVRAN_SEAT)
 *             return 1;
 *         printf("owner 0 has seat %u\n", (unsigned)number);
 *         return 0;
 *     }
 *
 * To build it, make the archive (`make parts`: some minutes the first time, since it proves what it builds) and link it, with gcc or g++:
 *
 *     gcc host.c -Iinclude target/staticlib/libboundary.a
 *
 * After `make install PREFIX=$PREFIX`:
 *
 *     gcc host.c -I$PREFIX/include -L$PREFIX/lib -lponsevran
 *
 * The archive is for programs on x86-64 Linux.
 *
 * The tables. The host lends three to every call, each as a pointer and how many numbers of 64 bits are there.
 *   values  One to a record: what the monitor knows of a lift, an engineer or a parts bin.
 *   words   One to a record, so as many as values: its lock and its times. Only the engine reads them.
 *   seats   The plan, and what each seat has read and is to write: exactly PONSEVRAN_SEAT_TABLE numbers.
 * Before Setup, values are the opening values, and words and seats may hold anything: Setup fills them. From Setup on, leave all three to the
 * calls. A call is answered whatever they hold. But shares are kept, and the alarm calls that are done fit one line, only where nothing else
 * has changed them.
 *
 * The answer. Each call returns a word, one of enum ponsevran_word, and puts a number into *number: what it is stands beside the word.
 * A refusal changes no table. An abort does: it ends the alarm call, clears its locks and frees its seat.
 *
 * What the host sees to, since the engine cannot:
 *   - Each length is true, and no pointer is NULL. (A table of length 0 may be NULL. It is refused.)
 *   - Nothing lent to a call overlaps anything else lent to it: the three tables, the plan and *number stand apart. Else answers and tables
 *     may be wrong. To set up anew with the plan in force, copy it out of the seat table first.
 *   - Calls on the same tables come one after another, never two at once. Calls on different tables may run at once, in as many threads as
 *     you like: the engine keeps nothing outside the tables.
 */
#ifndef PONSEVRAN_H
#define PONSEVRAN_H

#include <stddef.h>
#include <stdint.h>

/* How many there are. Each goes by a number, from 0 to one less than there are. Of records there are as many as are lent. */
#define PONSEVRAN_OWNERS 16
#define PONSEVRAN_MOST_SEATS 64
#define PONSEVRAN_MOST_RECORDS 1024

/* The records that one seat may read, and those that it may write. */
#define PONSEVRAN_MOST_READS 16
#define PONSEVRAN_MOST_WRITES 8

/* Times are 0 to this one. */
#define PONSEVRAN_GREATEST_TIME ((UINT64_C(1) << 48) - 1)

/* How long the plan is, a seat's row, and the seat table: the plan, then a row to each seat. */
#define PONSEVRAN_PLAN (2 * PONSEVRAN_OWNERS)
#define PONSEVRAN_ROW (6 + 4 * PONSEVRAN_MOST_READS + 2 * PONSEVRAN_MOST_WRITES)
#define PONSEVRAN_SEAT_TABLE (PONSEVRAN_PLAN + PONSEVRAN_MOST_SEATS * PONSEVRAN_ROW)

/* The word of an answer; beside it which call gives it, and what *number then is. */
enum ponsevran_word {
    PONSEVRAN_READY = 0,    /* Setup: how many records there are */
    PONSEVRAN_SEAT = 1,     /* Open: the seat */
    PONSEVRAN_VALUE = 2,    /* Read: the value */
    PONSEVRAN_NOTED = 3,    /* Write: the record */
    PONSEVRAN_LOCKED = 4,   /* Advance: the record; until it is let go, no other seat can lock it or begin to read it */
    PONSEVRAN_TIMED = 5,    /* Advance: the time that the alarm call has */
    PONSEVRAN_CHECKED = 6,  /* Advance: the record; what was read of it holds at that time */
    PONSEVRAN_SEALED = 7,   /* Advance: the time; from here on the alarm call is never aborted */
    PONSEVRAN_STORED = 8,   /* Advance: the record; it has its new value, and its lock is cleared */
    PONSEVRAN_DONE = 9,     /* Advance: the time; the seat is free */
    PONSEVRAN_DROPPED = 10, /* Abandon: the seat; it is free, and nothing was written */
    PONSEVRAN_REFUSED = 11, /* any call: why, one of enum ponsevran_refusal; no table has changed */
    PONSEVRAN_ABORTED = 12  /* Advance: why, one of enum ponsevran_abort; the seat is free */
};

/* Why a call is refused. Where several are true, the lowest is told. */
enum ponsevran_refusal {
    PONSEVRAN_REFUSED_LENGTHS = 1,        /* No records, too many, not as many words as values, or a seat table of another length. */
    PONSEVRAN_REFUSED_OUT_OF_RANGE = 2,   /* There is no such owner, seat or record, or the start is above the greatest time. */
    PONSEVRAN_REFUSED_DAMAGED = 3,        /* The seat's row is damaged (for Open: the plan, or whose the seats are). Not all damage is found. */
    PONSEVRAN_REFUSED_NOT_YOURS = 4,      /* The seat is free, or it is another owner's. */
    PONSEVRAN_REFUSED_WRONG_PHASE = 5,    /* Too late: a Read or a Write after the first Advance, or an Abandon once it is sealed. */
    PONSEVRAN_REFUSED_AT_LIMIT = 6,       /* The owner holds as many seats as its limit allows. */
    PONSEVRAN_REFUSED_NO_SEAT = 7,        /* The owner has its share, and every other seat is taken or kept for others' shares. */
    PONSEVRAN_REFUSED_READS_FULL = 8,     /* The seat has read as many records as it may. */
    PONSEVRAN_REFUSED_WRITES_FULL = 9,    /* The seat writes as many records as it may. */
    PONSEVRAN_REFUSED_RECORD_LOCKED = 10, /* A seat that is about to write the record has locked it. Read it later. */
    PONSEVRAN_REFUSED_BAD_PLAN = 11       /* A share is above its limit, a limit is above the seats there are, or the shares together are. */
};

/* Why an alarm call is aborted. It may be tried again from its Open. */
enum ponsevran_abort {
    PONSEVRAN_ABORTED_LOCK_MET = 21,          /* Another seat has locked a record that this one is to write. */
    PONSEVRAN_ABORTED_OVERWRITTEN = 22,       /* A record was stored over since this seat read it, or its write time was moved on. */
    PONSEVRAN_ABORTED_LOCKED_BY_ANOTHER = 23, /* Another seat has locked a record that this one read, and no read of it is later than this one's time. */
    PONSEVRAN_ABORTED_END_OF_TIME = 24        /* No time is left above the last read of a record that this seat is to write. Only a new Setup gives some. */
};

#ifdef __cplusplus
extern "C" {
#endif

/* Setup gives every record the time start, keeps the plan and frees every seat. Values stay. A later Setup begins anew in the same way.
 * The plan: a share to each owner, then a limit to each. Below its share an owner always gets a seat; at its limit, never. */
uint64_t ponsevran_setup(const uint64_t *values, size_t values_len, uint64_t *words, size_t words_len, uint64_t *seats, size_t seats_len,
                         uint64_t start, const uint64_t plan[PONSEVRAN_PLAN], uint64_t *number);

/* Open begins an alarm call: it gives the owner the lowest free seat. */
uint64_t ponsevran_open(const uint64_t *values, size_t values_len, const uint64_t *words, size_t words_len, uint64_t *seats, size_t seats_len,
                        uint64_t owner, uint64_t *number);

/* Read gives the value that this seat has noted for the record, or else the one that it has read before, or else the record's.
 * Only where it has given the record's own value does the record count as read. */
uint64_t ponsevran_read(const uint64_t *values, size_t values_len, const uint64_t *words, size_t words_len, uint64_t *seats, size_t seats_len,
                        uint64_t owner, uint64_t seat, uint64_t record, uint64_t *number);

/* Write notes a value for the record. The record itself keeps its value until it is stored. */
uint64_t ponsevran_write(const uint64_t *values, size_t values_len, const uint64_t *words, size_t words_len, uint64_t *seats, size_t seats_len,
                         uint64_t owner, uint64_t seat, uint64_t record, uint64_t value, uint64_t *number);

/* Advance puts an alarm call through, one step to each: it is locked once for each record to write, then timed, checked once for each record read,
 * sealed, stored once for each record to write, and done. That is 2 * writes + reads + 3 Advances, unless it is aborted. */
uint64_t ponsevran_advance(uint64_t *values, size_t values_len, uint64_t *words, size_t words_len, uint64_t *seats, size_t seats_len,
                           uint64_t owner, uint64_t seat, uint64_t *number);

/* Abandon gives an alarm call up before it is sealed: its locks are cleared and its seat is free. */
uint64_t ponsevran_abandon(const uint64_t *values, size_t values_len, uint64_t *words, size_t words_len, uint64_t *seats, size_t seats_len,
                           uint64_t owner, uint64_t seat, uint64_t *number);

#ifdef __cplusplus
}
#endif

#endif
