/* A host in C and in C++. It plays Tape X through the header and prints its lines; then it tries every sentence of the header, silently.
 * It ends with 0 where all is well, 1 where the lines can't be written, and 2 where a sentence is not true of the engine: it tells which. */
#include <inttypes.h>
#include <stdio.h>

#include "ponsevran.h"
#include "sentences.h"

static uint64_t values[2], words[2], seats[PONSEVRAN_SEAT_TABLE], plan[PONSEVRAN_PLAN], number;
static unsigned calls;

#define TABLES values, 2, words, 2, seats, PONSEVRAN_SEAT_TABLE

static const char *spelling(uint64_t word) {
    switch ((enum ponsevran_word)word) {
    case PONSEVRAN_READY: return "ready";
    case PONSEVRAN_SEAT: return "seat";
    case PONSEVRAN_VALUE: return "value";
    case PONSEVRAN_NOTED: return "noted";
    case PONSEVRAN_LOCKED: return "locked";
    case PONSEVRAN_TIMED: return "timed";
    case PONSEVRAN_CHECKED: return "checked";
    case PONSEVRAN_SEALED: return "sealed";
    case PONSEVRAN_STORED: return "stored";
    case PONSEVRAN_DONE: return "done";
    case PONSEVRAN_DROPPED: return "dropped";
    case PONSEVRAN_REFUSED: return "refused";
    case PONSEVRAN_ABORTED: return "aborted";
    }
    return "no word of the header";
}

/* Prints the line of a call. The call was made before `number` is looked at. */
static void say(uint64_t word) {
    printf("%u %s %" PRIu64 "\n", ++calls, spelling(word), number);
}

static void advance(uint64_t owner, uint64_t seat, unsigned times) {
    while (times-- > 0)
        say(ponsevran_advance(TABLES, owner, seat, &number));
}

static void play_tape_x(void) {
    plan[0] = plan[1] = 1;
    plan[PONSEVRAN_OWNERS] = plan[PONSEVRAN_OWNERS + 1] = 2;
    say(ponsevran_setup(TABLES, 2, plan, &number));
    say(ponsevran_open(TABLES, 0, &number));
    say(ponsevran_open(TABLES, 1, &number));
    say(ponsevran_read(TABLES, 0, 0, 0, &number));
    say(ponsevran_write(TABLES, 1, 1, 0, 7, &number));
    advance(1, 1, 5);
    advance(0, 0, 4);
    printf("end %u\n", calls);
}

int main(void) {
    play_tape_x();
    if (fflush(stdout) != 0)
        return 1;
    return sentences_hold() ? 0 : 2;
}
