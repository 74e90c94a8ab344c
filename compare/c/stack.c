/* Measures how much stack each call takes: the call is run on a stack of its own that was painted before, and what isn't paint any more was used.
 * A line for each call; with a number of bytes as argument, fails where one takes more. The first few bytes of such a stack are counted too. */
#define _XOPEN_SOURCE 700
#include <stdio.h>
#include <stdlib.h>
#include <string.h>
#include <ucontext.h>

#include "adzequarry.h"

enum { STACK = 1 << 20, PAINT = 0xA7, ROUNDS = 60 };

static unsigned char stack[STACK] __attribute__((aligned(64)));
static ucontext_t here, there;
static uint32_t rack[ADZE_RACK_WORDS], rows[ADZE_ROW_WORDS * ADZE_ENTRY_LIMIT], event[ADZE_EVENT_WORDS];
static uint8_t bytes[ADZE_RECORD_BYTES], again[ADZE_RECORD_BYTES];
static size_t length;
static uint64_t answer;

static void make(void) { answer = adze_rack_made(rack, ADZE_RACK_WORDS, 15, 8, 16); }
static void run(void) { answer = adze_rack_run(rack, ADZE_RACK_WORDS, 1, event, ADZE_EVENT_WORDS); }
static void write_record(void) { answer = adze_write_record(rack + ADZE_RACK_ENTRIES_AT, ADZE_ROW_WORDS * (size_t)rack[ADZE_RACK_ENTRY_COUNT_AT], again, sizeof again); }
static void read_record(void) { answer = adze_read_record(bytes, length, rows, sizeof rows / sizeof rows[0]); }
static void judge(void) { answer = adze_verdict(bytes, length); }
static void read_number(void) { answer = adze_read_number((const uint8_t *)"\xFF\xFF\xFF\xFF\xF", 5, 0); }
static void write_number(void) { answer = adze_write_number(again, 5, 0, 4294967295u); }

/* The bytes of stack that the call takes this time. */
static size_t used_by(void (*call)(void)) {
    size_t unused = 0;
    memset(stack, PAINT, sizeof stack);
    getcontext(&there);
    there.uc_stack.ss_sp = stack;
    there.uc_stack.ss_size = sizeof stack;
    there.uc_link = &here;
    makecontext(&there, call, 0);
    swapcontext(&here, &there);
    while (unused < sizeof stack && stack[unused] == PAINT) unused++;
    return sizeof stack - unused;
}

static size_t greater(size_t one, size_t other) { return one > other ? one : other; }

/* Runs an event on the painted stack, and answers what it took. */
static size_t used_by_event(uint32_t kind, uint32_t first, uint32_t second, uint32_t value) {
    event[0] = kind;
    event[1] = first;
    event[2] = second;
    event[3] = value;
    return used_by(run);
}

/* Starts of each client, and then every slot is delivered, over and over: done events and refused ones. */
static size_t used_by_runs(void) {
    size_t most = 0;
    uint32_t round, slot;
    for (round = 0; round < ROUNDS; round++) {
        most = greater(most, used_by_event(round % 2, round % 8, round % 16, 2 * round + 2));
        for (slot = 0; slot < 16; slot++) most = greater(most, used_by_event(ADZE_EVENT_DELIVER, slot, 0, 0));
        most = greater(most, used_by_event(round % 9, round % 15, 0, 0));
    }
    return most;
}

/* A full record of reads that tell 0, by client and cell in turn; its last byte tells a value that was never written. */
static void fill_record(void) {
    uint32_t entry;
    for (entry = 0, length = 0; entry < ADZE_ENTRY_LIMIT; entry++) {
        uint8_t client = (uint8_t)(entry / 2 % 8), cell = (uint8_t)(entry / 2 % 16);
        bytes[length++] = entry % 2 == 0 ? ADZE_ENTRY_READ_ASKED : ADZE_ENTRY_TOLD;
        bytes[length++] = client;
        bytes[length++] = entry % 2 == 0 ? cell : 0;
    }
}

static int said(const char *call, size_t used, size_t limit) {
    printf("stack: %-18s %6lu bytes\n", call, (unsigned long)used);
    return used > limit;
}

static int say_verdicts(size_t limit) {
    size_t lawful, unlawful;
    fill_record();
    lawful = used_by(judge);
    if (!adze_is_lawful(answer)) return 1;
    bytes[length - 1] = 2;
    unlawful = used_by(judge);
    if (!adze_is_unlawful(answer)) return 1;
    return said("adze_verdict", greater(lawful, unlawful), limit);
}

int main(int count, char **words) {
    size_t limit = count > 1 ? strtoul(words[1], NULL, 10) : sizeof stack;
    int over = said("adze_rack_made", used_by(make), limit);
    over |= said("adze_rack_run", used_by_runs(), limit);
    over |= say_verdicts(limit);
    over |= said("adze_read_record", used_by(read_record), limit);
    over |= answer != ADZE_ENTRY_LIMIT;
    over |= said("adze_write_record", used_by(write_record), limit);
    over |= answer == 0 || adze_is_refused(answer);
    over |= said("adze_read_number", used_by(read_number), limit);
    over |= said("adze_write_number", used_by(write_number), limit);
    if (over) printf("stack: more than %lu bytes, or a call that didn't do what is measured\n", (unsigned long)limit);
    return over;
}
