/* Makes a rack of 3 replicas, 2 clients and 1 cell in its own memory. Client 0 writes 9, client 1 reads. The record's bytes are written and
 * judged; then one byte of them is changed, so that the read tells a value that nobody wrote, and the judge says no.
 *
 * examples/build-and-run builds and runs it. The file is C99 and C++11 alike, and looks at every answer. */
#include <stdio.h>
#include <stdlib.h>

#include "adzequarry.h"

enum { REPLICAS = 3, CLIENTS = 2, CELLS = 1, WRITER = 0, READER = 1, CELL = 0 };

/* A record that is changed: this value stands where 9 was told. */
enum { WRITTEN = 9, NEVER_WRITTEN = 10 };

static uint32_t rack[ADZE_RACK_WORDS];
static uint8_t bytes[ADZE_RECORD_BYTES];

/* The answer of a call that is not to refuse here. */
static uint64_t accepted(const char *call, uint64_t answer) {
    if (adze_is_refused(answer)) {
        printf("%s: refused %u\n", call, (unsigned)adze_refusal_of(answer));
        exit(1);
    }
    return answer;
}

/* Runs one event, which is to be done. */
static void run_event(uint32_t kind, uint32_t first, uint32_t second, int32_t value) {
    uint32_t event[ADZE_EVENT_WORDS];
    event[0] = kind;
    event[1] = first;
    event[2] = second;
    event[3] = adze_alternating(value);
    if (adze_events_done(accepted("adze_rack_run", adze_rack_run(rack, ADZE_RACK_WORDS, 1, event, ADZE_EVENT_WORDS))) != 1) {
        printf("adze_rack_run: the event wasn't done\n");
        exit(1);
    }
}

/* The lowest slot that is full. An open operation always has a message on this wire, where none is lost. */
static uint32_t lowest_full_slot(void) {
    uint32_t slot = 0;
    while (slot < ADZE_SLOT_LIMIT && rack[adze_slot_at(slot) + ADZE_SLOT_FULL] == 0) slot++;
    return slot;
}

/* Delivers messages until the client has no operation open. */
static void deliver_until_idle(uint32_t client) {
    while (rack[adze_client_at(client) + ADZE_CLIENT_PHASE] != ADZE_PHASE_IDLE) run_event(ADZE_EVENT_DELIVER, lowest_full_slot(), 0, 0);
}

static void write_nine(void) {
    const uint32_t *pair = rack + adze_pair_at(0, CELL);
    run_event(ADZE_EVENT_START_WRITE, WRITER, CELL, WRITTEN);
    deliver_until_idle(WRITER);
    printf("client %d wrote %d; replica 0 has stamp (%u, %u) and value %d\n", WRITER, WRITTEN, (unsigned)pair[ADZE_PAIR_NUMBER], (unsigned)pair[ADZE_PAIR_RANK],
           (int)adze_signed(pair[ADZE_PAIR_VALUE]));
}

static void read_it(void) {
    const uint32_t *entry;
    run_event(ADZE_EVENT_START_READ, READER, CELL, 0);
    deliver_until_idle(READER);
    entry = rack + adze_entry_at(rack[ADZE_RACK_ENTRY_COUNT_AT] - 1);
    if (entry[ADZE_ROW_KIND] != ADZE_ENTRY_TOLD || entry[ADZE_ROW_CLIENT] != READER) {
        printf("the last entry isn't what the reader was told\n");
        exit(1);
    }
    printf("client %d read %d\n", READER, (int)adze_signed(entry[ADZE_ROW_VALUE]));
}

/* Writes the rack's record as bytes, and answers how many. */
static uint32_t write_record(void) {
    uint32_t entries = rack[ADZE_RACK_ENTRY_COUNT_AT], length, at;
    length = adze_bytes_written(accepted("adze_write_record", adze_write_record(rack + ADZE_RACK_ENTRIES_AT, (size_t)ADZE_ROW_WORDS * entries, bytes, sizeof bytes)));
    printf("record of %u entries, %u bytes:", (unsigned)entries, (unsigned)length);
    for (at = 0; at < length; at++) printf(" %02X", (unsigned)bytes[at]);
    printf("\n");
    return length;
}

static void judge(uint32_t length) {
    uint64_t verdict = adze_verdict(bytes, length);
    if (adze_is_lawful(verdict)) printf("judge: lawful\n");
    if (adze_is_unlawful(verdict)) printf("judge: unlawful cell %u\n", (unsigned)adze_unlawful_cell(verdict));
    if (adze_is_refused(verdict)) printf("judge: refused %u at entry %u\n", (unsigned)adze_refusal_of(verdict), (unsigned)adze_entry_named(verdict));
}

int main(void) {
    uint32_t length;
    accepted("adze_rack_made", adze_rack_made(rack, ADZE_RACK_WORDS, REPLICAS, CLIENTS, CELLS));
    printf("a rack of %d replicas, %d clients, %d cell\n", REPLICAS, CLIENTS, CELLS);
    write_nine();
    read_it();
    length = write_record();
    judge(length);
    bytes[length - 1] = (uint8_t)adze_alternating(NEVER_WRITTEN);
    printf("byte %u changed to %02X: the read tells %d\n", (unsigned)length - 1, (unsigned)bytes[length - 1], NEVER_WRITTEN);
    judge(length);
    return 0;
}
