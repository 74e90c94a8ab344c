/* Holds include/adzequarry.h to the library: each constant, place and unpacking is used on what a call did, and what is then found must be what
 * docs/FORMAT.md says. compare/from-c builds it as C and C++, and sees that each constant of the header is held: with one more, this fails. */
#include <stdio.h>
#include <stdlib.h>
#include <string.h>

#include "adzequarry.h"

/* More than a rack has, so that a wrong constant is found and reads no memory of others. */
enum { ROOM = 20000 };

static uint32_t rack[ROOM];
static uint32_t rows[ROOM];
static uint8_t bytes[ROOM];

static void must(int holds, int line, const char *what) {
    if (holds) return;
    printf("header.c, line %d: not so: %s\n", line, what);
    exit(1);
}
#define MUST(what) must(what, __LINE__, #what)

static uint32_t at(size_t place) {
    MUST(place < ROOM);
    return rack[place];
}

static void make(uint32_t replicas, uint32_t clients, uint32_t cells) {
    MUST(adze_rack_made(rack, ADZE_RACK_WORDS, replicas, clients, cells) == 0);
}

static uint64_t answer_to(uint32_t kind, uint32_t first, uint32_t second, uint32_t value) {
    uint32_t event[] = {kind, first, second, value};
    return adze_rack_run(rack, ADZE_RACK_WORDS, 1, event, 4);
}

static void run(uint32_t kind, uint32_t first, uint32_t second, uint32_t value) { MUST(answer_to(kind, first, second, value) == 1); }

/* The event is refused, and nothing is done. */
static void refuse(uint32_t refusal, uint32_t kind, uint32_t first, uint32_t second) {
    uint64_t answer = answer_to(kind, first, second, 2);
    MUST(answer == (uint64_t)refusal << 32);
    MUST(adze_is_refused(answer) && adze_refusal_of(answer) == refusal && adze_events_done(answer) == 0);
}

static uint32_t lowest_full(void) {
    uint32_t slot = 0;
    while (slot < 256 && at(adze_slot_at(slot) + ADZE_SLOT_FULL) == 0) slot++;
    return slot;
}

/* A slot holds such a message. Its pair is looked at where the body has one. */
static void slot_has(uint32_t slot, uint32_t body, uint32_t client, uint32_t replica, uint32_t cell, uint32_t operation) {
    size_t place = adze_slot_at(slot);
    MUST(at(place + ADZE_SLOT_FULL) == 1);
    MUST(at(place + ADZE_SLOT_BODY) == body);
    MUST(at(place + ADZE_SLOT_CLIENT) == client);
    MUST(at(place + ADZE_SLOT_REPLICA) == replica);
    MUST(at(place + ADZE_SLOT_CELL) == cell);
    MUST(at(place + ADZE_SLOT_OPERATION_NUMBER) == operation);
}

static void slot_has_pair(uint32_t slot, uint32_t number, uint32_t rank, uint32_t value) {
    MUST(at(adze_slot_at(slot) + ADZE_SLOT_NUMBER) == number);
    MUST(at(adze_slot_at(slot) + ADZE_SLOT_RANK) == rank);
    MUST(at(adze_slot_at(slot) + ADZE_SLOT_VALUE) == value);
}

static void pair_is(uint32_t replica, uint32_t cell, uint32_t number, uint32_t rank, uint32_t value) {
    MUST(at(adze_pair_at(replica, cell) + ADZE_PAIR_NUMBER) == number);
    MUST(at(adze_pair_at(replica, cell) + ADZE_PAIR_RANK) == rank);
    MUST(at(adze_pair_at(replica, cell) + ADZE_PAIR_VALUE) == value);
}

static void entry_is(uint32_t entry, uint32_t kind, uint32_t client, uint32_t cell, uint32_t value) {
    MUST(at(adze_entry_at(entry) + ADZE_ROW_KIND) == kind);
    MUST(at(adze_entry_at(entry) + ADZE_ROW_CLIENT) == client);
    MUST(at(adze_entry_at(entry) + ADZE_ROW_CELL) == cell);
    MUST(at(adze_entry_at(entry) + ADZE_ROW_VALUE) == value);
}

static void client_is(uint32_t client, uint32_t operation, uint32_t phase, uint32_t cell, uint32_t goal, uint32_t value, uint32_t set) {
    size_t place = adze_client_at(client);
    MUST(at(place + ADZE_CLIENT_STOPPED) == 0);
    MUST(at(place + ADZE_CLIENT_OPERATION_NUMBER) == operation);
    MUST(at(place + ADZE_CLIENT_PHASE) == phase);
    MUST(at(place + ADZE_CLIENT_CELL) == cell);
    MUST(at(place + ADZE_CLIENT_GOAL) == goal);
    MUST(at(place + ADZE_CLIENT_GOAL_VALUE) == value);
    MUST(at(place + ADZE_CLIENT_SET) == set);
}

static void client_holds(uint32_t client, uint32_t number, uint32_t rank, uint32_t value) {
    MUST(at(adze_client_at(client) + ADZE_CLIENT_HELD_NUMBER) == number);
    MUST(at(adze_client_at(client) + ADZE_CLIENT_HELD_RANK) == rank);
    MUST(at(adze_client_at(client) + ADZE_CLIENT_HELD_VALUE) == value);
}

static void sizes(void) {
    size_t place;
    MUST(adze_rack_made(rack, ADZE_RACK_WORDS - 1, 4, 3, 2) == (uint64_t)ADZE_REFUSED_LENT_TOO_SHORT << 32);
    MUST(adze_rack_made(rack, ADZE_RACK_WORDS + 1, 4, 3, 2) == (uint64_t)ADZE_REFUSED_LENT_TOO_SHORT << 32);
    make(4, 3, 2);
    MUST(at(ADZE_RACK_REPLICA_COUNT_AT) == 4 && at(ADZE_RACK_CLIENT_COUNT_AT) == 3 && at(ADZE_RACK_CELL_COUNT_AT) == 2);
    MUST(at(ADZE_RACK_POWER_AT) == 15 && at(ADZE_RACK_ENTRY_COUNT_AT) == 0);
    for (place = 5; place < 11301; place++) MUST(rack[place] == 0);
    make(ADZE_REPLICA_LIMIT, ADZE_CLIENT_LIMIT, ADZE_CELL_LIMIT);
    MUST(adze_rack_made(rack, ADZE_RACK_WORDS, ADZE_REPLICA_LIMIT + 1, 1, 1) == (uint64_t)ADZE_REFUSED_SIZE_OUT_OF_RANGE << 32);
    MUST(adze_rack_made(rack, ADZE_RACK_WORDS, 1, ADZE_CLIENT_LIMIT + 1, 1) == (uint64_t)ADZE_REFUSED_SIZE_OUT_OF_RANGE << 32);
    MUST(adze_rack_made(rack, ADZE_RACK_WORDS, 1, 1, ADZE_CELL_LIMIT + 1) == (uint64_t)ADZE_REFUSED_SIZE_OUT_OF_RANGE << 32);
    make(1, 1, 1);
    refuse(ADZE_REFUSED_SLOT_EMPTY, ADZE_EVENT_LOSE, ADZE_SLOT_LIMIT - 1, 0);
    refuse(ADZE_REFUSED_NO_EVENT_OF_THIS_RACK, ADZE_EVENT_LOSE, ADZE_SLOT_LIMIT, 0);
    refuse(ADZE_REFUSED_NO_EVENT_OF_THIS_RACK, ADZE_EVENT_ON + 1, 0, 0);
}

/* Client 2 of a full rack writes -7 to cell 14: message by message, up to its end. */
static void a_write(void) {
    uint32_t replica;
    make(15, 8, 16);
    run(ADZE_EVENT_START_WRITE, 2, 14, 13);
    MUST(adze_signed(13) == -7 && adze_alternating(-7) == 13);
    client_is(2, 1, ADZE_PHASE_ASKING, 14, ADZE_GOAL_WRITE, 13, 0);
    entry_is(0, ADZE_ENTRY_WRITE_ASKED, 2, 14, 13);
    for (replica = 0; replica < 15; replica++) slot_has(replica, ADZE_BODY_ASK, 2, replica, 14, 1);
    run(ADZE_EVENT_DELIVER, 3, 0, 0);
    slot_has(3, ADZE_BODY_TELL, 2, 3, 14, 1);
    run(ADZE_EVENT_DELIVER, 3, 0, 0);
    client_is(2, 1, ADZE_PHASE_ASKING, 14, ADZE_GOAL_WRITE, 13, 8);
    while (at(adze_client_at(2) + ADZE_CLIENT_PHASE) == ADZE_PHASE_ASKING) run(ADZE_EVENT_DELIVER, lowest_full(), 0, 0);
    client_is(2, 1, ADZE_PHASE_KEEPING, 14, ADZE_GOAL_WRITE, 13, 0);
    client_holds(2, 1, 2, 13);
    slot_has(0, ADZE_BODY_KEEP, 2, 0, 14, 1);
    slot_has_pair(0, 1, 2, 13);
    run(ADZE_EVENT_DELIVER, 0, 0, 0);
    slot_has(0, ADZE_BODY_KEPT, 2, 0, 14, 1);
    pair_is(0, 14, 1, 2, 13);
    while (lowest_full() < 256) run(ADZE_EVENT_DELIVER, lowest_full(), 0, 0);
    client_is(2, 1, ADZE_PHASE_IDLE, 0, 0, 0, 0);
    entry_is(1, ADZE_ENTRY_DONE, 2, 0, 0);
    for (replica = 0; replica < 15; replica++) pair_is(replica, 14, 1, 2, 13);
}

/* Client 7 then reads it. */
static void a_read(void) {
    run(ADZE_EVENT_START_READ, 7, 14, 99);
    client_is(7, 1, ADZE_PHASE_ASKING, 14, ADZE_GOAL_READ, 0, 0);
    entry_is(2, ADZE_ENTRY_READ_ASKED, 7, 14, 0);
    run(ADZE_EVENT_DELIVER, 5, 0, 0);
    slot_has(5, ADZE_BODY_TELL, 7, 5, 14, 1);
    slot_has_pair(5, 1, 2, 13);
    run(ADZE_EVENT_DELIVER, 5, 0, 0);
    client_is(7, 1, ADZE_PHASE_ASKING, 14, ADZE_GOAL_READ, 0, 32);
    client_holds(7, 1, 2, 13);
    while (lowest_full() < 256) run(ADZE_EVENT_DELIVER, lowest_full(), 0, 0);
    entry_is(3, ADZE_ENTRY_TOLD, 7, 0, 13);
    MUST(at(ADZE_RACK_ENTRY_COUNT_AT) == 4);
}

/* The other kinds of events, each by what it leaves. */
static void other_events(void) {
    make(3, 2, 1);
    run(ADZE_EVENT_START_WRITE, 1, 0, 2);
    run(ADZE_EVENT_COPY, 2, 0, 0);
    slot_has(3, ADZE_BODY_ASK, 1, 2, 0, 1);
    run(ADZE_EVENT_LOSE, 1, 0, 0);
    MUST(at(adze_slot_at(1) + ADZE_SLOT_FULL) == 0);
    run(ADZE_EVENT_RESEND, 1, 0, 0);
    slot_has(1, ADZE_BODY_ASK, 1, 0, 0, 1);
    slot_has(4, ADZE_BODY_ASK, 1, 1, 0, 1);
    slot_has(5, ADZE_BODY_ASK, 1, 2, 0, 1);
    run(ADZE_EVENT_OFF, 1, 0, 0);
    MUST(at(ADZE_RACK_POWER_AT) == 5);
    run(ADZE_EVENT_ON, 1, 0, 0);
    MUST(at(ADZE_RACK_POWER_AT) == 7);
    run(ADZE_EVENT_STOP, 1, 0, 0);
    MUST(at(adze_client_at(1) + ADZE_CLIENT_STOPPED) == 1);
    MUST(at(adze_client_at(0) + ADZE_CLIENT_STOPPED) == 0);
}

/* Two events in one call. What stands beside their words is no event. */
static void a_schedule(void) {
    uint32_t events[4 * 4];
    memset(events, 255, sizeof events);
    events[0] = events[ADZE_EVENT_WORDS] = ADZE_EVENT_OFF;
    events[1] = 0;
    events[ADZE_EVENT_WORDS + 1] = 2;
    make(3, 2, 1);
    MUST(adze_rack_run(rack, ADZE_RACK_WORDS, 9, events, 2 * ADZE_EVENT_WORDS) == 2);
    MUST(at(ADZE_RACK_POWER_AT) == 2);
}

static void refusals_of_events(void) {
    make(3, 2, 1);
    run(ADZE_EVENT_START_WRITE, 0, 0, 2);
    refuse(ADZE_REFUSED_OPERATION_OPEN, ADZE_EVENT_START_READ, 0, 0);
    refuse(ADZE_REFUSED_NO_OPERATION_OPEN, ADZE_EVENT_RESEND, 1, 0);
    refuse(ADZE_REFUSED_POWER_AS_IT_IS, ADZE_EVENT_ON, 0, 0);
    run(ADZE_EVENT_OFF, 0, 0, 0);
    refuse(ADZE_REFUSED_REPLICA_OFF, ADZE_EVENT_DELIVER, 0, 0);
    run(ADZE_EVENT_STOP, 1, 0, 0);
    refuse(ADZE_REFUSED_CLIENT_STOPPED, ADZE_EVENT_START_READ, 1, 0);
    while (lowest_full() < 256 && answer_to(ADZE_EVENT_COPY, 0, 0, 0) == 1) {}
    refuse(ADZE_REFUSED_WIRE_FULL, ADZE_EVENT_COPY, 0, 0);
    rack[adze_client_at(0) + ADZE_CLIENT_PHASE] = ADZE_PHASE_KEEPING + 1;
    refuse(ADZE_REFUSED_UNSOUND_STATE, ADZE_EVENT_ON, 0, 0);
}

static void refusals_at_the_end(void) {
    uint32_t operation;
    make(1, 1, 1);
    rack[adze_client_at(0) + ADZE_CLIENT_OPERATION_NUMBER] = ADZE_LAST_OPERATION_NUMBER + 1;
    refuse(ADZE_REFUSED_UNSOUND_STATE, ADZE_EVENT_START_READ, 0, 0);
    rack[adze_client_at(0) + ADZE_CLIENT_OPERATION_NUMBER] = ADZE_LAST_OPERATION_NUMBER;
    refuse(ADZE_REFUSED_LAST_OPERATION_NUMBER, ADZE_EVENT_START_READ, 0, 0);
    make(1, 1, 1);
    rack[adze_pair_at(0, 0) + ADZE_PAIR_NUMBER] = 4294967295u;
    run(ADZE_EVENT_START_WRITE, 0, 0, 2);
    run(ADZE_EVENT_DELIVER, 0, 0, 0);
    refuse(ADZE_REFUSED_LAST_STAMP_NUMBER, ADZE_EVENT_DELIVER, 0, 0);
    make(1, 1, 1);
    for (operation = 0; 2 * operation < ADZE_ENTRY_LIMIT; operation++) {
        run(ADZE_EVENT_START_READ, 0, 0, 0);
        while (lowest_full() < 256) run(ADZE_EVENT_DELIVER, lowest_full(), 0, 0);
    }
    refuse(ADZE_REFUSED_RECORD_FULL, ADZE_EVENT_START_READ, 0, 0);
    MUST(at(ADZE_RACK_ENTRY_COUNT_AT) == ADZE_ENTRY_LIMIT);
    entry_is(ADZE_ENTRY_LIMIT - 1, ADZE_ENTRY_TOLD, 0, 0, 0);
    MUST(adze_entry_at(ADZE_ENTRY_LIMIT) == ADZE_RACK_WORDS);
}

/* These bytes as a record are refused so, at this entry, by the reader and by the judge. */
static void unread(uint32_t refusal, uint32_t entry, const char *record, size_t length) {
    uint64_t read, judged;
    memcpy(bytes, record, length);
    read = adze_read_record(bytes, length, rows, ROOM);
    judged = adze_verdict(bytes, length);
    MUST(read == ((uint64_t)refusal << 32) + entry && judged == read);
    MUST(adze_is_refused(read) && adze_refusal_of(read) == refusal && adze_entry_named(read) == entry);
    MUST(!adze_is_lawful(judged) && !adze_is_unlawful(judged));
}

static void refusals_of_records(void) {
    uint32_t entry;
    unread(ADZE_REFUSED_BYTES_END, 0, "\0\0", 2);
    unread(ADZE_REFUSED_LAST_BYTE_0, 1, "\0\0\0\x82\0", 5);
    unread(ADZE_REFUSED_FIFTH_BYTE_ABOVE_15, 0, "\xFF\xFF\xFF\xFF\x10", 5);
    unread(ADZE_REFUSED_KIND_ABOVE_3, 0, "\4", 1);
    unread(ADZE_REFUSED_CLIENT_OR_CELL, 0, "\0\x8", 2);
    unread(ADZE_REFUSED_ASKED_WHILE_OPEN, 1, "\0\0\0\0\0\1", 6);
    unread(ADZE_REFUSED_NOT_OPEN, 1, "\0\0\0\3\0", 5);
    memcpy(bytes, "\1\0\0\2\3\0\1\1\0\2", 10);
    MUST(adze_verdict(bytes, 10) == ((uint64_t)ADZE_REFUSED_VALUE_ASKED_BEFORE << 32) + 2);
    memset(rows, 0, sizeof rows);
    for (entry = 1; entry <= ADZE_ENTRY_LIMIT; entry += 2) rows[ADZE_ROW_WORDS * entry + ADZE_ROW_KIND] = ADZE_ENTRY_TOLD;
    MUST(adze_write_record(rows, ADZE_ROW_WORDS * ADZE_ENTRY_LIMIT, bytes, ROOM) == 3 * ADZE_ENTRY_LIMIT);
    MUST(adze_write_record(rows, ADZE_ROW_WORDS * (ADZE_ENTRY_LIMIT + 1), bytes, ROOM) == ((uint64_t)ADZE_REFUSED_MORE_THAN_2048_ENTRIES << 32) + ADZE_ENTRY_LIMIT);
    MUST(adze_write_record(rows, ADZE_ROW_WORDS, bytes, 2) == (uint64_t)ADZE_REFUSED_LENT_TOO_SHORT << 32);
}

/* The longest entry, as rows and as bytes; a full record of such can't have more than the most bytes. */
static void a_row(void) {
    uint32_t row[ROOM];
    memset(row, 255, sizeof row);
    row[ADZE_ROW_KIND] = ADZE_ENTRY_WRITE_ASKED;
    row[ADZE_ROW_CLIENT] = ADZE_CLIENT_LIMIT - 1;
    row[ADZE_ROW_CELL] = ADZE_CELL_LIMIT - 1;
    row[ADZE_ROW_VALUE] = 4294967295u;
    MUST(adze_bytes_written(adze_write_record(row, ADZE_ROW_WORDS, bytes, ROOM)) * ADZE_ENTRY_LIMIT == ADZE_RECORD_BYTES);
    MUST(memcmp(bytes, "\1\7\xF\xFF\xFF\xFF\xFF\xF", 8) == 0);
    memset(row, 0, sizeof row);
    MUST(adze_entries_read(adze_read_record(bytes, 8, row, ADZE_ROW_WORDS)) == 1);
    MUST(row[ADZE_ROW_KIND] == 1 && row[ADZE_ROW_CLIENT] == 7 && row[ADZE_ROW_CELL] == 15 && row[ADZE_ROW_VALUE] == 4294967295u);
    MUST(adze_refusal_of(adze_read_record(bytes, 8, row, ADZE_ROW_WORDS - 1)) == ADZE_REFUSED_LENT_TOO_SHORT);
}

static void answers_of_numbers(void) {
    uint64_t read, written;
    memcpy(bytes, "\1\xFF\xFF\xFF\xFF\xF\x80", 7);
    read = adze_read_number(bytes, 7, 1);
    MUST(adze_number_read(read) == 4294967295u && adze_count_of(read) == 5 && adze_place_after(read, 1) == 6 && !adze_is_refused(read));
    read = adze_read_number(bytes, 7, 6);
    MUST(adze_is_refused(read) && adze_refusal_of(read) == ADZE_REFUSED_BYTES_END && adze_number_of(read) == 0 && adze_count_of(read) == 0);
    written = adze_write_number(bytes, 7, 1, 300);
    MUST(adze_place_after(written, 1) == 3 && bytes[1] == 0xAC && bytes[2] == 2 && !adze_is_refused(written));
    MUST(adze_refusal_of(adze_write_number(bytes, 7, 6, 300)) == ADZE_REFUSED_LENT_TOO_SHORT);
}

static void verdict_is(const char *record, size_t length, int lawful, uint32_t cell) {
    uint64_t verdict;
    memcpy(bytes, record, length);
    verdict = adze_verdict(bytes, length);
    MUST(adze_is_lawful(verdict) == lawful && adze_is_unlawful(verdict) == !lawful && !adze_is_refused(verdict));
    MUST(lawful || adze_unlawful_cell(verdict) == cell);
}

/* With a count of 0 nothing behind the pointer is looked at: a null pointer will do. */
static void nothing_lent(void) {
    MUST(adze_refusal_of(adze_read_number(NULL, 0, 0)) == ADZE_REFUSED_BYTES_END);
    MUST(adze_refusal_of(adze_write_number(NULL, 0, 0, 1)) == ADZE_REFUSED_LENT_TOO_SHORT);
    MUST(adze_read_record(NULL, 0, NULL, 0) == 0 && adze_write_record(NULL, 0, NULL, 0) == 0 && adze_verdict(NULL, 0) == 0);
    MUST(adze_refusal_of(adze_rack_made(NULL, 0, 1, 1, 1)) == ADZE_REFUSED_LENT_TOO_SHORT);
    make(1, 1, 1);
    MUST(adze_rack_run(rack, ADZE_RACK_WORDS, 1, NULL, 0) == 0);
}

static void answers_taken_apart(void) {
    const uint64_t parts = 0x7FB5C3F0E1D2A697;
    MUST(adze_number_of(parts) == 0xE1D2A697 && adze_refusal_of(parts) == 0xF0 && adze_count_of(parts) == 0xC3);
    answers_of_numbers();
    verdict_is("", 0, 1, 0);
    verdict_is("\1\0\0\2\3\0\0\0\0\2\0\2", 12, 1, 0);
    verdict_is("\0\0\0\2\0\2", 6, 0, 0);
    verdict_is("\0\0\xF\2\0\2", 6, 0, 15);
    make(1, 1, 1);
    MUST(adze_events_done(answer_to(ADZE_EVENT_OFF, 0, 0, 0)) == 1);
}

int main(void) {
    sizes();
    a_write();
    a_read();
    other_events();
    a_schedule();
    refusals_of_events();
    refusals_at_the_end();
    refusals_of_records();
    a_row();
    nothing_lent();
    answers_taken_apart();
    return 0;
}
