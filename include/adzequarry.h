/* Adzequarry for C, C++ and Rust: the calls of target/native/libadzequarry.a, which include/build-library makes for this machine's
 * processor. docs/C.md says how to link it, what is promised of each call and what isn't; examples/ has a program.
 *
 * Every slice is a pointer and then a count of its elements; no call keeps one, and the slices of one call don't overlap.
 * Refusal numbers are the paper's (docs/FORMAT.md). A refused call writes nothing; the two calls on a rack say below what they leave.
 * compare/from-c holds every constant and every unpacking here to what the calls do.
 */
#ifndef ADZEQUARRY_H
#define ADZEQUARRY_H

#include <stddef.h>
#include <stdint.h>

#ifdef __cplusplus
extern "C" {
#endif

/* ---- numbers */

/* The number at place `at`: bits 0 to 31 the number, bits 40 to 47 how many bytes it takes (1 to 5), the rest 0;
 * or refused: bits 32 to 39 are 21, 22 or 23, the rest 0. */
uint64_t adze_read_number(const uint8_t *bytes, size_t length, size_t at);

/* Writes n at place `at`: bits 40 to 47 how many bytes it took, the rest 0; or bits 32 to 39 are 20 (it doesn't fit), the rest 0. */
uint64_t adze_write_number(uint8_t *bytes, size_t length, size_t at, uint32_t n);

/* The number that the value v is written as, and the value that the number n stands for. */
uint32_t adze_alternating(int32_t v);
int32_t adze_signed(uint32_t n);

/* ---- a record and the judge */

/* A record in memory is rows of four numbers: kind, client, cell, value (as the number it is written as).
 * A field that the kind hasn't got is stored as 0, and not looked at when it is written. Words after the last whole row are no entry. */
#define ADZE_ROW_WORDS 4
#define ADZE_ROW_KIND 0
#define ADZE_ROW_CLIENT 1
#define ADZE_ROW_CELL 2
#define ADZE_ROW_VALUE 3

/* The kinds of entries. A read asked has client and cell, a write asked has all, told has client and value, done has the client. */
#define ADZE_ENTRY_READ_ASKED 0
#define ADZE_ENTRY_WRITE_ASKED 1
#define ADZE_ENTRY_TOLD 2
#define ADZE_ENTRY_DONE 3

/* The most entries and the most bytes that a record has, and how many clients and cells there can be. */
#define ADZE_ENTRY_LIMIT 2048
#define ADZE_RECORD_BYTES 16384
#define ADZE_CLIENT_LIMIT 8
#define ADZE_CELL_LIMIT 16

/* Both calls answer: bits 0 to 31 the count of entries read or of bytes written, the rest 0; or refused: bits 32 to 39 the refusal
 * (20 to 28), bits 0 to 31 the number of its entry. */
uint64_t adze_read_record(const uint8_t *bytes, size_t length, uint32_t *rows, size_t words);
uint64_t adze_write_record(const uint32_t *rows, size_t words, uint8_t *bytes, size_t length);

/* The judge: 0 is lawful; bits 40 to 47 are one more than the lowest unlawful cell, the rest 0; or refused: bits 32 to 39 the refusal
 * (21 to 29), bits 0 to 31 the number of its entry. */
uint64_t adze_verdict(const uint8_t *bytes, size_t length);

/* ---- a rack */

/* A rack is ADZE_RACK_WORDS words in memory, in this order:
 *   replicas, clients, cells, power (bit k is 1 when replica k is on), count of entries;
 *   8 clients of 10 words: stopped (0 or 1), operation number, phase (0 idle, 1 asking, 2 keeping), cell, goal (0 read, 1 write),
 *     the goal's value, set of replicas, held number, held rank, held value;
 *   240 pairs of 3 words, that of replica k and cell x at place 16 k + x: number, rank, value;
 *   256 slots of 9 words: 0 empty or 1 full, body (0 ask, 1 tell, 2 keep, 3 kept), client, replica, cell, operation number,
 *     number, rank, value;
 *   2,048 entries of 4 words: the rows of a record.
 * A value is the number it is written as. Words that a kind hasn't got aren't looked at; a run that does an event leaves 0 there.
 * Clients and pairs beyond the sizes and entries beyond the count are no part of the rack: neither looked at nor changed. */
#define ADZE_RACK_WORDS 11301

/* Which word of a rack is what: crates/layout/specs/Layout.antt. Words of the head: */
#define ADZE_RACK_REPLICA_COUNT_AT 0
#define ADZE_RACK_CLIENT_COUNT_AT 1
#define ADZE_RACK_CELL_COUNT_AT 2
#define ADZE_RACK_POWER_AT 3
#define ADZE_RACK_ENTRY_COUNT_AT 4

/* Where the first of each part stands, how many words one takes, and how many there are (of clients, cells and entries above). */
#define ADZE_RACK_CLIENTS_AT 5
#define ADZE_CLIENT_WORDS 10
#define ADZE_RACK_PAIRS_AT 85
#define ADZE_PAIR_WORDS 3
#define ADZE_REPLICA_LIMIT 15
#define ADZE_RACK_SLOTS_AT 805
#define ADZE_SLOT_WORDS 9
#define ADZE_SLOT_LIMIT 256
#define ADZE_RACK_ENTRIES_AT 3109

/* Words of a client. */
#define ADZE_CLIENT_STOPPED 0
#define ADZE_CLIENT_OPERATION_NUMBER 1
#define ADZE_CLIENT_PHASE 2
#define ADZE_CLIENT_CELL 3
#define ADZE_CLIENT_GOAL 4
#define ADZE_CLIENT_GOAL_VALUE 5
#define ADZE_CLIENT_SET 6
#define ADZE_CLIENT_HELD_NUMBER 7
#define ADZE_CLIENT_HELD_RANK 8
#define ADZE_CLIENT_HELD_VALUE 9

#define ADZE_PHASE_IDLE 0
#define ADZE_PHASE_ASKING 1
#define ADZE_PHASE_KEEPING 2

#define ADZE_GOAL_READ 0
#define ADZE_GOAL_WRITE 1

/* The greatest operation number: a client that has it starts no more. */
#define ADZE_LAST_OPERATION_NUMBER 65535

/* Words of a pair. Number and rank are its stamp. */
#define ADZE_PAIR_NUMBER 0
#define ADZE_PAIR_RANK 1
#define ADZE_PAIR_VALUE 2

/* Words of a slot. */
#define ADZE_SLOT_FULL 0
#define ADZE_SLOT_BODY 1
#define ADZE_SLOT_CLIENT 2
#define ADZE_SLOT_REPLICA 3
#define ADZE_SLOT_CELL 4
#define ADZE_SLOT_OPERATION_NUMBER 5
#define ADZE_SLOT_NUMBER 6
#define ADZE_SLOT_RANK 7
#define ADZE_SLOT_VALUE 8

#define ADZE_BODY_ASK 0
#define ADZE_BODY_TELL 1
#define ADZE_BODY_KEEP 2
#define ADZE_BODY_KEPT 3

/* The place in a rack where a part begins: party_place, pair_place, slot_place and entry_place of crates/layout/specs/Layout.antt.
 * Numbers beyond the limits give a place of something else, or none. */
static inline size_t adze_client_at(size_t client) { return ADZE_RACK_CLIENTS_AT + ADZE_CLIENT_WORDS * client; }
static inline size_t adze_pair_at(size_t replica, size_t cell) { return ADZE_RACK_PAIRS_AT + ADZE_PAIR_WORDS * (ADZE_CELL_LIMIT * replica + cell); }
static inline size_t adze_slot_at(size_t slot) { return ADZE_RACK_SLOTS_AT + ADZE_SLOT_WORDS * slot; }
static inline size_t adze_entry_at(size_t entry) { return ADZE_RACK_ENTRIES_AT + ADZE_ROW_WORDS * entry; }

/* An event is four words: kind, two fields, value (as the number it is written as). The first field of a start is the client and the
 * second the cell; deliver, lose and copy have the slot, resend and stop the client, off and on the replica as their first. The value
 * is a start write's. What a kind hasn't got isn't looked at. */
#define ADZE_EVENT_WORDS 4
#define ADZE_EVENT_START_READ 0
#define ADZE_EVENT_START_WRITE 1
#define ADZE_EVENT_DELIVER 2
#define ADZE_EVENT_LOSE 3
#define ADZE_EVENT_COPY 4
#define ADZE_EVENT_RESEND 5
#define ADZE_EVENT_STOP 6
#define ADZE_EVENT_OFF 7
#define ADZE_EVENT_ON 8

/* Both calls answer: bits 0 to 31 the number of events done, bits 32 to 39 the refusal, 0 for none, the rest 0. The refusal is 20
 * when `words` isn't ADZE_RACK_WORDS, and then nothing is looked at or changed. */

/* Makes the fresh rack of these sizes, and every word that it hasn't got 0; refused 1 where a size is out of range, and then the
 * fresh rack of sizes 1, 1, 1 is made. */
uint64_t adze_rack_made(uint32_t *rack, size_t words, uint32_t replicas, uint32_t clients, uint32_t cells);

/* Runs a schedule of four words an event (kind, two fields, value; docs/FORMAT.md) until the allowance is used, the schedule ends,
 * or an event is refused (2 to 13). The rack is then the one after exactly the events done; where none was done no word changes. */
uint64_t adze_rack_run(uint32_t *rack, size_t words, uint32_t allowance, const uint32_t *events, size_t event_words);

/* What a caller holds, if nobody else writes to the words (docs/PROMISES.md, "lent"):
 *   Once a rack is made, the words that a call leaves are read by the next call as the rack that was left, whole.
 *   Two runs are one. Where the first did all its events, and its words are whole events, one call with the events of both, and an
 *   allowance of the events that the first did and the second's (if that fits 32 bits), answers the events done by both and the
 *   second's refusal, and leaves the same in every word. So does one call with the first's events, where the second goes on with
 *   those that the first didn't do.
 *   Once a rack is made, its record is lawful after any runs. The record's rows stand from word ADZE_RACK_ENTRIES_AT on, as many as
 *   word ADZE_RACK_ENTRY_COUNT_AT says: adze_write_record takes them as they stand, ADZE_RECORD_BYTES bytes are room enough, and
 *   what it writes reads back. */

/* ---- refusals */

/* Of a rack: 1 of the maker, 2 to 13 of a run. */
#define ADZE_REFUSED_SIZE_OUT_OF_RANGE 1
#define ADZE_REFUSED_UNSOUND_STATE 2
#define ADZE_REFUSED_NO_EVENT_OF_THIS_RACK 3
#define ADZE_REFUSED_SLOT_EMPTY 4
#define ADZE_REFUSED_CLIENT_STOPPED 5
#define ADZE_REFUSED_OPERATION_OPEN 6
#define ADZE_REFUSED_NO_OPERATION_OPEN 7
#define ADZE_REFUSED_REPLICA_OFF 8
#define ADZE_REFUSED_POWER_AS_IT_IS 9
#define ADZE_REFUSED_LAST_OPERATION_NUMBER 10
#define ADZE_REFUSED_RECORD_FULL 11
#define ADZE_REFUSED_LAST_STAMP_NUMBER 12
#define ADZE_REFUSED_WIRE_FULL 13

/* Lent memory is too short, or a rack's isn't ADZE_RACK_WORDS long. */
#define ADZE_REFUSED_LENT_TOO_SHORT 20

/* Of numbers (21 to 23), records (21 to 28) and the judge (21 to 29). */
#define ADZE_REFUSED_BYTES_END 21
#define ADZE_REFUSED_LAST_BYTE_0 22
#define ADZE_REFUSED_FIFTH_BYTE_ABOVE_15 23
#define ADZE_REFUSED_KIND_ABOVE_3 24
#define ADZE_REFUSED_CLIENT_OR_CELL 25
#define ADZE_REFUSED_ASKED_WHILE_OPEN 26
#define ADZE_REFUSED_NOT_OPEN 27
#define ADZE_REFUSED_MORE_THAN_2048_ENTRIES 28
#define ADZE_REFUSED_VALUE_ASKED_BEFORE 29

/* ---- an answer taken apart: crates/exports/specs/Unpacked.antt, whose definition is named beside each */

/* number_of_packed, refusal_of_packed, count_of_packed */
static inline uint32_t adze_number_of(uint64_t answer) { return (uint32_t)(answer & 0xFFFFFFFFu); }
static inline uint32_t adze_refusal_of(uint64_t answer) { return (uint32_t)(answer >> 32 & 0xFFu); }
static inline uint32_t adze_count_of(uint64_t answer) { return (uint32_t)(answer >> 40 & 0xFFu); }

/* Whether a call refused: 1 or 0, for every call that answers 64 bits. Each function after it is for the answers that it names. */
static inline int adze_is_refused(uint64_t answer) { return adze_refusal_of(answer) != 0; }

/* unpacked_number: a number that was read, and the place after it. unpacked_put: the place after a number that was written. */
static inline uint32_t adze_number_read(uint64_t answer) { return adze_number_of(answer); }
static inline size_t adze_place_after(uint64_t answer, size_t at) { return at + adze_count_of(answer); }

/* unpacked_answer: the entries that adze_read_record read, the bytes that adze_write_record wrote; where one of them or the judge
 * refused, the number of the entry that it names. */
static inline uint32_t adze_entries_read(uint64_t answer) { return adze_number_of(answer); }
static inline uint32_t adze_bytes_written(uint64_t answer) { return adze_number_of(answer); }
static inline uint32_t adze_entry_named(uint64_t answer) { return adze_number_of(answer); }

/* unpacked_verdict: exactly one of lawful, unlawful and refused holds of a verdict; of an unlawful one, its lowest unlawful cell. */
static inline int adze_is_lawful(uint64_t verdict) { return adze_refusal_of(verdict) == 0 && adze_count_of(verdict) == 0; }
static inline int adze_is_unlawful(uint64_t verdict) { return adze_refusal_of(verdict) == 0 && adze_count_of(verdict) != 0; }
static inline uint32_t adze_unlawful_cell(uint64_t verdict) { return adze_count_of(verdict) - 1; }

/* unpacked_run: the events that adze_rack_run did, beside a refusal too. */
static inline uint32_t adze_events_done(uint64_t answer) { return adze_number_of(answer); }

#ifdef __cplusplus
}
#endif

#endif
