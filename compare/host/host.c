/* The program that the Rattle library is linked into. It is for x86-64 or 64-bit Arm, as the library is, stands on no C library, and
 * is run by `compare`, under an emulator where the processor is another one.
 *
 * It reads batches of requests from standard input and writes a batch of responses for each. A batch is a count of bytes
 * (four of them) and then these bytes. A request is a head and then its source; a response is the call's answer, a word
 * that is 1 when the source or what lies beside it was changed, and all memory that was lent to be written, with the fences
 * on both sides of it.
 *
 * A rack's request has a state of `lent` words and then a schedule as its source, and `number` is the allowance of RACK_RUN.
 * RACK_STEPS tries the events one by one, each in a call of its own; RACK_MADE has three sizes in place of a schedule, and is
 * lent no events. Of each call the response is the answer and all that the call changed, found by comparing every word: of the
 * state and its fences a count, and as many places and words; then the same of the events and their fences. */
#include "adzequarry.h"

enum { READ_NUMBER = 1, WRITE_NUMBER, ALTERNATING, SIGNED, READ_RECORD, WRITE_RECORD, WRITE_THEN_READ, READ_THEN_WRITE, VERDICT, RACK_MADE, RACK_STEPS, RACK_RUN };

struct head {
    uint32_t call;
    uint32_t source; /* elements that are lent to be read: bytes or words, as the call has them */
    uint32_t lent;   /* elements that are lent to be written */
    uint32_t number;
    uint64_t at;
};

enum { MOST_REQUESTS = 1 << 21, MOST_RESPONSES = 1 << 25, MOST_ELEMENTS = 1 << 15, MOST_EVENT_WORDS = 1 << 18, FENCE = 5, BESIDE = 16 };

static uint8_t requests[MOST_REQUESTS];
static uint8_t responses[MOST_RESPONSES];
static uint32_t lent_to_read[BESIDE + MOST_ELEMENTS + BESIDE], between[MOST_ELEMENTS];
static uint32_t *const source = lent_to_read + BESIDE;
static uint8_t ones[BESIDE * sizeof(uint32_t)];
static uint8_t lent_bytes[MOST_ELEMENTS], byte_filling[MOST_ELEMENTS];
static uint32_t lent_words[MOST_ELEMENTS], word_filling[MOST_ELEMENTS];
static uint32_t words_before[MOST_ELEMENTS];
static uint32_t lent_events[MOST_EVENT_WORDS + 2 * FENCE], events_before[MOST_EVENT_WORDS + 2 * FENCE];

/* Eight bytes anywhere in memory. An emulator takes about as long for one byte as for eight, and for each turn of a loop. */
typedef uint64_t __attribute__((may_alias, aligned(1))) eight;

static void copy_64(uint8_t *to, const uint8_t *from) {
    const eight *f = (const eight *)from;
    eight *t = (eight *)to;
    eight a = f[0], b = f[1], c = f[2], d = f[3];
    t[0] = a, t[1] = b, t[2] = c, t[3] = d;
    a = f[4], b = f[5], c = f[6], d = f[7];
    t[4] = a, t[5] = b, t[6] = c, t[7] = d;
}

/* The compiler and the library may call these. */
void *memcpy(void *to, const void *from, size_t count) {
    uint8_t *t = to;
    const uint8_t *f = from;
    for (; count >= 64; count -= 64, t += 64, f += 64) copy_64(t, f);
    for (; count >= 8; count -= 8, t += 8, f += 8) *(eight *)t = *(const eight *)f;
    while (count-- > 0) *t++ = *f++;
    return to;
}

void *memset(void *to, int byte, size_t count) {
    uint8_t *t = to;
    const uint64_t eight_times = 0x0101010101010101 * (uint64_t)(uint8_t)byte;
    for (; count >= 8; count -= 8, t += 8) *(eight *)t = eight_times;
    while (count-- > 0) *t++ = (uint8_t)byte;
    return to;
}

void *memmove(void *to, const void *from, size_t count) {
    uint8_t *t = to;
    const uint8_t *f = from;
    if ((uintptr_t)t - (uintptr_t)f >= count) {
        for (size_t i = 0; i < count; i++) t[i] = f[i];
        return to;
    }
    while (count-- > 0) t[count] = f[count];
    return to;
}

int memcmp(const void *one, const void *other, size_t count) {
    const uint8_t *a = one, *b = other;
    for (; count >= 8 && *(const eight *)a == *(const eight *)b; count -= 8, a += 8, b += 8) continue;
    for (; count > 0 && *a == *b; count--, a++, b++) continue;
    return count > 0 ? *a - *b : 0;
}

int bcmp(const void *one, const void *other, size_t count) { return memcmp(one, other, count); }

#ifdef __x86_64__
enum { READ = 0, WRITE = 1, EXIT = 60 };

static long system_call(long number, long first, void *memory, size_t count) {
    long answer;
    __asm__ volatile("syscall" : "=a"(answer) : "a"(number), "D"(first), "S"(memory), "d"(count) : "rcx", "r11", "memory");
    return answer;
}

__asm__(".globl _start\n_start:\n xor %ebp, %ebp\n and $-16, %rsp\n call host_main\n");
#else
enum { READ = 63, WRITE = 64, EXIT = 93 };

static long system_call(long number, long first, void *memory, size_t count) {
    register long answer __asm__("x0") = first;
    register void *second __asm__("x1") = memory;
    register size_t third __asm__("x2") = count;
    register long call __asm__("x8") = number;
    __asm__ volatile("svc 0" : "+r"(answer) : "r"(second), "r"(third), "r"(call) : "memory");
    return answer;
}

__asm__(".globl _start\n_start:\n mov x29, xzr\n mov x30, xzr\n bl host_main\n");
#endif

static _Noreturn void end(int status) {
    for (;;) system_call(EXIT, status, 0, 0);
}

/* Reads or writes all of it. No more input at the start of a batch is the end of the run. */
static void transfer(long call, long file, void *memory, size_t count, int may_end) {
    size_t done = 0;
    while (done < count) {
        long now = system_call(call, file, (uint8_t *)memory + done, count - done);
        if (now == 0 && done == 0 && may_end) end(0);
        if (now <= 0) end(3);
        done += (size_t)now;
    }
}

static size_t put(size_t at, const void *from, size_t count) {
    if (count > MOST_RESPONSES - at) end(4);
    memcpy(responses + at, from, count);
    return at + count;
}

static uint64_t written_and_read(const struct head *h) {
    uint64_t written = adze_write_record(source, h->source, (uint8_t *)between, sizeof between);
    if (written >> 32) return written;
    return adze_read_record((uint8_t *)between, written, lent_words + FENCE, h->lent);
}

static uint64_t read_and_written(const struct head *h) {
    uint64_t entries = adze_read_record((uint8_t *)source, h->source, between, MOST_ELEMENTS);
    if (entries >> 32) return entries;
    return adze_write_record(between, 4 * entries, lent_bytes + FENCE, h->lent);
}

static uint64_t answer_of(const struct head *h) {
    switch (h->call) {
    case READ_NUMBER: return adze_read_number((uint8_t *)source, h->source, h->at);
    case WRITE_NUMBER: return adze_write_number(lent_bytes + FENCE, h->lent, h->at, h->number);
    case ALTERNATING: return adze_alternating((int32_t)h->number);
    case SIGNED: return (uint32_t)adze_signed(h->number);
    case READ_RECORD: return adze_read_record((uint8_t *)source, h->source, lent_words + FENCE, h->lent);
    case WRITE_RECORD: return adze_write_record(source, h->source, lent_bytes + FENCE, h->lent);
    case WRITE_THEN_READ: return written_and_read(h);
    case READ_THEN_WRITE: return read_and_written(h);
    case VERDICT: return adze_verdict((uint8_t *)source, h->source);
    default: end(5);
    }
}

static int is_of_racks(const struct head *h) { return h->call >= RACK_MADE; }

static size_t source_size(const struct head *h) {
    int of_words = h->call == WRITE_RECORD || h->call == WRITE_THEN_READ || is_of_racks(h);
    return h->source * (of_words ? sizeof(uint32_t) : 1);
}

static int are_same_64(const void *one, const void *other) {
    const eight *a = one, *b = other;
    return ((a[0] ^ b[0]) | (a[1] ^ b[1]) | (a[2] ^ b[2]) | (a[3] ^ b[3]) | (a[4] ^ b[4]) | (a[5] ^ b[5]) | (a[6] ^ b[6]) |
            (a[7] ^ b[7])) == 0;
}

/* Puts all that is other than before among so many words, and takes note of it. A fence stands before place 0. */
static size_t put_changes(const uint32_t *words, uint32_t *before, size_t count, size_t at) {
    uint32_t changes = 0;
    size_t counted_at = at;
    at = put(at, &changes, sizeof changes);
    for (size_t place = 0; place < count; place++) {
        while (place + 16 <= count && are_same_64(words + place, before + place)) place += 16;
        if (place == count) break;
        if (words[place] == before[place]) continue;
        uint32_t change[2] = {(uint32_t)place - FENCE, words[place]};
        at = put(at, change, sizeof change);
        before[place] = words[place];
        changes++;
    }
    memcpy(responses + counted_at, &changes, sizeof changes);
    return at;
}

/* Puts the answer of a call on a rack that was lent so many words and events, and all that it changed. */
static size_t put_call(uint64_t answer, size_t words, size_t event_words, size_t at) {
    at = put(at, &answer, sizeof answer);
    at = put_changes(lent_words, words_before, words + 2 * FENCE, at);
    return put_changes(lent_events, events_before, event_words + 2 * FENCE, at);
}

static void lend_state(const uint8_t *sent, size_t length) {
    size_t count = length + 2 * FENCE;
    memcpy(lent_words, word_filling, count * sizeof(uint32_t));
    memcpy(lent_words + FENCE, sent, length * sizeof(uint32_t));
    memcpy(words_before, lent_words, count * sizeof(uint32_t));
}

/* The filling is no event, so that a call that reads too far is refused. */
static void lend_events(const uint8_t *sent, size_t length) {
    memcpy(lent_events, word_filling, FENCE * sizeof(uint32_t));
    memcpy(lent_events + FENCE, sent, length * sizeof(uint32_t));
    memcpy(lent_events + FENCE + length, word_filling + FENCE, FENCE * sizeof(uint32_t));
    memcpy(events_before, lent_events, (length + 2 * FENCE) * sizeof(uint32_t));
}

static size_t make(const struct head *h, const uint8_t *sizes, size_t at) {
    uint32_t size[3];
    memcpy(size, sizes, sizeof size);
    lend_events(sizes, 0);
    return put_call(adze_rack_made(lent_words + FENCE, h->lent, size[0], size[1], size[2]), h->lent, 0, at);
}

static size_t run(const struct head *h, uint32_t allowance, const uint8_t *events, size_t length, size_t at) {
    lend_events(events, length);
    return put_call(adze_rack_run(lent_words + FENCE, h->lent, allowance, lent_events + FENCE, length), h->lent, length, at);
}

/* A request on a rack, whose state and schedule stand at `sent`. */
static size_t respond_of_racks(const struct head *h, const uint8_t *sent, size_t at) {
    size_t length = h->source - h->lent;
    if (h->source < h->lent || h->lent + 2 * FENCE > MOST_ELEMENTS || length > MOST_EVENT_WORDS) end(8);
    const uint8_t *events = sent + h->lent * sizeof(uint32_t);
    lend_state(sent, h->lent);
    if (h->call == RACK_MADE && length != 3) end(9);
    if (h->call == RACK_MADE) return make(h, events, at);
    if (h->call == RACK_RUN) return run(h, h->number, events, length, at);
    for (size_t event = 0; event + 4 <= length; event += 4) at = run(h, 1, events + event * sizeof(uint32_t), 4, at);
    return at;
}

static int source_is_changed(const uint8_t *sent, size_t size) {
    return memcmp(lent_to_read, ones, sizeof ones) != 0 || memcmp(source, sent, size) != 0 ||
           memcmp((uint8_t *)source + size, ones, sizeof ones) != 0;
}

/* Does one request, whose source stands at `sent`, and puts its response at place `at`. Beside the source stand bytes that
 * end a number, so that a call that reads too far doesn't find the end of the bytes. */
static size_t respond(const struct head *h, const uint8_t *sent, size_t at) {
    int lends_words = h->call == READ_RECORD || h->call == WRITE_THEN_READ;
    size_t size = source_size(h), count = h->lent + 2 * FENCE;
    if (size > MOST_ELEMENTS * sizeof(uint32_t) || count > MOST_ELEMENTS) end(6);
    memcpy(lent_to_read, ones, sizeof ones);
    memcpy(source, sent, size);
    memcpy((uint8_t *)source + size, ones, sizeof ones);
    if (lends_words) memcpy(lent_words, word_filling, count * sizeof(uint32_t));
    else memcpy(lent_bytes, byte_filling, count);
    uint64_t answer = answer_of(h);
    uint32_t source_changed = source_is_changed(sent, size);
    at = put(at, &answer, sizeof answer);
    at = put(at, &source_changed, sizeof source_changed);
    if (lends_words) return put(at, lent_words, count * sizeof(uint32_t));
    return put(at, lent_bytes, count);
}

static void serve_batch(void) {
    uint32_t length;
    transfer(READ, 0, &length, sizeof length, 1);
    if (length > MOST_REQUESTS) end(7);
    transfer(READ, 0, requests, length, 0);
    size_t at = 0, answered = 0;
    while (at < length) {
        struct head h;
        memcpy(&h, requests + at, sizeof h);
        at += sizeof h;
        answered = (is_of_racks(&h) ? respond_of_racks : respond)(&h, requests + at, answered);
        at += source_size(&h);
    }
    uint32_t count = (uint32_t)answered;
    transfer(WRITE, 1, &count, sizeof count, 0);
    transfer(WRITE, 1, responses, answered, 0);
}

_Noreturn void host_main(void) {
    for (size_t place = 0; place < MOST_ELEMENTS; place++) {
        byte_filling[place] = 0x5A ^ (uint8_t)(place * 0x3D);
        word_filling[place] = 0xA5C30000 + (uint32_t)place;
    }
    memset(ones, 1, sizeof ones);
    for (;;) serve_batch();
}
