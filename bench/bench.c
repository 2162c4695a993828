// The operations of the table, on one side: the product through its header (-DPRODUCT), or the C twin.
// bench: each operation once, measured by callgrind, and a line with its answer.
// bench SEED CALLS: that many random calls of each function, a tenth as many runs, and a line with a
// hash of all answers and how often each number was answered.
// Both sides print the same lines, or one of them is wrong.
#include <stdio.h>
#include <stdlib.h>
#include <string.h>
#include <valgrind/callgrind.h>
#include "twin.h"
#ifdef PRODUCT
#include "../include/tyntolai.h"
#define SIDE(name) tyntolai_##name
#else
#define SIDE(name) twin_##name
#endif

enum { CR = 0x0D, BUFFER = TWIN_BUFFER };

// ---- hashes of answers and memory

static const uint64_t START = 0xCBF29CE484222325u;

static uint64_t hash = 0xCBF29CE484222325u;

static void mix(const void *memory, size_t n) {
    const uint8_t *p = memory;
    for (size_t i = 0; i < n; i++) hash = (hash ^ p[i]) * 0x100000001B3u;
}

static void mix_number(size_t n) { mix(&n, sizeof n); }

static void mix_answer(size_t code, size_t count) {
    mix_number(code);
    mix_number(count);
}

// ---- both sides' functions in one form; a name asks for a measurement

static void report(const char *name, size_t code, size_t count) {
    if (name) printf("%s: %zu %zu %016llx\n", name, code, count, (unsigned long long)hash);
}

#define MEASURED(name, call)                          \
    if (name) CALLGRIND_TOGGLE_COLLECT;               \
    call;                                             \
    if (name) {                                       \
        CALLGRIND_TOGGLE_COLLECT;                     \
        CALLGRIND_DUMP_STATS_AT(name);                \
    }

// A call that answers with a count and writes so much memory.
#define ANSWERED(name, call, memory, size)            \
    do {                                              \
        const char *called = name;                    \
        MEASURED(called, SIDE(answer) made = call)    \
        mix_answer(made.code, made.count);            \
        mix(memory, size);                            \
        report(called, made.code, made.count);        \
        code = made.code;                             \
        count = made.count;                           \
    } while (0)

// A call that answers with a number.
#define NUMBERED(name, call)                          \
    do {                                              \
        const char *called = name;                    \
        MEASURED(called, size_t made = call)          \
        mix_number(made);                             \
        report(called, 0, made);                      \
    } while (0)

static size_t code, count;

static uint8_t out[4096];

#ifdef PRODUCT
static tyntolai_password side_password(const twin_password *p) {
    tyntolai_password q = {{0}, p->length};
    memcpy(q.characters, p->characters, 6);
    return q;
}

static tyntolai_device_settings side_device(const twin_device_settings *s) {
    return (tyntolai_device_settings){side_password(&s->password), s->retries, s->way, s->confirmation};
}

static tyntolai_central_settings side_central(const twin_central_settings *s) {
    return (tyntolai_central_settings){side_password(&s->password), s->longest, s->retries};
}
#endif

#ifdef PRODUCT
static tyntolai_central_state side_state(const twin_central *s) {
    return (tyntolai_central_state){s->stage, s->failures, s->length, s->journal};
}

static void set_state(twin_central *s, tyntolai_central_state state) {
    s->stage = state.stage;
    s->failures = state.failures;
    s->length = state.length;
    s->journal = state.journal;
}
#endif

// The state before the first call.
static void central_start(twin_central *s, size_t length) {
#ifdef PRODUCT
    memset(s->pending, 0, sizeof s->pending);
    set_state(s, tyntolai_central_start(length));
#else
    twin_central_start(s, length);
#endif
}

static void central_step(const char *name, twin_central *s, const twin_central_settings *t, const uint32_t *pagers,
                         size_t pager_count, uint8_t *journal, size_t size, const uint8_t *string, size_t n,
                         size_t room) {
#ifdef PRODUCT
    tyntolai_central_state state = side_state(s);
    tyntolai_central_settings settings = side_central(t);
    MEASURED(name, tyntolai_central_stepped r = tyntolai_central_step(state, settings, pagers, pager_count, journal,
                                                                      size, s->pending, sizeof s->pending, string, n,
                                                                      out, room))
    set_state(s, r.state);
    tyntolai_answer a = r.answer;
#else
    MEASURED(name, twin_answer a = twin_central_step(s, t, pagers, pager_count, journal, size, string, n, out, room))
#endif
    mix_answer(a.code, a.count);
    mix_number(s->stage);
    mix_number(s->failures);
    mix_number(s->length);
    mix_number(s->journal);
    if (s->length <= TWIN_PENDING) mix(s->pending, s->length);
    mix(journal, size);
    mix(out, 16);
    report(name, a.code, a.count);
    code = a.code;
    count = a.count;
}

static void central_hang_up(twin_central *s, const twin_central_settings *t) {
#ifdef PRODUCT
    tyntolai_central_stepped r =
        tyntolai_central_hang_up(side_state(s), side_central(t), s->pending, sizeof s->pending);
    set_state(s, r.state);
    tyntolai_answer a = r.answer;
#else
    twin_answer a = twin_central_hang_up(s, t);
#endif
    mix_answer(a.code, a.count);
    mix_number(s->stage);
    mix_number(s->failures);
    mix_number(s->length);
    mix_number(s->journal);
    code = a.code;
}

// Which record is its rank from the newest, or its pager number.
static void delete_records(const char *name, int by_pager, twin_central *s, uint8_t *journal, size_t size,
                           size_t which) {
#ifdef PRODUCT
    tyntolai_central_state state = side_state(s);
    MEASURED(name, tyntolai_central_stepped r = by_pager
                                                    ? tyntolai_delete_pager(state, journal, size, (uint32_t)which)
                                                    : tyntolai_delete(state, journal, size, which))
    set_state(s, r.state);
    tyntolai_answer a = r.answer;
#else
    MEASURED(name, twin_answer a = by_pager ? twin_delete_pager(s, journal, size, (uint32_t)which)
                                            : twin_delete(s, journal, size, which))
#endif
    mix_answer(a.code, a.count);
    mix_number(s->stage);
    mix_number(s->failures);
    mix_number(s->length);
    mix_number(s->journal);
    mix(journal, BUFFER);
    report(name, a.code, a.count);
    code = a.code;
}

static twin_remarks of_remarks(SIDE(remarks) r) {
    return (twin_remarks){r.found, {r.lines.begin, r.lines.end}, {r.id.begin, r.id.end}};
}

static void mix_remarks(twin_remarks r) {
    mix_number(r.found);
    mix_number(r.lines.begin);
    mix_number(r.lines.end);
    mix_number(r.id.begin);
    mix_number(r.id.end);
}

// What was found counts as the number answered.
static void read_remarks(const char *name, const uint8_t *bytes, size_t n) {
    MEASURED(name, SIDE(remarks) r = SIDE(read_remarks)(bytes, n))
    mix_remarks(of_remarks(r));
    report(name, r.found, r.lines.end);
    code = r.found;
}

static void device_step(const char *name, int starts, twin_device *s, twin_given *g, const twin_device_settings *t,
                        const uint8_t *job, size_t n, const uint8_t *reply, size_t reply_length, size_t room) {
#ifdef PRODUCT
    tyntolai_device_state state = {s->step, s->transaction, s->block, s->attempts};
    tyntolai_device_settings settings = side_device(t);
    MEASURED(name, tyntolai_device_stepped r =
                       starts ? tyntolai_device_start(settings, job, n, out, room)
                              : tyntolai_device_step(state, settings, job, n, reply, reply_length, out, room))
    *s = (twin_device){r.state.step, r.state.transaction, r.state.block, r.state.attempts};
    *g = (twin_given){r.verdict, r.transaction, r.report, r.standing, of_remarks(r.remarks)};
    tyntolai_answer a = r.answer;
#else
    *g = (twin_given){0};
    MEASURED(name, twin_answer a = starts ? twin_device_start(s, t, job, n, out, room)
                                          : twin_device_step(s, g, t, job, n, reply, reply_length, out, room))
#endif
    mix_answer(a.code, a.count);
    mix_number(s->step);
    mix_number(s->transaction);
    mix_number(s->block);
    mix_number(s->attempts);
    mix_number(g->verdict);
    mix_number(g->transaction);
    mix_number(g->report);
    mix_number(g->standing);
    mix_remarks(g->remarks);
    mix(out, 300);
    report(name, a.code, a.count);
    code = a.code;
    count = a.count;
}

// A state of the framer, kept by the caller: the product is handed it and answers the next by value.
typedef SIDE(framer) framer;

static SIDE(answer) feed(framer *s, size_t *used, const uint8_t *bytes, size_t n, size_t room) {
#ifdef PRODUCT
    tyntolai_framer_fed r = tyntolai_framer_feed(*s, bytes, n, out, room);
    *s = r.state;
    *used = r.used;
    return r.answer;
#else
    return twin_framer_feed(s, used, bytes, n, out, room);
#endif
}

static SIDE(answer) flush(framer *s, size_t room) {
#ifdef PRODUCT
    tyntolai_framer_flushed r = tyntolai_framer_flush(*s, out, room);
    *s = r.state;
    return r.answer;
#else
    return twin_framer_flush(s, out, room);
#endif
}

// Pieces of so many bytes, until a string is complete or no piece is left.
static SIDE(answer) feed_pieces(framer *s, size_t *used, const uint8_t *bytes, size_t n, size_t piece, size_t room) {
    SIDE(answer) a;
    size_t part;
    *used = 0;
    do {
        a = feed(s, &part, bytes + *used, piece, room);
        *used += part;
    } while (a.code == 0 && a.count == 0 && *used < n);
    return a;
}

static void framer_call(const char *name, int feeds, framer *s, const uint8_t *bytes, size_t n, size_t piece,
                        size_t room) {
    size_t used = 0;
    MEASURED(name, SIDE(answer) a = feeds ? feed_pieces(s, &used, bytes, n, piece, room) : flush(s, room))
    mix_answer(a.code, a.count);
    mix_number(used);
    mix(s->held, sizeof s->held);
    mix_number(s->length);
    mix(out, 300);
    report(name, a.code, a.count);
    code = a.code;
    count = a.count;
}

// A state of the gateway, kept like the framer's.
typedef SIDE(snpp_state) gateway;

static void gateway_start(gateway *s) {
#ifdef PRODUCT
    *s = tyntolai_snpp_start();
#else
    twin_snpp_start(s);
#endif
}

static SIDE(answer) take_line(gateway *s, size_t longest, const uint32_t *pagers, size_t pager_count, uint8_t *journal,
                              size_t size, size_t *length, const uint8_t *line, size_t n, size_t room) {
    SIDE(snpp_settings) settings = {longest};
#ifdef PRODUCT
    tyntolai_snpp_stepped r =
        tyntolai_snpp_step(*s, settings, pagers, pager_count, journal, size, *length, line, n, out, room);
    *s = r.state;
    *length = r.journal;
    return r.answer;
#else
    return twin_snpp_step(s, &settings, pagers, pager_count, journal, size, length, line, n, out, room);
#endif
}

static void gateway_step(const char *name, gateway *s, size_t longest, const uint32_t *pagers, size_t pager_count,
                         uint8_t *journal, size_t size, size_t *length, const uint8_t *line, size_t n, size_t room) {
    MEASURED(name, SIDE(answer) a = take_line(s, longest, pagers, pager_count, journal, size, length, line, n, room))
    mix_answer(a.code, a.count);
    mix_number(s->stage);
    mix(s->pager, sizeof s->pager);
    mix_number(s->digits);
    mix(s->message, sizeof s->message);
    mix_number(s->length);
    mix_number(*length);
    mix(journal, BUFFER);
    mix(out, 16);
    report(name, a.code, a.count);
    code = a.code;
    count = a.count;
}

static void run(const char *name, const uint8_t *job, size_t n, const twin_device_settings *d,
                const twin_central_settings *c, const uint32_t *pagers, size_t pager_count, uint8_t *journal,
                size_t size, size_t length, const uint8_t *faults, size_t fault_count, uint8_t *verdicts,
                size_t verdict_count) {
#ifdef PRODUCT
    tyntolai_device_settings device = side_device(d);
    tyntolai_central_settings central = side_central(c);
    MEASURED(name, tyntolai_totals r = tyntolai_run(job, n, device, central, pagers, pager_count, journal, size,
                                                    length, faults, fault_count, verdicts, verdict_count))
#else
    MEASURED(name, twin_totals r = twin_run(job, n, d, c, pagers, pager_count, journal, size, length, faults,
                                            fault_count, verdicts, verdict_count))
#endif
    mix_answer(r.code, r.transmissions);
    mix_number(r.journal);
    mix(journal, size);
    mix(verdicts, 64);
    report(name, r.code, r.transmissions);
    code = r.code;
    count = r.journal;
}

// ---- what is worked on; made here, by neither side

// A transaction of so many characters: 123, then A.
static void make_transaction(uint8_t *t, size_t n) {
    memset(t, 'A', n);
    memcpy(t, "123\r", 4);
    t[n - 1] = CR;
}

// One of fields of 100 with their CR.
static void make_fields(uint8_t *t, size_t n) {
    make_transaction(t, n);
    for (size_t i = 99; i < n; i += 100) t[i] = CR;
}

// One record more in a journal of this length; the new length.
static size_t put_record(uint8_t *journal, size_t length, const uint8_t *info, size_t n) {
    size_t end = length - 4, records = (size_t)journal[end] * 256 + journal[end + 1] + 1, bytes = end + n + 2;
    memmove(journal + end, info, n);
    uint8_t tail[6] = {(uint8_t)(n / 256), (uint8_t)n, (uint8_t)(records / 256), (uint8_t)records,
                       (uint8_t)(bytes / 256), (uint8_t)bytes};
    memcpy(journal + end + n, tail, 6);
    return bytes + 4;
}

// So many records of this transaction; the length.
static size_t make_copies(uint8_t *journal, size_t records, const uint8_t *t, size_t n) {
    size_t length = 4;
    memset(journal, 0, BUFFER);
    for (size_t i = 0; i < records; i++) length = put_record(journal, length, t, n);
    return length;
}

// So many records of so many characters; the length.
static size_t make_journal(uint8_t *journal, size_t records, size_t n) {
    uint8_t t[2000];
    make_transaction(t, n);
    return make_copies(journal, records, t, n);
}

static void set_parity(uint8_t *p, size_t n) {
    for (size_t i = 0; i < n; i++) p[i] = (uint8_t)(__builtin_parity(p[i]) ? p[i] ^ 0x80 : p[i]);
}

// A block; its length.
static size_t make_block(uint8_t *to, const uint8_t *info, size_t n, uint8_t ending) {
    unsigned sum = 2u + ending;
    to[0] = 2;
    for (size_t i = 0; i < n; i++) sum += to[1 + i] = info[i];
    to[n + 1] = ending;
    to[n + 2] = (uint8_t)(0x30 + sum / 256 % 16);
    to[n + 3] = (uint8_t)(0x30 + sum / 16 % 16);
    to[n + 4] = (uint8_t)(0x30 + sum % 16);
    to[n + 5] = CR;
    return n + 6;
}

static const twin_device_settings device = {{"SECRET", 6}, 2, TWIN_FILLED, TWIN_EARLY};
static const twin_device_settings whole_device = {{"SECRET", 6}, 2, TWIN_WHOLE_FIELDS, TWIN_EARLY};
static const twin_central_settings central = {{"SECRET", 6}, 2000, 2};
static uint32_t pagers[1000];
static uint8_t journal[BUFFER], job[BUFFER], verdicts[64], lines[TWIN_LINES + 4];

// ---- the table

static char title[128];

#define TITLE(...) (snprintf(title, sizeof title, __VA_ARGS__), title)

static void measure_characters(void) {
    static uint8_t text[4096], line[4096];
    static const size_t parities[] = {16, 256}, sums[] = {20, 252}, blocks[] = {20, 250}, whole[] = {30, 2000};
    memset(text, 'A', sizeof text);
    memcpy(line, text, sizeof line);
    for (int i = 0; i < 2; i++) {
        size_t n = parities[i];
        set_parity(line, n);
        ANSWERED(TITLE("parity set, %zu", n), SIDE(set_parity)(text, n, out, n), out, 300);
        ANSWERED(TITLE("parity clear, %zu", n), SIDE(clear_parity)(line, n, out, n), out, 300);
    }
    for (int i = 0; i < 2; i++) NUMBERED(TITLE("checksum, %zu", sums[i]), SIDE(checksum)(text, sums[i]));
    NUMBERED("checksum, one character more", SIDE(checksum_add)(4095, 'A'));
    ANSWERED("check characters of a sum", SIDE(check_characters)(379, out, 3), out, 300);
    for (int i = 0; i < 2; i++) {
        size_t n = blocks[i];
        make_transaction(text, n);
        ANSWERED(TITLE("block write, %zu", n), SIDE(write_block)(text, n, 3, out, n + 6), out, 300);
        make_block(line, text, n, 3);
        ANSWERED(TITLE("block read, %zu", n + 6), SIDE(read_block)(line, n + 6), out, 0);
    }
    for (int i = 0; i < 2; i++) {
        size_t n = whole[i];
        make_transaction(text, n);
        ANSWERED(TITLE("segmentation, %zu", n), SIDE(write_segments)(TWIN_FILLED, text, n, out, sizeof out), out,
                 sizeof out);
    }
    make_fields(text, 2000);
    ANSWERED("segmentation, 2000, whole fields",
             SIDE(write_segments)(TWIN_WHOLE_FIELDS, text, 2000, out, sizeof out), out, sizeof out);
}

static const size_t sizes[][2] = {{0, 100}, {64, 20}, {16, 500}, {15, 1990}};

static void measure_journal(void) {
    uint8_t t[100];
    make_transaction(t, 100);
    for (int i = 0; i < 4; i++) {
        size_t k = sizes[i][0], n = sizes[i][1], length = make_journal(journal, k, n);
        ANSWERED(TITLE("journal check, %zu records of %zu", k, n), SIDE(check_journal)(journal, length), out, 0);
        ANSWERED(TITLE("journal append of 100, to %zu records of %zu", k, n),
                 SIDE(append)(journal, BUFFER, length, t, 100), journal, BUFFER);
    }
}

static void measure_reply(const char *name, const char *text, size_t n) {
    uint8_t line[256];
    memcpy(line, text, n);
    set_parity(line, n);
    NUMBERED(name, SIDE(read_reply)(line, n));
}

static void measure_remarks(const char *name, const char *text, size_t n) {
    uint8_t line[256];
    memcpy(line, text, n);
    set_parity(line, n);
    read_remarks(name, line, n);
}

static void measure_replies(void) {
    char text[256];
    measure_reply("reply read, CR ACK CR", "\r\x06\r", 3);
    measure_reply("reply read, ID=", "ID=\r", 4);
    measure_reply("reply read, acceptance", "\r\x06\r\x1B[p\r", 7);
    memset(text, 'A', 250);
    memcpy(text + 250, "\r\x06\r", 3);
    measure_reply("reply read, 250 characters, then ACK", text, 253);
    measure_remarks("remarks read, CR ACK CR", "\r\x06\r", 3);
    for (size_t i = 0; i < 11; i++)
        memcpy(text + 23 * i, i % 2 ? "ID=7 PAGE 12 ACCEPTED.\r" : "211 PAGE 12 IS STORED.\r", 23);
    memcpy(text + 253, "\x06\r\n", 3);
    measure_remarks("remarks read, 256: 11 lines, 5 of them ID, then ACK", text, 256);
}

// Bytes fed, in pieces of so many, to a state that holds so many: STX and As. Or a flush of it.
static void measure_framer(const char *name, int feeds, size_t held, const uint8_t *text, size_t n, size_t piece) {
    framer s = {{0}, held};
    uint8_t line[256];
    memset(s.held, 'A', held);
    if (held > 0) s.held[0] = 2;
    memcpy(line, text, n);
    set_parity(line, n);
    set_parity(s.held, held);
    framer_call(name, feeds, &s, line, n, piece, 256);
}

static void measure_framers(void) {
    uint8_t t[250], small[256], large[256], noise[256];
    make_transaction(t, 40);
    make_block(small, t, 40, 3);
    make_transaction(t, 250);
    make_block(large, t, 250, 3);
    memset(noise, 'A', sizeof noise);
    measure_framer("framer feed, block of 256", 1, 0, large, 256, 256);
    measure_framer("framer feed, block of 46", 1, 0, small, 46, 46);
    measure_framer("framer feed, 256 of noise", 1, 0, noise, 256, 256);
    measure_framer("framer feed, block of 256 in 32 pieces of 8", 1, 0, large, 256, 8);
    measure_framer("framer feed, one byte to 100 held", 1, 100, noise, 1, 1);
    measure_framer("framer flush, 100 held", 0, 100, noise, 0, 0);
}

// A step of the central in a stage, with so much of a transaction unfinished, over a journal.
static void measure_central(const char *what, uint8_t stage, size_t pending, const uint8_t *text, size_t n,
                            size_t records, size_t length, size_t pager_count) {
    static twin_central s;
    static uint8_t t[2000];
    uint8_t line[256];
    central_start(&s, make_journal(journal, records, length));
    s.stage = stage;
    s.length = pending;
    make_transaction(t, 2000);
    memcpy(s.pending, t, pending);
    memcpy(line, text, n);
    set_parity(line, n);
    central_step(TITLE("central step, %s, journal %zu x %zu, %zu pagers", what, records, length, pager_count), &s,
                 &central, pagers + (1000 - pager_count), pager_count, journal, BUFFER, line, n, 7);
}

static void measure_centrals(void) {
    uint8_t t[2000], small[256], inner[256], last[256];
    make_transaction(t, 40);
    size_t n = make_block(small, t, 40, 3);
    make_transaction(t, 2000);
    make_block(inner, t, 250, 0x1F);
    make_block(last, t + 1750, 250, 3);
    measure_central("CR", TWIN_IDLE, 0, (const uint8_t *)"\r", 1, 0, 100, 1);
    measure_central("logon", TWIN_LOGON, 0, (const uint8_t *)"\x1BPG1SECRET\r", 11, 0, 100, 1);
    measure_central("block of 40 stored", TWIN_BLOCK, 0, small, n, 0, 100, 1);
    measure_central("block of 40 stored", TWIN_BLOCK, 0, small, n, 0, 100, 1000);
    measure_central("block of 40 stored", TWIN_BLOCK, 0, small, n, 16, 500, 1);
    measure_central("block of 40 stored", TWIN_BLOCK, 0, small, n, 15, 1990, 1);
    measure_central("silence", TWIN_BLOCK, 0, small, 0, 15, 1990, 1);
    measure_central("block of 250 goes on", TWIN_BLOCK, 0, inner, 256, 0, 100, 1);
    measure_central("block of 250 goes on", TWIN_BLOCK, 0, inner, 256, 15, 1990, 1);
    measure_central("last block of 2000 stored", TWIN_BLOCK, 1750, last, 256, 0, 100, 1);
    measure_central("last block of 2000 stored", TWIN_BLOCK, 1750, last, 256, 15, 1990, 1);
}

// A step of the device in a step, at a transaction and block, over a job.
static void measure_device(const char *what, twin_device s, const char *text, size_t n, size_t records,
                           size_t length) {
    uint8_t line[256];
    twin_given given;
    size_t m = make_journal(job, records, length);
    memcpy(line, text, n);
    set_parity(line, n);
    device_step(TITLE("device step, %s, job %zu x %zu", what, records, length), 0, &s, &given, &device, job, m, line,
                n, 256);
}

// A step that sends the next block of whole fields.
static void measure_whole_device(twin_device s, size_t records, size_t length) {
    uint8_t t[2000], line[3] = {CR, 6, CR};
    twin_given given;
    make_fields(t, length);
    size_t m = make_copies(job, records, t, length);
    set_parity(line, 3);
    device_step(TITLE("device step, ACK, next block, job %zu x %zu, whole fields", records, length), 0, &s, &given,
                &whole_device, job, m, line, 3, 256);
}

static void measure_devices(void) {
    twin_device opening = {TWIN_OPENING, 0, 0, 1}, sending = {TWIN_SENDING, 0, 0, 1}, late = {TWIN_SENDING, 8, 7, 1};
    measure_device("ID=", opening, "ID=\r", 4, 1, 40);
    measure_device("ACK, next transaction", sending, "\r\x06\r", 3, 2, 40);
    measure_device("ACK, next block", sending, "\r\x06\r", 3, 1, 2000);
    measure_device("ACK, next block", (twin_device){TWIN_SENDING, 8, 0, 1}, "\r\x06\r", 3, 16, 500);
    measure_device("ACK, next block", (twin_device){TWIN_SENDING, 8, 3, 1}, "\r\x06\r", 3, 16, 1998);
    measure_device("ACK, next transaction", late, "\r\x06\r", 3, 16, 1998);
    measure_device("NAK, again", late, "\r\x15\r", 3, 16, 1998);
    measure_whole_device((twin_device){TWIN_SENDING, 0, 0, 1}, 1, 2000);
    measure_whole_device((twin_device){TWIN_SENDING, 8, 3, 1}, 16, 1998);
    for (size_t i = 0; i < sizeof verdicts; i++) verdicts[i] = (uint8_t)(1 + i % 5);
    ANSWERED("settle, 64 verdicts in doubt", SIDE(settle)(TWIN_IN_DOUBT, verdicts, sizeof verdicts), verdicts,
             sizeof verdicts);
}

static void measure_run(const char *what, const twin_device_settings *d, size_t records, size_t length) {
    size_t m = make_journal(job, records, length);
    memset(journal, 0, BUFFER);
    memset(verdicts, 0, sizeof verdicts);
    run(TITLE("run, job %zu x %zu, %s", records, length, what), job, m, d, &central, pagers + 999, 1, journal, BUFFER,
        4, out, 0, verdicts, records);
}

static void measure_runs(void) {
    static const size_t jobs[][2] = {{1, 40}, {4, 40}, {16, 40}, {64, 40}, {1, 1998}, {4, 1998}, {16, 1998}};
    for (int i = 0; i < 7; i++) measure_run("clean", &device, jobs[i][0], jobs[i][1]);
    measure_run("clean, whole fields", &whole_device, 16, 254); // two blocks each, of 4 and 250
}

// A line of a client that has entered the pager ID 123 and so many characters, over a journal.
static void measure_line(const char *what, size_t message, const char *word, size_t text, size_t records,
                         size_t length) {
    gateway s;
    uint8_t line[TWIN_LINE];
    size_t n = strlen(word), m = make_journal(journal, records, length);
    gateway_start(&s);
    if (message > 0) {
        s.stage = TWIN_SNPP_ENTERED;
        memcpy(s.pager, "123", s.digits = 3);
        memset(s.message, 'A', s.length = message);
    }
    memcpy(line, word, n);
    memset(line + n, 'A', text);
    gateway_step(TITLE("gateway step, %s, journal %zu x %zu", what, records, length), &s, 2000, pagers + 999, 1,
                 journal, BUFFER, &m, line, n + text, 6);
}

static void measure_gateways(void) {
    ANSWERED("gateway greeting", SIDE(snpp_greeting)(out, 6), out, 16);
    measure_line("PAGE of 8", 0, "PAGE 12345678", 0, 0, 80);
    measure_line("MESS of 80", 0, "MESS ", 80, 0, 80);
    measure_line("MESS of 2043", 0, "MESS ", 2043, 0, 80);
    measure_line("SEND of 80", 80, "SEND", 0, 0, 80);
    measure_line("SEND of 80", 80, "SEND", 0, 63, 80);
    measure_line("not understood", 0, "HELP", 0, 0, 80);
    measure_line("not understood", 0, "HELP", 0, 64, 498);
    for (size_t k = 1; k <= 64; k += 63) {
        size_t n = make_journal(journal, k, 480);
        ANSWERED(TITLE("write out, journal %zu x 480", k), SIDE(write_out)(journal, n, lines, TWIN_LINES), lines,
                 sizeof lines);
    }
}

// A deletion from 64 records of n characters for pager 123, or, every so many from the oldest, for pager 124.
static void measure_deletion(const char *what, int by_pager, size_t which, size_t every, size_t n) {
    static twin_central s;
    central_start(&s, make_journal(journal, 64, n));
    for (size_t i = 0; every > 0 && i < 64; i += every) journal[(n + 2) * i + 2] = '4';
    delete_records(TITLE("%s, journal 64 x %zu", what, n), by_pager, &s, journal, BUFFER, which);
}

static void measure_deletions(void) {
    measure_deletion("delete, the newest", 0, 1, 0, 498);
    measure_deletion("delete, the middle", 0, 32, 0, 498);
    measure_deletion("delete, the oldest", 0, 64, 0, 498);
    measure_deletion("delete, the oldest", 0, 64, 0, 20);
    measure_deletion("delete pager, one fits, the oldest", 1, 124, 64, 498);
    measure_deletion("delete pager, every second fits", 1, 124, 2, 498);
    measure_deletion("delete pager, every second fits", 1, 124, 2, 20);
    measure_deletion("delete pager, all fit", 1, 123, 0, 498);
    measure_deletion("delete pager, none fits (9)", 1, 124, 0, 498);
}

// ---- random calls

static uint64_t seed;

static size_t below(size_t n) {
    seed ^= seed << 13;
    seed ^= seed >> 7;
    seed ^= seed << 17;
    return (size_t)(seed >> 11) % n;
}

static int rarely(void) { return below(12) == 0; }

// Bytes of which all are textual, or now and then some not.
static void any_text(uint8_t *p, size_t n) {
    for (size_t i = 0; i < n; i++) p[i] = below(9) == 0 ? CR : (uint8_t)(0x20 + below(0x5F));
    if (n > 0 && below(3) > 0) p[n - 1] = CR;
    if (n > 0 && rarely()) p[below(n)] = (uint8_t)below(256);
}

static size_t any_length(size_t most) {
    switch (below(6)) {
    case 0: return below(8);
    case 1: return most - below(4);
    case 2: return most + below(3);
    default: return below(most);
    }
}

// A transaction that the central may admit, or anything.
static size_t any_transaction(uint8_t *t, size_t most) {
    static const char *numbers[] = {"123", "9", "00000123", "000000123", "99999999", "", "12A"};
    size_t n;
    if (below(3) == 0) {
        n = any_length(most);
        any_text(t, n);
        return n;
    }
    const char *number = numbers[below(8) < 4 ? 0 : below(7)];
    n = strlen(number);
    memcpy(t, number, n);
    t[n++] = CR;
    size_t rest = below(5) == 0 ? below(most - 20) : below(300) % (most - 20);
    for (size_t i = 0; i < rest; i++) t[n++] = (uint8_t)(0x20 + below(0x5F));
    if (!rarely()) t[n++] = CR;
    return n;
}

// A journal, well formed or nearly; its length.
static size_t any_journal(uint8_t *to, size_t most_records, size_t most) {
    uint8_t t[2200];
    size_t records = below(most_records + 1), length = 4;
    memset(to, 0, BUFFER);
    for (size_t i = 0; i < records; i++) {
        size_t n = any_transaction(t, most);
        if (n < 1 || n > 2000 || length + n > 31000) continue;
        for (size_t k = 0; k < n; k++)
            if (t[k] != CR && (t[k] < 0x20 || t[k] > 0x7E)) t[k] = 'x';
        t[n - 1] = CR;
        length = put_record(to, length, t, n);
    }
    if (rarely()) to[below(length)] ^= (uint8_t)(1 << below(8));
    if (rarely()) length += below(3);
    if (rarely() && length > 0) length -= 1;
    if (rarely() && rarely()) length = below(40000);
    return length > BUFFER ? BUFFER + 1 : length;
}

static size_t put_text(uint8_t *to, const char *text) {
    memcpy(to, text, strlen(text));
    return strlen(text);
}

static size_t any_ending(uint8_t *to) { return put_text(to, below(3) ? "\r" : "\r\n"); }

// Up to three lines, with ID at the start of some or near it; below 800 bytes.
static size_t any_lines(uint8_t *to) {
    static const char *starts[] = {"ID", "ID=", "", "I", "id", " ID", "OK ID"};
    size_t n = 0;
    for (size_t k = below(4); k > 0; k--) {
        n += put_text(to + n, starts[below(7)]);
        size_t rest = rarely() ? any_length(250) : below(8);
        for (size_t i = 0; i < rest; i++) to[n++] = (uint8_t)(0x20 + below(0x5F));
        n += any_ending(to + n);
    }
    return n;
}

// Lines, then a code; in an acceptance lines also behind its ACK.
static size_t any_remarks(uint8_t *to) {
    static const char *codes[] = {"\x06", "\x15", "\x1E", "\x1B\x04", "\x1B[p"};
    size_t n = any_lines(to), k = below(5);
    if (k == 4) {
        n += put_text(to + n, "\x06");
        n += any_ending(to + n);
        n += any_lines(to + n);
    }
    n += put_text(to + n, codes[k]);
    return n + any_ending(to + n);
}

// A reply, whole or torn; below 2,000 bytes.
static size_t any_reply(uint8_t *to) {
    static const char *pieces[] = {"\r", "\n", "\x06", "\x15", "\x1E", "\x1B\x04", "\x1B[p", "ID=", " ", "OK", "\r\n", "\r\x06\r", "\r\x15\r", "\r\x1E\r", "\r\x1B\x04\r", "\r\x06\r\x1B[p\r", "ID=\r"};
    size_t n = 0;
    switch (below(4)) {
    case 0:
        n = put_text(to, pieces[11 + below(6)]);
        break;
    case 1:
        for (size_t k = below(8); k > 0; k--) n += put_text(to + n, pieces[below(17)]);
        if (rarely()) while (n < 254 + below(5)) to[n++] = below(20) ? 'a' : CR;
        break;
    default:
        n = any_remarks(to);
    }
    if (rarely()) n = below(n + 1);
    if (rarely()) {
        size_t lost = below(n + 1);
        n -= lost;
        memmove(to, to + lost, n);
    }
    set_parity(to, n);
    if (n > 0 && rarely()) to[below(n)] ^= (uint8_t)(1 << below(8));
    return n;
}

static twin_password any_password(void) {
    twin_password p = {"SECRET", 6};
    if (rarely()) p.length = below(8);
    if (rarely()) p.characters[below(6)] = (uint8_t)below(128);
    return p;
}

// One of two, or now and then a number that is neither: a way, a confirmation.
static uint8_t any_choice(void) { return (uint8_t)(rarely() ? below(4) : below(2)); }

static twin_device_settings any_device_settings(void) {
    return (twin_device_settings){any_password(), rarely() ? below(12) : below(4), any_choice(), any_choice()};
}

static twin_central_settings any_central_settings(void) {
    return (twin_central_settings){any_password(), below(3) ? 2000 : below(2003), rarely() ? below(12) : below(4)};
}

static size_t any_pagers(void) {
    if (rarely()) pagers[below(2)] = 99999999 + (uint32_t)below(2);
    else { pagers[0] = 123; pagers[1] = (uint32_t)below(100); }
    return rarely() ? 1001 * (below(3) == 0) : 1 + below(2);
}

static size_t any_room(size_t needed) { return needed > 0 && rarely() ? needed - 1 : needed + below(3); }

static size_t any_string(uint8_t *to) {
    uint8_t t[2200];
    size_t n = 0, m;
    switch (below(8)) {
    case 0: to[n++] = CR; break;
    case 1: memcpy(to, "\x1BPG1SECRET\r", n = 11); break;
    case 2: to[n++] = 4; to[n++] = CR; break;
    case 3: any_text(to, n = below(300)); break;
    case 4: return 0;
    default:
        m = any_transaction(t, 251);
        if (m > 250) m = 250;
        if (below(3) == 0) m = below(m + 1);
        n = make_block(to, t, m, below(2) || m == 0 ? 3 : t[m - 1] == CR ? 0x17 : 0x1F);
    }
    set_parity(to, n);
    if (rarely()) to[below(n + 1)] ^= (uint8_t)(1 << below(8));
    if (n > 0 && rarely()) { // another character, of even parity
        size_t i = below(n);
        to[i] = (uint8_t)below(128);
        set_parity(to + i, 1);
    }
    return n;
}

// Strings and noise as a wire may bring them; so many bytes.
static size_t any_wire(uint8_t *to) {
    size_t n = 0;
    for (size_t k = 1 + below(3); k > 0; k--) {
        size_t noise = below(3) == 0 ? below(20) : 0;
        any_text(to + n, noise);
        n += noise;
        n += any_string(to + n);
    }
    return n;
}

// What the framer may hold, or nearly.
static framer any_framer(void) {
    static const uint8_t endings[] = {3, 0x17, 0x1F};
    framer s = {{0}, below(3) == 0 ? 0 : below(2) ? below(12) : below(258)};
    size_t n = s.length < 256 ? s.length : 256;
    any_text(s.held, n);
    if (n > 0) s.held[0] = n < 3 && below(2) ? 4 : 2;
    if (n > 5 && below(2)) s.held[n - 1 - below(rarely() ? 5 : 4)] = endings[below(3)];
    set_parity(s.held, n);
    if (rarely()) s.held[below(256)] = (uint8_t)below(256);
    if (rarely() && rarely()) s.length = below(2) ? below(300) : (size_t)0 - 1 - below(3);
    return s;
}

// A line of a gateway's client, its ending off; below 2,100 bytes.
static size_t any_line(uint8_t *to) {
    static const char *words[] = {"PAGE ", "page ", "PaGe 123", "PAGE 00000123", "page 123456789", "MESS ", "mess ",
                                  "MEss ", "SEND", "send", "sEnD", "SEND", "RESE", "rese", "QUIT", "quit", "PAGE",
                                  "MESS", "SEND ", "RES", "PAGE123", "LOGI me", ""};
    size_t k = below(6) == 0 ? below(23) : below(2) ? 8 + below(4) : below(8), n = put_text(to, words[k]);
    size_t rest = 0;
    if (k < 5) rest = below(3) ? 0 : below(10);
    else if (k < 8) rest = below(3) ? below(100) : below(2) ? below(2043) : 2035 + below(14);
    for (size_t i = 0; i < rest; i++) to[n++] = (uint8_t)(k < 5 ? '0' + below(10) : 0x20 + below(0x5F));
    if (n > 0 && rarely()) to[below(n)] = (uint8_t)below(256);
    if (n > 0 && rarely()) to[below(n)] ^= 0x20;
    if (rarely() && rarely())
        for (size_t most = 2046 + below(5); n < most; n++) to[n] = 'x';
    return n;
}

// What a gateway may keep of a session, or nearly.
static void any_gateway(gateway *s) {
    gateway_start(s);
    s->stage = (uint8_t)(rarely() ? below(5) : below(5) ? below(2) : TWIN_SNPP_CLOSED);
    s->digits = s->stage == TWIN_SNPP_CLOSED && !rarely() ? 0 : below(3) ? 3 : below(9);
    s->length = s->stage != TWIN_SNPP_ENTERED && !rarely() ? 0 : below(3) ? below(200) : below(4) ? below(2044) : 2043;
    memset(s->pager, '0' + (int)below(10), s->digits);
    if (s->digits >= 3) memcpy(s->pager + s->digits - 3, "123", 3);
    for (size_t i = 0; i < s->length; i++) s->message[i] = (uint8_t)(0x20 + below(0x5F));
    if (rarely()) s->message[below(2043)] = (uint8_t)below(256);
    if (rarely()) s->pager[below(8)] = (uint8_t)below(256);
    if (rarely() && rarely()) s->digits = below(2) ? below(12) : (size_t)0 - 1 - below(3);
    if (rarely() && rarely()) s->length = below(2) ? below(2100) : (size_t)0 - 1 - below(3);
}

static uint64_t seen[10];

static void summed(const char *name) {
    printf("random %s: %016llx, codes", name, (unsigned long long)hash);
    for (int i = 0; i < 10; i++) printf(" %llu", (unsigned long long)seen[i]);
    printf("\n");
    memset(seen, 0, sizeof seen);
    hash = START;
}

static void random_characters(size_t calls) {
    static uint8_t text[4096], line[4096];
    for (size_t i = 0; i < calls; i++, seen[code]++) {
        size_t n = any_length(256);
        any_text(text, n);
        ANSWERED(NULL, SIDE(set_parity)(text, n, out, any_room(n)), out, 300);
    }
    summed("parity set");
    for (size_t i = 0; i < calls; i++, seen[code]++) {
        size_t n = any_length(256);
        any_text(line, n);
        set_parity(line, n);
        if (rarely()) line[below(n + 1)] ^= 0x80;
        ANSWERED(NULL, SIDE(clear_parity)(line, n, out, any_room(n)), out, 300);
    }
    summed("parity clear");
    for (size_t i = 0; i < calls; i++) {
        size_t n = any_length(300);
        for (size_t k = 0; k < n; k++) text[k] = (uint8_t)below(256);
        NUMBERED(NULL, SIDE(checksum)(text, n));
    }
    summed("checksum");
    for (size_t i = 0; i < calls; i++)
        NUMBERED(NULL, SIDE(checksum_add)((uint16_t)below(65536), (uint8_t)below(256)));
    summed("one character more");
    for (size_t i = 0; i < calls; i++, seen[code]++)
        ANSWERED(NULL, SIDE(check_characters)((uint16_t)below(65536), out, any_room(3)), out, 300);
    summed("check characters of a sum");
    for (size_t i = 0; i < calls; i++, seen[code]++) {
        static const uint8_t endings[] = {3, 0x17, 0x1F, 3, 0x17, 0x1F, 0x1E};
        size_t n = any_length(250);
        uint8_t ending = endings[below(7)];
        any_text(text, n);
        ANSWERED(NULL, SIDE(write_block)(text, n, ending, out, any_room(n + 6)), out, 300);
    }
    summed("block write");
    for (size_t i = 0; i < calls; i++, seen[code]++) {
        size_t n = any_length(250);
        any_text(text, n);
        n = make_block(line, text, n, below(20) == 0 ? 0x1E : below(3) ? 3 : below(2) ? 0x17 : 0x1F);
        if (rarely()) line[below(n)] ^= (uint8_t)(1 << below(8));
        if (rarely()) n -= below(n + 1);
        ANSWERED(NULL, SIDE(read_block)(line, n), out, 0);
    }
    summed("block read");
    for (size_t i = 0; i < calls; i++, seen[code]++) {
        size_t n = any_transaction(text, 2000);
        uint8_t way = any_choice();
        size_t room = any_room(way == TWIN_FILLED ? n + 6 * ((n + 249) / 250) : 2090);
        ANSWERED(NULL, SIDE(write_segments)(way, text, n, out, room), out, sizeof out);
    }
    summed("segmentation");
}

static void random_journals(size_t calls) {
    static uint8_t text[4096];
    for (size_t i = 0; i < calls; i++, seen[code]++) {
        size_t n = any_journal(journal, below(2) ? 4 : 70, below(2) ? 60 : 2000);
        ANSWERED(NULL, SIDE(check_journal)(journal, n > BUFFER ? BUFFER : n), out, 0);
    }
    summed("journal check");
    for (size_t i = 0; i < calls; i++, seen[code]++) {
        size_t n = any_journal(journal, below(2) ? 4 : 70, below(2) ? 60 : 2000), m = any_transaction(text, 2000);
        size_t size = rarely() ? BUFFER - 1 : BUFFER;
        ANSWERED(NULL, SIDE(append)(journal, size, n, text, m), journal, BUFFER);
    }
    summed("journal append");
    for (size_t i = 0; i < calls; i++) {
        size_t n = any_reply(text);
        NUMBERED(NULL, SIDE(read_reply)(text, n));
    }
    summed("reply read");
    for (size_t i = 0; i < calls; i++, seen[code]++) {
        size_t n = any_reply(text);
        read_remarks(NULL, text, n);
    }
    summed("remarks read");
}

static void random_framers(size_t calls) {
    uint8_t wire[1024];
    framer s = {{0}, 0};
    for (size_t i = 0; i < calls; i++, seen[code]++) {
        if (i % 4 == 0 || code != 0) s = any_framer();
        size_t n = any_wire(wire), from = below(4) ? 0 : below(n + 1), m = below(2) ? n - from : below(n - from + 1);
        framer_call(NULL, 1, &s, wire + from, m, m, any_room(256));
    }
    summed("framer feed");
    for (size_t i = 0; i < calls; i++, seen[code]++) {
        s = any_framer();
        framer_call(NULL, 0, &s, wire, 0, 0, any_room(256));
    }
    summed("framer flush");
}

static void random_centrals(size_t calls) {
    static twin_central s;
    uint8_t string[512];
    for (size_t i = 0; i < calls; i++, seen[code]++) {
        twin_central_settings t = any_central_settings();
        if (i % 8 == 0 || code != 0) {
            central_start(&s, any_journal(journal, below(2) ? 4 : 66, below(2) ? 60 : 2000));
            s.stage = (uint8_t)(rarely() ? below(5) : below(3) ? TWIN_BLOCK : below(4));
            s.failures = below(2) ? 0 : below(4);
            s.length = s.stage != TWIN_BLOCK && below(4) ? 0 : below(3) ? below(200) : below(2002);
            any_text(s.pending, s.length > 2000 ? 2000 : s.length);
        }
        size_t pager_count = any_pagers(), size = rarely() && rarely() ? BUFFER - 1 : BUFFER;
        size_t n = any_string(string), room = any_room(7);
        central_step(NULL, &s, &t, pagers, pager_count, journal, size, string, n, room);
    }
    summed("central step");
    for (size_t i = 0; i < calls; i++, seen[code]++) {
        twin_central_settings t = any_central_settings();
        s.stage = (uint8_t)below(5);
        s.failures = below(2) ? 0 : below(4);
        s.length = below(2) ? 0 : below(200);
        any_text(s.pending, s.length);
        central_hang_up(&s, &t);
    }
    summed("central hang up");
}

static void random_devices(size_t calls) {
    uint8_t reply[2000];
    twin_device s = {0, 0, 0, 0};
    twin_given given;
    size_t n = 0;
    for (size_t i = 0; i < calls; i++, seen[code]++) {
        twin_device_settings t = any_device_settings();
        if (i % 4 == 0 || code != 0) {
            n = any_journal(job, below(2) ? 4 : 66, below(2) ? 60 : 2000);
            if (n > BUFFER) n = BUFFER;
            s = (twin_device){(uint8_t)(below(3) ? TWIN_SENDING : below(6)), below(3), below(3), below(4)};
            if (s.step != TWIN_SENDING && below(4)) s.transaction = s.block = 0;
        }
        int starts = rarely();
        size_t m = any_reply(reply), room = any_room(256);
        device_step(NULL, starts, &s, &given, &t, job, n, reply, m, room);
    }
    summed("device step");
    for (size_t i = 0; i < calls; i++, seen[code]++) {
        size_t m = below(sizeof verdicts + 1);
        for (size_t k = 0; k < sizeof verdicts; k++) verdicts[k] = (uint8_t)below(rarely() ? 256 : 7);
        ANSWERED(NULL, SIDE(settle)((uint8_t)(rarely() ? below(256) : below(3)), verdicts, m), verdicts,
                 sizeof verdicts);
    }
    summed("settle");
}

static void random_runs(size_t calls) {
    uint8_t faults[64];
    for (size_t i = 0; i < calls; i++, seen[code]++) {
        twin_device_settings d = any_device_settings();
        twin_central_settings c = any_central_settings();
        size_t n = any_journal(job, below(2) ? 4 : 20, below(2) ? 60 : 2000), fault_count = below(64);
        size_t length = any_journal(journal, below(2) ? 4 : 66, below(2) ? 60 : 2000), pager_count = any_pagers();
        for (size_t k = 0; k < fault_count; k++) faults[k] = (uint8_t)(below(6) ? 0 : below(9));
        if (fault_count > 0 && rarely()) faults[below(fault_count)] = 9;
        if (n > BUFFER) n = BUFFER;
        size_t k = n < 4 ? 0 : job[n - 3];
        memset(verdicts, 0, sizeof verdicts);
        run(NULL, job, n, &d, &c, pagers, pager_count, journal, BUFFER, length, faults, fault_count, verdicts,
            k > 64 ? 64 : rarely() ? (k + 1) % 64 : k);
    }
    summed("run");
}

static void random_gateways(size_t calls) {
    static gateway s;
    uint8_t line[2100];
    size_t length = 0;
    for (size_t i = 0; i < calls; i++, seen[code]++)
        ANSWERED(NULL, SIDE(snpp_greeting)(out, any_room(6)), out, 16);
    summed("gateway greeting");
    for (size_t i = 0; i < calls; i++, seen[code]++) {
        if (i % 8 == 0 || code != 0) {
            length = any_journal(journal, below(2) ? 4 : 66, below(2) ? 60 : 2000);
            any_gateway(&s);
        }
        size_t longest = below(3) ? 2000 : below(2003), pager_count = any_pagers();
        size_t size = rarely() && rarely() ? BUFFER - 1 : BUFFER, n = any_line(line), room = any_room(6);
        gateway_step(NULL, &s, longest, pagers, pager_count, journal, size, &length, line, n, room);
    }
    summed("gateway step");
    for (size_t i = 0; i < calls; i++, seen[code]++) {
        size_t n = any_journal(journal, below(2) ? 4 : 66, below(2) ? 60 : 2000), room = any_room(TWIN_LINES);
        ANSWERED(NULL, SIDE(write_out)(journal, n > BUFFER ? BUFFER : n, lines, room), lines, sizeof lines);
    }
    summed("write out");
}

static void random_deletions(size_t calls) {
    static const uint32_t numbers[] = {123, 9, 99999999, 0, 124, 4294967295u};
    static twin_central s;
    for (int by_pager = 0; by_pager < 2; by_pager++) {
        for (size_t i = 0; i < calls; i++, seen[code]++) {
            if (i % 4 == 0 || code != 0) {
                central_start(&s, any_journal(journal, below(2) ? 4 : 66, below(2) ? 60 : 2000));
                s.stage = (uint8_t)(rarely() ? below(6) : below(2) ? TWIN_IDLE : TWIN_CLOSED);
                if (rarely()) s.failures = below(4);
                if (rarely()) s.length = below(200);
            }
            size_t size = rarely() && rarely() ? BUFFER - 1 : BUFFER;
            size_t n = rarely() ? (size_t)0 - below(2) : 1 + below(below(2) ? 4 : 66);
            delete_records(NULL, by_pager, &s, journal, size, by_pager ? numbers[below(3) ? 0 : below(6)] : n);
        }
        summed(by_pager ? "delete pager" : "delete");
    }
}

int main(int words, char **word) {
    for (size_t i = 0; i < 1000; i++) pagers[i] = (uint32_t)(99999 - i);
    pagers[999] = 123;
    if (words == 3) {
        size_t calls = strtoul(word[2], NULL, 10);
        seed = strtoul(word[1], NULL, 10) * 2 + 1;
        random_characters(calls);
        random_journals(calls);
        random_framers(calls);
        random_centrals(calls);
        random_devices(calls);
        random_runs(calls / 10);
        random_gateways(calls);
        random_deletions(calls);
        return 0;
    }
    measure_characters();
    measure_journal();
    measure_replies();
    measure_framers();
    measure_centrals();
    measure_devices();
    measure_runs();
    measure_gateways();
    measure_deletions();
    return 0;
}
