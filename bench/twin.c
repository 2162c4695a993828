#include "twin.h"
#include <string.h>

enum { STX = 0x02, ETX = 0x03, EOT = 0x04, ACK = 0x06, LF = 0x0A, CR = 0x0D, NAK = 0x15, ETB = 0x17,
       ESC = 0x1B, RS = 0x1E, US = 0x1F };

enum { INFORMATION = 250, OVERHEAD = 6, ALL_BLOCKS = 2090, MOST = 2000, RECORDS = 64, BYTES = 32000 };

static twin_answer done(size_t count) { return (twin_answer){count, 0}; }

static twin_answer refused(uint8_t code) { return (twin_answer){0, code}; }

// ---- characters

static int printable(uint8_t c) { return c >= 0x20 && c <= 0x7E; }

static int textual(uint8_t c) { return printable(c) || c == CR; }

static int digit(uint8_t c) { return c >= '0' && c <= '9'; }

static int alphanumeric(uint8_t c) {
    return digit(c) || (c >= 'A' && c <= 'Z') || (c >= 'a' && c <= 'z');
}

static int all_textual(const uint8_t *p, size_t n) {
    for (size_t i = 0; i < n; i++)
        if (!textual(p[i])) return 0;
    return 1;
}

static int all_alphanumeric(const uint8_t *p, size_t n) {
    for (size_t i = 0; i < n; i++)
        if (!alphanumeric(p[i])) return 0;
    return 1;
}

static int all_seven(const uint8_t *p, size_t n) {
    for (size_t i = 0; i < n; i++)
        if (p[i] >= 0x80) return 0;
    return 1;
}

// ---- parity

static uint8_t with_parity(uint8_t c) { return __builtin_parity(c) ? c | 0x80 : c; }

static int all_even(const uint8_t *p, size_t n) {
    for (size_t i = 0; i < n; i++)
        if (__builtin_parity(p[i])) return 0;
    return 1;
}

twin_answer twin_set_parity(const uint8_t *text, size_t n, uint8_t *out, size_t room) {
    if (room < n) return refused(1);
    if (!all_seven(text, n)) return refused(3);
    for (size_t i = 0; i < n; i++) out[i] = with_parity(text[i]);
    return done(n);
}

twin_answer twin_clear_parity(const uint8_t *line, size_t n, uint8_t *out, size_t room) {
    if (room < n) return refused(1);
    if (!all_even(line, n)) return refused(3);
    for (size_t i = 0; i < n; i++) out[i] = line[i] & 0x7F;
    return done(n);
}

// ---- blocks

uint16_t twin_checksum(const uint8_t *text, size_t n) {
    unsigned sum = 0;
    for (size_t i = 0; i < n; i++) sum = (sum + (text[i] & 0x7F)) & 0xFFF;
    return (uint16_t)sum;
}

static void put_check(unsigned sum, uint8_t *to) {
    to[0] = (uint8_t)(0x30 + (sum >> 8 & 15));
    to[1] = (uint8_t)(0x30 + (sum >> 4 & 15));
    to[2] = (uint8_t)(0x30 + (sum & 15));
}

uint16_t twin_checksum_add(uint16_t sum, uint8_t character) {
    return (uint16_t)((sum + (character & 0x7F)) & 0xFFF);
}

twin_answer twin_check_characters(uint16_t sum, uint8_t *out, size_t room) {
    if (room < 3) return refused(1);
    put_check(sum, out);
    return done(3);
}

// The rule of the ending.
static int agrees(const uint8_t *info, size_t n, uint8_t ending) {
    if (n == 0) return 0;
    return (info[n - 1] == CR) == (ending != US);
}

static void put_block(const uint8_t *info, size_t n, uint8_t ending, uint8_t *out) {
    out[0] = STX;
    memcpy(out + 1, info, n);
    out[n + 1] = ending;
    put_check(twin_checksum(out, n + 2), out + n + 2);
    out[n + 5] = CR;
}

twin_answer twin_write_block(const uint8_t *info, size_t n, uint8_t ending, uint8_t *out, size_t room) {
    if (ending != ETX && ending != ETB && ending != US) return refused(9);
    if (room < OVERHEAD || room - OVERHEAD < n) return refused(1);
    if (n > INFORMATION) return refused(2);
    if (!all_seven(info, n)) return refused(3);
    if (!all_textual(info, n) || !agrees(info, n, ending)) return refused(6);
    put_block(info, n, ending, out);
    return done(n + OVERHEAD);
}

twin_answer twin_read_block(const uint8_t *s, size_t n) {
    uint8_t check[3];
    if (n < OVERHEAD || n > INFORMATION + OVERHEAD) return refused(2);
    if (!all_seven(s, n)) return refused(3);
    uint8_t ending = s[n - 5];
    if (s[0] != STX || (ending != ETX && ending != ETB && ending != US)) return refused(4);
    for (size_t i = n - 4; i < n - 1; i++)
        if (s[i] < 0x30 || s[i] > 0x3F) return refused(4);
    if (s[n - 1] != CR) return refused(4);
    put_check(twin_checksum(s, n - 4), check);
    if (memcmp(check, s + n - 4, 3) != 0) return refused(5);
    if (!all_textual(s + 1, n - 6) || !agrees(s + 1, n - 6, ending)) return refused(6);
    return done(n - OVERHEAD);
}

// ---- transactions and segmentation

static int legal(const uint8_t *info, size_t n) {
    return n >= 1 && n <= MOST && info[n - 1] == CR && all_textual(info, n);
}

static uint8_t check_transaction(const uint8_t *info, size_t n) {
    if (n < 1 || n > MOST) return 2;
    if (!all_seven(info, n)) return 3;
    if (info[n - 1] != CR || !all_textual(info, n)) return 6;
    return 0;
}

// Every field has at most 250 characters with its CR, where fields are kept whole.
static int cuttable(uint8_t way, const uint8_t *info, size_t n) {
    size_t left = INFORMATION;
    if (way == TWIN_FILLED) return 1;
    for (size_t i = 0; i < n; i++) {
        if (left == 0) return 0;
        left = info[i] == CR ? INFORMATION : left - 1;
    }
    return 1;
}

// How many characters the next block takes of what is left.
static size_t next_length(uint8_t way, const uint8_t *rest, size_t left) {
    size_t length = left < INFORMATION ? left : INFORMATION;
    if (way == TWIN_WHOLE_FIELDS)
        while (rest[length - 1] != CR) length--;
    return length;
}

static size_t filled_count(size_t n) { return n / INFORMATION + (n % INFORMATION != 0); }

static size_t block_count(uint8_t way, const uint8_t *info, size_t n) {
    size_t count = 0;
    if (way == TWIN_FILLED) return filled_count(n);
    for (size_t from = 0; from < n; count++) from += next_length(way, info + from, n - from);
    return count;
}

// The block at a place of a transaction; the length of its information.
static size_t put_piece(uint8_t way, const uint8_t *info, size_t n, size_t from, uint8_t *out) {
    size_t left = n - from, length = next_length(way, info + from, left);
    uint8_t ending = length == left ? ETX : info[from + length - 1] == CR ? ETB : US;
    put_block(info + from, length, ending, out);
    return length;
}

// The block at an index of a transaction; its length.
static size_t put_segment(uint8_t way, const uint8_t *info, size_t n, size_t index, uint8_t *out) {
    size_t from = 0;
    if (way == TWIN_FILLED) {
        from = INFORMATION * index;
    } else {
        while (index-- > 0) from += next_length(way, info + from, n - from);
    }
    return put_piece(way, info, n, from, out) + OVERHEAD;
}

twin_answer twin_write_segments(uint8_t way, const uint8_t *info, size_t n, uint8_t *out, size_t room) {
    size_t at = 0;
    if (way > TWIN_WHOLE_FIELDS) return refused(9);
    if (room < (way == TWIN_FILLED ? n + OVERHEAD * filled_count(n) : ALL_BLOCKS)) return refused(1);
    uint8_t wrong = check_transaction(info, n);
    if (wrong) return refused(wrong);
    if (!cuttable(way, info, n)) return refused(2);
    for (size_t from = 0; from < n;) {
        size_t length = put_piece(way, info, n, from, out + at);
        from += length;
        at += length + OVERHEAD;
    }
    return done(at);
}

// ---- the journal

static size_t number_at(const uint8_t *p) { return (size_t)p[0] << 8 | p[1]; }

static void put_number(size_t n, uint8_t *p) {
    p[0] = (uint8_t)(n >> 8);
    p[1] = (uint8_t)n;
}

typedef struct {
    const uint8_t *info;
    size_t length;
} part;

// Walks the journal back; the record at an index from the oldest, and the one behind it, on the way.
// The number of records, or -1.
static int walk(const uint8_t *journal, size_t n, size_t index, part *here, part *next) {
    part last = {journal, 0};
    *here = *next = last;
    if (n < 4) return -1;
    size_t count = number_at(journal + n - 4), end = number_at(journal + n - 2);
    if (count > RECORDS || end > BYTES || n != end + 4) return -1;
    for (size_t left = count; left > 0; left--) {
        if (end < 2) return -1;
        size_t length = number_at(journal + end - 2);
        if (end < length + 2) return -1;
        end -= length + 2;
        if (!legal(journal + end, length)) return -1;
        if (left - 1 == index) {
            *here = (part){journal + end, length};
            *next = last;
        }
        last = (part){journal + end, length};
    }
    return end == 0 ? (int)count : -1;
}

twin_answer twin_check_journal(const uint8_t *journal, size_t n) {
    part here, next;
    int count = walk(journal, n, 0, &here, &next);
    return count < 0 ? refused(7) : done((size_t)count);
}

static uint8_t check_in(const uint8_t *buffer, size_t size, size_t length) {
    if (size != TWIN_BUFFER) return 1;
    if (length > size) return 7;
    return twin_check_journal(buffer, length).code;
}

// One record more in a checked journal; its new length, or 0 where it lacks room.
static size_t extend(uint8_t *buffer, size_t length, const uint8_t *info, size_t n) {
    size_t end = length - 4, count = number_at(buffer + end);
    if (count + 1 > RECORDS || end + n + 2 > BYTES) return 0;
    memcpy(buffer + end, info, n);
    put_number(n, buffer + end + n);
    put_number(count + 1, buffer + end + n + 2);
    put_number(end + n + 2, buffer + end + n + 4);
    return end + n + 6;
}

twin_answer twin_append(uint8_t *buffer, size_t size, size_t length, const uint8_t *info, size_t n) {
    uint8_t wrong = check_in(buffer, size, length);
    if (wrong) return refused(wrong);
    wrong = check_transaction(info, n);
    if (wrong) return refused(wrong);
    size_t longer = extend(buffer, length, info, n);
    return longer ? done(longer) : refused(8);
}

// ---- replies

// CR or CR LF stands there, and nothing more.
static int ends(const uint8_t *p, const uint8_t *end) {
    return (end - p == 1 && p[0] == CR) || (end - p == 2 && p[0] == CR && p[1] == LF);
}

// The CR of the whole line that stands there, or NULL.
static const uint8_t *line_end(const uint8_t *p, const uint8_t *end) {
    while (p < end && printable(*p)) p++;
    return p < end && *p == CR ? p : NULL;
}

// Behind the LF that may stand there.
static const uint8_t *skip_lf(const uint8_t *p, const uint8_t *end) { return p < end && *p == LF ? p + 1 : p; }

// Behind the whole lines that stand there.
static const uint8_t *skip_lines(const uint8_t *p, const uint8_t *end) {
    const uint8_t *q;
    while ((q = line_end(p, end)) != NULL) p = skip_lf(q + 1, end);
    return p;
}

// The same; the last that begins with ID, as it stands in the text, goes to id.
static const uint8_t *note_lines(const uint8_t *text, const uint8_t *end, twin_span *id) {
    const uint8_t *p = text, *q;
    while ((q = line_end(p, end)) != NULL) {
        if (q - p >= 2 && p[0] == 'I' && p[1] == 'D') *id = (twin_span){(size_t)(p - text), (size_t)(q - text)};
        p = skip_lf(q + 1, end);
    }
    return p;
}

static inline int requests(const uint8_t *p, const uint8_t *end) {
    if (end - p < 3 || memcmp(p, "ID=", 3) != 0) return 0;
    p += 3;
    if (p < end && *p == ' ') p++;
    return p == end || ends(p, end);
}

// The meaning of what follows the lines.
static inline uint8_t read_code(const uint8_t *p, const uint8_t *end) {
    if (p == end) return TWIN_UNREAD;
    switch (*p) {
    case ACK:
        if (ends(p + 1, end)) return TWIN_ACK;
        if (end - p < 2 || p[1] != CR) return TWIN_UNREAD;
        p = skip_lines(skip_lf(p + 2, end), end);
        if (end - p >= 3 && p[0] == ESC && p[1] == '[' && p[2] == 'p' && ends(p + 3, end)) return TWIN_ACCEPTANCE;
        return TWIN_UNREAD;
    case NAK:
        return ends(p + 1, end) ? TWIN_NAK : TWIN_UNREAD;
    case RS:
        return ends(p + 1, end) ? TWIN_RS : TWIN_UNREAD;
    case ESC:
        return end - p >= 2 && p[1] == EOT && ends(p + 2, end) ? TWIN_EOT : TWIN_UNREAD;
    }
    return TWIN_UNREAD;
}

uint8_t twin_read_reply(const uint8_t *bytes, size_t n) {
    uint8_t text[256];
    if (twin_clear_parity(bytes, n, text, sizeof text).code) return TWIN_UNREAD;
    if (requests(text, text + n)) return TWIN_ID_REQUEST;
    return read_code(skip_lines(text, text + n), text + n);
}

// The meaning of a reply, and its remarks.
static uint8_t read_both(const uint8_t *bytes, size_t n, twin_remarks *remarks) {
    uint8_t text[256];
    twin_span id = {0, 0};
    *remarks = (twin_remarks){0};
    if (twin_clear_parity(bytes, n, text, sizeof text).code) return TWIN_UNREAD;
    if (requests(text, text + n)) return TWIN_ID_REQUEST;
    const uint8_t *code = note_lines(text, text + n, &id);
    uint8_t reply = read_code(code, text + n);
    if (reply != TWIN_UNREAD) *remarks = (twin_remarks){id.end > 0 ? 2 : 1, {0, (size_t)(code - text)}, id};
    return reply;
}

twin_remarks twin_read_remarks(const uint8_t *bytes, size_t n) {
    twin_remarks remarks;
    read_both(bytes, n, &remarks);
    return remarks;
}

// ---- the framer

static int opening(uint8_t c) { return (c & 0x7F) == STX || (c & 0x7F) == EOT; }

static int ending(uint8_t c) { return (c & 0x7F) == ETX || (c & 0x7F) == ETB || (c & 0x7F) == US; }

static size_t size_from(size_t length) { return length + 4 < 256 ? length + 4 : 256; }

// How long the string is to be of which so much is held; 256 while its ending has not come.
static size_t held_size(const twin_framer *s) {
    if ((s->held[0] & 0x7F) == EOT) return 2;
    for (size_t i = s->length < 5 ? 1 : s->length - 4; i < s->length; i++)
        if (ending(s->held[i])) return size_from(i + 1);
    return 256;
}

static int framer_in_range(const twin_framer *s) {
    if (s->length >= 256) return 0;
    for (size_t i = s->length; i < 256; i++)
        if (s->held[i] != 0) return 0;
    if (s->length == 0) return 1;
    if ((s->held[0] & 0x7F) == EOT) return s->length < 2;
    if ((s->held[0] & 0x7F) != STX) return 0;
    for (size_t i = 1; i + 4 < s->length; i++)
        if (ending(s->held[i])) return 0;
    return 1;
}

static twin_answer hand_over(twin_framer *s, uint8_t *out) {
    size_t n = s->length;
    memcpy(out, s->held, n);
    memset(s, 0, sizeof *s);
    return done(n);
}

twin_answer twin_framer_feed(twin_framer *s, size_t *used, const uint8_t *bytes, size_t n, uint8_t *out,
                             size_t room) {
    size_t i = 0;
    *used = 0;
    if (!framer_in_range(s)) return refused(9);
    if (room < 256) return refused(1);
    if (s->length == 0) {
        while (i < n && !opening(bytes[i])) i++;
        if (i < n) s->held[s->length++] = bytes[i++];
    }
    size_t length = s->length, size = held_size(s);
    for (; i < n && length < size; i++) {
        s->held[length++] = bytes[i];
        if (size == 256 && ending(bytes[i])) size = size_from(length);
    }
    s->length = length;
    *used = i;
    return length == size ? hand_over(s, out) : done(0);
}

twin_answer twin_framer_flush(twin_framer *s, uint8_t *out, size_t room) {
    if (!framer_in_range(s)) return refused(9);
    if (room < 256) return refused(1);
    return hand_over(s, out);
}

// ---- settings

static int password_in_range(const twin_password *p) {
    return p->length <= 6 && all_alphanumeric(p->characters, p->length);
}

static int device_in_range(const twin_device_settings *s) {
    return s->way <= TWIN_WHOLE_FIELDS && s->confirmation <= TWIN_LATE && password_in_range(&s->password) &&
           s->retries <= 9;
}

static int central_in_range(const twin_central_settings *s) {
    return password_in_range(&s->password) && s->longest >= 3 && s->longest <= MOST && s->retries <= 9;
}

static int pagers_in_range(const uint32_t *pagers, size_t n) {
    if (n > 1000) return 0;
    for (size_t i = 0; i < n; i++)
        if (pagers[i] >= 100000000) return 0;
    return 1;
}

// ---- the central

static int state_in_range(const twin_central *s, const twin_central_settings *t) {
    if (s->stage > TWIN_CLOSED) return 0;
    if (s->stage == TWIN_IDLE || s->stage == TWIN_CLOSED) {
        if (s->failures != 0) return 0;
    } else if (s->failures > t->retries) {
        return 0;
    }
    if (s->length > (s->stage == TWIN_BLOCK ? t->longest : 0)) return 0;
    return all_textual(s->pending, s->length);
}

void twin_central_start(twin_central *state, size_t journal) {
    memset(state, 0, sizeof *state);
    state->journal = journal;
}

static void enter(twin_central *s, uint8_t stage) {
    s->stage = stage;
    s->failures = 0;
    s->length = 0;
}

twin_answer twin_central_hang_up(twin_central *state, const twin_central_settings *settings) {
    if (!central_in_range(settings) || !state_in_range(state, settings)) return refused(9);
    enter(state, TWIN_IDLE);
    return done(0);
}

static twin_answer say(const char *text, size_t n, uint8_t *out) {
    for (size_t i = 0; i < n; i++) out[i] = with_parity((uint8_t)text[i]);
    return done(n);
}

#define SAY(text, out) say(text, sizeof(text) - 1, out)

static twin_answer fail(twin_central *s, const twin_central_settings *t, uint8_t *out) {
    if (s->failures == t->retries) {
        enter(s, TWIN_CLOSED);
        return SAY("\r\x1B\x04\r", out);
    }
    s->failures++;
    return SAY("\r\x15\r", out);
}

static twin_answer drop(twin_central *s, uint8_t *out) {
    enter(s, TWIN_BLOCK);
    return SAY("\r\x1E\r", out);
}

// The number of a pager ID: 1 to 8 digits. Or -1.
static inline int32_t pager_number(const uint8_t *id, size_t digits) {
    int32_t number = 0;
    if (digits < 1 || digits > 8) return -1;
    for (size_t i = 0; i < digits; i++) {
        if (!digit(id[i])) return -1;
        number = number * 10 + (id[i] - '0');
    }
    return number;
}

// The number of a page: two fields, the first a pager ID. Or -1.
static int32_t page_number(const uint8_t *t, size_t n) {
    const uint8_t *end = memchr(t, CR, n);
    if (end == NULL || end == t + n - 1) return -1;
    if (memchr(end + 1, CR, n - (size_t)(end + 1 - t)) != t + n - 1) return -1;
    return pager_number(t, (size_t)(end - t));
}

// A page whose number is listed.
static int admitted(const uint8_t *t, size_t n, const uint32_t *pagers, size_t pager_count) {
    int32_t number = page_number(t, n);
    if (number < 0) return 0;
    for (size_t i = 0; i < pager_count; i++)
        if (pagers[i] == (uint32_t)number) return 1;
    return 0;
}

static twin_answer take_block(twin_central *s, const twin_central_settings *t, const uint32_t *pagers,
                              size_t pager_count, uint8_t *journal, const uint8_t *info, size_t n,
                              uint8_t ending, uint8_t *out) {
    if (s->length + n > t->longest) return drop(s, out);
    memcpy(s->pending + s->length, info, n);
    s->length += n;
    if (ending == ETX) {
        if (!admitted(s->pending, s->length, pagers, pager_count)) return drop(s, out);
        size_t longer = extend(journal, s->journal, s->pending, s->length);
        if (longer == 0) return drop(s, out);
        s->journal = longer;
        s->length = 0;
    }
    s->failures = 0;
    return SAY("\r\x06\r", out);
}

static int logs_on(const uint8_t *text, size_t n, const twin_password *password) {
    return n == 5 + password->length && text[0] == ESC && memcmp(text + 1, "PG1", 3) == 0 &&
           memcmp(text + 4, password->characters, password->length) == 0 && text[n - 1] == CR;
}

twin_answer twin_central_step(twin_central *s, const twin_central_settings *t, const uint32_t *pagers,
                              size_t pager_count, uint8_t *journal, size_t size, const uint8_t *string,
                              size_t n, uint8_t *out, size_t room) {
    uint8_t text[256];
    if (!central_in_range(t) || !pagers_in_range(pagers, pager_count) || !state_in_range(s, t)) return refused(9);
    if (room < 7) return refused(1);
    uint8_t wrong = check_in(journal, size, s->journal);
    if (wrong) return refused(wrong);
    if (n == 0 || s->stage == TWIN_CLOSED) return done(0);
    int right = twin_clear_parity(string, n, text, sizeof text).code == 0;
    if (right && n == 1 && text[0] == CR && s->stage != TWIN_BLOCK) {
        if (s->stage == TWIN_IDLE) enter(s, TWIN_LOGON);
        return SAY("ID=\r", out);
    }
    if (s->stage == TWIN_IDLE) return done(0);
    if (!right) return fail(s, t, out);
    if (s->stage == TWIN_LOGON) {
        if (!logs_on(text, n, &t->password)) return fail(s, t, out);
        enter(s, TWIN_BLOCK);
        return SAY("\r\x06\r\x1B[p\r", out);
    }
    if (n == 2 && text[0] == EOT && text[1] == CR) {
        enter(s, TWIN_CLOSED);
        return SAY("\r\x1B\x04\r", out);
    }
    twin_answer read = twin_read_block(text, n);
    if (read.code == 6) return drop(s, out);
    if (read.code) return fail(s, t, out);
    return take_block(s, t, pagers, pager_count, journal, text + 1, read.count, text[n - 5], out);
}

// ---- the device

// The string of the state's step, whose transaction is this one.
static size_t put_string(const twin_device *s, const twin_device_settings *t, part transaction, uint8_t *out) {
    uint8_t text[256];
    size_t n = 0;
    switch (s->step) {
    case TWIN_OPENING:
        text[n++] = CR;
        break;
    case TWIN_LOGGING_ON:
        text[n++] = ESC;
        memcpy(text + n, "PG1", 3);
        n += 3;
        memcpy(text + n, t->password.characters, t->password.length);
        n += t->password.length;
        text[n++] = CR;
        break;
    case TWIN_SENDING:
        n = put_segment(t->way, transaction.info, transaction.length, s->block, text);
        break;
    case TWIN_CLOSING:
        text[n++] = EOT;
        text[n++] = CR;
        break;
    }
    for (size_t i = 0; i < n; i++) out[i] = with_parity(text[i]);
    return n;
}

// No field of a job, which is well formed, is too long for the way.
static int cuts_all(uint8_t way, const uint8_t *job, size_t n) {
    if (way == TWIN_FILLED) return 1;
    for (size_t end = n - 4; end > 0;) {
        size_t length = number_at(job + end - 2);
        end -= length + 2;
        if (!cuttable(way, job + end, length)) return 0;
    }
    return 1;
}

// The tests of a step; the number of transactions, where the state's and the next lie, and the state's blocks.
static uint8_t test_device(const twin_device *s, const twin_device_settings *t, const uint8_t *job, size_t n,
                           size_t room, size_t *count, size_t *blocks, part *here, part *next) {
    if (!device_in_range(t) || s->step > TWIN_CLOSING) return 9;
    if (s->step != TWIN_STOPPED) {
        size_t most = s->step == TWIN_OPENING ? 3 : t->retries + 1;
        if (s->attempts < 1 || s->attempts > most) return 9;
    }
    if (room < 256) return 1;
    int counted = walk(job, n, s->step == TWIN_SENDING ? s->transaction : 0, here, next);
    if (counted < 0) return 7;
    if (!cuts_all(t->way, job, n)) return 2;
    *count = (size_t)counted;
    *blocks = 0;
    if (s->step == TWIN_SENDING) {
        *blocks = block_count(t->way, here->info, here->length);
        if (s->transaction >= *count || s->block >= *blocks) return 9;
    } else if (s->step != TWIN_STOPPED) {
        if (s->transaction != 0 || s->block != 0) return 9;
    }
    return 0;
}

static void wait_in(twin_device *s, uint8_t step, size_t transaction, size_t block) {
    *s = (twin_device){step, transaction, block, step != TWIN_STOPPED};
}

static void again_or_stop(twin_device *s, size_t most) {
    if (s->attempts < most) {
        s->attempts++;
    } else {
        wait_in(s, TWIN_STOPPED, 0, 0);
    }
}

static void onwards(twin_device *s, size_t transaction, size_t count) {
    if (transaction < count) {
        wait_in(s, TWIN_SENDING, transaction, 0);
    } else {
        wait_in(s, TWIN_CLOSING, 0, 0);
    }
}

static void give(twin_given *given, size_t transaction, uint8_t verdict) {
    given->transaction = transaction;
    given->verdict = verdict;
}

static void move_sending(twin_device *s, twin_given *given, size_t most, size_t count, size_t blocks, uint8_t reply) {
    size_t t = s->transaction;
    switch (reply) {
    case TWIN_ACK:
        if (s->block + 1 < blocks) {
            wait_in(s, TWIN_SENDING, t, s->block + 1);
            return;
        }
        give(given, t, 1);
        onwards(s, t + 1, count);
        return;
    case TWIN_RS:
        give(given, t, 2);
        onwards(s, t + 1, count);
        return;
    case TWIN_NAK:
        if (s->attempts < most) {
            s->attempts++;
            return;
        }
        give(given, t, 4);
        break;
    case TWIN_EOT:
        give(given, t, 4);
        break;
    default:
        give(given, t, 3);
    }
    wait_in(s, TWIN_STOPPED, 0, 0);
}

static void move(twin_device *s, twin_given *given, size_t most, size_t count, size_t blocks, uint8_t reply) {
    switch (s->step) {
    case TWIN_OPENING:
        if (reply == TWIN_ID_REQUEST) {
            wait_in(s, TWIN_LOGGING_ON, 0, 0);
        } else {
            again_or_stop(s, 3);
        }
        break;
    case TWIN_LOGGING_ON:
        if (reply == TWIN_ACCEPTANCE) {
            onwards(s, 0, count);
        } else if (reply == TWIN_NAK || reply == TWIN_ID_REQUEST) {
            again_or_stop(s, most);
        } else {
            wait_in(s, TWIN_STOPPED, 0, 0);
        }
        break;
    case TWIN_SENDING:
        move_sending(s, given, most, count, blocks, reply);
        break;
    case TWIN_CLOSING:
        if (reply == TWIN_NAK && s->attempts < most) {
            s->attempts++;
        } else {
            given->report = 1 + reply;
            wait_in(s, TWIN_STOPPED, 0, 0);
        }
        break;
    default:
        wait_in(s, TWIN_STOPPED, 0, 0);
    }
}

twin_answer twin_device_start(twin_device *state, const twin_device_settings *settings, const uint8_t *job,
                              size_t n, uint8_t *out, size_t room) {
    size_t count, blocks;
    part here, next;
    wait_in(state, TWIN_STOPPED, 0, 0);
    uint8_t wrong = test_device(state, settings, job, n, room, &count, &blocks, &here, &next);
    if (wrong) return refused(wrong);
    wait_in(state, TWIN_OPENING, 0, 0);
    return done(put_string(state, settings, here, out));
}

twin_answer twin_device_step(twin_device *s, twin_given *given, const twin_device_settings *settings,
                             const uint8_t *job, size_t n, const uint8_t *reply, size_t reply_length,
                             uint8_t *out, size_t room) {
    size_t count, blocks;
    part here, next;
    *given = (twin_given){0};
    uint8_t wrong = test_device(s, settings, job, n, room, &count, &blocks, &here, &next);
    if (wrong) return refused(wrong);
    size_t before = s->step == TWIN_SENDING ? s->transaction : 0;
    int went_on = s->step != TWIN_STOPPED;
    uint8_t heard = read_both(reply, reply_length, &given->remarks);
    if (!went_on || (s->step == TWIN_SENDING && heard == TWIN_ACCEPTANCE)) given->remarks = (twin_remarks){0};
    move(s, given, settings->retries + 1, count, blocks, heard);
    size_t after = s->step == TWIN_SENDING ? s->transaction : 0;
    if (went_on && s->step == TWIN_STOPPED)
        given->standing =
            settings->confirmation == TWIN_EARLY || given->report == 1 + TWIN_EOT ? TWIN_CONFIRMED : TWIN_IN_DOUBT;
    return done(put_string(s, settings, before == after ? here : next, out));
}

twin_answer twin_settle(uint8_t standing, uint8_t *verdicts, size_t n) {
    if (standing > TWIN_IN_DOUBT) return refused(9);
    if (standing == TWIN_IN_DOUBT)
        for (size_t i = 0; i < n; i++)
            if (verdicts[i] == 1) verdicts[i] = 6;
    return done(n);
}

// ---- the run

static size_t arrive(unsigned fate, uint8_t *string, size_t n) {
    if (fate == 2) return 0;
    if (fate == 1 && n > 0) string[0] ^= 0x80;
    return n;
}

twin_totals twin_run(const uint8_t *job, size_t n, const twin_device_settings *device,
                     const twin_central_settings *central, const uint32_t *pagers, size_t pager_count,
                     uint8_t *journal, size_t size, size_t length, const uint8_t *faults, size_t fault_count,
                     uint8_t *verdicts, size_t verdict_count) {
    uint8_t string[256], answer[7];
    twin_device d;
    twin_central c;
    twin_given given = {0};
    size_t sent = 0;
    if (!device_in_range(device) || !central_in_range(central) || !pagers_in_range(pagers, pager_count)) {
        return (twin_totals){0, 0, 9};
    }
    for (size_t i = 0; i < fault_count; i++)
        if (faults[i] > 8) return (twin_totals){0, 0, 9};
    if (size != TWIN_BUFFER) return (twin_totals){0, 0, 1};
    twin_answer counted = twin_check_journal(job, n);
    if (counted.code) return (twin_totals){0, 0, counted.code};
    uint8_t wrong = check_in(journal, size, length);
    if (wrong) return (twin_totals){0, 0, wrong};
    if (!cuts_all(device->way, job, n)) return (twin_totals){0, 0, 2};
    if (verdict_count != counted.count) return (twin_totals){0, 0, 1};
    memset(verdicts, 5, verdict_count);
    twin_central_start(&c, length);
    size_t count = twin_device_start(&d, device, job, n, string, sizeof string).count;
    while (count > 0) {
        unsigned fault = sent < fault_count ? faults[sent] : 0;
        sent++;
        size_t heard = arrive(fault / 3, string, count);
        size_t back = twin_central_step(&c, central, pagers, pager_count, journal, size, string, heard, answer,
                                        sizeof answer).count;
        back = arrive(fault % 3, answer, back);
        count = twin_device_step(&d, &given, device, job, n, answer, back, string, sizeof string).count;
        if (given.verdict) verdicts[given.transaction] = given.verdict;
    }
    twin_settle(given.standing, verdicts, verdict_count);
    return (twin_totals){sent, c.journal, 0};
}

// ---- the gateway

static int all_printable(const uint8_t *p, size_t n) {
    for (size_t i = 0; i < n; i++)
        if (!printable(p[i])) return 0;
    return 1;
}

static int all_digits(const uint8_t *p, size_t n) {
    for (size_t i = 0; i < n; i++)
        if (!digit(p[i])) return 0;
    return 1;
}

static int all_zero(const uint8_t *p, size_t n) {
    for (size_t i = 0; i < n; i++)
        if (p[i]) return 0;
    return 1;
}

static int snpp_in_range(const twin_snpp_state *s) {
    if (s->stage > TWIN_SNPP_CLOSED || s->digits > sizeof s->pager || s->length > sizeof s->message) return 0;
    if (s->stage != TWIN_SNPP_ENTERED && s->length != 0) return 0;
    if (s->stage == TWIN_SNPP_CLOSED && s->digits != 0) return 0;
    return all_digits(s->pager, s->digits) && all_zero(s->pager + s->digits, sizeof s->pager - s->digits) &&
           all_printable(s->message, s->length) && all_zero(s->message + s->length, sizeof s->message - s->length);
}

void twin_snpp_start(twin_snpp_state *state) { memset(state, 0, sizeof *state); }

static twin_answer tell(const char *number, uint8_t *out) {
    memcpy(out, number, 3);
    memcpy(out + 3, " \r\n", 3);
    return done(6);
}

twin_answer twin_snpp_greeting(uint8_t *out, size_t room) { return room < 6 ? refused(1) : tell("220", out); }

// The word, which is in small letters, stands there in letters of any case.
static int is_word(const uint8_t *line, const char *word) {
    for (int i = 0; i < 4; i++)
        if ((line[i] | 0x20) != word[i]) return 0;
    return 1;
}

static void forget(twin_snpp_state *s, uint8_t stage) {
    memset(s, 0, sizeof *s);
    s->stage = stage;
}

static twin_answer enter_pager(twin_snpp_state *s, const uint8_t *text, size_t n, uint8_t *out) {
    if (n < 1 || n > sizeof s->pager || !all_digits(text, n)) return tell("550", out);
    memset(s->pager, 0, sizeof s->pager);
    memcpy(s->pager, text, n);
    s->digits = n;
    return tell("250", out);
}

static twin_answer enter_message(twin_snpp_state *s, const uint8_t *text, size_t n, uint8_t *out) {
    if (!all_printable(text, n)) return tell("550", out);
    if (s->stage == TWIN_SNPP_ENTERED) return tell("503", out);
    memcpy(s->message, text, n);
    s->length = n;
    s->stage = TWIN_SNPP_ENTERED;
    return tell("250", out);
}

// The page as a transaction into the journal; its new length, or 0.
static size_t offer(const twin_snpp_state *s, size_t longest, const uint32_t *pagers, size_t pager_count,
                    uint8_t *journal, size_t length) {
    uint8_t t[MOST];
    size_t n = s->digits + s->length + 2;
    if (n > longest) return 0;
    memcpy(t, s->pager, s->digits);
    t[s->digits] = CR;
    memcpy(t + s->digits + 1, s->message, s->length);
    t[n - 1] = CR;
    return admitted(t, n, pagers, pager_count) ? extend(journal, length, t, n) : 0;
}

twin_answer twin_snpp_step(twin_snpp_state *s, const twin_snpp_settings *t, const uint32_t *pagers,
                           size_t pager_count, uint8_t *journal, size_t size, size_t *length, const uint8_t *line,
                           size_t n, uint8_t *out, size_t room) {
    if (t->longest < 3 || t->longest > MOST || !pagers_in_range(pagers, pager_count) || !snpp_in_range(s))
        return refused(9);
    if (room < 6) return refused(1);
    uint8_t wrong = check_in(journal, size, *length);
    if (wrong) return refused(wrong);
    if (n > TWIN_LINE) return refused(2);
    if (s->stage == TWIN_SNPP_CLOSED) return done(0);
    if (n > 4 && line[4] == ' ') {
        if (is_word(line, "page")) return enter_pager(s, line + 5, n - 5, out);
        if (is_word(line, "mess")) return enter_message(s, line + 5, n - 5, out);
    } else if (n == 4) {
        if (is_word(line, "send")) {
            if (s->stage != TWIN_SNPP_ENTERED || s->digits == 0) return tell("503", out);
            size_t longer = offer(s, t->longest, pagers, pager_count, journal, *length);
            forget(s, TWIN_SNPP_OPEN);
            if (longer == 0) return tell("554", out);
            *length = longer;
            return tell("250", out);
        }
        if (is_word(line, "rese")) {
            forget(s, TWIN_SNPP_OPEN);
            return tell("250", out);
        }
        if (is_word(line, "quit")) {
            forget(s, TWIN_SNPP_CLOSED);
            return tell("221", out);
        }
    }
    return tell("500", out);
}

static uint8_t *put_text(uint8_t *to, const void *text, size_t n) {
    memcpy(to, text, n);
    return to + n;
}

twin_answer twin_write_out(const uint8_t *journal, size_t n, uint8_t *out, size_t room) {
    part records[RECORDS];
    uint8_t *to = out;
    if (room < TWIN_LINES) return refused(1);
    twin_answer counted = twin_check_journal(journal, n);
    if (counted.code) return counted;
    const uint8_t *end = journal + n - 4;
    for (size_t i = counted.count; i > 0; i--) {
        size_t length = number_at(end - 2);
        end -= length + 2;
        if (page_number(end, length) < 0) return refused(6);
        records[i - 1] = (part){end, length};
    }
    for (size_t i = 0; i < counted.count; i++) {
        const uint8_t *info = records[i].info, *field = (const uint8_t *)memchr(info, CR, records[i].length) + 1;
        to = put_text(to, "PAGE ", 5);
        to = put_text(to, info, (size_t)(field - 1 - info));
        to = put_text(to, "\r\nMESS ", 7);
        to = put_text(to, field, (size_t)(info + records[i].length - 1 - field));
        to = put_text(to, "\r\nSEND\r\n", 8);
    }
    return done((size_t)(to - out));
}

// ---- deletions

static int is_open(const twin_central *s) { return s->stage == TWIN_LOGON || s->stage == TWIN_BLOCK; }

static uint8_t test_deletion(const twin_central *s, const uint8_t *journal, size_t size) {
    if (s->stage > TWIN_CLOSED || (!is_open(s) && (s->failures != 0 || s->length != 0))) return 9;
    uint8_t wrong = check_in(journal, size, s->journal);
    if (wrong) return wrong;
    return is_open(s) ? 9 : 0;
}

// The trailer behind so many records that end there.
static twin_answer put_trailer(twin_central *s, uint8_t *journal, size_t count, size_t end) {
    put_number(count, journal + end);
    put_number(end, journal + end + 2);
    return done(s->journal = end + 4);
}

twin_answer twin_delete(twin_central *s, uint8_t *journal, size_t size, size_t n) {
    uint8_t wrong = test_deletion(s, journal, size);
    if (wrong) return refused(wrong);
    size_t end = s->journal - 4, count = number_at(journal + end), from = end, to = end;
    if (n < 1 || n > count) return refused(9);
    for (; n > 0; n--) {
        from = to;
        to -= number_at(journal + to - 2) + 2;
    }
    memmove(journal + to, journal + from, end - from);
    return put_trailer(s, journal, count - 1, end - (from - to));
}

// The first field is a pager ID of this number.
static int is_for(const uint8_t *t, size_t n, uint32_t number) {
    const uint8_t *end = memchr(t, CR, n);
    int32_t found = end == NULL ? -1 : pager_number(t, (size_t)(end - t));
    return found >= 0 && (uint32_t)found == number;
}

twin_answer twin_delete_pager(twin_central *s, uint8_t *journal, size_t size, uint32_t number) {
    size_t starts[RECORDS + 1];
    uint8_t wrong = test_deletion(s, journal, size);
    if (wrong) return refused(wrong);
    size_t end = s->journal - 4, count = number_at(journal + end), kept = 0, to = 0;
    starts[count] = end;
    for (size_t i = count; i > 0; i--) starts[i - 1] = starts[i] - number_at(journal + starts[i] - 2) - 2;
    for (size_t i = 0; i < count; i++) {
        size_t from = starts[i], length = starts[i + 1] - from;
        if (is_for(journal + from, length - 2, number)) continue;
        if (to != from) memmove(journal + to, journal + from, length);
        to += length;
        kept++;
    }
    return kept == count ? refused(9) : put_trailer(s, journal, kept, to);
}
