// Plain C twins of the product's functions: the same work with the same checks and refusals. States are
// changed in place, as a C program would do it. A measure of speed, and no independent model.
#ifndef TWIN_H
#define TWIN_H
#include <stddef.h>
#include <stdint.h>

enum { TWIN_BUFFER = 32004, TWIN_PENDING = 2000 };

// What a call comes to: 0 or the refusal's number, and the count, which is 0 where it is refused.
typedef struct {
    size_t count;
    uint8_t code;
} twin_answer;

typedef struct {
    uint8_t characters[6];
    size_t length;
} twin_password;

enum { TWIN_FILLED, TWIN_WHOLE_FIELDS };
enum { TWIN_EARLY, TWIN_LATE };

typedef struct {
    twin_password password;
    size_t retries;
    uint8_t way;
    uint8_t confirmation;
} twin_device_settings;

typedef struct {
    twin_password password;
    size_t longest;
    size_t retries;
} twin_central_settings;

enum { TWIN_STOPPED, TWIN_OPENING, TWIN_LOGGING_ON, TWIN_SENDING, TWIN_CLOSING };

typedef struct {
    uint8_t step;
    size_t transaction, block, attempts;
} twin_device;

enum { TWIN_OPEN, TWIN_CONFIRMED, TWIN_IN_DOUBT };

typedef struct {
    size_t begin, end;
} twin_span;

// Where the lines before a reply's code stand (found is 1), and the last that begins with ID (2).
typedef struct {
    uint8_t found;
    twin_span lines, id;
} twin_remarks;

// What a step of the device gives: a verdict (0: none) on a transaction, the closing reply
// (0: none, else 1 plus its number), how the accepted verdicts stand, and the remarks of the reply.
typedef struct {
    uint8_t verdict;
    size_t transaction;
    uint8_t report;
    uint8_t standing;
    twin_remarks remarks;
} twin_given;

enum { TWIN_IDLE, TWIN_LOGON, TWIN_BLOCK, TWIN_CLOSED };

typedef struct {
    uint8_t stage;
    size_t failures;
    uint8_t pending[TWIN_PENDING];
    size_t length;
    size_t journal;
} twin_central;

enum { TWIN_UNREAD, TWIN_ID_REQUEST, TWIN_ACCEPTANCE, TWIN_ACK, TWIN_NAK, TWIN_RS, TWIN_EOT };

typedef struct {
    uint8_t held[256];
    size_t length;
} twin_framer;

typedef struct {
    size_t transmissions, journal;
    uint8_t code;
} twin_totals;

enum { TWIN_LINE = 2048, TWIN_LINES = 33024 };

typedef struct {
    size_t longest;
} twin_snpp_settings;

enum { TWIN_SNPP_OPEN, TWIN_SNPP_ENTERED, TWIN_SNPP_CLOSED };

typedef struct {
    uint8_t stage;
    uint8_t pager[8];
    size_t digits;
    uint8_t message[2043];
    size_t length;
} twin_snpp_state;

twin_answer twin_set_parity(const uint8_t *text, size_t n, uint8_t *out, size_t room);
twin_answer twin_clear_parity(const uint8_t *line, size_t n, uint8_t *out, size_t room);
uint16_t twin_checksum(const uint8_t *text, size_t n);
uint16_t twin_checksum_add(uint16_t sum, uint8_t character);
twin_answer twin_check_characters(uint16_t sum, uint8_t *out, size_t room);
twin_answer twin_write_block(const uint8_t *info, size_t n, uint8_t ending, uint8_t *out, size_t room);
twin_answer twin_read_block(const uint8_t *text, size_t n);
twin_answer twin_write_segments(uint8_t way, const uint8_t *info, size_t n, uint8_t *out, size_t room);
twin_answer twin_check_journal(const uint8_t *journal, size_t n);
twin_answer twin_append(uint8_t *buffer, size_t size, size_t length, const uint8_t *info, size_t n);
uint8_t twin_read_reply(const uint8_t *bytes, size_t n);
twin_remarks twin_read_remarks(const uint8_t *bytes, size_t n);
twin_answer twin_framer_feed(twin_framer *state, size_t *used, const uint8_t *bytes, size_t n, uint8_t *out,
                             size_t room);
twin_answer twin_framer_flush(twin_framer *state, uint8_t *out, size_t room);
void twin_central_start(twin_central *state, size_t journal);
twin_answer twin_central_hang_up(twin_central *state, const twin_central_settings *settings);
twin_answer twin_central_step(twin_central *state, const twin_central_settings *settings,
                              const uint32_t *pagers, size_t pager_count, uint8_t *journal, size_t size,
                              const uint8_t *string, size_t n, uint8_t *out, size_t room);
twin_answer twin_device_start(twin_device *state, const twin_device_settings *settings,
                              const uint8_t *job, size_t n, uint8_t *out, size_t room);
twin_answer twin_device_step(twin_device *state, twin_given *given, const twin_device_settings *settings,
                             const uint8_t *job, size_t n, const uint8_t *reply, size_t reply_length,
                             uint8_t *out, size_t room);
twin_answer twin_settle(uint8_t standing, uint8_t *verdicts, size_t n);
twin_totals twin_run(const uint8_t *job, size_t n, const twin_device_settings *device,
                     const twin_central_settings *central, const uint32_t *pagers, size_t pager_count,
                     uint8_t *journal, size_t size, size_t length, const uint8_t *faults,
                     size_t fault_count, uint8_t *verdicts, size_t verdict_count);
void twin_snpp_start(twin_snpp_state *state);
twin_answer twin_snpp_greeting(uint8_t *out, size_t room);
twin_answer twin_snpp_step(twin_snpp_state *state, const twin_snpp_settings *settings, const uint32_t *pagers,
                           size_t pager_count, uint8_t *journal, size_t size, size_t *length, const uint8_t *line,
                           size_t n, uint8_t *out, size_t room);
twin_answer twin_write_out(const uint8_t *journal, size_t n, uint8_t *out, size_t room);
twin_answer twin_delete(twin_central *state, uint8_t *journal, size_t size, size_t n);
twin_answer twin_delete_pager(twin_central *state, uint8_t *journal, size_t size, uint32_t number);
#endif
