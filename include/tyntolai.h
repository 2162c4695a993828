// Tyntolai: a TAP pager link. The functions of the static library libabi.a (rt lib, in crates/abi).
//
// Every call is settled for every input. `code` is 0 where it is done, or the number of the refusal;
// a refusal has count 0 and leaves all memory and every state as it was:
//   1 an output or work buffer has the wrong size or is short   6 a character of the information, or its ending
//   2 a length outside the limits                               7 journal or job not well formed
//   3 a byte of odd parity, or of 80 hex or more                8 the journal lacks room
//   4 frame: STX, ending, check characters' range, CR           9 a setting, list, fault or state out of range
//   5 the checksum
// A pointer is followed by the length of what it points to. It is never null, even where the length
// is 0, and what is written overlaps nothing else of the call. Bytes behind an answer stay.
#ifndef TYNTOLAI_H
#define TYNTOLAI_H

#include <stddef.h>
#include <stdint.h>

#ifdef __cplusplus
extern "C" {
#endif

enum {
    TYNTOLAI_STRING = 256,     // room for any string of the device
    TYNTOLAI_BLOCKS = 2090,    // room for all blocks of any transaction
    TYNTOLAI_ANSWER = 7,       // room for any answer of the central
    TYNTOLAI_PENDING = 2000,   // the central's unfinished information
    TYNTOLAI_BUFFER = 32004,   // the size of a journal's buffer, exactly
    TYNTOLAI_SNPP_LINE = 2048, // the longest line of a gateway's client
    TYNTOLAI_SNPP_ANSWER = 6,  // room for any answer of the gateway
    TYNTOLAI_LINES = 33024     // room for any journal written out
};

// What a call comes to.
typedef struct {
    size_t count;
    uint8_t code;
} tyntolai_answer;

// 0 to 6 letters and digits.
typedef struct {
    uint8_t characters[6];
    size_t length;
} tyntolai_password;

// ---- Characters and blocks

// Characters below 80 hex to the line: each with bit 7 set so that its ones are even. Refusals 1, 3.
tyntolai_answer tyntolai_set_parity(const uint8_t *text, size_t text_length, uint8_t *out, size_t room);

// Bytes of the line to characters, each tested for even parity. Refusals 1, 3.
tyntolai_answer tyntolai_clear_parity(const uint8_t *line, size_t line_length, uint8_t *out, size_t room);

// The sum of the 7-bit values, modulo 4,096.
uint16_t tyntolai_checksum(const uint8_t *text, size_t text_length);

// The same for a caller that brings characters one at a time, from 0 on: the sum with one character
// more, modulo 4,096. Twelve bits hold it, whatever the sum was.
uint16_t tyntolai_checksum_add(uint16_t sum, uint8_t character);

// The three characters that carry a sum, modulo 4,096: count is 3. Refusal 1.
tyntolai_answer tyntolai_check_characters(uint16_t sum, uint8_t *out, size_t room);

// A block of at most 250 characters of information with an ending, 03, 17 or 1F hex (ETX, ETB, US):
// six characters more. Parity is off. Refusals 9 (ending), 1, 2, 3, 6.
tyntolai_answer tyntolai_write_block(const uint8_t *info, size_t info_length, uint8_t ending, uint8_t *out,
                                     size_t room);

// Reads a block, its parity taken off: count is the length of the information, which lies at text + 1,
// its ending behind it. Refusals 2, 3, 4, 5, 6.
tyntolai_answer tyntolai_read_block(const uint8_t *text, size_t text_length);

// How a transaction is cut into blocks: each block is filled to 250, or, for centrals that cannot join, takes
// as many complete fields as fit. Whole fields need each field, with its CR, to have at most 250 characters.
enum { TYNTOLAI_FILLED = 0, TYNTOLAI_WHOLE_FIELDS = 1 };

// All blocks of a transaction of 1 to 2,000 characters, cut in one of these ways, one after the other. They
// need room for the information and six bytes a block (filled), or TYNTOLAI_BLOCKS bytes (whole fields).
// Refusals 9 (way), 1, 2, 3, 6, 2 (whole fields: a field too long).
tyntolai_answer tyntolai_write_segments(uint8_t way, const uint8_t *info, size_t info_length, uint8_t *out,
                                        size_t room);

// ---- The journal; a job is one too. An empty one is four zeros.

// A journal lent at its exact length: count is its records. Refusal 7.
tyntolai_answer tyntolai_check_journal(const uint8_t *journal, size_t journal_length);

// One transaction more in the journal of this length at the start of a buffer of TYNTOLAI_BUFFER bytes:
// count is the journal's new length. Refusals 1, 7, 2, 3, 6, 8.
tyntolai_answer tyntolai_append(uint8_t *buffer, size_t size, size_t journal_length, const uint8_t *info,
                                size_t info_length);

// ---- Replies

enum {
    TYNTOLAI_UNRECOGNIZED = 0,
    TYNTOLAI_ID_REQUEST = 1,
    TYNTOLAI_ACCEPTANCE = 2,
    TYNTOLAI_ACK = 3,
    TYNTOLAI_NAK = 4,
    TYNTOLAI_RS = 5,
    TYNTOLAI_EOT = 6
};

// What the bytes of a reply mean, as they came off the line: one of the above.
uint8_t tyntolai_read_reply(const uint8_t *bytes, size_t byte_count);

// A part of a reply: its bytes from begin on, up to end.
typedef struct {
    size_t begin;
    size_t end;
} tyntolai_span;

// What the central wrote before the code, in an acceptance before its ACK: found is 0 where there are no
// places (an ID request, or nothing recognized), 1 where lines is the place of the lines, their endings
// included (0 to 0: none were written), and 2 where id is also that of the last of them that begins with
// ID, its ending left out. A span that is not there is 0 to 0. Both always lie within the reply.
typedef struct {
    uint8_t found;
    tyntolai_span lines;
    tyntolai_span id;
} tyntolai_remarks;

// The places in the bytes of a reply, as they came off the line.
tyntolai_remarks tyntolai_read_remarks(const uint8_t *bytes, size_t byte_count);

// ---- Bytes as a wire brings them

// What is held of a string that is not complete: its bytes as they came, zeros behind them, and how many
// they are. A record of zeros holds nothing, and is the start.
typedef struct {
    uint8_t held[256];
    size_t length;
} tyntolai_framer;

typedef struct {
    tyntolai_answer answer;
    size_t used;
    tyntolai_framer state;
} tyntolai_framer_fed;

typedef struct {
    tyntolai_answer answer;
    tyntolai_framer state;
} tyntolai_framer_flushed;

// Bytes of the wire, in pieces of any length, to the strings that the central's Block stage is given; in
// Idle and Logon the driver cuts at CR. What comes before STX or EOT is skipped. From STX a string goes up
// to four characters behind the first ETX, ETB or US, and has at most 256; from EOT it has two. Bytes are
// judged on their low seven bits, and handed over as they came. Count bytes of a string go to out
// (TYNTOLAI_STRING or more), 0 where none is complete yet; the first `used` bytes are done with: feed again
// with the rest while used is below byte_count. Refusals 9, 1.
tyntolai_framer_fed tyntolai_framer_feed(tyntolai_framer state, const uint8_t *bytes, size_t byte_count,
                                         uint8_t *out, size_t room);

// The wire is silent: what is held goes to out as it stands, and nothing is held then. Refusals 9, 1.
tyntolai_framer_flushed tyntolai_framer_flush(tyntolai_framer state, uint8_t *out, size_t room);

// ---- The central

// The longest transaction is 3 to 2,000 characters, the retry limit 0 to 9.
typedef struct {
    tyntolai_password password;
    size_t longest;
    size_t retries;
} tyntolai_central_settings;

enum { TYNTOLAI_IDLE = 0, TYNTOLAI_LOGON = 1, TYNTOLAI_BLOCK = 2, TYNTOLAI_CLOSED = 3 };

// The central between two strings: its stage, the failures in a row, the length of the unfinished
// information, and the length of the journal. The unfinished information itself lies at the start of
// memory of TYNTOLAI_PENDING bytes that the caller keeps beside the state and lends to each step; with any
// other size the state is out of range.
typedef struct {
    uint8_t stage;
    size_t failures;
    size_t length;
    size_t journal;
} tyntolai_central_state;

typedef struct {
    tyntolai_answer answer;
    tyntolai_central_state state;
} tyntolai_central_stepped;

// The state before the first call, over a journal of this length; the memory beside it may hold anything.
tyntolai_central_state tyntolai_central_start(size_t journal_length);

// A string as it came off the line, of no bytes where nothing came: count bytes of answer go to out
// (TYNTOLAI_ANSWER or more). At most 1,000 pager numbers below 100,000,000. Refusals 9, 1, 7.
tyntolai_central_stepped tyntolai_central_step(tyntolai_central_state state, tyntolai_central_settings settings,
                                               const uint32_t *pagers, size_t pager_count, uint8_t *journal,
                                               size_t size, uint8_t *pending, size_t pending_size,
                                               const uint8_t *string, size_t string_length, uint8_t *out,
                                               size_t room);

// The line was dropped: the central waits for the next call. Refusal 9.
tyntolai_central_stepped tyntolai_central_hang_up(tyntolai_central_state state, tyntolai_central_settings settings,
                                                  const uint8_t *pending, size_t pending_size);

// The n-th record from the newest, which is 1, is deleted from the journal at the start of a buffer of
// TYNTOLAI_BUFFER bytes: the records behind it move down, and count is the journal's new length, which the state
// has too. Bytes behind that journal stay as they were lent. No call may be open: the stage is Idle or Closed.
// Refusals 9 (a stage that is none; in Idle and Closed, failures or unfinished information), 1, 7, 9 (a call is
// open, or there is no such record).
tyntolai_central_stepped tyntolai_delete(tyntolai_central_state state, uint8_t *journal, size_t size, size_t n);

// The same with every record for a pager number: the first field is 1 to 8 digits that write it, leading zeros
// allowed. Refusals 9, 1, 7, 9 (as above).
tyntolai_central_stepped tyntolai_delete_pager(tyntolai_central_state state, uint8_t *journal, size_t size,
                                               uint32_t number);

// ---- The entry device

// When an accepted verdict stands. Early: as soon as it is given. Late, for centrals that say no at the close:
// once the close is answered with ESC EOT; any other stop puts it in doubt.
enum { TYNTOLAI_EARLY = 0, TYNTOLAI_LATE = 1 };

// The retry limit is 0 to 9, the way of cutting TYNTOLAI_FILLED (0) or TYNTOLAI_WHOLE_FIELDS (1), the
// confirmation TYNTOLAI_EARLY (0) or TYNTOLAI_LATE (1).
typedef struct {
    tyntolai_password password;
    size_t retries;
    uint8_t way;
    uint8_t confirmation;
} tyntolai_device_settings;

enum {
    TYNTOLAI_STOPPED = 0,
    TYNTOLAI_OPENING = 1,
    TYNTOLAI_LOGGING_ON = 2,
    TYNTOLAI_SENDING = 3,
    TYNTOLAI_CLOSING = 4
};

// The device between two replies: the step it waits in; the transaction and block that it sends, from 0
// (0 outside Sending); how often the string was sent.
typedef struct {
    uint8_t step;
    size_t transaction;
    size_t block;
    size_t attempts;
} tyntolai_device_state;

enum {
    TYNTOLAI_ACCEPTED = 1,
    TYNTOLAI_REJECTED = 2,
    TYNTOLAI_UNCONFIRMED = 3,
    TYNTOLAI_DEFERRED = 4,
    TYNTOLAI_UNSENT = 5,
    TYNTOLAI_IN_DOUBT = 6 // no step gives it: accepted ones come to it at the stop
};

// How the accepted verdicts of a call stand. Open: nothing is said of them, the call goes on or was over
// before. Confirmed: they stay accepted. In doubt: each becomes TYNTOLAI_IN_DOUBT.
enum { TYNTOLAI_STANDING_OPEN = 0, TYNTOLAI_STANDING_CONFIRMED = 1, TYNTOLAI_STANDING_IN_DOUBT = 2 };

// The verdict that a step gives (0: none) and on which transaction; the reply to the close
// (0: this step reports none; else 1 plus its number, so that silence and what is not recognized are 1);
// how the accepted verdicts stand; and what the central wrote in the reply just read: no places where the
// step counts the reply as unread. A driver keeps the verdicts given, and at the step that stops, which
// says confirmed or in doubt, calls tyntolai_settle on them.
typedef struct {
    tyntolai_answer answer;
    tyntolai_device_state state;
    uint8_t verdict;
    size_t transaction;
    uint8_t report;
    uint8_t standing;
    tyntolai_remarks remarks;
} tyntolai_device_stepped;

// The start of a call for a job lent at its exact length: count bytes of the first string go to out
// (TYNTOLAI_STRING or more). Refusals 9, 1, 7, 2 (whole fields: a field of the job too long).
tyntolai_device_stepped tyntolai_device_start(tyntolai_device_settings settings, const uint8_t *job,
                                              size_t job_length, uint8_t *out, size_t room);

// A reply as it came off the line, of no bytes where nothing came: count bytes of the next string go to
// out, none once the device has stopped. Refusals 9, 1, 7, 2 (as the start), 9 (transaction and block).
tyntolai_device_stepped tyntolai_device_step(tyntolai_device_state state, tyntolai_device_settings settings,
                                             const uint8_t *job, size_t job_length, const uint8_t *reply,
                                             size_t reply_length, uint8_t *out, size_t room);

// Settles verdicts, a byte each, by a step's standing: in doubt, every TYNTOLAI_ACCEPTED becomes
// TYNTOLAI_IN_DOUBT; no other byte ever changes. Count is verdict_count. Refusal 9 (standing).
tyntolai_answer tyntolai_settle(uint8_t standing, uint8_t *verdicts, size_t verdict_count);

// ---- A whole call

// The strings that the device put out, and the journal's new length.
typedef struct {
    size_t transmissions;
    size_t journal;
    uint8_t code;
} tyntolai_totals;

// Runs a job against the central. A fault for each transmission, 0 to 8: 3 times what becomes of the
// string plus what becomes of its answer (0 whole, 1 garbled, 2 lost); past the list all is whole. One
// byte of verdict for each transaction, settled. Refusals 9, 1, 7, 2 (as the device), 1 (verdicts).
tyntolai_totals tyntolai_run(const uint8_t *job, size_t job_length, tyntolai_device_settings device,
                             tyntolai_central_settings central, const uint32_t *pagers, size_t pager_count,
                             uint8_t *journal, size_t size, size_t journal_length, const uint8_t *faults,
                             size_t fault_count, uint8_t *verdicts, size_t verdict_count);

// ---- The gateway: SNPP (RFC 1861, level 1) in front of the journal

// The longest transaction is 3 to 2,000 characters.
typedef struct {
    size_t longest;
} tyntolai_snpp_settings;

// Open: no message has been entered. Entered: one has. Closed: the session is over.
enum { TYNTOLAI_SNPP_OPEN = 0, TYNTOLAI_SNPP_ENTERED = 1, TYNTOLAI_SNPP_CLOSED = 2 };

// A session between two lines: its stage; the pager ID entered last and how many digits it has (0: none); the
// message and its length. Zeros stand behind both. The caller keeps a state for each client, and the journal's
// buffer and length beside them: the length is no part of a state, so that sessions may share a journal.
typedef struct {
    uint8_t stage;
    uint8_t pager[8];
    size_t digits;
    uint8_t message[2043];
    size_t length;
} tyntolai_snpp_state;

// The state behind the step, and the journal's length behind it.
typedef struct {
    tyntolai_answer answer;
    tyntolai_snpp_state state;
    size_t journal;
} tyntolai_snpp_stepped;

// The state before the first line: a record of zeros.
tyntolai_snpp_state tyntolai_snpp_start(void);

// What a client waits for before its first command, 220: count is 6, and as many bytes go to out
// (TYNTOLAI_SNPP_ANSWER or more). Refusal 1.
tyntolai_answer tyntolai_snpp_greeting(uint8_t *out, size_t room);

// A line of at most TYNTOLAI_SNPP_LINE bytes, its ending off: count bytes of answer go to out
// (TYNTOLAI_SNPP_ANSWER or more), none once the session is over. SEND stores a page in the journal of this
// length at the start of a buffer of TYNTOLAI_BUFFER bytes; all else leaves the journal. At most 1,000 pager
// numbers below 100,000,000. Refusals 9 (settings, pager list, state), 1, 7, 2.
tyntolai_snpp_stepped tyntolai_snpp_step(tyntolai_snpp_state state, tyntolai_snpp_settings settings,
                                         const uint32_t *pagers, size_t pager_count, uint8_t *journal,
                                         size_t size, size_t journal_length, const uint8_t *line,
                                         size_t line_length, uint8_t *out, size_t room);

// A journal lent at its exact length, its records oldest first as the lines PAGE, MESS and SEND, each with CR
// LF: count bytes go to out (TYNTOLAI_LINES or more). Line by line, the CR LF off, a gateway takes them in
// again. Refusals 1, 7, 6 (a record that is not two fields, the first 1 to 8 digits).
tyntolai_answer tyntolai_write_out(const uint8_t *journal, size_t journal_length, uint8_t *out, size_t room);

#ifdef __cplusplus
}
#endif
#endif
