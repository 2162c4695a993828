// The worked example for hosts: a whole call of both ends through the header, string by string, as
// document 01's last numbers have it: pager list 123, job 123/ABC then 9/X, clean line; verdicts 1, 2.
#include "../include/tyntolai.h"
#include <stdio.h>
#include <string.h>

static void print(const char *who, const uint8_t *bytes, size_t n) {
    printf("%s", who);
    for (size_t i = 0; i < n; i++) printf(" %02X", bytes[i]);
    printf("\n");
}

static int wrong(const char *what) {
    printf("wrong: %s\n", what);
    return 1;
}

int main(void) {
    static uint8_t job[TYNTOLAI_BUFFER], journal[TYNTOLAI_BUFFER]; // empty journals: four zeros
    static const uint8_t stored[14] = {0x31, 0x32, 0x33, 0x0D, 0x41, 0x42, 0x43, 0x0D, 0, 8, 0, 1, 0, 10};
    const uint32_t pagers[1] = {123};
    const tyntolai_device_settings device_settings = {{"SECRET", 6}, 2, TYNTOLAI_FILLED, TYNTOLAI_EARLY};
    const tyntolai_central_settings central_settings = {{"SECRET", 6}, 2000, 2};
    uint8_t string[TYNTOLAI_STRING], block[TYNTOLAI_STRING], answer[TYNTOLAI_ANSWER], pending[TYNTOLAI_PENDING];
    uint8_t verdicts[2] = {TYNTOLAI_UNSENT, TYNTOLAI_UNSENT};
    size_t transmissions = 0;

    // The job is a journal of its own.
    tyntolai_answer length = tyntolai_append(job, sizeof job, 4, (const uint8_t *)"123\rABC\r", 8);
    if (length.code == 0) length = tyntolai_append(job, sizeof job, length.count, (const uint8_t *)"9\rX\r", 4);
    if (length.code != 0) return wrong("the job");

    // The device puts out a string, the central answers, the device reads the answer, until it stops.
    tyntolai_central_state central = tyntolai_central_start(4);
    tyntolai_framer_fed fed = {0}; // its state holds nothing
    tyntolai_device_stepped device =
        tyntolai_device_start(device_settings, job, length.count, string, sizeof string);
    if (device.answer.code != 0) return wrong("the device's start");
    while (device.answer.count > 0) {
        const uint8_t *came = string;
        size_t n = device.answer.count;
        print("device ", string, n);
        transmissions++;
        if (central.stage == TYNTOLAI_BLOCK) { // the wire brings a byte at a time
            for (size_t i = 0; i < n; i++) fed = tyntolai_framer_feed(fed.state, string + i, 1, block, sizeof block);
            if (fed.answer.count != n) return wrong("the framer");
            came = block;
        }
        tyntolai_central_stepped heard =
            tyntolai_central_step(central, central_settings, pagers, 1, journal, sizeof journal, pending,
                                  sizeof pending, came, n, answer, sizeof answer);
        if (heard.answer.code != 0) return wrong("a step of the central");
        central = heard.state;
        print("central", answer, heard.answer.count);
        device = tyntolai_device_step(device.state, device_settings, job, length.count, answer,
                                      heard.answer.count, string, sizeof string);
        if (device.answer.code != 0) return wrong("a step of the device");
        const tyntolai_span lines = device.remarks.lines; // what the central wrote before its code
        if (device.remarks.found != 0) print("  wrote", answer + lines.begin, lines.end - lines.begin);
        if (device.verdict != 0) verdicts[device.transaction] = device.verdict;
        if (device.standing != TYNTOLAI_STANDING_OPEN) tyntolai_settle(device.standing, verdicts, sizeof verdicts);
    }
    print("verdicts", verdicts, sizeof verdicts);
    print("journal", journal, central.journal);
    if (verdicts[0] != TYNTOLAI_ACCEPTED || verdicts[1] != TYNTOLAI_REJECTED) return wrong("the verdicts");
    if (central.journal != sizeof stored || memcmp(journal, stored, sizeof stored) != 0) return wrong("the journal");
    if (device.state.step != TYNTOLAI_STOPPED || device.report != 1 + TYNTOLAI_EOT ||
        device.standing != TYNTOLAI_STANDING_CONFIRMED) {
        return wrong("the close");
    }

    // A central that writes lines before its code: where the last of them with ID stands.
    const size_t said = tyntolai_set_parity((const uint8_t *)"OK\r\nID 7\r\n\x06\r", 12, string, sizeof string).count;
    const tyntolai_remarks remarks = tyntolai_read_remarks(string, said);
    print("ID line", string + remarks.id.begin, remarks.id.end - remarks.id.begin);
    if (remarks.found != 2 || remarks.lines.begin != 0 || remarks.lines.end != 10 || remarks.id.begin != 4 ||
        remarks.id.end != 8) {
        return wrong("the remarks");
    }

    // Memory of another size is no part of a state. The line is dropped, and the central waits for the next call.
    if (tyntolai_central_hang_up(central, central_settings, pending, sizeof pending - 1).answer.code != 9 ||
        tyntolai_central_step(central, central_settings, pagers, 1, journal, sizeof journal, pending,
                              sizeof pending - 1, string, 0, answer, sizeof answer).answer.code != 9) {
        return wrong("short memory");
    }
    tyntolai_central_stepped dropped = tyntolai_central_hang_up(central, central_settings, pending, sizeof pending);
    if (dropped.answer.code != 0 || dropped.state.stage != TYNTOLAI_IDLE) return wrong("hanging up");

    // The same by the run of both ends in one call.
    static uint8_t again[TYNTOLAI_BUFFER];
    uint8_t given[2];
    tyntolai_totals totals = tyntolai_run(job, length.count, device_settings, central_settings, pagers, 1, again,
                                          sizeof again, 4, string, 0, given, sizeof given);
    if (totals.code != 0 || totals.transmissions != transmissions || totals.journal != central.journal ||
        memcmp(again, journal, sizeof again) != 0 || memcmp(given, verdicts, sizeof given) != 0) {
        return wrong("the run");
    }

    // With whole fields these pages take a block each too, and all goes the same. A number that is no way is refused.
    static uint8_t whole[TYNTOLAI_BUFFER];
    const tyntolai_device_settings whole_fields = {{"SECRET", 6}, 2, TYNTOLAI_WHOLE_FIELDS, TYNTOLAI_EARLY};
    const tyntolai_device_settings no_way = {{"SECRET", 6}, 2, 2, TYNTOLAI_EARLY};
    totals = tyntolai_run(job, length.count, whole_fields, central_settings, pagers, 1, whole, sizeof whole, 4, string,
                          0, given, sizeof given);
    if (totals.code != 0 || totals.transmissions != transmissions || memcmp(whole, journal, sizeof whole) != 0) {
        return wrong("the run with whole fields");
    }
    totals = tyntolai_run(job, length.count, no_way, central_settings, pagers, 1, whole, sizeof whole, 4, string, 0,
                          given, sizeof given);
    if (totals.code != 9 || memcmp(whole, journal, sizeof whole) != 0) return wrong("the run in no way");
    device = tyntolai_device_start(no_way, job, length.count, string, sizeof string);
    if (device.answer.code != 9 || device.state.step != TYNTOLAI_STOPPED) return wrong("the start in no way");

    // Late, where the answer to the close is lost (fault 2): the page that was accepted is in doubt. A number that is
    // neither early nor late is refused, and so is one that is no standing.
    static uint8_t last[TYNTOLAI_BUFFER];
    const tyntolai_device_settings late = {{"SECRET", 6}, 2, TYNTOLAI_FILLED, TYNTOLAI_LATE};
    const tyntolai_device_settings neither = {{"SECRET", 6}, 2, TYNTOLAI_FILLED, 2};
    uint8_t faults[5] = {0, 0, 0, 0, 2};
    totals = tyntolai_run(job, length.count, late, central_settings, pagers, 1, last, sizeof last, 4, faults,
                          sizeof faults, given, sizeof given);
    if (totals.code != 0 || totals.transmissions != sizeof faults || memcmp(last, journal, sizeof last) != 0 ||
        given[0] != TYNTOLAI_IN_DOUBT || given[1] != TYNTOLAI_REJECTED) {
        return wrong("the late run");
    }
    device = tyntolai_device_start(neither, job, length.count, string, sizeof string);
    if (device.answer.code != 9 || device.state.step != TYNTOLAI_STOPPED) return wrong("neither early nor late");
    if (tyntolai_settle(3, verdicts, sizeof verdicts).code != 9 || verdicts[0] != TYNTOLAI_ACCEPTED) {
        return wrong("settling by no standing");
    }
    printf("%zu transmissions: as it should be\n", transmissions);
    return 0;
}
