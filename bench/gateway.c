// SNPP on standard input and output, as inetd or a systemd socket hands them to a program for each client:
//     gateway JOURNAL PAGER..
// JOURNAL is the journal's file, made where there is none; the numbers behind it are the pager list.
#include "../include/tyntolai.h"
#include <fcntl.h>
#include <stdio.h>
#include <stdlib.h>
#include <string.h>
#include <sys/file.h>
#include <unistd.h>

enum { PAGERS = 1000 };

static uint8_t journal[TYNTOLAI_BUFFER];
static uint32_t pagers[PAGERS];
static size_t pager_count;

// The length of the next line, its ending off, or -1 where the client has hung up before its end. Of a line
// that is too long one byte too many is kept.
static long read_line(uint8_t *line) {
    long n = 0;
    int c;
    while ((c = getchar()) != EOF && c != '\n') {
        if (n <= TYNTOLAI_SNPP_LINE) line[n] = (uint8_t)c;
        if (n <= TYNTOLAI_SNPP_LINE + 1) n++;
    }
    if (c == EOF) return -1;
    if (n > 0 && n <= TYNTOLAI_SNPP_LINE + 1 && line[n - 1] == '\r') n--;
    return n <= TYNTOLAI_SNPP_LINE ? n : TYNTOLAI_SNPP_LINE + 1;
}

// The journal's length in its file, with its bytes in memory; an empty file is the empty journal.
static size_t load(int file) {
    ssize_t n = pread(file, journal, sizeof journal, 0);
    if (n == 0) {
        memset(journal, 0, 4);
        n = pwrite(file, journal, 4, 0);
    }
    return n > 0 ? (size_t)n : 0;
}

// The pager list; 0 where an argument is no number of at most eight digits, or there are too many.
static int list_pagers(int count, char **numbers) {
    for (int i = 0; i < count; i++) {
        size_t n = strlen(numbers[i]);
        if (i == PAGERS || n < 1 || n > 8 || strspn(numbers[i], "0123456789") != n) return 0;
        pagers[pager_count++] = (uint32_t)strtoul(numbers[i], NULL, 10);
    }
    return 1;
}

// A step over the journal as it is now, which no other program changes meanwhile; what SEND has stored is in
// the file before anything is answered. 0 where the line is to be dropped.
static int take(int file, tyntolai_snpp_state *state, const uint8_t *line, size_t length) {
    const tyntolai_snpp_settings settings = {2000};
    uint8_t out[TYNTOLAI_SNPP_ANSWER];
    if (flock(file, LOCK_EX) != 0) return 0;
    size_t before = load(file);
    tyntolai_snpp_stepped stepped = tyntolai_snpp_step(*state, settings, pagers, pager_count, journal,
                                                       sizeof journal, before, line, length, out, sizeof out);
    int kept = stepped.journal == before ||
               (pwrite(file, journal, stepped.journal, 0) == (ssize_t)stepped.journal && fsync(file) == 0);
    flock(file, LOCK_UN);
    if (stepped.answer.code != 0) fprintf(stderr, "refused %d\n", stepped.answer.code);
    *state = stepped.state;
    return kept && stepped.answer.code == 0 && fwrite(out, 1, stepped.answer.count, stdout) == stepped.answer.count &&
           fflush(stdout) == 0;
}

int main(int argc, char **argv) {
    uint8_t line[TYNTOLAI_SNPP_LINE + 1], out[TYNTOLAI_SNPP_ANSWER];
    int file = argc < 2 ? -1 : open(argv[1], O_RDWR | O_CREAT, 0600);
    if (file < 0 || !list_pagers(argc - 2, argv + 2)) return 1;

    tyntolai_answer greeting = tyntolai_snpp_greeting(out, sizeof out);
    fwrite(out, 1, greeting.count, stdout);
    fflush(stdout);
    tyntolai_snpp_state state = tyntolai_snpp_start();
    long n;
    while (state.stage != TYNTOLAI_SNPP_CLOSED && (n = read_line(line)) >= 0)
        if (!take(file, &state, line, (size_t)n)) return 1;
    return 0;
}
