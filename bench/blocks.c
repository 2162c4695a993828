// Plain C twin of the program `blocks` (document 01), with the same checks: lines from standard
// input, each cut at its first space into two fields, its blocks printed.
// gcc -O2 -o blocks_c blocks.c
#include <stdint.h>
#include <string.h>
#include <unistd.h>

#define KEPT 2000
#define ROOM 10248

static uint8_t piece[65536], line[KEPT], out[65536];
static size_t kept, waiting;

static void write_all(const uint8_t *p, size_t n) {
    while (n > 0) {
        ssize_t w = write(1, p, n);
        if (w <= 0) return;
        p += w;
        n -= (size_t)w;
    }
}

static uint8_t *refuse(int number, uint8_t *to) {
    memcpy(to, "refused ", 8);
    to[8] = (uint8_t)('0' + number);
    to[9] = '\n';
    return to + 10;
}

// A block of the information with the ending, as it is printed, on a line of its own.
static uint8_t *put_block(const uint8_t *info, size_t n, int last, uint8_t *to) {
    unsigned sum = 0x02;
    memcpy(to, "<STX>", 5);
    to += 5;
    for (size_t i = 0; i < n; i++) {
        uint8_t c = info[i];
        sum += c;
        if (c == 0x0D) {
            memcpy(to, "<CR>", 4);
            to += 4;
        } else {
            *to++ = c;
        }
    }
    if (last) {
        sum += 0x03;
        memcpy(to, "<ETX>", 5);
        to += 5;
    } else if (info[n - 1] == 0x0D) {
        sum += 0x17;
        memcpy(to, "<ETB>", 5);
        to += 5;
    } else {
        sum += 0x1F;
        memcpy(to, "<US>", 4);
        to += 4;
    }
    to[0] = (uint8_t)(0x30 + (sum >> 8 & 15));
    to[1] = (uint8_t)(0x30 + (sum >> 4 & 15));
    to[2] = (uint8_t)(0x30 + (sum & 15));
    memcpy(to + 3, "<CR>\n", 5);
    return to + 8;
}

// What the line of n characters prints. One that is printed has its CRs put in, in place.
static uint8_t *list(uint8_t *text, size_t n, uint8_t *to) {
    size_t space = n;
    int wrong = 0;
    if (n > 1999) return refuse(2, to);
    for (size_t i = 0; i < n; i++) {
        uint8_t c = text[i];
        if (c >= 0x80) return refuse(3, to);
        if (c < 0x20 || c > 0x7E) wrong = 1;
        if (c == ' ' && space == n) space = i;
    }
    if (wrong || space == n) return refuse(6, to);
    text[space] = 0x0D;
    text[n++] = 0x0D;
    while (n > 250) {
        to = put_block(text, 250, 0, to);
        text += 250;
        n -= 250;
    }
    return put_block(text, n, 1, to);
}

static void print(uint8_t *text, size_t n) {
    if (sizeof out < waiting + ROOM) {
        write_all(out, waiting);
        waiting = 0;
    }
    waiting = (size_t)(list(text, n, out + waiting) - out);
}

static void keep(const uint8_t *part, size_t n) {
    if (n > KEPT - kept) n = KEPT - kept;
    memcpy(line + kept, part, n);
    kept += n;
}

int main(void) {
    for (;;) {
        ssize_t got = read(0, piece, sizeof piece);
        if (got <= 0) break;
        uint8_t *at = piece, *end = piece + got, *lf;
        while ((lf = memchr(at, '\n', (size_t)(end - at))) != NULL) {
            if (kept == 0) {
                print(at, (size_t)(lf - at)); // the LF gives way to the last CR
            } else {
                keep(at, (size_t)(lf - at));
                print(line, kept);
                kept = 0;
            }
            at = lf + 1;
        }
        keep(at, (size_t)(end - at));
    }
    if (kept > 0) print(line, kept);
    write_all(out, waiting);
    return 0;
}
