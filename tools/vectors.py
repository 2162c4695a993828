#!/usr/bin/env python3
"""Writes crates/vectors/stdin and stdout: calls, and what documents 01 and 02 say comes of each; and the same of the lines that crates/blocks reads.

The answers come from a model of document 01 that is written here in Python, from the paper and not from the Rattle sources, and from the
numbers that the paper prints, which are asserted below, as demand 3 is of every run. Eight parts are younger, and by people who knew the Rattle sources:
the walk of a journal, single steps from saved states, two decisions that the model followed (hanging up tests no pager list; the index of a block of whole fields is
tested last), and of document 02 the framer, the cutting into whole fields and the late no, which are all written twice here, and sums that are added to. Of those it is a
second writing and no second opinion. A ninth is younger and a second opinion again: the places of what the central wrote, written twice here from document 01, from
wish 5 of document 02 and from a brief that said how the wish is taken, by one who had not read the Rattle files that find them. A tenth is so too: the SNPP gateway, from
document 01, from wish 6 of document 02 and from a brief, by one who had read only the signatures of its Rattle files; what it holds is found twice here, and what it sends on is
held to the central's steps. An eleventh likewise: deletions, from document 01, from wish 7 of document 02 and from a brief, by one who had read only the signatures of their Rattle
files. The program `vectors` makes the calls on the proved functions; the gate compares.

A line of stdin is a call: a letter, then arguments with a space before each. Bytes are hex pairs; `*` and four hex digits behind a pair repeat it;
no bytes are `-`. A number is bytes too, high first. A capital letter makes the call of the small one, and cuts into whole fields; a letter with bit 7 set, written
as a hex pair, makes the call of the one without it, with a device that confirms late.

`z` is shared by what came when no other letter was left: its first argument, a letter, names the call. Those of the SNPP gateway have six more in common: the longest
transaction L, the journal's length, the pager list (four bytes a number), the bytes at the start of the journal's buffer, the size of that buffer, and the size of the output, which
A5 fills; what a call has no use for is `-`. `z s` then has the lines of a session from the start; `z t` has a state (its stage `o`, `e` or `c`, pager, digits, message, length) and the
lines of a session from there. Both print what each line gets, and how all stands behind the last: the journal's length, its buffer and the output, the stage (0, 1 or 2), the digits,
all of the pager, the length, all of the message; bytes by their digests. `z g` has nothing more and is the greeting, `z w` has a journal and writes it out: both print what was put
out and all of the output, by their digests. `z r` has a journal too, writes it out and prints the same, and takes the lines in again from the start: whether the journal is the same
(1 or 0), its length and its buffer.

`z d` is of deletions and has these places too, of which it uses the bytes at the start of the journal's buffer and its size; behind the bytes each place of the buffer holds its number modulo 251.
Then come the central's state (its stage `i`, `l`, `b` or `c`, failures, unfinished information, its length, the journal's length) and deletions, each made from that state and that buffer: `d` and
the place from the newest, `p` and the pager, in as many bytes as the number takes; a capital makes it beside lent memory. Of each it prints the journal's new length or the refusal, the
state (stage, failures, length of the unfinished information, 1 if its memory is the same, the journal's length), and every byte of the buffer XORed with the one that was lent, written
as in a call: `00*7d04` says that all 32,004 are the same.
"""
import functools, itertools, os, random, re, typing

STX, ETX, EOT, ACK, LF, CR, NAK, ETB, ESC, RS, US = 2, 3, 4, 6, 0x0A, 0x0D, 0x15, 0x17, 0x1B, 0x1E, 0x1F
ENDINGS = {"x": ETX, "b": ETB, "u": US}
calls, answers = [], []


class Refused(Exception):
    pass


def hexed(b):
    """Bytes as the stdin has them, long runs shortened."""
    if not b:
        return "-"
    out, i = [], 0
    while i < len(b):
        j = i
        while j < len(b) and b[j] == b[i] and j - i < 0xFFFF:
            j += 1
        out.append("%02x*%04x" % (b[i], j - i) if j - i > 7 else ("%02x" % b[i]) * (j - i))
        i = j
    return "".join(out)


def number(n):
    return "%04x" % n


def plain(b):
    return "".join("%02x" % x for x in b) or "-"


def named(op, whole, late):
    """The letter of a call whose device cuts into whole fields, or confirms late."""
    code = ord(op) - 0x20 * whole + 0x80 * late
    return "%02x" % code if late else chr(code)


def call(op, *args, answer):
    calls.append(" ".join([op] + list(args)))
    try:
        answers.append(answer())
    except Refused as r:
        answers.append("refused %s" % r)


# ── parity ──
def with_parity(c):
    return c | 0x80 if bin(c).count("1") % 2 else c


def set_parity(text, room):
    if room < len(text):
        raise Refused(1)
    if any(c > 0x7F for c in text):
        raise Refused(3)
    return bytes(map(with_parity, text))


def clear_parity(line, room):
    if room < len(line):
        raise Refused(1)
    if any(bin(c).count("1") % 2 for c in line):
        raise Refused(3)
    return bytes(c & 0x7F for c in line)


def off_line(texts):
    """Strings as they come off the line: texts with parity, bytes in a list as they are."""
    return [x[0] if isinstance(x, list) else bytes(map(with_parity, x)) for x in texts]


# ── blocks ──
def carrying(s):
    return bytes([0x30 | s >> 8 & 15, 0x30 | s >> 4 & 15, 0x30 | s & 15])


def check_characters(text):
    return carrying(sum(c & 0x7F for c in text))


def block(info, e):
    body = bytes([STX]) + info + bytes([e])
    return body + check_characters(body) + bytes([CR])


def text_ok(info):
    return all(0x20 <= c <= 0x7E or c == CR for c in info)


def agrees(info, e):
    if e == US:
        return len(info) > 0 and info[-1] != CR
    return len(info) > 0 and info[-1] == CR


def write(info, e, room):
    if room < len(info) + 6:
        raise Refused(1)
    if len(info) > 250:
        raise Refused(2)
    if any(c > 0x7F for c in info):
        raise Refused(3)
    if not text_ok(info) or not agrees(info, e):
        raise Refused(6)
    return block(info, e)


def read(s):
    if not 6 <= len(s) <= 256:
        raise Refused(2)
    if any(c > 0x7F for c in s):
        raise Refused(3)
    if s[0] != STX or s[-5] not in ENDINGS.values() or any(not 0x30 <= c <= 0x3F for c in s[-4:-1]) or s[-1] != CR:
        raise Refused(4)
    if check_characters(s[:-4]) != s[-4:-1]:
        raise Refused(5)
    info, e = s[1:-5], s[-5]
    if not text_ok(info) or not agrees(info, e):
        raise Refused(6)
    return info, e


def letter(e):
    return {v: k for k, v in ENDINGS.items()}[e]


def judge(info):
    if not 1 <= len(info) <= 2000:
        raise Refused(2)
    if any(c > 0x7F for c in info):
        raise Refused(3)
    if not text_ok(info) or info[-1] != CR:
        raise Refused(6)


def count_blocks(n):
    return -(-n // 250)


def fields(info):
    """The fields of a transaction, each with its CR."""
    return [x + b"\r" for x in info[:-1].split(b"\r")]


def too_long(info, whole):
    """A field with its CR is over 250, where fields are to be kept whole (document 02, wish 3)."""
    return whole and any(len(x) > 250 for x in fields(info))


def pack(info):
    """As many complete fields to a block as fit, of a transaction that has none too long."""
    pieces = [b""]
    for field in fields(info):
        if len(pieces[-1]) + len(field) > 250:
            pieces.append(b"")
        pieces[-1] += field
    return [(x, ETB) for x in pieces[:-1]] + [(pieces[-1], ETX)]


@functools.cache
def cut_whole(info):
    """The same, and what the papers say of it: complete fields, none that would fit left to the next block, no US, 15 blocks and 2,090 bytes at most."""
    out = pack(info)
    pieces = [x for x, _ in out]
    assert pieces == re.findall(rb"(?s).{0,249}\r", info)  # a second writing: the most characters up to 250 that end in CR
    assert b"".join(pieces) == info and [y for x in pieces for y in fields(x)] == fields(info)
    assert all(1 <= len(x) <= 250 for x in pieces) and all(len(x) + len(fields(y)[0]) > 250 for x, y in zip(pieces, pieces[1:]))
    assert [e for _, e in out] == [ETB] * (len(out) - 1) + [ETX] and all(read(block(*x)) == x for x in out)
    assert count_blocks(len(info)) <= len(out) <= 15 and sum(len(block(*x)) for x in out) == len(info) + 6 * len(out) <= 2090
    assert reassemble([block(*x) for x in out]).endswith("%d whole %s" % (len(info), plain(info)))
    return out


def cut(info, whole=False):
    if whole:
        return cut_whole(info)
    out = []
    for i in range(count_blocks(len(info))):
        piece = info[250 * i:250 * i + 250]
        last = 250 * i + 250 >= len(info)
        out.append((piece, ETX if last else ETB if piece[-1] == CR else US))
    return out


def segments(info, room, whole=False):
    if room < (2090 if whole else len(info) + 6 * count_blocks(len(info))):
        raise Refused(1)
    judge(info)
    if too_long(info, whole):
        raise Refused(2)
    return b"".join(block(p, e) for p, e in cut(info, whole))


def segment(info, i, room):
    if i >= count_blocks(len(info)):
        raise Refused(9)
    if room < len(info[250 * i:250 * i + 250]) + 6:
        raise Refused(1)
    judge(info)
    return block(*cut(info)[i])


def whole_segment(info, i, room):
    """The i-th block of whole fields: which there are is known only once the information is judged, so 9 comes last."""
    if room < 256:
        raise Refused(1)
    judge(info)
    if too_long(info, True):
        raise Refused(2)
    if i >= len(cut(info, True)):
        raise Refused(9)
    return block(*cut(info, True)[i])


def reassemble(blocks):
    """The answers to block after block, from the start, in a buffer of 2,000."""
    held, complete, out = b"", False, []
    for s in blocks:
        try:
            if len(held) + max(0, len(s) - 6) > 2000:
                raise Refused(2)
            info, e = read(s)
            if complete:
                raise Refused(6)
            held, complete = held + info, e == ETX
            out.append("%d %s" % (len(held), "whole" if complete else "part"))
        except Refused as r:
            out.append("refused %s" % r)
    return ", ".join(out) + " " + plain(held)


def wrote(b):
    return "%d %s" % (len(b), plain(b))


def p(text, room=None):
    room = len(text) if room is None else room
    call("p", number(room), hexed(text), answer=lambda: wrote(set_parity(text, room)))


def q(line, room=None):
    room = len(line) if room is None else room
    call("q", number(room), hexed(line), answer=lambda: wrote(clear_parity(line, room)))


def c(text):
    call("c", hexed(text), answer=lambda: "%d %s" % (sum(x & 0x7F for x in text) % 4096, plain(check_characters(text))))


def b(start, *pieces):
    """A sum with pieces behind it: after each the sum, which has every value since the start and is reduced once."""
    assert len(pieces) <= 29  # what the program has room for

    def a():
        texts = [b"".join(pieces[:i + 1]) for i in range(len(pieces))]
        sums = [(start + sum(x & 0x7F for x in text)) % 4096 if text else start for text in texts]
        return " ".join([str(x) for x in sums] + [plain(carrying((sums or [start])[-1]))])
    call("b", number(start), *[hexed(x) for x in pieces], answer=a)


def w(info, e, room=None):
    room = len(info) + 6 if room is None else room
    call("w", number(room), e, hexed(info), answer=lambda: wrote(write(info, ENDINGS[e], room)))


def r(s):
    def a():
        info, e = read(s)
        return "%s %d %s" % (letter(e), len(info), plain(info))
    call("r", hexed(s), answer=a)


def s(info, room=None, whole=False):
    """All blocks, those of whole fields by their digest."""
    least = 2090 if whole else len(info) + 6 * count_blocks(len(info))
    room = least if room is None else room

    def a():
        blocks = segments(info, room, whole)
        return "%d: %s" % (len(cut(info, whole)), digest(blocks) if whole else wrote(blocks))
    call("S" if whole else "s", number(room), hexed(info), answer=a)


def t(info, i, room=256, whole=False):
    """The i-th of them, likewise."""
    call("T" if whole else "t", number(room), number(i), hexed(info), answer=lambda: digest(whole_segment(info, i, room)) if whole else wrote(segment(info, i, room)))


def j(*blocks):
    call("j", *[hexed(b) for b in blocks], answer=lambda: reassemble(blocks))


def codec(rng):
    # the paper's numbers
    assert block(b"123\rABC\r", ETX) == b"\x02123\rABC\r\x0317;\r" and sum(b"\x02123\rABC\r\x03") == 379
    assert check_characters(b"\x027\r\r\x03") == b"056" and sum(b"\x027\r\r\x03") == 86
    assert check_characters(b"\x02" + b"~" * 249 + b"\r\x03") == b"::0" and sum(b"\x02" + b"~" * 249 + b"\r\x03") == 31392
    assert block(b"1\rTEST\r", ETX)[-4:-1] == b"190"
    assert [x[1] for x in cut(b"1\r" + b"A" * 247 + b"\r")] == [ETX]
    two = cut(b"1\r" + b"A" * 248 + b"\r")
    assert [x[1] for x in two] == [US, ETX] and block(*two[0])[-4:-1] == b"?57" and two[1][0] == b"\r" and block(*two[1])[-4:-1] == b"012"
    assert cut(b"9" * 249 + b"\rX\r")[0][1] == ETB
    assert bytes(map(with_parity, [STX, 0x31, CR, ETX, 0x43, NAK, EOT])) == bytes([0x82, 0xB1, 0x8D, 0x03, 0xC3, 0x95, 0x84])
    for text in (b"", b"\x02", b"123\rABC\r", bytes(range(128)), bytes(range(129)), b"A\x80", b"\xff"):
        p(text)
    p(b"ABC", 2), p(b"ABC", 3), p(b"ABC", 4), p(b"\x80", 0)
    for b in range(256):
        q(bytes([b]))
    for text in (b"123\rABC\r", bytes(range(128))):
        q(bytes(map(with_parity, text)))
        for i in (0, len(text) // 2, len(text) - 1):
            line = bytearray(map(with_parity, text))
            line[i] ^= 0x80
            q(bytes(line))
    q(b"\x41\x41", 1), q(b"\x40\x41", 1)
    for text in (b"", b"\x02123\rABC\r\x03", b"\x027\r\r\x03", b"\x02" + b"~" * 249 + b"\r\x03", b"\xff" * 5000, b"\x021\rTEST\r\x03"):
        c(text)
    for info, e in ((b"123\rABC\r", "x"), (b"7\r\r", "x"), (b"~" * 249 + b"\r", "x"), (b"", "x"), (b"", "b"), (b"", "u"), (b"A", "u"), (b"A", "b"),
                    (b"A", "x"), (b"A\r", "u"), (b"A\r", "b"), (b"A" * 250, "u"), (b"A" * 251, "u"), (b"\x80" * 251, "u"), (b"\x7f\r", "x"), (b"\x1f\r", "x"),
                    (b"\x80\r", "x"), (b"\n\r", "x"), (b" \r", "x"), (b"1\rTEST\r", "x")):
        w(info, e)
    w(b"123\rABC\r", "x", 13), w(b"123\rABC\r", "x", 14), w(b"\x80", "x", 6), w(b"A" * 251, "u", 256), w(b"A\r", "x", 300)
    good = block(b"123\rABC\r", ETX)
    r(good)
    for i in range(len(good)):
        for x in (good[i] ^ 1, good[i] ^ 0x80, 0):
            r(good[:i] + bytes([x]) + good[i + 1:])
    for i in range(len(good)):
        r(good[:i])
    r(block(b"~" * 249 + b"\r", ETX)), r(block(b"A" * 250, US)), r(block(b"A" * 251, US)), r(b"\x02\x03017\r"), r(block(b"", ETX)), r(block(b"", US))
    r(block(b"A", ETX)), r(block(b"A\r", US)), r(block(b"A\x00\r", ETB)), r(block(b"A\r", RS)), r(block(b"A\x80\r", ETX)), r(b"\x02" * 5), r(b"\x02" * 257)
    infos = [b"1\r" + b"A" * k + b"\r" for k in (0, 1, 246, 247, 248, 249, 496, 497, 498, 1995, 1996, 1997, 1998)] + [b"9" * 249 + b"\rX\r", b"\r", b"", b"A", b"\x80\r",
             b"\x1b\r", b"\r" * 250, b"\r" * 251, b"\r" * 2000, b"A" * 2000, b"A" * 2001]
    for info in infos:
        s(info)
        n = count_blocks(len(info))
        for i in {0, 1, n - 1, n} - {-1}:
            t(info, i)
        if legal(info):
            blocks = [block(*x) for x in cut(info)]
            j(*blocks)
            j(*(blocks + [block(b"X\r", ETX)]))
    s(b"1\rA\r", 9), s(b"1\rA\r", 10), s(b"A" * 251 + b"\x80\r", 264), s(b"A" * 251 + b"\x80\r", 265), t(b"1\rA\r", 0, 9), t(b"1\rA\r", 1, 0), t(b"\x80\x80", 0, 7), t(b"\x80\x80", 0, 8)
    for _ in range(200):
        info = bytes(rng.choice(b"\rAB ~") for _ in range(rng.choice((1, 2, 5, 30, 249, 250, 251, 499, 500, 501, 900)))) + b"\r"
        s(info)
        i = rng.randrange(count_blocks(len(info)) + 1)
        t(info, i)
        pieces, k = [], 0
        while k < len(info):
            m = min(len(info) - k, rng.randint(1, 250))
            pieces.append(info[k:k + m])
            k += m
        j(*[block(x, ETX if y == len(pieces) - 1 else ETB if x[-1] == CR else US) for y, x in enumerate(pieces)])
    j(block(b"A\r", ETX), block(b"B\r", ETX)), j(block(b"A", US), good[:-1], block(b"\r", ETX)), j(*([block(b"A" * 250, US)] * 9)), j(block(b"", ETX))
    j(*([block(b"A" * 250, US)] * 8 + [b"\x02"])), j(*([block(b"A" * 250, US)] * 8 + [b"\xff" * 7])), j(block(b"A\r", ETX), b"\xff" * 7), j(block(b"A\r", ETX), b"\x02" * 7)


@functools.cache
def legal(info):
    try:
        judge(info)
        return True
    except Refused:
        return False


# ── replies ──
LINE = rb"[ -~]*\r\n?"
CODES = {"ack": rb"\x06", "nak": rb"\x15", "rs": rb"\x1e", "eot": rb"\x1b\x04"}


def meaning(data):
    """The grammar of "What the desk may read", as regular expressions over the 7-bit values."""
    if len(data) > 256 or any(bin(x).count("1") % 2 for x in data):
        return "unrecognized"
    text = bytes(x & 0x7F for x in data)
    found = [name for name, code in CODES.items() if re.fullmatch(rb"(?:%s)*%s\r\n?" % (LINE, code), text)]
    if re.fullmatch(rb"(?:%s)*\x06\r\n?(?:%s)*\x1b\[p\r\n?" % (LINE, LINE), text):
        found.append("acceptance")
    if re.fullmatch(rb"ID= ?(?:\r\n?)?", text):
        found.append("id request")
    assert len(found) < 2
    return found[0] if found else "unrecognized"


def y(data):
    call("y", hexed(data), answer=lambda: meaning(data))


def z(text):
    y(bytes(map(with_parity, text)))


def replies(rng):
    assert meaning(bytes(map(with_parity, b"\x06\r"))) == "ack" and meaning(bytes(map(with_parity, b"\r\x06"))) == "unrecognized"
    assert meaning(bytes(map(with_parity, b"OK\r\x1e\r\n"))) == "rs" and meaning(bytes(map(with_parity, b"\x06\r\r"))) == "unrecognized"
    for x in range(256):
        y(bytes([x]))
    codes = (b"\x06", b"\x15", b"\x1e", b"\x1b\x04", b"\x1b[p", b"\x1b", b"\x1b[", b"\x06\x06", b"\x06\x15", b"")
    lines = (b"", b"\r", b"OK\r", b"OK\r\n", b"\r\nID123 not known\r\r\n", b"A\x06B\r", b"\x06\r", b"\x06\r\n", b"\x06\rwait\r", b"\n", b"OK", b"OK\n", b"\x7f\r", b"\r\n\n")
    for before in lines:
        for code in codes:
            for end in (b"", b"\r", b"\r\n", b"\n", b"\r\r", b"\r\n\r", b"\r\n\n", b"\rX", b"\r\x06\r"):
                z(before + code + end)
    acceptance = b"\r\x06\r\x1b[p\r"
    for i in range(len(acceptance) + 1):
        z(acceptance[:i])
        z(acceptance[i:])
    for i in range(len(acceptance)):
        for x in (acceptance[i] ^ 1, acceptance[i] ^ 0x20, 0x0D, 0x0A):
            z(acceptance[:i] + bytes([x]) + acceptance[i + 1:])
    for text in (b"ID=", b"ID= ", b"ID=\r", b"ID=\r\n", b"ID= \r", b"ID= \r\n", b"ID=  ", b"ID=  \r", b"ID=\n", b"ID=\r\r", b"ID", b"id=", b" ID=", b"\rID=", b"ID=A", b"ID= A\r", b"ID= \n"):
        z(text)
    for n in (253, 254, 255):
        z(b"A" * n + b"\r\x06\r"), z(b"A" * (n - 1) + b"\r\n\x06\r\n"), z(b"\r" * n + b"\x06\r"), z(b"A" * (n + 3))
    for _ in range(400):
        text = bytes(rng.choice(b"\r\r\n\x06\x15\x1e\x1b\x04[pID= A") for _ in range(rng.randint(1, 9)))
        z(text)
        line = bytearray(map(with_parity, text))
        line[rng.randrange(len(line))] ^= 1 << rng.randrange(8)
        y(bytes(line))


# ── the journal ──
def two(n):
    return bytes([n >> 8, n & 255])


def encode(ts):
    records = b"".join(t + two(len(t)) for t in ts)
    return records + two(len(ts)) + two(len(records))


def decode(b):
    """The transactions, oldest first, walking back from the trailer."""
    if len(b) < 4:
        raise Refused(7)
    count, size = b[-4] << 8 | b[-3], b[-2] << 8 | b[-1]
    if count > 64 or size > 32000 or size + 4 != len(b):
        raise Refused(7)
    end, ts = size, []
    for _ in range(count):
        if end < 2:
            raise Refused(7)
        n = b[end - 2] << 8 | b[end - 1]
        if end - 2 < n or not legal(b[end - 2 - n:end - 2]):
            raise Refused(7)
        ts.insert(0, b[end - 2 - n:end - 2])
        end -= n + 2
    if end:
        raise Refused(7)
    return ts


def append(b, t, size):
    """The journal b with t appended, in a buffer of so many bytes."""
    if size != 32004:
        raise Refused(1)
    ts = decode(b)
    judge(t)
    if len(ts) + 1 > 64 or len(b) - 4 + len(t) + 2 > 32000:
        raise Refused(8)
    return encode(ts + [t])


def digest(b):
    """A long answer by its length and a sum that tells places apart; zeros at its end add nothing."""
    return "%d %d" % (len(b), sum((i + 1) * x for i, x in enumerate(b.rstrip(b"\0"))) % 1000003)


books = []  # every journal that is checked, to be walked too


def k(b):
    books.append(b)
    call("k", hexed(b), answer=lambda: "%d" % len(decode(b)))
    for i in (0, 1, 63):
        def pick(ts, i):
            return plain(ts[i]) if i < len(ts) else "-"
        def listed(b):
            try:
                return decode(b)
            except Refused:
                return []
        call("n", number(i), hexed(b), answer=lambda: pick(listed(b)[::-1], i))
        call("o", number(i), hexed(b), answer=lambda: pick(listed(b), i))


def walk(b):
    """The records from the newest back, as far as the walk comes, and how it ends."""
    if len(b) < 4:
        return "refused 7"
    left, end, out = b[-4] << 8 | b[-3], b[-2] << 8 | b[-1], []
    if left > 64 or end > 32000 or end + 4 != len(b):
        return "refused 7"
    while left:
        n = b[end - 2] << 8 | b[end - 1] if end >= 2 else end
        if end < n + 2 or not legal(b[end - 2 - n:end - 2]):
            return " ".join(out + ["refused 7"])
        out.append(plain(b[end - 2 - n:end - 2]))
        end, left = end - n - 2, left - 1
    return " ".join(out + ["refused 7" if end else "end"])


def walks():
    assert walk(encode([b"7\r\r", b"123\rABC\r"])) == "3132330d4142430d 370d0d end"
    for b in books:
        call("v", hexed(b), answer=lambda: walk(b))


def a(b, t, size=32004):
    call("a", number(size), hexed(b), hexed(t), answer=lambda: digest(append(b, t, size)))


def journal(rng):
    assert encode([b"123\rABC\r"]) == bytes.fromhex("3132330d4142430d0008" "0001000a") and encode([]) == bytes(4)
    page = b"123\rABC\r"
    good = encode([page, b"7\r\r", b"\r"])
    for b in (encode([]), encode([page]), good, encode([page] * 64), b"", b"\0" * 3, b"\0" * 5):
        k(b)
        a(b, page)
    full = encode([b"A" * 1998 + b"\r"] * 15 + [b"A" * 1983 + b"\r"] + [b"\r"])
    for n in (11, 12, 13, 14, 15, 16):
        ts = [b"A" * 1997 + b"\r"] * 15 + [b"B" * (1998 - n) + b"\r"]
        b = encode(ts)
        a(b, b"C" * 9 + b"\r")
        a(b, b"C" * 10 + b"\r")
    k(encode([b"A" * 1997 + b"\r"] * 16)), k(encode([b"A" * 1997 + b"\r"] * 15 + [b"A" * 1998 + b"\r"])), k(full), k(encode([page] * 65))
    k(b"\0\0" + two(1) + two(2)), k(b"A" * 2000 + b"\r" + two(2001) + two(1) + two(2003)), k(b"\r" + two(2) + two(1) + two(3)), k(b"AA" + two(2) + two(1) + two(4))
    for i in range(1, 5):
        for d in (-1, 1):
            b = bytearray(good)
            b[-i] = (b[-i] + d) % 256
            k(bytes(b))
    for i in range(len(good)):
        for x in (0, 13, 255, good[i] ^ 1):
            k(good[:i] + bytes([x]) + good[i + 1:])
    k(good + b"\0"), k(good[1:]), k(b"\r" + good)
    for n in range(41):
        k(bytes(rng.randrange(256) for _ in range(n))), k(bytes(n))
    for t in (b"", b"A", b"A\r", b"\r", b"\x80\r", b"\x80" * 2001, b"\x1f\r", b"A" * 1999 + b"\r", b"A" * 2000 + b"\r"):
        a(good, t), a(good[:-1], t), a(good, t, 32003), a(good, t, 32005), a(good[:-1], t, 4)
    a(encode([page] * 63), page), a(encode([page] * 64), page), a(encode([page] * 64), b"A")


# ── the central ──
LETTERS = b"0123456789ABCDEFGHIJKLMNOPQRSTUVWXYZabcdefghijklmnopqrstuvwxyz"


def settings(password, retries):
    """What is asked of the settings of either end."""
    if len(password) > 6 or any(x not in LETTERS for x in password) or retries > 9:
        raise Refused(9)


class Central:
    """The central's steps over strings off the line, from Idle; a refusal leaves it as it is."""

    def __init__(self, password, longest, retries, pagers, journal):
        self.password, self.longest, self.retries, self.pagers, self.journal = password, longest, retries, pagers, journal
        self.stage, self.failures, self.pending = "idle", 0, b""

    def settings(self):
        settings(self.password, self.retries)
        if not 3 <= self.longest <= 2000:
            raise Refused(9)

    def list(self):
        if len(self.pagers) > 1000 or any(x >= 10 ** 8 for x in self.pagers):
            raise Refused(9)

    def step(self, line):
        self.settings()
        self.list()
        stored = decode(self.journal)
        return bytes(map(with_parity, self.answer(line, stored)))

    def fail(self):
        if self.failures == self.retries:
            self.stage, self.failures, self.pending = "closed", 0, b""
            return b"\r\x1b\x04\r"
        self.failures += 1
        return b"\r\x15\r"

    def answer(self, line, stored):
        if not line or self.stage == "closed":
            return b""
        even = all(bin(x).count("1") % 2 == 0 for x in line)
        text = bytes(x & 0x7F for x in line) if even else None
        if self.stage == "idle":
            if text == b"\r":
                self.stage = "logon"
                return b"ID=\r"
            return b""
        if self.stage == "logon":
            if text == b"\r":
                return b"ID=\r"
            if text == b"\x1bPG1" + self.password + b"\r":
                self.stage, self.failures = "block", 0
                return b"\r\x06\r\x1b[p\r"
            return self.fail()
        if text == b"\x04\r":
            self.stage, self.failures, self.pending = "closed", 0, b""
            return b"\r\x1b\x04\r"
        try:
            info, e = read(text) if text is not None else read(b"")
        except Refused as r:
            if str(r) != "6":
                return self.fail()
            info, e = None, None
        self.failures = 0
        whole = None if info is None else self.pending + info
        self.pending = b""
        if whole is None or len(whole) > self.longest:
            return b"\r\x1e\r"
        if e != ETX:
            self.pending = whole
            return b"\r\x06\r"
        fields = whole[:-1].split(b"\r")
        first = fields[0]
        if len(fields) != 2 or not 1 <= len(first) <= 8 or any(x not in b"0123456789" for x in first) or int(first) not in self.pagers:
            return b"\r\x1e\r"
        if len(stored) + 1 > 64 or len(self.journal) - 4 + len(whole) + 2 > 32000:
            return b"\r\x1e\r"
        self.journal = encode(stored + [whole])
        return b"\r\x06\r"


DROP = b"\xff\xff"  # stands for the driver's word that the line was dropped


def converse(central, lines):
    out = []
    for line in lines:
        if line == DROP:
            central.stage, central.failures, central.pending = "idle", 0, b""
            out.append("-")
            continue
        try:
            out.append(plain(central.step(line)))
        except Refused as r:
            out.append("refused %s" % r)
    return "%s, %s %d %d %s" % (" ".join(out), central.stage, central.failures, len(central.pending), digest(central.journal))


def d(password, longest, retries, pagers, journal, *texts):
    """A conversation with the central; texts get parity, lines given as bytes in a list do not."""
    lines = off_line(texts)
    numbers = b"".join(x.to_bytes(4, "big") for x in pagers)
    call("d", hexed(password), number(longest), number(retries), hexed(numbers), hexed(journal), *[hexed(x) for x in lines],
         answer=lambda: converse(Central(password, longest, retries, pagers, journal), lines))


def central(rng):
    empty, log = encode([]), (b"\r", b"\x1bPG1\r")
    page = block(b"123\rABC\r", ETX)
    d(b"", 2000, 3, [123], empty, *log, page, b"\x04\r", b"\r")
    d(b"abc123", 2000, 3, [123], empty, b"\r", b"\x1bPG1abc123\r", page), d(b"abc123", 2000, 0, [123], empty, b"\r", b"\x1bPG1abc12\r", b"\r")
    d(b"abc", 2000, 2, [123], empty, b"\r", b"\x1bPG1\r", b"\x1bPG1ab\r", b"\r", b"\x1bPG1abcd\r", b"\r"), d(b"abc", 2000, 9, [], empty, b"\r", b"\x1bPG2abc\r", b"\x1bPG1abc", b"PG1abc\r", b"\x1bPG1abc\r\r", b"\x1bPG1abc\r")
    d(b"", 2000, 1, [123], empty, b"X", b"\x04\r", page, b"", b"\r", b"", b"\r", b"\x1bPG1\r", b"", page, b"")
    for info in (b"123\r\r", b"0000123\rA\r", b"00000123\rA\r", b"000000123\rA\r", b"124\rA\r", b"\rA\r", b"12a\rA\r", b"123\r", b"123\rA\rB\r", b" 123\rA\r", b"123 \rA\r", b"\r", b"\r\r"):
        d(b"", 2000, 3, [123, 99999999, 0], empty, *log, block(info, ETX), page)
    for wrong in (block(b"", ETX), block(b"A", ETX), block(b"A\r", US), block(b"A\x00\r", ETX), block(b"\x7f\r", ETB)):
        d(b"", 2000, 3, [123], empty, *log, block(b"123\rA", US), wrong, block(b"\r", ETX), page)
    bad = page[:-2] + b"0\r"
    for n in range(4):
        d(b"", 2000, n, [123], empty, *log, *([bad] * (n + 1)), page), d(b"", 2000, n, [123], empty, *log, *([bad] * n), page, *([bad] * n), page), d(b"", 2000, n, [123], empty, b"\r", *([b"?"] * n), b"\r", b"?", b"\r")
    drop = [DROP]
    d(b"", 2000, 3, [123], empty, *log, block(b"123\rA", US), drop, page, *log, block(b"\r", ETX), page), d(b"", 2000, 3, [123], empty, *log, page, b"\x04\r", b"\r", drop, *log, page, drop, b"\r")
    d(b"", 2000, 1, [123], empty, *log, bad, drop, *log, bad, bad, page, drop, *log, page), d(b"x", 2000, 1, [123], empty, b"\r", b"?", drop, b"\r", b"?", b"?", drop, b"\r", b"\x1bPG1x\r", page)
    flip = bytearray(map(with_parity, page)); flip[0] ^= 0x80
    d(b"", 2000, 3, [123], empty, *log, [bytes(flip)], page, [b"\x8d\x8d"], [b"\x0d"])
    long = b"123\r" + b"A" * 1995 + b"\r"
    for most in (3, 4, 249, 250, 251, 1999, 2000):
        d(b"", most, 3, [123, 1], empty, *log, *[block(*x) for x in cut(long)]), d(b"", most, 3, [123, 1], empty, *log, block(b"1\r\r", ETX), block(b"1\rA\r", ETX))
    full = encode([b"123\rABC\r"] * 63)
    d(b"", 2000, 3, [123], full, *log, page, page), d(b"", 2000, 3, [123], encode([b"A" * 1997 + b"\r"] * 15 + [b"A" * 1980 + b"\r"]), *log, block(b"123\rABCDEFGHI\r", ETX), block(b"123\rABCDEFGH\r", ETX), block(b"123\r\r", ETX))
    d(b"abcdefg", 2000, 3, [], empty, b"\r"), d(b"a b", 2000, 3, [], empty, b"\r"), d(b"", 2, 3, [], empty, b"\r"), d(b"", 2001, 3, [], empty, b"\r"), d(b"", 3, 10, [], empty, b"\r"), d(b"", 3, 9, [10 ** 8], empty, b"\r"), d(b"", 3, 9, [5], empty[:3], b"\r")
    for _ in range(150):
        lines = [b"\r", b"\x1bPG1\r"]
        for _ in range(rng.randint(1, 8)):
            lines.append(rng.choice((page, bad, b"", b"\x04\r", b"\r", block(b"123\rA", US), block(b"BC\r", ETX), block(b"7\r", ETB), block(b"\r", ETX), block(b"", US), [bytes(flip)])))
        d(b"", rng.choice((3, 9, 2000)), rng.randint(0, 3), [123, 7], empty, *lines)


# ── the entry device ──
class Device:
    """The device's steps over replies off the line, from Opening; whole says that it cuts into whole fields."""

    def __init__(self, password, retries, job, whole=False):
        settings(password, retries)
        self.password, self.retries, self.job, self.whole = password, retries, decode(job), whole
        if any(too_long(t, whole) for t in self.job):
            raise Refused(2)
        self.step, self.place, self.attempts = "opening", (0, 0), 1

    def string(self):
        if self.step == "sending":
            text = block(*cut(self.job[self.place[0]], self.whole)[self.place[1]])
        else:
            text = {"opening": b"\r", "logon": b"\x1bPG1" + self.password + b"\r", "closing": b"\x04\r", "stopped": b""}[self.step]
        return bytes(map(with_parity, text))

    def to(self, step, place=(0, 0)):
        self.step, self.place, self.attempts = step, place, 1

    def onwards(self, t):
        self.to("sending", (t, 0)) if t < len(self.job) else self.to("closing")

    def take(self, line):
        """The verdict given, as `transaction=number`, or the reply to the close, or `-`."""
        said = meaning(line)
        last = self.attempts > self.retries
        if self.step == "opening":
            if said == "id request":
                self.to("logon")
            elif self.attempts < 3:
                self.attempts += 1
            else:
                self.to("stopped")
        elif self.step == "logon":
            if said == "acceptance":
                self.onwards(0)
            elif said in ("nak", "id request") and not last:
                self.attempts += 1
            else:
                self.to("stopped")
        elif self.step == "closing":
            if said == "nak" and not last:
                self.attempts += 1
            else:
                self.to("stopped")
                return "closed " + said
        elif self.step == "sending":
            t, b = self.place
            if said == "ack":
                if b + 1 < len(cut(self.job[t], self.whole)):
                    self.to("sending", (t, b + 1))
                else:
                    self.onwards(t + 1)
                    return "%d=1" % t
            elif said == "rs":
                self.onwards(t + 1)
                return "%d=2" % t
            elif said == "nak" and not last:
                self.attempts += 1
            else:
                self.to("stopped")
                return "%d=%d" % (t, 4 if said in ("nak", "eot") else 3)
        return "-"


def play(password, retries, job, lines, whole):
    device = Device(password, retries, job, whole)
    out = [plain(device.string())]
    for line in lines:
        given = device.take(line)
        out.append("%s %s" % (given, plain(device.string())))
    return ", ".join(out)


def e(password, retries, job, *texts, whole=False, late=False):
    """Replies played to the device from its start; texts get parity, lines given as bytes in a list do not."""
    lines = off_line(texts)
    call(named("e", whole, late), hexed(password), number(retries), hexed(job), *[hexed(x) for x in lines], answer=lambda: play(password, retries, job, lines, whole))


def device(rng):
    says = (b"ID=\r", b"\r\x06\r\x1b[p\r", b"\r\x06\r", b"\r\x15\r", b"\r\x1e\r", b"\r\x1b\x04\r", b"", b"?", [b"\x06\x8d\x8d"], [b"\x8d\x86\x8d"])
    up = (b"ID=\r", b"\r\x06\r\x1b[p\r")
    job = encode([b"123\rABC\r", b"9\rX\r", b"7\r" + b"A" * 600 + b"\r"])
    for x in says:
        e(b"abc1", 0, job, x, x, x, x), e(b"", 1, job, b"ID=\r", x, x, x), e(b"", 2, job, *up, x, x, x, x), e(b"", 1, job, *up, b"\r\x06\r", x, x, x)
        e(b"", 1, job, *up, b"\r\x06\r", b"\r\x1e\r", b"\r\x06\r", x, b"\r\x06\r", b"\r\x06\r", x, x), e(b"", 1, encode([]), *up, x, x, x), e(b"", 0, encode([b"1\r\r"]), *up, b"\r\x06\r", x, x)
    e(b"", 9, job, *([b"\r\x15\r"] * 3)), e(b"", 9, job, b"ID=\r", *([b"\r\x15\r"] * 12)), e(b"", 9, job, *up, *([b"\r\x15\r"] * 12)), e(b"", 9, encode([]), *up, *([b"\r\x15\r"] * 12))
    e(b"abcdefg", 0, job, b""), e(b"-", 0, job, b""), e(b"", 10, job, b""), e(b"", 0, job[:-1], b""), e(b"", 0, b"", b"")
    for _ in range(150):
        e(b"", rng.randint(0, 3), job, *(list(up) + [rng.choice(says[:6] + says[2:4] * 3) for _ in range(rng.randint(1, 9))]))


# ── single steps from saved states ──
FILLER = b"\xa5"  # what an output holds before a step


def laid(answer, memory):
    """A memory with an answer at its start."""
    return answer + memory[len(answer):]


def central_in_range(c, n):
    """The central's saved state, with an unfinished information of so many characters."""
    idle, held = c.stage in ("idle", "closed"), c.pending[:n]
    return c.failures <= (0 if idle else c.retries) and n <= (c.longest if c.stage == "block" else 0) and text_ok(held)


def resumed(settings, begin, stage, failures, pending, n, length, size, room, lines):
    """What the central answers from a saved state on, and how state and buffers stand at the end."""
    c, buffer, memory, out, said = Central(*settings, b""), begin[:size].ljust(size, b"\0"), pending.ljust(2000, b"\0"), FILLER * room, []
    c.stage, c.failures = stage, failures
    for line in lines:
        c.pending, c.journal = memory[:n], buffer[:length]
        try:
            c.settings()
            if not central_in_range(c, n):
                raise Refused(9)
            if line == DROP:
                c.stage, c.failures, n = "idle", 0, 0
                said.append("-")
                continue
            c.list()
            if room < 7 or size != 32004:
                raise Refused(1)
            if length > size:
                raise Refused(7)
            reply = c.step(line)
        except Refused as r:
            said.append("refused %s" % r)
            continue
        said.append(plain(reply))
        memory, n, buffer, length, out = laid(c.pending, memory), len(c.pending), laid(c.journal, buffer), len(c.journal), laid(reply, out)
    return "%s, %s %d %d %s %d %s %s %s" % (" ".join(said), c.stage, c.failures, n, digest(buffer[:length]), length, digest(memory[:n]), digest(buffer), digest(out))


def f(*texts, password=b"", longest=2000, retries=2, pagers=(123, 7), begin=encode([]), stage="block", failures=0, pending=b"", n=None, length=None, size=32004, room=7):
    """Steps of the central from a saved state; n is the length of what is unfinished, length the journal's, size its buffer's, room the output's."""
    lines = off_line(texts)
    n, length = len(pending) if n is None else n, len(begin) if length is None else length
    numbers = b"".join(x.to_bytes(4, "big") for x in pagers)
    assert len(pagers) <= 1001 and len(pending) <= 2000 and room <= 256  # what the program has room for
    call("f", hexed(password), number(longest), number(retries), hexed(numbers), hexed(begin), stage[0], number(failures), hexed(pending), number(n), number(length),
         number(size), number(room), *[hexed(x) for x in lines],
         answer=lambda: resumed((password, longest, retries, pagers), begin, stage, failures, pending, n, length, size, room, lines))


def device_in_range(step, attempts, retries):
    return step == "stopped" or 1 <= attempts <= (3 if step == "opening" else retries + 1)


def exists(job, step, place, whole):
    t, b = place
    return step == "stopped" or (t < len(job) and b < len(cut(job[t], whole)) if step == "sending" else place == (0, 0))


def saved(password, retries, job, step, place, attempts, room, whole):
    """The device in a saved state, with an output of so many bytes."""
    settings(password, retries)
    if not device_in_range(step, attempts, retries):
        raise Refused(9)
    if room < 256:
        raise Refused(1)
    d = Device(password, retries, job, whole)
    if not exists(d.job, step, place, whole):
        raise Refused(9)
    d.step, d.place, d.attempts = step, place, attempts
    return d


def replayed(password, retries, job, step, place, attempts, room, lines, whole):
    """The start, what the device does with replies from a saved state on, and how state and output stand at the end."""
    out, said = FILLER * room, []
    try:
        settings(password, retries)
        if room < 256:
            raise Refused(1)
        string = Device(password, retries, job, whole).string()
        out = laid(string, out)
        said.append(plain(string))
    except Refused as r:
        said.append("refused %s" % r)
    for line in lines:
        try:
            d = saved(password, retries, job, step, place, attempts, room, whole)
        except Refused as r:
            said.append("- refused %s" % r)
            continue
        given = d.take(line)
        out, step, place, attempts = laid(d.string(), out), d.step, d.place, d.attempts
        said.append("%s %s" % (given, plain(d.string())))
    return "%s, %s %s" % (", ".join(said), step if step == "stopped" else "%s %d %d %d" % (step, *place, attempts), digest(out))


def g(*texts, password=b"", retries=1, job, step="sending", place=(0, 0), attempts=1, room=256, whole=False, late=False):
    """Steps of the entry device from a saved state; room is the output's size."""
    lines = off_line(texts)
    assert room <= 512  # what the program has room for
    call(named("g", whole, late), hexed(password), number(retries), hexed(job), "x" if step == "stopped" else step[0], number(place[0]), number(place[1]), number(attempts), number(room),
         *[hexed(x) for x in lines], answer=lambda: replayed(password, retries, job, step, place, attempts, room, lines, whole))


def central_steps(rng):
    page, part, page_of = block(b"123\rABC\r", ETX), block(b"BC", US), encode([b"7\r\r"])
    flip = bytearray(map(with_parity, page)); flip[0] ^= 0x80
    lines = (b"", b"\r", b"\x1bPG1\r", b"\x1bPG2\r", page, part, block(b"C\r", ETX), block(b"\r", ETB), block(b"", ETX), b"\x04\r", b"?", [bytes(flip)], [DROP])
    # every stage, failures up to its most and one more, each kind of string
    for stage, failures, line in itertools.product(("idle", "logon", "block", "closed"), range(4), lines):
        f(line, stage=stage, failures=failures, room=7 + failures % 2)
    # what is unfinished: in range, with CR, up to L and over it; a wrong character; outside Block
    for pending in (b"1", b"123\rA", b"123\r", b"7\r\r", b"\r", b"\r\r", b" ~", b"123\r" + b"A" * 244):
        for line in (b"", part, block(b"C\r", ETX), block(b"\r", ETX), block(b"7\r", ETB), block(b"", US), b"?", b"\x04\r", [DROP]):
            f(line, pending=pending, failures=1), f(line, pending=pending, longest=max(3, len(pending)), begin=page_of)
        f(part, pending=pending, longest=max(3, len(pending) + 2)), f(part, pending=pending, longest=max(3, len(pending) + 1)), f(part, pending=pending, longest=max(3, len(pending) - 1))
        for stage in ("idle", "logon", "closed"):
            f(b"\r", stage=stage, pending=pending), f(b"\r", stage=stage, pending=pending, n=0)
    for wrong in (b"\x1f", b"\x7f", b"\x80", b"\n", b"\0", b"\xff"):
        for pending in (wrong, b"123\r" + wrong, wrong + b"A"):
            f(block(b"C\r", ETX), pending=pending), f(block(b"C\r", ETX), pending=b"123\rA" + pending, n=5), f(b"", pending=pending), f([DROP], b"\r", pending=pending)
    for n in (1999, 2000, 2001, 65535):
        for longest in (3, 1999, 2000):
            f(block(b"\r", ETX), pending=b"123\r" + b"A" * 1996, n=n, longest=longest), f(b"", pending=b"123\r" + b"A" * 1996, n=n, longest=longest)
    # outputs, the journal's buffer and its length
    for room in (0, 1, 6, 7, 8, 256):
        for line in (b"", page, b"?", b"\x04\r"):
            f(line, room=room)
        f(b"\x1bPG1\r", stage="logon", room=room), f(b"\r", stage="idle", room=room), f(b"", stage="closed", room=room)
    full, tight = encode([b"\r"] * 64), encode([b"A" * 1997 + b"\r"] * 15 + [b"A" * 1987 + b"\r"])
    for begin in (encode([]), page_of, page_of[:-1], page_of + b"\0", page_of + b"\xff" * 9, b"", b"\xff" * 9):
        for length in sorted({0, 3, 4, len(begin), len(begin) + 1, len(page_of), 32003, 32004, 32005, 65535}):
            f(page, begin=begin, length=length)
        for size in (0, 4, 32003, 32005, 65535):
            f(page, begin=begin, size=size), f(b"", begin=begin, size=size, length=65535, stage="closed")
    for begin in (full, tight, full[1:], tight[1:]):
        f(page, begin=begin), f(block(b"7\r\r", ETX), begin=begin + b"\xff" * 9, length=len(begin)), f(b"", begin=begin, stage="closed"), f(b"\x04\r", begin=begin, failures=2)
    # settings and pager lists
    for wrong in ({"password": b"abcdefg"}, {"password": b"a b"}, {"longest": 2}, {"longest": 2001}, {"retries": 10}, {"pagers": (10 ** 8,)}, {"pagers": (0,) * 1000 + (123,)},
                  {"pagers": (0,) * 999 + (123,)}, {"pagers": (99999999, 0)}, {"pagers": ()}, {"longest": 3}, {"retries": 9}, {"password": b"abc123"}):
        f(page, **wrong), f(page, **wrong, room=6, begin=b""), f(b"", **wrong, stage="idle"), f([DROP], **wrong, room=0, size=0, begin=b"", failures=1)
    # several wrongs at once
    for retries, failures, room, size, begin in itertools.product((2, 10), (2, 3), (7, 6), (32004, 32003), (page_of, page_of[1:])):
        f(page, retries=retries, failures=failures, room=room, size=size, begin=begin), f(b"", retries=retries, pending=b"1\x7f"[:failures - 1], room=room, size=size, begin=begin)
    # all kinds
    for _ in range(150):
        stage = rng.choice(("block",) * 5 + ("idle", "logon", "closed"))
        pending = rng.choice((b"",) + (b"123\r", b"7\rAB", b"123\rA\r", b"12", b"1\x7f") * (stage == "block"))
        f(*rng.choices(lines[:-1], k=rng.randint(1, 3)), longest=rng.choice((3, 8, 2000)), retries=rng.randint(0, 3), failures=rng.choice((0, 0, 1, 2)) * (stage in ("block", "logon")),
          begin=rng.choice((encode([]), page_of, full, tight)), stage=stage, pending=pending, room=rng.choice((7, 7, 7, 9, 6)))


def device_steps(rng):
    says = (b"ID=\r", b"\r\x06\r\x1b[p\r", b"\r\x06\r", b"\r\x15\r", b"\r\x1e\r", b"\r\x1b\x04\r", b"", b"?", [b"\x8d\x86\x8d"])
    steps, job = ("opening", "logon", "sending", "closing", "stopped"), encode([b"123\rABC\r", b"9\rX\r", b"7\r" + b"A" * 600 + b"\r"])
    # every step, attempts up to its most and one more, each kind of reply
    for step, attempts, said in itertools.product(steps, range(5), says):
        g(said, job=job, step=step, attempts=attempts)
    for step, retries, said in itertools.product(steps, (0, 9), (b"\r\x15\r", b"ID=\r", b"")):
        for attempts in (retries, retries + 1, retries + 2, 65535):
            g(said, job=job, step=step, attempts=attempts, retries=retries, password=b"q7")
    # every place, and places that do not exist
    for place in itertools.product((0, 1, 2, 3, 65535), (0, 1, 2, 3, 65535)):
        for said in (b"\r\x06\r", b"\r\x1e\r", b"\r\x15\r", b"") if place < (3, 0) and place[1] < 3 else (b"\r\x06\r",):
            g(said, job=job, place=place)
    for place, step in itertools.product(((0, 1), (1, 0), (2, 2), (65535, 65535)), ("opening", "logon", "closing", "stopped")):
        g(b"\r\x15\r", job=job, step=step, place=place)
    g(b"\r\x06\r", job=encode([])), g(b"\r\x06\r\x1b[p\r", job=encode([]), step="logon"), g(b"\r\x06\r", job=encode([b"\r"] * 64), place=(63, 0)), g(b"\r\x06\r", job=encode([b"\r"] * 64), place=(64, 0))
    # outputs and jobs
    for step, room in itertools.product(steps, (0, 1, 255, 256, 257, 512)):
        g(b"\r\x06\r", job=job, step=step, room=room), g(b"\r\x15\r", job=job, step=step, place=(2, 1) if step == "sending" else (0, 0), room=room)
    for wrong, step in itertools.product((b"", job[:-1], job[1:], job + b"\0", bytes(3), encode([b"\r"] * 65)), steps):
        g(b"\r\x15\r", job=wrong, step=step), g(b"", job=wrong, step=step, place=(9, 9))
    # several wrongs at once
    for retries, attempts, room, bad, place in itertools.product((1, 10), (1, 0), (256, 255), (job, job[1:]), ((2, 2), (2, 3))):
        for step in ("sending", "closing"):
            g(b"\r\x06\r", job=bad, step=step, retries=retries, attempts=attempts, room=room, place=place)
    for password in (b"abcdefg", b"a-b"):
        g(b"\r\x06\r", job=job, password=password), g(b"\r\x06\r", job=job[1:], password=password, room=1)
    # all kinds
    for _ in range(150):
        step = rng.choice(steps + ("sending",) * 4)
        place = rng.choice(((0, 0), (1, 0), (2, 0), (2, 1), (2, 2), (2, 3), (3, 0))) if step == "sending" else (0, 0)
        g(*rng.choices(says[:6], k=rng.randint(1, 4)), job=job, step=step, place=place, attempts=rng.choice((1, 1, 2, 3)), retries=rng.randint(0, 3), room=rng.choice((256, 256, 256, 300, 255)))


# ── the run ──
class Run(typing.NamedTuple):
    """What a run takes: the job, the faults, the device's settings, the central's, how the journal's buffer begins and its size, the journal's length in
    it, the size of the verdict buffer, and whether the device cuts into whole fields, and confirms late."""
    job: bytes
    faults: tuple
    password: bytes
    retries: int
    central: tuple
    begin: bytes
    size: int
    length: int
    room: int
    whole: bool = False
    late: bool = False

    def buffer(self):
        return self.begin[:self.size].ljust(self.size, b"\0")

    def journal(self):
        return self.buffer()[:self.length]


def arrives(string, fate):
    """What arrives of a string: 0 all of it, 1 its first byte with bit 7 flipped, 2 nothing."""
    return [string, bytes(x ^ 0x80 for x in string[:1]) + string[1:], b""][fate]


def played(r):
    """The number of transmissions, the verdicts as they were given, the journal at the end, and what the last step gave or reported."""
    central = Central(*r.central, r.journal())
    settings(r.password, r.retries)
    central.settings()
    central.list()
    if any(f > 8 for f in r.faults):
        raise Refused(9)
    if r.size != 32004:
        raise Refused(1)
    decode(r.job)
    if r.length > r.size:
        raise Refused(7)
    decode(central.journal)
    device = Device(r.password, r.retries, r.job, r.whole)
    if r.room != len(device.job):
        raise Refused(1)
    verdicts, sent = [5] * r.room, 0
    while string := device.string():
        fault = r.faults[sent] if sent < len(r.faults) else 0
        sent, closing = sent + 1, device.step == "closing"
        given = device.take(arrives(central.step(arrives(string, fault // 3)), fault % 3))
        if "=" in given:
            t, v = given.split("=")
            verdicts[int(t)] = int(v)
    assert (given == "closed eot") == (closing and central.stage == "closed" and fault % 3 == 0)  # as the central sees it
    return sent, verdicts, central.journal, given


def run(r):
    """The same without the last: what demand 3 speaks of, whether the device confirms late or not."""
    return played(r)[:3]


def clean(r):
    """The clean verdicts, and the clean journals after 0, 1, .. transactions: worked out with no run."""
    password, longest, _, pagers = r.central
    verdicts, journals = [], [r.journal()]
    for t in decode(r.job):
        book = journals[-1]
        page = re.fullmatch(rb"([0-9]{1,8})\r[ -~]*\r", t)
        fits = len(decode(book)) < 64 and len(book) + len(t) + 2 <= 32004
        taken = r.password == password and len(t) <= longest and page and int(page[1]) in pagers and fits
        verdicts.append(1 if taken else 2 if r.password == password else 5)
        journals.append(encode(decode(book) + [t]) if taken else book)
    return verdicts, journals


def demand(r, sent, verdicts, journal):
    """Demand 3 of a run that came to this, and the bound on its transmissions."""
    job, (told, journals) = decode(r.job), clean(r)
    k = sum(v in (1, 2) for v in verdicts)
    assert verdicts[:k] == told[:k] and all(v in (3, 4, 5) for v in verdicts[k:k + 1]) and all(v == 5 for v in verdicts[k + 1:])
    assert journal == journals[k] or verdicts[k:k + 1] == [3] and journal == journals[k + 1]
    assert sent <= 3 + (r.retries + 1) * (sum(len(cut(t, r.whole)) for t in job) + 2)
    # a clean run of the first transactions
    for n in range(len(job) + 1):
        assert run(r._replace(job=encode(job[:n]), faults=(), room=n))[1:] == (told[:n], journals[n])
    # higher retry limits
    password, longest, retries, pagers = r.central
    for more, most in ((1, 0), (0, 1), (4, 5)):
        higher = r._replace(retries=min(9, r.retries + more), central=(password, longest, min(9, retries + most), pagers))
        assert run(higher)[1][:k] == verdicts[:k]


def stands(said, late):
    """How the taken stand at a stop (document 02, wish 4), `c` confirmed or `d` in doubt; said is what the step to the stop gave or reported."""
    return "c" if said == "closed eot" or not late else "d"


def settle(standing, verdicts):
    return [6 if v == 1 and standing == "d" else v for v in verdicts]


def final(r, verdicts, last):
    """The verdicts of a run as it writes them, settled at its stop; and what wish 4 says of them."""
    told, out = clean(r)[0], settle(stands(last, r.late), verdicts)
    assert all(v == t for v, t in zip(out, told) if v in (1, 2))  # a final taken or refused is the clean one
    assert [1 if v == 6 else v for v in out] == verdicts and not {1, 6} <= set(out) and (r.late or out == verdicts)
    return out


def u(job, faults=(), password=b"", retries=3, host=b"", longest=2000, limit=3, pagers=(123,), begin=encode([]), size=32004, length=None, room=None, whole=False, late=False):
    """A run, its job given as transactions or as bytes; host and limit are the central's password and retry limit. The verdicts and the journal at its
    end, or None where it is refused."""
    assert len(faults) <= 64 and len(pagers) <= 8  # what the program has room for
    length, room = len(begin) if length is None else length, len(job) if room is None else room
    job = job if isinstance(job, bytes) else encode(job)
    r = Run(job, tuple(faults), password, retries, (host, longest, limit, pagers), begin, size, length, room, whole, late)
    try:
        sent, verdicts, journal, last = played(r)
    except Refused as refusal:
        verdicts, journal, said, result = [0] * room, b"", "refused %s" % refusal, None
    else:
        demand(r, sent, verdicts, journal)
        verdicts = final(r, verdicts, last)
        said, result = "%d %d" % (sent, len(journal)), (verdicts, journal)
    numbers = b"".join(x.to_bytes(4, "big") for x in pagers)
    call(named("u", whole, late), hexed(host), number(longest), number(limit), hexed(numbers), hexed(begin), hexed(password), number(retries), number(size), number(length),
         number(room), hexed(bytes(faults)), hexed(job), answer=lambda: "%s %s %s" % (said, plain(verdicts), digest(journal + r.buffer()[len(journal):])))
    return result


def some_page(rng):
    """A transaction: mostly one that the content rules take, some in several blocks."""
    first = rng.choice((b"123",) * 12 + (b"7", b"0000123", b"99999999", b"124", b"", b"12a", b"000000123", b"9" * 249))
    second = rng.choice((b"A", b"~", b" ", b"1")) * rng.choice((0, 1, 3, 3, 8, 30, 244, 245, 246, 300, 495, 496, 600, 1200, 1995))
    return rng.choice((first + b"\r" + second + b"\r",) * 12 + (first + b"\r", first + b"\r" + second + b"\rX\r"))[-2000:]


def some_faults(rng):
    """Line faults: none, few or many, behind a logon that mostly succeeds; among them mostly those that the ends get over."""
    rate, mild = rng.choice((0, 0.1, 0.2, 0.2, 0.5)), rng.choice((1, 8, 40))
    some = [rng.choice((3,) * mild + (1, 1, 2, 2, 4, 5, 6, 7, 8)) if rng.random() < rate else 0 for _ in range(rng.randint(0, 30))]
    return (rng.choice(([0, 0],) * 6 + ([6, 0, 3], [])) + some)[:30]


def runs(rng):
    # the paper's runs
    job = [b"123\rABC\r", b"9\rX\r"]
    for n in (0, 3, 9):
        assert u(job, retries=n, limit=n) == ([1, 2], encode(job[:1]))
        assert u(job, (0, 0, 1), retries=n, limit=n) == ([3, 5], encode(job[:1]))
    assert u(job, (0, 0, 3), retries=0, limit=0) == ([4, 5], encode([]))
    # each fault at each transmission, and the same one again and again
    for retries, limit in ((0, 0), (1, 0), (0, 1), (2, 2)):
        for n, fault in itertools.product(range(6), range(1, 9)):
            u(job, (0,) * n + (fault,), retries=retries, limit=limit)
    for retries, limit in ((9, 9), (9, 8), (8, 9)):
        for n, times in itertools.product(range(6), (2, 3, 8, 9, 10)):
            u(job, (0,) * n + (3,) * times, retries=retries, limit=limit)
    # the largest jobs, and a journal in which the last does not fit
    for t, times in ((b"123\r\r", 64), (b"123\r" + b"A" * 1993 + b"\r", 16)):
        u([t] * times), u([t] * times, (0,) * 60 + (3,)), u([t] * times, begin=encode([b"\r"]))
    # refusals, several at once among them
    good, full = encode(job), encode([b"123\rABC\r"] * 64)
    for fault, size, length, bad, room in itertools.product((8, 9), (32004, 32003), (4, 5), (good, good[:-1]), (2, 1)):
        u(bad, (fault,), size=size, length=length, room=room)
    for wrong in ({"password": b"abcdefg"}, {"password": b"a b"}, {"retries": 10}, {"host": b"abcdefg"}, {"host": b"-"}, {"longest": 2}, {"longest": 2001},
                  {"limit": 10}, {"pagers": (5, 10 ** 8)}, {"faults": (0,) * 40 + (9,)}, {"faults": (255,)}, {"size": 32005}, {"size": 4}, {"size": 0},
                  {"length": 0}, {"length": 3}, {"length": 32004}, {"length": 32005}, {"length": 65535}, {"begin": full[:-1]}, {"job": b""}, {"job": full[1:]},
                  {"job": full + bytes(4)}, {"room": 0}, {"room": 3}, {"room": 66}):
        u(**{"job": job, **wrong}), u(**{"job": good[1:], "room": 7, **wrong}), u(**{"job": job, "begin": full, **wrong})
    # a buffer that holds other bytes behind the journal
    for journal in (encode([]), good, full):
        u(job, begin=journal + b"\xff" * 40, length=len(journal)), u(job, (0, 0, 3, 4), begin=journal + b"\xff" * 3, length=len(journal))
    # all kinds: settings, equal and other passwords, journals with and without room
    some = [encode([]), encode([b"123\rABC\r", b"7\r\r"])]
    tight = [encode([b"A" * 1997 + b"\r"] * 15 + [b"A" * n + b"\r"]) for n in (400, 1980, 1987)] + [encode([b"\r"] * n) for n in (61, 62, 63, 64)]
    for i in range(400):
        password, host = rng.choice(((b"", b""), (b"q7", b"q7"), (b"abc123", b"abc123")) if i % 10 else ((b"", b"a"), (b"abc12", b"abc123"), (b"Z", b"z")))
        u([some_page(rng) for _ in range(rng.choice((0, 1, 2, 2, 3, 3, 4, 5)))], some_faults(rng), password, rng.randint(0, 3), host,
          rng.choice((2000, 2000, 500, 251) if i % 4 else (3, 12, 250)), rng.randint(0, 3), (123, 7, 99999999), rng.choice(some if i % 3 else tight))


# ── the framer ──
class Framer:
    """The strings in the bytes that a wire brings, one byte at a time (document 02, wish 1)."""

    def __init__(self, held=b""):
        self.held = held

    def take(self, byte):
        """The string that one byte more completes, or None."""
        if not self.held and byte & 0x7F not in (STX, EOT):
            return None
        self.held += bytes([byte])
        return self.flush() if self.complete() else None

    def complete(self):
        text = [x & 0x7F for x in self.held]
        behind = [len(text) - 1 - i for i, x in enumerate(text) if x in ENDINGS.values()]  # how many stand behind each ending
        return len(text) == 2 if text[0] == EOT else behind[:1] == [4] or len(text) == 256

    def flush(self):
        string, self.held = self.held, b""
        return string


STRINGS = re.compile(rb"(?s)\x04.|\x02[^\x03\x17\x1f]{0,250}[\x03\x17\x1f].{4}|\x02.{255}|([\x02\x04].*)")


def strings(data):
    """The strings in the bytes, and what is held behind them, by an expression over the 7-bit values."""
    found = list(STRINGS.finditer(bytes(x & 0x7F for x in data)))
    left = found.pop().start() if found and found[-1][1] else len(data)
    return [data[x.start():x.end()] for x in found], data[left:]


def framer_in_range(memory, n):
    """The start can lead to the state: so its own bytes do."""
    framer = Framer()
    return n <= len(memory) and not any(framer.take(x) for x in memory[:n]) and framer.held == memory[:n] and not any(memory[n:])


def framed(memory, n, room, pieces):
    """What a driver gets that feeds pieces to a saved state, each until all of it is used, and flushes; and how state and output stand at the end."""
    begin, out, said, got = memory[:n], FILLER * room, [], []

    def tested():
        if not framer_in_range(memory, n):
            raise Refused(9)
        if room < 256:
            raise Refused(1)
        return Framer(memory[:n])

    for piece in pieces:
        again = True
        while again:
            try:
                framer = tested()
            except Refused as r:
                said.append("0 refused %s" % r)
                break
            string, used = None, 0
            while used < len(piece) and string is None:
                string, used = framer.take(piece[used]), used + 1
            piece, memory, n = piece[used:], framer.held.ljust(256, b"\0"), len(framer.held)
            said.append("%d %s" % (used, "part" if string is None else plain(string)))
            if string is not None:
                got, out = got + [string], laid(string, out)
            again = string is not None and piece
    said.append("%s %s" % (digest(out), plain(memory[:n])))
    try:
        framer = tested()
        assert (got, framer.held) == strings(begin + b"".join(pieces))  # however the bytes are divided
        string = framer.flush()
        out, memory, n = laid(string, out), framer.held.ljust(256, b"\0"), len(framer.held)
        said.append(wrote(string))
    except Refused as r:
        said.append("refused %s" % r)
    return "%s, %d %s %s" % (", ".join(said), n, digest(memory), digest(out))


def m(*pieces, held=b"", n=None, room=256):
    """Pieces fed to a framer from a saved state, then a flush; n is the length of what is held, room the size of the output."""
    n = len(held) if n is None else n
    assert len(held) <= 256 and len(pieces) <= 27  # what the program has room for
    call("m", hexed(held), number(n), number(room), *[hexed(x) for x in pieces], answer=lambda: framed(held.ljust(256, b"\0"), n, room, pieces))


def divided(data, *places):
    """The bytes in pieces, cut at these places."""
    return [data[i:k] for i, k in zip((0,) + places, places + (len(data),))]


def anyhow(rng, data, most):
    """The bytes in pieces, cut at so many places at most, among them the same one twice."""
    return divided(data, *sorted(rng.choices(range(len(data) + 1), k=rng.randint(0, most))))


def framing(rng):
    page, more, bye = (bytes(map(with_parity, x)) for x in (block(b"123\rABC\r", ETX), block(b"7\rAB", US), b"\x04\r"))
    assert strings(b"?" + page + b"\r\n" + more + bye + page[:-1]) == ([page, more, bye], page[:-1])
    # every division of short inputs, and some with empty pieces
    for data in (b"?\x02A\x03170\r", b"\x84\x02\x02\x9f\x04\x02\x03\x04", b"\x82A\x04\x02B\r"):
        for some in itertools.product((False, True), repeat=len(data) - 1):
            m(*divided(data, *itertools.compress(range(1, len(data)), some)))
        for i in range(len(data) + 1):
            m(data[:i], b"", data[i:]), m(b"", *anyhow(rng, data, 3), b"", b"")
    m(), m(b""), m(b"", b""), m(b"\x02", b""), m(b"", b"\x04", b"", b"\r", b"")
    # blocks as the entry device writes them: alone, in a row, with other bytes between; and EOT CR
    for data in (page, more, bye, page + page, page + more + bye, b"\r\n" + page + b"?\xff\0" + more + b"\r" + bye + b"\r", page[1:] + page, page[:-1] + more, bye[:1] + page,
                 bye + b"\x8d" + bye):
        m(data), m(*anyhow(rng, data, 2)), m(*anyhow(rng, data, 5))
    for i in range(1, len(page)):
        m(page[:i], page[i:]), m(page[:i] + more)
    for info in (b"1\r" + b"A" * 247 + b"\r", b"1\r" + b"A" * 300 + b"\r", b"\r" * 251, b"~" * 249 + b"\r"):
        some = [bytes(map(with_parity, block(*x))) for x in cut(info)]
        m(*some, bye), m(b"".join(some) + bye), m(*anyhow(rng, b"?".join(some), 5)), m(*divided(some[0] + bye, *range(10, 260, 10)))
    # the limit of 256: an ending at every late place, or none
    for i in range(247, 259):
        data = b"\x02" + b"A" * (i - 1) + bytes([(ETX, 0x97, US)[i % 3]]) + b"0123\r" + bye
        m(data), m(*divided(data, i)), m(*divided(data, i + 1)), m(*divided(data, i + 4)), m(*divided(data, *range(i - 8, i + 8)))
    for n in (254, 255, 256, 257, 512, 600):
        for data in (b"\x02" + b"A" * 599, b"\x82" * 600):
            m(data[:n]), m(data[:255], data[255:n]), m(*divided(data[:n], *range(24, n, 24)))
    # what a byte is, by its low seven bits; STX and EOT inside
    noise, inner = bytes(x for x in range(256) if x & 0x7F not in (STX, EOT)), bytes(x for x in range(256) if x & 0x7F not in ENDINGS.values())
    m(noise), m(noise[:100], noise[100:] + bye), m(b"\x02" + inner), m(b"\x82" + inner + b"\x9f" + noise), m(b"\x02", inner, b"\x97012", b"3"), m(b"\x02" + inner[3:], b"\x03", b"\x040\x042")
    for first, e in itertools.product((STX, 0x82), (ETX, 0x83, ETB, 0x97, US, 0x9F)):
        m(bytes([first, e]) + b"01234"), m(bytes([first]) + b"A\x04\x02", bytes([e]) + b"\x02\x84\x82\x04\r")
    for first, second in itertools.product((EOT, 0x84), (EOT, 0x84, STX, ETX, 0x97, CR, 0x8D, 0, 0xFF)):
        m(bytes([first, second, second]) + b"A")
    # saved states in range: with no ending, with one and up to three characters behind it, up to 255 bytes
    some = [b"\x02", b"\x82", b"\x04", b"\x84", b"\x02\x04", b"\x02\x02\x82", b"\x82\xff"] + [b"\x02" + b"A" * i for i in (3, 4, 250, 251, 254)]
    some += [b"\x02" + b"A" * i + e + b"0\x1f2"[:k] for i, e in ((0, b"\x83"), (2, b"\x1f"), (249, b"\x17"), (250, b"\x03")) for k in range(4)] + [b"\x02" + b"A" * 253 + b"\x03"]
    assert all(framer_in_range(x.ljust(256, b"\0"), len(x)) for x in some)
    for held in some:
        m(b"", b"A", held=held), m(b"\x03", held=held), m(b"012\x17", b"567\r" + bye, held=held)
    for n in (1, 2, 5, 254, 255):
        m(b"\x03", b"012\r", held=b"\x02", n=n)
    # and out of range: no string begins so, one is complete, 256 or more, or another byte than 0 behind
    wrong = [(x, len(x)) for x in (b"\0", b"A", b"\r\x02", b"\x83", b"\xc2", b"B\x02", b"\x44", b"\x12")]
    wrong += [(x, len(x)) for x in (bye, b"\x84\x84", b"\x04\0", bye + b"A", page, page + b"A", page + bye, b"\x02\x830123", b"\x02\x1f01234", b"\x02A\x17\x03123", b"\x02" + b"A" * 249 + b"\x030123",
                                    b"\x02\x03" + b"A" * 253, b"\x02" + b"A" * 255, b"\x02" + b"A" * 250 + b"\x030123")]
    wrong += [(x, n) for x in (b"", b"\x02", b"\x02" + b"A" * 255) for n in (256, 257, 65535)]
    wrong += [(b"A", 0), (b"\x02", 0), (b"\x02A", 1), (b"\x04\r", 1), (b"\x04\0\x01", 1), (page[:8], 7), (page, 13), (b"\x02" + b"A" * 254, 254), (b"\x02" + b"A" * 255, 255), (bytes(255) + b"\x80", 0),
              (b"\x02" + bytes(254) + b"\x01", 1), (b"\x02" + bytes(254) + b"\x01", 255), (b"\x82A\x03" + bytes(9) + b"\x02", 3)]
    assert not any(framer_in_range(x.ljust(256, b"\0"), n) for x, n in wrong)
    for held, n in wrong:
        m(page + bye, b"", held=held, n=n), m(b"\r", held=held, n=n, room=255)
    # outputs; both refusals at once
    for room, held in itertools.product((0, 1, 255, 256, 257, 65535), (b"", page[:9], b"A", page)):
        m(page + bye, b"\x02", held=held, room=room), m(b"", held=held, room=room)
    # all kinds
    for _ in range(300):
        letters = rng.choice((b"\x02\x03\x04A", b"\x82\x83\x84\x17\x97\x1f\x9fA\r", b"\x02\x82\x04\x84\x03\0\xff\r", b"\x02AAAAA\x9f"))
        held = rng.choice((b"", b"", b"\x02", b"\x82A\x97", b"\x02A\x03\x02", b"\x84", bytes(rng.choices(letters, k=rng.randint(1, 5)))))
        m(*anyhow(rng, bytes(rng.choices(letters, k=rng.randint(1, 20))), 4), held=held, n=len(held) + (rng.random() < 0.05), room=rng.choice((256,) * 15 + (255,)))
    for _ in range(60):
        data = b"".join(bytes([rng.choice(b"\x02\x02\x82\x04AAA\x03\x17\x9f")]) * rng.choice((1, 1, 2, 5, 60, 120, 230, 248)) for _ in range(rng.randint(2, 7)))
        m(*anyhow(rng, b"\x02" + b"A" * rng.choice((0, 0, 200, 240, 245, 248)) + data, 4))


# ── the program blocks ──
def listing(text):
    if len(text) > 1999:
        return b"refused 2\n"
    if any(x > 0x7F for x in text):
        return b"refused 3\n"
    if b" " not in text or any(not 0x20 <= x <= 0x7E for x in text):
        return b"refused 6\n"
    first, second = text.split(b" ", 1)
    names = {STX: b"<STX>", ETX: b"<ETX>", ETB: b"<ETB>", US: b"<US>", CR: b"<CR>"}
    return b"".join(b"".join(names.get(x, bytes([x])) for x in block(*g)) + b"\n" for g in cut(first + b"\r" + second + b"\r"))


def lines(rng):
    rows = [b"123 ABC", b"7 ", b"none", b"", b" ", b"  ", b" A", b"1  A", b"1 TEST", b"123 \x7f", b"123 \x80", b"\x80", b"1\r2 3", b"a\0b c", b"\t x", b"1 <STX>", b"1 ~}|{", b"9" * 249 + b" X", b"9" * 2001 + b"\x80"]
    rows += [b"1 " + b"A" * n for n in (246, 247, 248, 249, 496, 497, 498, 499, 1996, 1997, 1998, 1999)] + [b"A" * n for n in (1998, 1999, 2000, 2001)]
    rows += [b"A" * n + b" " for n in (1997, 1998, 1999, 2000)] + [b"A" * n + b" \x80" for n in (1997, 1998)] + [b"B" * 70000, b"C " + b"D" * 70000]
    rows += [bytes(rng.choice(b" 19Az~\x1f\x7f\x80") for _ in range(rng.randint(0, 12))) for _ in range(300)]
    rows += [b"%d " % rng.randrange(10 ** 8) + bytes(rng.choice(b" AZaz09,.") for _ in range(rng.randint(0, 900))) for _ in range(120)]
    assert b"".join(map(listing, rows[:3])) == b"<STX>123<CR>ABC<CR><ETX>17;<CR>\n<STX>7<CR><CR><ETX>056<CR>\nrefused 6\n"
    rows += [b"12 last line without its end", b"8"]
    return b"\n".join(rows), b"".join(map(listing, rows))


# ── a sum that is added to ──
def sums(rng):
    # the paper's sums, a character at a time, and as today
    for text, n in ((b"\x02123\rABC\r\x03", 379), (b"\x027\r\r\x03", 86)):
        assert sum(text) == n
        b(0, *[bytes([x]) for x in text])
    # long texts, whole and in any pieces, empty ones too
    for text in (b"\x02" + b"~" * 249 + b"\r\x03", b"\xff" * 5000, b"\x7f" * 516, b"\x7f" * 517, b"~" * 65000, b"\x80" * 300 + b"\x7f" * 33, b"A" * 63 + b"\xff" * 60000 + b"\r",
                 rng.randbytes(300)):
        c(text), b(0, text)
        for _ in range(4):
            b(0, *anyhow(rng, text, 8))
        b(0, b"", *anyhow(rng, text, 3), b"", b"")
    # one character more at the limits, whatever the sum was
    for start, x in itertools.product((0, 1, 3968, 3969, 4094, 4095, 4096, 8191, 61440, 65408, 65409, 65535), (0, 1, 0x7F, 0x80, 0x81, 0xFF)):
        b(start, bytes([x]))
    # nothing is added
    for start in (0, 379, 4095, 4096, 65535):
        b(start), b(start, b""), b(start, b"", b"~")


# ── whole fields ──
def sized(*lengths):
    """A transaction whose fields have so many characters with their CRs, those of a field alike."""
    return b"".join(bytes([0x41 + i % 26]) * (n - 1) + b"\r" for i, n in enumerate(lengths))


# one block, its limit, and one more; neighbours that fit and that do not; one field of 250 among many short ones; 8, 14 and 15 blocks
SHORT = [(1,), (250,), (1, 249), (2, 249), (249, 2), (1, 250), (250, 1), (1, 250, 1), (125, 125), (125, 126), (100, 100, 50), (100, 100, 51)]
LONG = [(249,), (249, 1), (250, 250), (249, 250), (125, 125, 1), (126, 125, 125), (83, 84, 83, 1), (1,) * 250, (1,) * 251, (1,) * 2000, (2,) * 125, (2,) * 126, (2,) * 1000, (3,) * 84,
        (250,) + (1,) * 1750, (1,) * 1750 + (250,), (1,) * 875 + (250,) + (1,) * 875, (2,) * 100 + (250,) + (3,) * 90, (7,) * 40 + (250,) + (9,) * 60, (250,) * 8, (125,) * 16,
        (250,) * 7 + (249, 1), (250, 1) * 7 + (243,), (1, 250) * 6 + (245, 249), (1, 250) * 7 + (1,), (1, 250) * 7 + (243,), (125, 126) * 7 + (125,), (125, 126) * 7 + (243,), (126,) * 15 + (110,)]
FIFTEEN = sized(*(1, 250) * 7, 243)
# a field too long: alone, first, last and in between
OVER = [(251,), (2000,), (251, 1), (1, 251), (249, 251), (250, 251), (251, 250), (100, 251, 100), (1,) * 1749 + (251,), (2,) * 400 + (252,) + (2,) * 400, (1, 1999), (1999, 1)]
WRONG = [b"", b"A", b"\x80\r", b"\x1f\r", b"A\n\r", b"\r" * 2001, b"\x80" * 2001, sized(2001), sized(1750, 251), b"A" * 251, b"A" * 250 + b"\x80\r", b"A" * 251 + b"\r\x1f\r", b"\x7f\r" + b"A" * 251 + b"\r",
         b"A" * 251 + b"\r" + b"\x1f\x80\r", b"A" * 260 + b"\rA"]


def some_fields(rng, most):
    """Fields, short, middling or long, of at most so many characters in all."""
    least, longest = rng.choice(((1, 3), (1, 40), (1, 130), (100, 150), (1, 250), (120, 131), (200, 250)))
    out = [rng.choice((rng.randint(least, longest), rng.choice((1, 2, 125, 126, 249, 250)))) for _ in range(rng.choice((1, 2, 3, 8, 20, 200)))]
    while sum(out) > most:
        out.pop()
    return out or [1]


def cuttings(rng):
    assert [len(cut(sized(*x), True)) for x in ((250,) * 8, (1, 250) * 7 + (1,), (1, 250) * 7 + (243,), (125, 126) * 7 + (243,))] == [8, 15, 15, 15]
    assert len(FIFTEEN) == 2000 and len(segments(FIFTEEN, 2090, True)) == 2090 and cut(sized(2, 249), True) == [(b"A\r", ETB), (b"B" * 248 + b"\r", ETX)]
    for lengths in SHORT + LONG:
        info = sized(*lengths)
        n = len(cut(info, True))
        s(info, whole=True)
        for i in sorted({0, 1, n - 2, n - 1, n, 65535} - {-1}):
            t(info, i, whole=True)
    # the same in the other way; and joined again
    for lengths in SHORT:
        s(sized(*lengths)), t(sized(*lengths), 1)
    for info in (sized(2, 249), sized(1, 250, 1), sized(100, 100, 51), FIFTEEN):
        j(*[block(*x) for x in cut(info, True)])
    # refusals, several at once; outputs
    for lengths in OVER:
        info = sized(*lengths)
        s(info, whole=True), t(info, 0, whole=True), t(info, 65535, whole=True)
    for info in [sized(1), FIFTEEN, sized(251), sized(1, 251, 1)] + WRONG:
        for room in (0, 2089, 2090, 2091):
            s(info, room, whole=True)
        for room, i in itertools.product((0, 255, 256, 257), (0, 15)):
            t(info, i, room, whole=True)
    # all kinds
    for i in range(200):
        info = sized(*some_fields(rng, rng.choice((300, 1000, 2000))))
        if i % 5 == 0:
            info = bytes(rng.choice(b"\rAB ~") for _ in range(rng.choice((30, 249, 250, 251, 400)))) + b"\r"
        s(info, whole=True), t(info, rng.randrange(len(cut(info, True)) + 1), whole=True)


def whole_devices(rng):
    says = (b"ID=\r", b"\r\x06\r\x1b[p\r", b"\r\x06\r", b"\r\x15\r", b"\r\x1e\r", b"\r\x1b\x04\r", b"", [b"\x8d\x86\x8d"])
    up, ack = (b"ID=\r", b"\r\x06\r\x1b[p\r"), b"\r\x06\r"
    pages = [b"123\rABC\r", sized(1, 250, 1), sized(126, 126, 126)]
    job, over = encode(pages), encode(pages + [sized(2, 251)])
    assert [len(cut(x)) for x in pages] == [1, 2, 2] and [len(cut(x, True)) for x in pages] == [1, 3, 3]
    # from the start: each reply at each block of a page, all of a job, and the job in the other way
    for x in says:
        e(b"", 1, encode([sized(1, 250, 1)]), *up, x, ack, x, whole=True)
    e(b"q7", 0, job, *up, *[ack] * 8, whole=True), e(b"q7", 0, job, *up, *[ack] * 8), e(b"", 2, job, *up, b"\r\x1e\r", ack, b"\r\x1e\r", b"\r\x1e\r", b"\r\x15\r", whole=True)
    # every place; a block that is there in one way alone
    for place, whole in itertools.product(itertools.product((0, 1, 2, 3), (0, 1, 2, 3)), (True, False)):
        g(ack, job=job, place=place, whole=whole)
    for place, said in itertools.product(((1, 0), (1, 2), (2, 2)), (b"\r\x15\r", b"\r\x1e\r", b"\r\x1b\x04\r", b"", b"ID=\r")):
        g(said, job=job, place=place, whole=True)
    # a field too long, wherever it stands and whatever the step; the same in the other way
    for step in ("opening", "logon", "sending", "closing", "stopped"):
        g(ack, job=over, step=step, whole=True), g(ack, job=over, step=step), g(ack, job=over, step=step, place=(9, 9), whole=True), g(ack, job=over[1:], step=step, whole=True)
    for page in [sized(*x) for x in OVER]:
        for some in ([page], [page, b"\r"], [b"\r", page], [b"\r", page, b"\r"]):
            g(ack, job=encode(some), whole=True)
        e(b"", 0, encode([b"\r", page]), b"ID=\r", whole=True)
    for place, whole in itertools.product(((1, 0), (1, 1), (1, 2)), (True, False)):
        g(ack, job=encode([b"\r", sized(251)]), place=place, whole=whole)
    # the largest jobs
    for some, place in (([], (0, 0)), ([b"\r"] * 64, (63, 0)), ([b"\r"] * 63 + [sized(251)], (62, 0)), ([sized(251)] + [b"\r"] * 63, (62, 0)), ([FIFTEEN] * 15, (14, 14)), ([FIFTEEN] * 15, (14, 15))):
        g(ack, job=encode(some), place=place, whole=True)
    # several wrongs at once
    for retries, attempts, room, bad, place in itertools.product((1, 10), (1, 0), (256, 255), (encode([b"\r"]), over, over[:-1]), ((0, 0), (0, 1))):
        g(ack, job=bad, retries=retries, attempts=attempts, room=room, place=place, whole=True)
    # all kinds
    for _ in range(40):
        some = [sized(*some_fields(rng, rng.choice((30, 130, 400)))) for _ in range(rng.randint(1, 4))]
        i = rng.randrange(len(some))
        g(rng.choice(says[2:5]), job=encode(some), place=(i, max(0, len(cut(some[i], True)) - rng.randint(0, 2))), whole=True)


def both(job, faults=(), **more):
    """A run in each way, which on a clean line come to the same."""
    one, other = u(job, faults, **more), u(job, faults, **more, whole=True)
    assert one == other or other is None or any(faults)


def some_whole_page(rng):
    """A transaction: mostly one that the content rules take, many in two blocks of whole fields, few with a field too long."""
    first = rng.choice((b"123",) * 8 + (b"7", b"0000123", b"124", b"", b"9" * 249))
    rest = rng.choice(((0,), (3,), (244,), (245,), (246,), (247,), (248,), (249,)) * 6 + ((), (1, 1), (249, 249), (246, 1, 249), (250,), (1, 300)))
    return first + b"\r" + b"".join(bytes([rng.choice(b"A~ 1")]) * n + b"\r" for n in rest)


def whole_runs(rng):
    job = [b"123\r" + b"A" * 249 + b"\r", b"9\rX\r", b"123\rABC\r"]
    assert [len(cut(x, True)) for x in job] == [2, 1, 1] and [e for _, e in cut(job[0])] == [US, ETX]
    assert run(Run(encode(job), (), b"", 0, (b"", 2000, 0, (123,)), encode([]), 32004, 4, 3, True)) == (7, [1, 2, 1], encode([job[0], job[2]]))
    # each fault at each transmission, and the same one again and again
    for n, fault in itertools.product(range(8), range(1, 9)):
        u(job, (0,) * n + (fault,), retries=1, limit=1, whole=True)
    for n, times in itertools.product(range(7), (9, 10)):
        both(job, (0,) * n + (3,) * times, retries=9, limit=9)
    # many blocks; transactions at and over the longest that the central takes
    both([FIFTEEN] * 4), both(job[:1] * 20)
    for some in ([], [FIFTEEN], [sized(*(1, 250) * 7, 1), job[0]], [b"123\r" + b"A" * 245 + b"\r", b"123\r" + b"A" * 246 + b"\r"], [b"9" * 249 + b"\rX\r"]):
        both(some), both(some, (0,) * 9 + (3, 0, 3), longest=1000), both(some, longest=250), both(some, longest=253), both(some, longest=254, begin=encode([b"\r"]))
    # refusals, several at once
    good, over = encode(job), encode(job + [sized(4, 251)])
    for fault, size, length, (bad, n), room in itertools.product((8, 9), (32004, 32003), (4, 5), ((good, 3), (over, 4), (over[:-1], 4)), (0, 1)):
        u(bad, (fault,), size=size, length=length, room=n + room, whole=True)
    for wrong in ({"password": b"a b"}, {"retries": 10}, {"host": b"abcdefg"}, {"longest": 2}, {"limit": 10}, {"pagers": (10 ** 8,)}, {"faults": (255,)}, {"size": 0}, {"length": 3},
                  {"length": 32005}, {"begin": good[1:]}, {"room": 0}, {"room": 3}, {"room": 4}, {"host": b"a"}):
        both(**{"job": over, "room": 4, **wrong}), u(**{"job": good, "room": 3, **wrong}, whole=True)
    for lengths in OVER:
        u([b"123\r\r", sized(*lengths)], whole=True), u([sized(*lengths), b"123\r\r"], room=1, whole=True)
    # all kinds
    for i in range(80):
        password, host = rng.choice(((b"", b""), (b"abc123", b"abc123")) if i % 10 else ((b"", b"a"), (b"Z", b"z")))
        both([some_whole_page(rng) for _ in range(rng.randint(1, 4))], some_faults(rng), password=password, retries=rng.randint(0, 3), host=host, longest=rng.choice((2000, 2000, 254, 252)),
             limit=rng.randint(0, 3), pagers=(123, 7), begin=rng.choice((encode([]), encode([b"7\r\r"]), encode([b"\r"] * 62))))


# ── the late no ──
def i(standing, verdicts):
    """A verdict buffer, or any bytes, settled."""
    call("i", standing, hexed(verdicts), answer=lambda: plain(settle(standing, verdicts)))


def settling(rng):
    assert settle("d", range(256)) == [0, 6, *range(2, 256)]
    for standing in "ocd":
        for some in (bytes(range(256)), b"", b"\1", b"\2", b"\6", b"\1\2\3\4\5\6", b"\6\1\6\1", b"\2\1\1\3\5", b"\1\1\2\4\5\5", b"\0\1\x81\x11\xff\1\x10"):
            i(standing, some)
        for _ in range(4):
            i(standing, bytes(rng.choices(b"\1\1\2\3\4\5\6", k=rng.randint(2, 12))))


def doubted(said, n, late):
    """The verdicts that a conversation comes to, by what it prints: those that it gave, the taken in doubt where it is over and its close was not answered with ESC EOT."""
    given, doubt = dict(re.findall(r"(\d+)=(\d)", said)), late and said.endswith(" -") and ", closed eot -" not in said
    return [6 if doubt and v == 1 else v for v in (int(given.get(str(t), 5)) for t in range(n))]


def kept(job):
    """The verdicts that a driver keeps for a job before the call."""
    try:
        return [5] * len(decode(job))
    except Refused:
        return []


def driven(password, retries, job, lines, whole, late):
    """How the taken stand behind each reply, `o` where nothing is said of them, or why the device does not start; and the driver's verdicts at the end."""
    verdicts, said = kept(job), ""
    try:
        device = Device(password, retries, job, whole)
    except Refused as r:
        return "refused %s %s" % (r, plain(verdicts))
    for line in lines:
        over, given = device.step == "stopped", device.take(line)
        if "=" in given:
            t, v = given.split("=")
            verdicts[int(t)] = int(v)
        standing = "o" if over or device.step != "stopped" else stands(given, late)
        said, verdicts = said + standing, settle(standing, verdicts)
    assert re.fullmatch("o*[cd]?o*", said) and verdicts == doubted(play(password, retries, job, lines, whole), len(verdicts), late)
    return "%s %s" % (said, plain(verdicts))


def l(job, *texts, password=b"", retries=1, whole=False, late=False):
    """Replies played to a driver of the device, its job given as transactions or as bytes; texts get parity, lines given as bytes in a list do not."""
    lines = off_line(texts)
    job = job if isinstance(job, bytes) else encode(job)
    assert len(lines) <= 27  # what the program has room for
    call(named("l", whole, late), hexed(password), number(retries), hexed(job), *[hexed(x) for x in lines], answer=lambda: driven(password, retries, job, lines, whole, late))


def two_drivers(job, *texts, **more):
    """A driver of an early device, and one of a late: the taken alone differ, and only in doubt."""
    l(job, *texts, **more), l(job, *texts, **more, late=True)
    (early, given), (late, settled) = (x.rsplit(" ", 1) for x in answers[-2:])
    doubt = late[:1] != "r" and "d" in late
    assert early == (late.replace("d", "c") if doubt else late) and settled == (given.replace("01", "06") if doubt else given) and "6" not in given


UP, SAID_ACK, SAID_NAK, SAID_RS, SAID_EOT, UNREAD = (b"ID=\r", b"\r\x06\r\x1b[p\r"), b"\r\x06\r", b"\r\x15\r", b"\r\x1e\r", b"\r\x1b\x04\r", [b"\x8d\x86\x8d"]
# the replies with which a call stops, where one retry is allowed: those to the opening, to the logon, to a block, to the close
OPENINGS = [(x,) * 3 for x in (b"", b"?", SAID_ACK, SAID_NAK, SAID_RS, SAID_EOT, UP[1])] + [(b"", SAID_EOT, UNREAD)]
LOGONS = [(SAID_RS,), (SAID_EOT,), (SAID_ACK,), (SAID_NAK, SAID_NAK), UP[:1] * 2, (SAID_NAK, b""), (b"",), (UNREAD,)]
BLOCKS = [(SAID_NAK, SAID_NAK), (SAID_EOT,), (SAID_NAK, SAID_EOT), (b"",), (b"?",), (UNREAD,), UP[:1], UP[1:]]
CLOSES = [(SAID_EOT,), (SAID_RS,), (SAID_NAK, SAID_EOT), (SAID_NAK, SAID_RS), (SAID_NAK, SAID_NAK), (SAID_NAK, b""), (SAID_ACK,), UP[:1], UP[1:], (b"",), (b"?",), (UNREAD,),
          (b"OK\r\n\x1b\x04\r\n",), (b"ID2 not known\r\x1e\r",), (b"\r\x1b\x04",), ([b"\x8d\x1b\x04\x8d"],)]
TOLD = {"A": SAID_ACK, "R": SAID_RS}
PAGES = [b"1\r\r", b"2\rB\r", b"3\r\r", b"4\rD\r"]


def drivers(rng):
    # the neighbour's central, which says ACK to everything and at the close RS; pages of one block and of several
    long = [sized(1, 250, 1), sized(126, 126, 126)]
    for whole in (False, True):
        for n in range(2, 5):
            two_drivers(PAGES[:n], *UP, *[SAID_ACK] * n, SAID_RS, whole=whole)
        two_drivers(long, *UP, *[SAID_ACK] * (6 if whole else 4), SAID_RS, whole=whole), two_drivers(long, *UP, *[SAID_ACK] * (6 if whole else 4), SAID_EOT, whole=whole)
    # every way to answer the close; whatever was said of up to four transactions
    some = ("", "A", "AR", "AAR", "ARAA")
    for end, told in itertools.product(CLOSES, some):
        two_drivers(PAGES[:len(told)], *UP, *map(TOLD.get, told), *end)
    for told in itertools.chain(*(map("".join, itertools.product("AR", repeat=n)) for n in range(5))):
        if told not in some and "R" in told:
            l(PAGES[:len(told)], *UP, *map(TOLD.get, told), SAID_EOT, late=True), two_drivers(PAGES[:len(told)], *UP, *map(TOLD.get, told), SAID_RS)
    # every way to stop before the close
    for end, told in itertools.product(BLOCKS, ("", "A", "AR", "ARA")):
        two_drivers(PAGES[:max(2, len(told) + 1)], *UP, *map(TOLD.get, told), *end)
    for n in (0, 2):
        for end in LOGONS:
            two_drivers(PAGES[:n], UP[0], *end)
        for end in OPENINGS:
            two_drivers(PAGES[:n], *end)
    # what comes behind the stop says nothing more; nor does a call that goes on
    for end, behind in itertools.product(((SAID_EOT,), (SAID_RS,), (b"",), (SAID_NAK, SAID_NAK)), ((SAID_EOT,) * 2, (SAID_RS, SAID_ACK, SAID_NAK), (*UP, SAID_ACK, SAID_ACK, SAID_EOT))):
        two_drivers(PAGES[:2], *UP, SAID_ACK, SAID_RS, *end, *behind)
    for end in BLOCKS:
        two_drivers(PAGES[:3], *UP, SAID_ACK, *end, SAID_ACK, SAID_EOT)
    for end in [UP[:1] + x for x in LOGONS[:4]] + OPENINGS[:2]:
        two_drivers(PAGES[:1], *end, *UP, SAID_ACK, SAID_EOT)
    for n in range(7):
        two_drivers(PAGES[:3], *(b"", *UP, SAID_ACK, SAID_NAK, SAID_RS)[:n])
    # retry limits: the last NAK, and the one before it
    for retries, times in ((0, 0), (0, 1), (2, 2), (2, 3), (9, 9), (9, 10)):
        two_drivers(PAGES[:1], *UP, SAID_ACK, *[SAID_NAK] * times, SAID_EOT, retries=retries)
    # whole fields, in a page of three blocks and behind it
    for end in CLOSES[:4] + BLOCKS[:4]:
        two_drivers(PAGES[:1] + long[:1], *UP, *[SAID_ACK] * 4, *end, SAID_EOT, whole=True), two_drivers(PAGES[:1] + long, *UP, *[SAID_ACK] * 2, *end, whole=True)
    # refusals
    job = encode(PAGES[:2])
    for whole in (False, True):
        for wrong in (job[1:], job + b"\0", b"", [b"\r"] * 65, [b"\r", sized(251)]):
            two_drivers(wrong, *UP, SAID_EOT, whole=whole)
        two_drivers(job, *UP, retries=10, whole=whole), two_drivers(job[1:], *UP, retries=10, whole=whole), two_drivers(job, *UP, password=b"abcdefg", whole=whole), two_drivers(job, password=b"a b", whole=whole)
    # all kinds
    for _ in range(45):
        opening, logon, end = rng.choice(((), (), (b"",), (SAID_NAK, b""))), rng.choice(((), (), (SAID_NAK,))), rng.choice((SAID_EOT, SAID_EOT, SAID_RS))
        replies = rng.choices((SAID_ACK, SAID_RS, SAID_NAK, SAID_EOT, b"", UNREAD, *UP), (12, 6, 5, 1, 1, 1, 1, 1), k=rng.randint(1, 8))
        two_drivers(PAGES[:rng.randint(1, 4)], *opening, UP[0], *logon, UP[1], *replies, end, retries=rng.randint(0, 2))


def two_runs(job, faults=(), **more):
    """A run with an early device, and one with a late: the taken alone differ. The verdicts of both."""
    one, other = u(job, faults, **more), u(job, faults, **more, late=True)
    early, late = (x.split() for x in answers[-2:])
    assert early[:2] + early[3:] == late[:2] + late[3:] and (one is other is None or all(x == y or (x, y) == (1, 6) for x, y in zip(one[0], other[0])))
    return one and (one[0], other[0])


def late_runs(rng):
    job, three = [b"123\rABC\r", b"9\rX\r"], [b"123\rA\r", b"9\r\r", b"123\r\r"]
    # final verdicts are not monotone in the retry limits, which is why wish 4 has demand 3 speak of the provisional ones: with D = C = 0 the central hangs up on a garbled
    # close with ESC EOT, which confirms; with C = 1 it says NAK to it, the last that the device takes; with D = 1 too the device closes again
    garbled = (0, 0, 0, 0, 3)
    assert two_runs(job, garbled, retries=0, limit=0) == ([1, 2], [1, 2])
    assert two_runs(job, garbled, retries=0, limit=1) == ([1, 2], [6, 2])
    assert two_runs(job, garbled, retries=1, limit=1) == ([1, 2], [1, 2])
    # no faults; the largest job, and journals with and without room
    for some in ([], job, job[::-1], job[:1] * 3, job[1:] * 2, [b"123\r\r"] * 64):
        two_runs(some)
    for n, faults in itertools.product((62, 63, 64), ((), (0, 0, 0, 0, 1))):
        two_runs(job[:1] * 2, faults, begin=encode([b"\r"] * n))
    # each fault at each transmission; those of the close again and again
    for retries, limit, n, fault in itertools.product((0, 1), (0, 1), range(6), range(1, 9)):
        two_runs(three, (0,) * n + (fault,), retries=retries, limit=limit)
    for (retries, limit), times in itertools.product(((0, 2), (1, 1), (1, 2), (2, 1), (2, 2)), (2, 3)):
        two_runs(three[:1], (0,) * 3 + (3,) * times, retries=retries, limit=limit)
    # passwords that differ; whole fields
    for password, host in ((b"", b"a"), (b"abc12", b"abc123"), (b"Z", b"z")):
        two_runs(job, password=password, retries=1, host=host, limit=1), two_runs(job, (0, 3), password=password, retries=0, host=host, limit=0)
    for faults in ((), (0, 0, 0, 3), (0, 0, 0, 1), (0,) * 5 + (1,), (0,) * 5 + (3, 3), (0,) * 4 + (2,)):
        two_runs([b"123\r" + b"A" * 249 + b"\r", b"123\r\r"], faults, retries=1, limit=1, whole=True)
    # refusals
    good = encode(job)
    for wrong in ({"password": b"a b"}, {"retries": 10}, {"host": b"abcdefg"}, {"longest": 2}, {"limit": 10}, {"pagers": (10 ** 8,)}, {"faults": (9,)}, {"size": 32003}, {"length": 5}, {"length": 32005},
                  {"job": good[1:], "room": 2}, {"room": 1}, {"room": 3}, {"job": [sized(251)], "whole": True}):
        two_runs(**{"job": job, **wrong})
    # all kinds
    for n in range(40):
        password, host = rng.choice(((b"", b""), (b"q7", b"q7"))) if n % 10 else (b"", b"a")
        some = rng.choices((b"123\r\r", b"123\rABC\r", b"7\rX\r", b"9\rX\r", b"123\r" + b"A" * 300 + b"\r", b"123\r" + b"A" * 246 + b"\r"), (3, 3, 3, 3, 1, 1), k=rng.randint(1, 5))
        two_runs(some, some_faults(rng)[:16], password=password, retries=rng.randint(0, 2), host=host, limit=rng.randint(0, 2), pagers=(123, 7), whole=n % 3 == 0)


def late_devices():
    """Conversations with a device that confirms late: strings, verdicts and reports are those of one that confirms early."""
    def alike(which, *args, **more):
        which(*args, **more), which(*args, **more, late=True)
        assert answers[-1] == answers[-2]

    job = encode(PAGES[:1])
    for end in CLOSES[:5]:
        alike(e, b"q7", 1, job, *UP, SAID_ACK, *end, SAID_EOT)
    for end in BLOCKS[:2]:
        alike(e, b"", 1, job, *UP, *end, SAID_EOT)
    alike(e, b"", 1, job, *OPENINGS[0], UP[0]), alike(e, b"", 1, job, UP[0], *LOGONS[0]), alike(e, b"", 1, job, *UP, SAID_ACK, SAID_RS, whole=True), alike(e, b"", 10, job, *UP)
    for step, said in itertools.product(("opening", "logon", "sending", "closing"), (SAID_NAK, SAID_RS, SAID_EOT)):
        alike(g, said, job=job, step=step, attempts=2)
    alike(g, SAID_ACK, SAID_NAK, SAID_EOT, SAID_RS, job=job), alike(g, SAID_ACK, SAID_RS, job=job, whole=True), alike(g, SAID_EOT, job=job, step="stopped")
    for wrong in ({"attempts": 3}, {"room": 255}, {"retries": 10}, {"job": job[1:]}, {"place": (0, 1)}):
        alike(g, SAID_EOT, **{"job": job, "step": "closing", **wrong})


# ── what the central wrote ──
def lines_at(text, at):
    """The lines that stand at a place, one behind the other: where each begins, where its characters end, and where it does; and the place behind them."""
    found = []
    while True:
        end = at
        while end < len(text) and 0x20 <= text[end] <= 0x7E:
            end += 1
        if text[end:end + 1] != b"\r":
            return found, at
        begin, at = at, end + (2 if text[end + 1:end + 2] == b"\n" else 1)
        found.append((begin, end, at))


def ended(code):
    return code + b"\r", code + b"\r\n"


def parsed(text):
    """The place of the lines before the code, and that of the last of them that begins with ID or None; None where there are none. By a walk over the text."""
    before, end = lines_at(text, 0)
    last, rest = [(x, y) for x, y, _ in before if text[x:x + 2] == b"ID"][-1:], text[end:]
    plain_reply = any(rest in ended(code) for code in (b"\x06", b"\x15", b"\x1e", b"\x1b\x04"))
    acceptance = any(rest.startswith(ack) and rest[lines_at(rest, len(ack))[1]:] in ended(b"\x1b[p") for ack in ended(b"\x06"))
    return ((0, end), last[0] if last else None) if plain_reply or acceptance else None


# lines, of which behind the last that begins with ID none does; a code, or what a logon acceptance has from its ACK on
WRITTEN = rb"((?:(?:%s)*(ID[ -~]*)\r\n?)?(?:(?!ID)%s)*)(?:(?:%s)|\x06\r\n?(?:%s)*\x1b\[p)\r\n?" % (LINE, LINE, b"|".join(CODES.values()), LINE)


def places(data):
    """The same of a reply off the line; and once more, as a regular expression."""
    if len(data) > 256 or any(bin(c).count("1") % 2 for c in data):
        return None
    text = bytes(c & 0x7F for c in data)
    one, other = parsed(text), re.fullmatch(WRITTEN, text)
    assert one == (other and (other.span(1), other.span(2) if other[2] else None)) and (one is None) == (meaning(data) in ("id request", "unrecognized"))
    if one:
        (begin, end), (first, last) = one[0], one[1] or one[0]
        assert 0 == begin <= first <= last <= end < len(data) and (one[1] is None or text[last] == CR)
    return one


def shown(found):
    return " ".join("%d-%d" % place for place in found if place) if found else "-"


def h(text):
    """Where what the central wrote stands in a reply."""
    data, = off_line([text])
    call("h", hexed(data), answer=lambda: shown(places(data)))


def typed(lines, *endings):
    """Lines, with these endings in turn."""
    return b"".join(line + end for line, end in zip(lines, itertools.cycle(endings)))


def remarks(rng):
    some = ([], [b""], [b"", b"", b""], [b"OK"], [b"ID"], [b"ID123 not known"], [b"ID="], [b"ID= "], [b"id123"], [b"Id"], [b"iD"], [b" ID123"], [b"no ID123"], [b"I"], [b"D"], [b"I", b"D"],
            [b"DI", b"D"], [b"IDID"], [b"", b"ID1"], [b"ID1", b""], [b"ID1", b"ID"], [b"ID", b"ID1"], [b"ID", b"ID"], [b"OK", b"ID1", b"bye"], [b"ID1", b"OK", b"ID22", b"bye"],
            [b"ID1", b" ID2", b"id3", b"x ID4"], [b" ", b"ID ~", b"~"], [b"ID\\[p"])
    endings = ((b"\r",), (b"\r\n",), (b"\r", b"\r\n"), (b"\r\n", b"\r"))
    tails = [code + end for code in (b"\x06", b"\x15", b"\x1e", b"\x1b\x04", b"\x06\r\x1b[p", b"\x06\r\nID9\r\x1b[p") for end in (b"\r", b"\r\n")]
    # by the words of the wish, and the replies of document 01
    for text, answer in ((b"ID123 not known\r\x15\r", "0-16 0-15"), (b"\r\nID123 not known\r\n\r\x1e\r\n", "0-20 2-17"), (b"Bad phone line\r\x1b\x04\r", "0-15"), (b"ID\rID\r\n\x06\r", "0-7 3-5"),
                         (b"OK\r\x1e\r\n", "0-3"), (b"\x06\r", "0-0"), (b"\r\x06", "-"), (b"\x06\r\r", "-"), (b"\r\x06\r\x1b[p\r", "0-1"), (b"ID1\r\x06\rID2\r\x1b[p\r", "0-4 0-3"), (b"ID=\r", "-"), (b"", "-")):
        h(text)
        assert answers[-1] == answer
    # lines of all kinds, with endings of all kinds, before each code in turn; no lines and few before every code
    turn = itertools.cycle(tails)
    for before in dict.fromkeys(typed(lines, *ends) for lines in some for ends in endings):
        h(before + next(turn))
    for before, tail in itertools.product((b"", b"\r\n", b"wait\r\nID123 not known\rOK\r"), tails):
        h(before + tail)
    # logon acceptances: what stands behind the ACK does not count
    turn = itertools.cycle(endings)
    for before, behind in itertools.product(([], [b""], [b"OK"], [b"ID1"], [b"ID1", b"OK"]), ([], [b""], [b"ID9 wait"], [b"ID", b""], [b"", b"id", b"ID=", b"ID8"])):
        ends = next(turn)
        h(typed(before, *ends) + typed([b"\x06"] + behind + [b"\x1b[p"], *ends))
    # ID requests; what only looks like one
    for text, end in itertools.product((b"ID=", b"ID= ", b"ID=  ", b"\rID=", b"ID=\r\nID=", b"ID=\r\x06"), (b"", b"\r", b"\r\n")):
        h(text + end)
    # up to 256 bytes, and one more
    for n, end in itertools.product((255, 256, 257), (b"\r\x06\r", b"\r\nID\r\n\x1b\x04\r\n", b"\r\x06\rID2\r\x1b[p\r")):
        h(b"ID".ljust(n - len(end), b"A") + end), h(b"\r" * (n - len(end)) + end)
    # one byte of odd parity; torn replies
    text = b"OK\r\nID123\r\r\x06\r\nID9\r\x1b[p\r\n"
    line, = off_line([text])
    for n in range(len(line)):
        h([line[:n] + bytes([line[n] ^ 0x80 >> n % 8]) + line[n + 1:]])
    for text in (text, b"ID1\r\nID\r\x1b\x04\r"):
        for n in range(1, len(text)):
            h(text[:n]), h(text[n:])
    # wrong characters, and codes in a wrong place
    for wrong in (b"\n", b"\n\r", b"\r\n\n", b"OK", b"OK\n", b"ID1\x7f\r", b"ID1\x1f\r", b"\tID1\r", b"ID\x06\r", b"\x06\r", b"\x15\r\n", b"\x1b\r", b"\x1b[p\r"):
        h(wrong + b"\x06\r"), h(b"ID1\r" + wrong + b"\x1e\r\n"), h(b"ID1\r\x15\r" + wrong)
    # all kinds
    for _ in range(70):
        h(typed(rng.choices((b"", b"OK", b"ID", b"ID1", b"I", b"id", b" ID", b"DID"), k=rng.randint(0, 6)), *rng.choices((b"\r", b"\r\n"), k=5)) + rng.choice(tails))
    for _ in range(50):
        h(bytes(rng.choices(b"\r\nIDA\x06\x15\x1e\x1b", (6, 2, 4, 4, 1, 2, 1, 1, 1), k=rng.randint(1, 7))) + rng.choice((b"", b"\r\x06\r", b"\r\x1b[p\r")))


def reported(step, line):
    """What the device reports of a reply: nothing once it has stopped, and nothing of one that is unread where a block was sent."""
    return shown(None if step == "stopped" or step == "sending" and meaning(line) not in CODES else places(line))


def reports_of(password, retries, job, step, place, attempts, room, lines, whole):
    """What the start reports, and the device of each reply from a saved state on; and why where it refuses."""
    said = []
    try:
        saved(password, retries, job, "opening", (0, 0), 1, room, whole)
        said.append("-")
    except Refused as r:
        said.append("- refused %s" % r)
    for line in lines:
        try:
            d = saved(password, retries, job, step, place, attempts, room, whole)
        except Refused as r:
            said.append("- refused %s" % r)
            continue
        said.append(reported(step, line))
        given = d.take(line)
        assert step != "sending" or (said[-1] == "-") == given.endswith("=3")
        step, place, attempts = d.step, d.place, d.attempts
    return ", ".join(said)


def x(*texts, password=b"", retries=1, job=encode(PAGES[:2]), step="sending", place=(0, 0), attempts=1, room=256, whole=False, late=False):
    """What the device reports of replies, from a saved state on."""
    lines = off_line(texts)
    assert len(lines) <= 22 and room <= 512  # what the program has room for
    call(named("x", whole, late), hexed(password), number(retries), hexed(job), "x" if step == "stopped" else step[0], number(place[0]), number(place[1]), number(attempts), number(room),
         *map(hexed, lines), answer=lambda: reports_of(password, retries, job, step, place, attempts, room, lines, whole))


def reports(rng):
    steps, bad, wrote = ("opening", "logon", "sending", "closing", "stopped"), b"Bad phone line\r", b"wait\r\nID7 not known\r"
    says = [b"ID=\r", b"ID= \r\n", wrote + b"\x06\rID8\r\x1b[p\r"] + [wrote + code + b"\r" for code in (b"\x06", b"\x15", b"\x1e", b"\x1b\x04")] + [b"\x06\r", UP[1], wrote, wrote + b"ID=\r", b"", UNREAD]
    # every step, each kind of reply; the last sending of each
    for step, said in itertools.product(steps, says):
        x(said, step=step)
    for step, said in itertools.product(steps[:4], (says[0], says[4], says[6])):
        x(said, said, step=step, attempts=3 if step == "opening" else 2)
    x(bad + b"\x1b\x04\r", step="logon"), x(bad + b"\x15\r", bad + wrote + b"\x15\r\n", step="logon"), x(wrote + UP[1], wrote + b"\x06\r", step="logon", late=True)
    # from the state that a call starts in: lines in every reply, in replies that are not the wanted ones, and behind the stop
    first = {"step": "opening", "retries": 2, "password": b"q7"}
    talk = [UP[0], wrote + UP[1], b"ID1 queued\r\x06\r\n", bad + b"\x15\r", b"ID2 not known\r\nID2 again\r\n\x1e\r"]
    for late in (False, True):
        x(*talk, b"ID4 bye\r\x1b\x04\r", b"ID5\r\x06\r", UP[0], **first, late=late), x(*talk, wrote + b"\x15\r", b"bye\r\x1e\r", **first, late=late)
        x(says[3], says[6], says[2], UP[0], **first, late=late), x(says[5], wrote, UP[0], wrote, UP[0], **first, late=late), x(*talk[:3], wrote + UP[1], says[3], **first, late=late)
        x(*UP, says[3], says[3], UP[0], says[6], **first, late=late), x(*UP, says[4], says[4], says[4], says[4], **first, late=late), x(*UP, wrote + b"\x06\r", says[5], says[1], **first, late=late)
    long = encode([sized(1, 250, 1), b"1\r\r"])
    x(says[3], says[4], says[5], says[3], says[6], job=long, whole=True), x(says[3], says[2], job=long, place=(0, 2), whole=True), x(says[3], job=long, place=(0, 2)), x(*UP, says[5], says[6], job=encode([]), **first)
    # refusals, of which none reports; one alone, and several at once
    job = encode(PAGES[:2])
    for wrong, step in itertools.product(({"retries": 10}, {"password": b"a b"}, {"attempts": 0}, {"attempts": 4}, {"room": 255}, {"room": 0, "job": job[1:]}, {"job": job[1:]}, {"job": b""}, {"place": (0, 1)},
                                          {"place": (2, 0)}, {"job": encode([sized(251)]), "whole": True}, {"retries": 10, "room": 255}), ("sending", "closing")):
        x(says[5], says[6], **wrong, step=step)
    x(says[3], step="stopped", room=255), x(says[3], step="stopped", job=job[1:]), x(says[3], step="stopped", retries=10), x(says[6], step="logon", attempts=3), x(says[6], step="opening", attempts=4)
    # all kinds
    for _ in range(30):
        codes = rng.choices((b"\x06\r", b"\x1e\r\n", b"\x15\r", b"\x1b\x04\r", b"\x06\r\x1b[p\r", b"ID=\r"), (6, 4, 4, 1, 1, 1), k=rng.randint(1, 6))
        texts = [typed(rng.choices((b"", b"OK", b"ID", b"ID1 no"), k=rng.randint(0, 3)), b"\r", b"\r\n") + code for code in codes]
        x(*texts, step=rng.choice(steps[:4]), retries=rng.randint(0, 2), job=encode(PAGES[:rng.randint(1, 4)]), whole=rng.random() < 0.3, late=rng.random() < 0.3)


# ── the SNPP gateway ──
class Gateway:
    """The gateway's steps over lines, from its start; no message is None (document 02, wish 6, and RFC 1861 for the numbers)."""

    def __init__(self, longest, pagers):
        self.longest, self.pagers, self.closed = longest, pagers, False
        self.forget()

    def forget(self):
        self.pager, self.message = b"", None

    def answer(self, line, stored):
        """The number that a line gets, None behind QUIT; what SEND appends goes behind what is stored."""
        command, text = line.upper(), line[5:]
        if self.closed:
            return None
        if command.startswith(b"PAGE "):
            return self.page(text)
        if command.startswith(b"MESS "):
            return self.mess(text)
        if command == b"SEND":
            return self.send(stored)
        if command == b"RESE":
            self.forget()
            return 250
        if command == b"QUIT":
            self.forget()
            self.closed = True
            return 221
        return 500

    def page(self, text):
        if not 1 <= len(text) <= 8 or any(x not in b"0123456789" for x in text):
            return 550
        self.pager = text
        return 250

    def mess(self, text):
        if any(not 0x20 <= x <= 0x7E for x in text):
            return 550
        if self.message is not None:
            return 503
        self.message = text
        return 250

    def send(self, stored):
        if not self.pager or self.message is None:
            return 503
        page, listed = self.pager + b"\r" + self.message + b"\r", int(self.pager) in self.pagers
        self.forget()
        if len(page) > self.longest or not listed or len(stored) + 1 > 64 or sum(len(t) + 2 for t in stored + [page]) > 32000:
            return 554
        stored.append(page)
        return 250


@functools.cache
def held(lines):
    """What the gateway holds behind lines, found in the lines alone: the latest PAGE and the first MESS that are right, since a RESE, a QUIT or a SEND that had both."""
    begin = len(lines)
    while begin and not (re.fullmatch(rb"(?i)rese|quit", lines[begin - 1]) or lines[begin - 1].upper() == b"SEND" and None not in held(lines[:begin - 1])):
        begin -= 1
    pages, messages = ([x[5:] for x in lines[begin:] if re.fullmatch(rb"(?i)%s %s" % form, x)] for form in ((b"page", rb"[0-9]{1,8}"), (b"mess", rb"[ -~]*")))
    return pages[-1] if pages else None, messages[0] if messages else None


def central_takes(longest, pagers, stored, page):
    """What the central has stored once it has heard the blocks of a page."""
    c = Central(b"", longest, 0, pagers, encode(stored))
    c.stage = "block"
    for x in cut(page):
        c.step(bytes(map(with_parity, block(*x))))
    return decode(c.journal)


STAGES = ("open", "entered", "closed")
START = ("open", bytes(8), 0, bytes(2043), 0)


def gateway_in_range(stage, pager, digits, message, n):
    """The start can lead to the state."""
    if digits > 8 or n > 2043 or any(pager[digits:]) or any(message[n:]):
        return False
    if any(x not in b"0123456789" for x in pager[:digits]) or any(not 0x20 <= x <= 0x7E for x in message[:n]):
        return False
    return n == 0 if stage == "open" else stage == "entered" or digits == n == 0


def gateway_tested(longest, pagers, state, buffer, length, room, line):
    """The transactions in the journal, where nothing is refused."""
    if not 3 <= longest <= 2000 or len(pagers) > 1000 or any(x >= 10 ** 8 for x in pagers) or not gateway_in_range(*state):
        raise Refused(9)
    if room < 6 or len(buffer) != 32004:
        raise Refused(1)
    if length > len(buffer):
        raise Refused(7)
    stored = decode(buffer[:length])
    if len(line) > 2048:
        raise Refused(2)
    return stored


def gateway_step(longest, pagers, state, stored, line):
    """The answer to a line, and the state and the transactions behind it; what the models of the central and of whole sessions say to that is the same."""
    g, before = Gateway(longest, pagers), list(stored)
    g.closed, g.pager, g.message = state[0] == "closed", state[1][:state[2]], state[3][:state[4]] if state[0] == "entered" else None
    pager, message = g.pager, g.message
    n = g.answer(line, stored)
    if line.upper() == b"SEND" and n in (250, 554):
        assert stored == central_takes(longest, pagers, before, pager + b"\r" + message + b"\r") and (len(stored) > len(before)) == (n == 250)
    else:
        assert stored == before and n in (None, 221, 250, 500, 503, 550)
    text, stage = g.message or b"", "closed" if g.closed else "open" if g.message is None else "entered"
    after = stage, g.pager.ljust(8, b"\0"), len(g.pager), text.ljust(2043, b"\0"), len(text)
    assert gateway_in_range(*after) and (n in (221, 250, 554) or after == state)
    return b"" if n is None else b"%d \r\n" % n, after


def heard(longest, length, pagers, begin, size, room, state, lines):
    """What the gateway answers to lines, and how journal, buffers and state stand behind the last."""
    buffer, out, said, known = begin[:size].ljust(size, b"\0"), FILLER * room, [], state == START and ()
    for line in lines:
        try:
            stored = gateway_tested(longest, pagers, state, buffer, length, room, line)
        except Refused as r:
            said.append("refused %s" % r)
            continue
        reply, state = gateway_step(longest, pagers, state, stored, line)
        if known is not False and state[0] != "closed":
            known += (line,)
            assert held(known) == (state[1][:state[2]] or None, state[3][:state[4]] if state[0] == "entered" else None)
        said.append(wrote(reply))
        book = encode(stored)
        buffer, length, out = laid(book, buffer), len(book), laid(reply, out)
    return said, buffer, length, out, state


def session(*args):
    said, buffer, length, out, (stage, pager, digits, message, n) = heard(*args)
    return ", ".join(said + ["%d %s %s %d %d %s %d %s" % (length, digest(buffer), digest(out), STAGES.index(stage), digits, digest(pager), n, digest(message))])


def setup(longest, length, pagers, begin, size, room):
    """The arguments that every call on the gateway has behind its name."""
    assert len(pagers) <= 1001  # what the program has room for
    return [number(longest), number(length), hexed(b"".join(x.to_bytes(4, "big") for x in pagers)), hexed(begin), number(size), number(room)]


def zs(*lines, longest=2000, pagers=(123, 7), begin=encode([]), length=None, size=32004, room=6):
    """A session from the start; length is the journal's, size its buffer's, room the output's."""
    length = len(begin) if length is None else length
    assert len(lines) <= 23  # what the program has room for
    call("z", "s", *setup(longest, length, pagers, begin, size, room), *map(hexed, lines), answer=lambda: session(longest, length, pagers, begin, size, room, START, lines))


def zt(*lines, stage="open", pager=b"", digits=None, message=b"", n=None, longest=2000, pagers=(123, 7), begin=encode([]), length=None, size=32004, room=6):
    """Steps from a saved state, of so many digits and a message of n characters."""
    length, digits, n = len(begin) if length is None else length, len(pager) if digits is None else digits, len(message) if n is None else n
    assert len(pager) <= 8 and len(message) <= 2043 and len(lines) <= 18  # what the program has room for
    call("z", "t", *setup(longest, length, pagers, begin, size, room), stage[0], hexed(pager), number(digits), hexed(message), number(n), *map(hexed, lines),
         answer=lambda: session(longest, length, pagers, begin, size, room, (stage, pager.ljust(8, b"\0"), digits, message.ljust(2043, b"\0"), n), lines))


def zg(room):
    """The greeting."""
    def a():
        if room < 6:
            return "refused 1 %s" % digest(FILLER * room)
        return "%s %s" % (digest(b"220 \r\n"), digest(laid(b"220 \r\n", FILLER * room)))
    call("z", "g", "-", "-", "-", "-", "-", number(room), answer=a)


def written_out(book, room):
    """The records of a journal as lines, oldest first."""
    if room < 33024:
        raise Refused(1)
    pages = [re.fullmatch(rb"([0-9]{1,8})\r([ -~]*)\r", t) for t in decode(book)]
    if None in pages:
        raise Refused(6)
    return b"".join(b"PAGE %s\r\nMESS %s\r\nSEND\r\n" % x.groups() for x in pages)


def put_out(book, room):
    """The same and all of the output, by their digests; and the lines, none where it is refused."""
    try:
        lines = written_out(book, room)
        return "%s %s" % (digest(lines), digest(laid(lines, FILLER * room))), lines
    except Refused as r:
        return "refused %s %s" % (r, digest(FILLER * room)), b""


def zw(book, room=33024):
    """A journal written out."""
    call("z", "w", "-", "-", "-", "-", "-", number(room), hexed(book), answer=lambda: put_out(book, room)[0])


def zr(book, pagers=None, longest=2000, begin=encode([]), size=32004, room=33024):
    """A journal written out and taken in again, with every pager of it listed if none are given."""
    if pagers is None:
        pagers = sorted({int(x) for x in re.findall(rb"(?s)([0-9]{1,8})\r[ -~]*\r..", book)})

    def a():
        said, lines = put_out(book, room)
        answers, buffer, length, _, _ = heard(longest, len(begin), pagers, begin, size, 6, START, lines.split(b"\r\n")[:-1])
        if lines and begin == encode([]) and set(answers) == {wrote(b"250 \r\n")}:
            assert buffer[:length] == book
        return "%s %d %d %s" % (said, buffer[:length] == book, length, digest(buffer))
    call("z", "r", *setup(longest, len(begin), pagers, begin, size, room), hexed(book), answer=a)


P, M, S, R, Q = b"PAGE 123", b"MESS ABC", b"SEND", b"RESE", b"QUIT"
OVERLONG = b"A" * 2049
GOOD = [b"7\r\r", b"123\rABC\r", b"00000123\r ~\r"]


def spare(left):
    """A journal with room for so many bytes more."""
    return encode([b"A" * 1997 + b"\r"] * 15 + [b"B" * (1997 - left) + b"\r"])


def sessions():
    some = (P, M, S, R, Q, b"", b"PAGE x", b"MESS \x7f", b"HELP")
    # a page; each line in each place of it, and behind a failure; behind QUIT
    zs(), zs(P, M, S, Q), zs(M, P, S, S), zs(P, M, S, P, M, S, room=7), zs(P, M, Q, *some), zs(Q, P), zt(*some, stage="closed", room=9)
    for x in some:
        zs(x, P, x, S), zs(P, M, x, S), zs(M, x, P, S, M), zs(b"PAGE 9", M, S, x, M, S, P, S)
    # capitals and small letters, and both
    for mask in range(16):
        def cased(line, turn=0):
            return bytes(x | 0x20 if i < 4 and mask >> (i + turn) % 4 & 1 else x for i, x in enumerate(line))
        zs(cased(P), cased(b"MESS aBcD eF", 1), cased(S, 2), cased(P), cased(M, 3), cased(R), cased(S), cased(M, 2), cased(P, 3), cased(Q), cased(S, 3), cased(R, 1))
    # a letter or the space changed in a bit or more
    for x in (P, M, S, R, Q):
        zs(P, M, *[x[:i] + bytes([x[i] ^ bits]) + x[i + 1:] for bits, i in itertools.product((0x01, 0x40, 0x60, 0x80), range(5)) if i < len(x)], S)
    # nothing but the commands
    wrong = (b"PAGE", b"PAGE123", b"PAGES 123", b"PAG 123", b"PAGE\t123", b"PAGE\0123", b"PAGE-123", b" PAGE 123", b"PAGE\r 123", b"page", b"MESS", b"MESSABC", b"MESSAGE ABC", b"mess", b"MES ABC", b"MESS\tABC",
             b" MESS A", b"SEND ", b"SEND X", b"SENDX", b"SEN", b"SE ND", b" SEND", b"SEND\r", b"SEND\r\n", b"SEND\0", b"send now", b"RESE ", b"RESET", b"RES", b"RESE 1", b"RESE\n", b"QUIT ", b"QUITS", b"QUI",
             b"QUIT 1", b"QUIT\r", b" ", b"LOGI ABC", b"2WAY", b"SITE X", b"\x80", b"\xff" * 4, b"\0", b"P", b"123", b"PAGEPAGE 1", b"SENDSEND", b"RESEQUIT")
    for n in range(0, len(wrong), 9):
        zs(P, M, *wrong[n:n + 9], S), zs(*wrong[n:n + 9], M, *wrong[n:n + 9], room=9)
    # pager IDs
    for text in (b"", b"0", b"7", b"07", b"0000007", b"00000007", b"000000007", b"99999999", b"00000000", b"000000000", b"123456789", b"1234567890", b" ", b" 7", b"7 ", b"7 7", b"+7", b"-7", b"0x7", b"1a", b"A", b"/", b":",
                 b"7/", b"7:", b"\xb7", b"7\xb7", b"7\0", b"\0", b"7\r", b"7\n", b"1234567a", b"1234567\x80", b"12345678 ", b" 12345678"):
        zs(b"PAGE " + text, M, S, b"PAGE 12345678", b"PAGE " + text, pagers=(7, 0, 99999999))
    for x, y in ((b"123", b"7"), (b"7", b"123"), (b"00000123", b"0123"), (b"0", b"99999999"), (b"8", b"123"), (b"123", b"8")):
        zs(b"PAGE " + x, b"PAGE 1 2", b"page " + y, b"PAGE "), zs(b"PAGE " + x, M, b"page " + y, S, S)
    # pager lists
    for pagers in ((), (0,), (123,), (124, 122), (99999999, 123), (123,) * 3, (0,) * 999 + (123,), (123,) + (5,) * 999, (0,) * 1001, (123,) * 1001, (10 ** 8,), (123, 10 ** 8), (123, 2 ** 32 - 1), (99999877,)):
        zs(P, M, S, b"PAGE 0", b"MESS ", S, S, b"PAGE 00000123", M, S, Q, S, pagers=pagers)
    # messages
    for x in (0, 0x0A, 0x0D, 0x1F, 0x20, 0x7E, 0x7F, 0x80, 0xA0, 0xC1, 0xFF):
        texts = [b"MESS " + text % x for text in (b"%c", b"%cA", b"A%c", b"A%cB")]
        zs(*[line for text in texts for line in (P, text, S)], M, *texts)
    for text in (b"", b" ", b"  ", b"A", b" A ", b"PAGE 7", b"SEND", b"~" * 80, bytes(range(0x20, 0x7F))):
        text = b"MESS " + text
        zs(P, text, text, S, M, R, text), zs(b"PAGE 8", text, S, S, P, S, text, M, S, M)


def session_limits():
    # the longest lines, and longer ones; the same behind QUIT
    for n in (2047, 2048, 2049, 4096):
        text, digits, rest = b"MESS ".ljust(n, b"A"), b"PAGE ".ljust(n, b"1"), (b"A" * n, b"\x80" * n, S.ljust(n))
        zs(text), zs(P, text, S, S, M), zs(P, text, b"MESS B", R, M, S), zs(P, M, digits, *rest, S), zs(Q, text, *rest), zt(rest[1], stage="closed")
    zs(P, b"MESS " + b"A" * 40000, M, S), zs(P, M, b"\xff" * 40000, Q)
    # the longest transaction
    for longest, pager, more in itertools.product((3, 4, 12, 2000), (b"7", b"00000007"), (-1, 0, 1, 2)):
        n = longest - len(pager) - 2 + more
        if n >= 0:
            zs(b"PAGE " + pager, b"MESS " + b"C" * n, S, S, longest=longest)
    for longest in (0, 1, 2, 3, 2000, 2001, 65535):
        zs(b"PAGE 7", b"MESS ", S, b"", Q, S, OVERLONG, longest=longest)
    # room in the journal, of records and of bytes; bytes behind it
    for begin in (encode([]), encode([b"7\r\r"] * 62), encode([b"7\r\r"] * 63), encode([b"7\r\r"] * 64), encode([b"A\rB\rC\r", b"123\rABC\r"])):
        zs(P, M, S, P, b"MESS ", S, S, begin=begin), zs(P, b"MESS ", S, P, S, begin=begin + b"\xff" * 12, length=len(begin))
    for left in (0, 1, 6, 7, 8, 9, 10, 11, 17, 18):
        zs(P, b"MESS ABCD", S, P, M, S, P, b"MESS ", S, begin=spare(left))
    for n in (28, 29, 30):
        zs(P, b"MESS ".ljust(n, b"D"), S, begin=spare(31))
    for n in (1993, 1994):
        zs(P, b"MESS " + b"E" * n, S, P, b"MESS ", S, begin=encode([b"A" * 1997 + b"\r"] * 15))
    # the output, the buffer, and the journal's length and form
    for room in (0, 5, 6, 7, 256):
        zs(P, b"?", M, S, Q, S, room=room), zs(P, room=room), zt(Q, stage="closed", room=room)
    good = encode(GOOD)
    for size in (0, 4, len(good), 32003, 32005, 65535):
        zs(P, M, S, Q, begin=good, size=size), zt(P, stage="closed", begin=good, size=size)
    for begin in (good[:-1], good + b"\0", good[1:], b"", b"\0" * 3, b"\0" * 5, b"\xff" * 9, encode([b"7\r\r"] * 65), encode([b"A"]), encode([b"A\n\r"]), encode([b"\x80\r"]), encode([b""]), encode([b"A" * 2000 + b"\r"]),
                  encode([b"A" * 1997 + b"\r"] * 16 + [b"\r"])):
        zs(P, b"", M, S, Q, begin=begin), zt(S, b"", stage="entered", pager=b"7", message=b"A", begin=begin)
    zt(b"", R, stage="closed", begin=good), zt(b"", R, stage="closed", begin=good[1:]), zt(b"", R, stage="closed", begin=b""), zt(b"", OVERLONG, stage="closed", begin=good[:-1])
    for length in (0, 3, 4, 5, len(good) - 1, len(good), len(good) + 1, 32003, 32004, 32005, 65535):
        zs(P, M, S, begin=good, length=length)
    # several wrongs at once
    for longest, stage, room, begin, line in itertools.product((2, 3), ("closed", "open"), (5, 6), (good, good[1:]), (b"A" * 2048, OVERLONG)):
        zt(line, longest=longest, stage=stage, pager=b"7", room=room, begin=begin)
    for pagers, size, length, line in itertools.product(((7,), (10 ** 8,)), (32004, 32003), (len(good), 32005), (R, OVERLONG)):
        zt(line, pagers=pagers, size=size, length=length, begin=good)


def gateway_states():
    long, lines = b"M" * 2043, (b"PAGE 45", b"MESS new", b"MESS \x80", S, R, Q, b"A" * 2048, OVERLONG)
    for state in ({}, {"pager": b"123"}, {"pager": b"00000007"}, {"stage": "entered"}, {"stage": "entered", "message": b"old"}, {"stage": "entered", "pager": b"7"},
                  {"stage": "entered", "pager": b"00000123", "message": b" ~"}, {"stage": "entered", "pager": b"7", "message": long}, {"stage": "closed"}):
        for line in lines:
            zt(line, **state)
        zt(b"PAGE 9", b"MESS x", S, b"PAGE 7", b"MESS y", S, b"MESS z", **state, room=9)
    # out of range: digits, and what stands behind them
    wrong = [(b"1" * 8, n) for n in (9, 10, 255, 256, 65535)] + [(b"", n) for n in (1, 8, 9, 65535)] + [(b"1", 0), (b"12", 1), (b"12345678", 7), (b"1\0\0\0\0\0\0\x01", 1), (b"\0\0\0\0\0\0\0\xff", 0), (b"1\0\x000", 1), (b"1\0", 2)]
    wrong += [(x, len(x)) for x in (b"/", b":", b"A", b"\x80", b"\xb1", b" ", b"1/", b"1:", b"1234567A", b"A2345678", b"1\x002", b"12 4")]
    for pager, digits in wrong:
        zt(P, b"", S, Q, pager=pager, digits=digits)
    for pager, digits in wrong[::3]:
        zt(S, R, pager=pager, digits=digits, stage="entered", message=b"old")
    zt(P, Q, pager=b"1", digits=0, stage="closed"), zt(P, Q, digits=9, stage="closed")
    # the message, and what stands behind it
    wrong = [(b"A", 0), (b"AB", 1), (b"A" + bytes(2041) + b"B", 1), (bytes(2042) + b"\x01", 0), (long, 0), (long, 2042), (b"A\0 ", 1), (long, 2044), (long, 65535), (b"", 1), (b"", 2043), (b"", 2044),
             (b"A\0", 2)]
    wrong += [(x, len(x)) for x in (b"\x1f", b"\x7f", b"\x80", b"\r", b"A\x1f", b"A\x7f", b"A\xc1", b"A\0B", b"\xffA", b"A\rB", long[:2042] + b"\x7f", b"\0" + long[1:])]
    for message, n in wrong:
        zt(S, M, b"", Q, pager=b"7", message=message, n=n, stage="entered")
    for (message, n), stage in itertools.product(wrong[:5], ("open", "closed")):
        zt(M, b"", message=message, n=n, stage=stage)
    # stages that hold what they cannot
    for state in ({"message": b"A"}, {"message": b" ", "pager": b"7"}, {"message": long}, {"stage": "closed", "message": b"A"}, {"stage": "closed", "pager": b"1"},
                  {"stage": "closed", "pager": b"12345678", "message": long}, {"stage": "closed", "pager": b"0"}):
        zt(P, b"", S, Q, **state), zt(R, OVERLONG, **state, room=5)


def exports():
    for room in (0, 1, 5, 6, 7, 256, 65535):
        zg(room)
    long, good = b"12345678\r" + b"A" * 1990 + b"\r", encode(GOOD)
    for pages in ([], GOOD[:1], GOOD[1:2], GOOD, GOOD[::-1], [b"7\r\r"] * 64, [b"0\rPAGE 7\r", b"1\rSEND\r"], [long], [long] * 15 + [b"99999999\r" + b"z" * 1958 + b"\r"], [b"%d\r%s\r" % (n * n, b"x" * n) for n in range(64)],
                  [b"9\r" + b"B" * 495 + b"\r"] * 64, [b"1\r \r", b"1\r\r", b"01\r\r"]):
        zw(encode(pages)), zr(encode(pages))
    # records that are no pages, wherever they stand
    bad = (b"\r", b"7\r", b"7\rA\rB\r", b"\r\r", b"\rA\r", b"A\rA\r", b"1A\rA\r", b" 7\rA\r", b"7 \rA\r", b"123456789\rA\r", b"000000007\r\r", b"/\rA\r", b":\rA\r", b"7\r\r\r", b"-7\rA\r",
           b"A" * 1999 + b"\r", b"1" * 1998 + b"\r\r")
    for i, t in enumerate(bad):
        zw(encode([t])), zw(encode(GOOD[:i % 4] + [t] + GOOD[i % 4:]))
    zw(encode([b"7\r\r"] * 63 + [b"7\r"])), zw(encode([b"7\r"] + [b"7\r\r"] * 63)), zr(encode([b"7\r"] + GOOD)), zr(encode(GOOD + [b"7\r\r\r"]))
    # outputs and journals, several wrongs at once
    for book in (good, encode(bad[:3]), good[1:], good[:-1], good + b"\0", b"", b"\0" * 3, b"\0" * 5, encode([b"7\r\r"] * 65), encode([b"7\x7f\r"] + GOOD), encode([b"7\r\x80\r"]), encode([b"7"]), encode(bad[:3])[1:]):
        zw(book, 33023), zw(book, 33025)
    zw(good, 0), zw(good, 65535), zw(encode([]), 0), zr(good[1:]), zr(b"")
    # taken in again elsewhere: not every pager listed, a shorter L, a journal that is not empty, wrong settings
    zr(good, (123,)), zr(good, ()), zr(good, longest=3), zr(good, longest=11), zr(good, longest=2), zr(good, longest=2001), zr(good, (10 ** 8,)), zr(good, size=32003), zr(good, room=33023), zr(good, room=65535)
    for begin in (encode([b"7\r\r"]), encode([b"7\r\r"] * 62), encode([b"7\r\r"] * 64), spare(25), b"\0" * 3):
        zr(good, begin=begin)
    zr(encode([]), begin=good)


def some_line(rng):
    """A line: mostly a command that is right."""
    line = rng.choices((b"PAGE " + rng.choice((b"123", b"123", b"7", b"0123", b"00000007", b"99999999", b"5")), b"MESS " + rng.choice((b"", b"A", b"ABC", b"hello you", b" ~ ")), S, R, Q,
                        b"PAGE " + rng.choice((b"", b"1a", b"123456789", b" 7", b"\xb7")), b"MESS " + rng.choice((b"\x1f", b"A\x7f", b"\x80", b"A\rB")),
                        rng.choice((b"", b"SEND ", b"PAGE", b"MESS", b"HELP", b"RESE X", b"\xd3END"))), (30, 30, 32, 4, 1, 6, 6, 6))[0]
    return line if rng.random() < 0.5 else bytes(x ^ 0x20 if i < 4 and 0x40 < x < 0x80 and rng.random() < 0.5 else x for i, x in enumerate(line))


def gateway(rng):
    # the words of the wish, and document 01's journal of 123, ABC
    zs(P, M, S)
    assert answers[-1].startswith("6 323530200d0a, 6 323530200d0a, 6 323530200d0a, 14 %s " % digest(encode([b"123\rABC\r"]).ljust(32004, b"\0")))
    assert written_out(encode([b"7\r\r", b"123\rABC\r"]), 33024) == b"PAGE 7\r\nMESS \r\nSEND\r\nPAGE 123\r\nMESS ABC\r\nSEND\r\n"
    assert len(written_out(encode([b"9\r" + b"B" * 495 + b"\r"] * 64), 33024)) == 33024
    sessions()
    session_limits()
    gateway_states()
    exports()
    # all kinds
    some = [encode([]), encode([b"7\r\r"]), encode([b"7\r\r"] * 62), encode([b"7\r\r"] * 63), encode([b"7\r\r"] * 64), spare(9), spare(25)]
    for n in range(120):
        zs(*[some_line(rng) for _ in range(rng.randint(3, 16))], longest=rng.choice((2000, 2000, 9, 3)), pagers=(123, 7, 99999999), begin=rng.choice(some[:2] if n % 3 else some), room=rng.choice((6, 6, 8)))
    for _ in range(20):
        zr(encode([b"%0*d\r%s\r" % (rng.randint(1, 8), rng.randrange(10 ** rng.randint(1, 8)), bytes(rng.choices(b" A~s9", k=rng.choice((0, 1, 3, 9))))) for _ in range(rng.choice((1, 2, 3, 5, 9)))]))


# ── deletions ──
class Saved(typing.NamedTuple):
    """The central's state: the memory of what is unfinished has 2,000 bytes, n is how many of them count, and journal is the journal's length."""
    stage: str
    failures: int
    pending: bytes
    n: int
    journal: int


def is_of(t, pager):
    """The first field of a record is 1 to 8 digits of a pager number; by its value, and by all spellings of the number."""
    first = fields(t)[0][:-1]
    fits = re.fullmatch(rb"[0-9]{1,8}", first) is not None and int(first) == pager
    assert fits == (pager < 10 ** 8 and first in [b"%0*d" % (digits, pager) for digits in range(1, 9)])
    return fits


def staying(stored, kind, n):
    """The records that a deletion leaves: all but the n-th from the newest, or all but those of pager n."""
    if kind == "p":
        return [t for t in stored if not is_of(t, n)]
    return [t for place, t in zip(range(len(stored), 0, -1), stored) if place != n]


def deleted(kind, n, state, buffer):
    """State and buffer behind a deletion (document 02, wish 7)."""
    no_call = state.stage in ("idle", "closed")
    if no_call and (state.failures or state.n):
        raise Refused(9)
    if len(buffer) != 32004:
        raise Refused(1)
    if state.journal > len(buffer):
        raise Refused(7)
    stored = decode(buffer[:state.journal])
    left = staying(stored, kind, n)
    if not no_call or len(left) == len(stored):
        raise Refused(9)
    book = encode(left)
    if kind == "d":  # a second writing: the walk from the newest back, without its n-th word
        words = walk(buffer[:state.journal]).split(" ")
        assert walk(book).split(" ") == words[:n - 1] + words[n:]
    return state._replace(journal=len(book)), laid(book, buffer)


def turned(before, after):
    """Every byte XORed with the one that was lent, as a call has bytes."""
    return hexed(bytes(x ^ y for x, y in zip(before, after))) if after else ""


SAME = functools.cache(lambda size: turned(bytes(size), bytes(size)))
PATTERN = bytes(i % 251 for i in range(65536))  # what the journal's buffer holds behind the bytes that a call gives


def deletion(kind, n, state, begin, size):
    """What comes of a deletion, the state behind it (1 where the memory of what is unfinished is the same), and what it changed in the buffer."""
    lent = laid(begin, PATTERN)[:size]
    try:
        after, buffer = deleted(kind.lower(), n, state, lent)
        said = "%d" % after.journal
    except Refused as r:
        after, buffer, said = state, lent, "refused %s" % r
    return "%s, %s %d %d %d %d %s" % (said, after.stage, after.failures, after.n, after.pending == state.pending, after.journal, SAME(size) if buffer == lent else turned(lent, buffer))


def zd(*given, begin=encode([]), length=None, size=32004, stage="idle", failures=0, pending=b"", n=None):
    """Deletions, each from the same state and buffer, in as many calls as they take; length is the journal's, size its buffer's, n that of what is unfinished."""
    length, n = len(begin) if length is None else length, len(pending) if n is None else n
    state = Saved(stage, failures, pending.ljust(2000, b"\0"), n, length)
    assert len(begin) <= 40000 and len(pending) <= 2000  # what the program has room for
    for i in range(0, len(given), 18):
        some = given[i:i + 18]
        call("z", "d", "-", "-", "-", hexed(begin), number(size), "-", stage[0], number(failures), hexed(pending), number(n), number(length),
             *[hexed(kind.encode() + x.to_bytes((x.bit_length() + 7) // 8, "big")) for kind, x in some], answer=lambda: " ".join(deletion(*x, state, begin, size) for x in some))


def nth(*places, lent=False):
    """Deletions by place; lent says that the state lies beside lent memory."""
    return [("D" if lent else "d", n) for n in places]


def of(*pagers, lent=False):
    """Deletions by pager."""
    return [("P" if lent else "p", n) for n in pagers]


HUGE = (255, 256, 257, 65536, 65537, 2 ** 32, 2 ** 32 + 1, 2 ** 63, 2 ** 63 + 1, 2 ** 64 - 1)
SEVERAL = [b"123\rABC\r", b"\r", b"7\r", b"A\rB\rC\rD\r", b"\r\r", b"07\r ~\r"]


def filling(*lengths):
    """Records of so many characters, each of another letter."""
    return [bytes([0x30 + i]) * (n - 1) + b"\r" for i, n in enumerate(lengths)]


FULL = [filling(*[1998] * 16), filling(*[2000] * 15, 1968), filling(1968, *[2000] * 15), filling(*[498] * 64), filling(*[1] * 48, *[2000] * 15, 1824)]


def positions():
    for count, (stage, lent) in itertools.product(range(len(SEVERAL) + 1), (("idle", False), ("closed", True))):
        zd(*nth(*range(count + 2), lent=lent), begin=encode(SEVERAL[:count]), stage=stage)
    for count in (0, 1, 6):
        zd(*nth(*HUGE), *nth(*HUGE, lent=True), begin=encode(SEVERAL[:count]))
    # 64 records, the smallest, 32,000 bytes, and records that others of another size move over
    zd(*nth(*range(66), *HUGE[:5]), begin=encode([b"%c\r" % (0x30 + n) for n in range(64)]))
    zd(*nth(0, 1, 2, 32, 63, 64, 65), *nth(1, 64, 65, lent=True), begin=encode([b"\r"] * 64), stage="closed")
    zd(*nth(1, 2), begin=encode([b"\r"])), zd(*nth(1, 2, 3), begin=encode([b"\r", b"\r"]))
    for ts in FULL:
        assert sum(len(t) + 2 for t in ts) == 32000
        places = range(len(ts) + 2) if len(ts) < 20 else (1, 2, 16, 49, 64, 65)
        zd(*nth(*places), *nth(1, lent=True), begin=encode(ts))
    for ts in (filling(*range(1, 13)), filling(*range(12, 0, -1)), filling(2000, 1, 2000, 3), filling(1, 2000, 2), filling(255, 256, 257, 1), filling(3, 3, 3)):
        zd(*nth(*range(len(ts) + 2)), begin=encode(ts))
    # lengths that take one byte and two, and the longest record alone
    zd(*nth(1, 2, 3), begin=encode([b"A" * 254 + b"\r", b"\r", b"A" * 255 + b"\r"])), zd(*nth(1, 2), begin=encode([b"A" * 1999 + b"\r"]))


FIRSTS = [b"7", b"07", b"007", b"0000007", b"00000007", b"000000007", b"0" * 1990 + b"7", b"", b" ", b" 7", b"7 ", b"7A", b"A7", b"A", b"+7", b"-7", b"/7", b"7/", b":7", b"7:", b"7.0", b"0x7", b"7 7", b"77", b"70", b"17", b"107", b"1007",
          b"10000007", b"100000007", b"4294967303", b"18446744073709551623", b"0", b"00", b"00000000", b"000000000", b"99999999", b"099999999", b"999999999", b"9999999", b"100000000", b"4294967295", b"12345678", b"01234567",
          b"1234567", b"123456789", b"1234567A", b"A2345678", b"12345678A", b"1234567 ", b"8", b"6", b"7~"]
NUMBERS = (7, 0, 99999999, 12345678, 1234567, 70, 77, 17, 107, 1007, 10000007, 8, 6, 1, 10, 9999999, 100000000, 100000007, 2 ** 32 - 1, 999999999, 123456789, 2 ** 31, 2 ** 24 + 7, 256 + 7, 65536 + 7)


def pagers_of():
    # first fields of all kinds, together and each alone between others; records of one field and of more
    tails = (b"\r", b"\rM\r", b"\r7\r8\r", b"\r\r")
    zd(*of(*NUMBERS), begin=encode([x[-30:] + tails[i % 4] for i, x in enumerate(FIRSTS)])), zd(*of(*NUMBERS[:2], lent=True), begin=encode([x[-30:] + tails[i % 3] for i, x in enumerate(FIRSTS)][::-1]))
    for i, first in enumerate(FIRSTS):
        number = int(re.sub(rb"[^0-9]", b"", first) or b"0") % 2 ** 32
        zd(*of(*sorted({7, 0, number, number % 10 ** 8}), lent=i % 2 > 0), begin=encode([b"5\rX\r", first + tails[i % 4], b"6\r7\r"]))
    for pager, more in ((0, 9), (7, 9), (99, 9), (1234567, 9), (12345678, 9), (99999999, 9), (10000000, 10)):
        zd(*of(pager, pager + 1), begin=encode([b"%0*d%s" % (digits, pager, tails[digits % 4]) for digits in range(1, more + 1)]))
    for x in (b"", b"7", b"1234567"):
        for low in (0x20, 0x40, 0x60):
            ts = [x + bytes([c]) + b"\r" for c in range(low, min(low + 0x20, 0x7F))] + [bytes([c]) + x + b"\r" for c in range(low, min(low + 0x20, 0x7F))]
            zd(*of(*([0, 1, 7, 8, 9, 10] if not x else [7, 69, 70, 77, 79, 97] if x == b"7" else [1234567, 12345669, 12345670, 12345679, 11234567, 91234567])), begin=encode(ts))
    # the number stands elsewhere in the record only
    zd(*of(7, 8, 123), begin=encode([b"8\r7\r", b"\r7\r", b"77\r7\r", b"A\r7\r7\r", b"7\r8\r", b"\r\r7\r", b"123\r123\r123\r", b"7\r"]))
    # every choice of six records of different lengths, by their pager
    for mask in range(64):
        ts = [(b"%0*d" % (i + 1, 7) if mask >> i & 1 else b"%d" % (80 + i)) + b"\r" * (1 + i % 3) + bytes([0x41 + i]) * (i * i % 7) + b"\r" for i in range(6)]
        zd(*of(7, lent=mask % 2 > 0), *nth(mask % 6 + 1) * (mask % 4 == 0), begin=encode(ts), stage=("idle", "closed")[mask // 8 % 2])
    # of 64 records: all, all but one, every other, a stretch, the first and the last
    for chosen in (range(64), range(1, 64), range(63), range(0, 64, 2), range(1, 64, 2), range(20, 40), (0,), (63,), (0, 63), (31, 32)):
        zd(*of(7, 8, 9), begin=encode([b"%d\r%c\r" % (7 if i in chosen else 8, 0x30 + i) for i in range(64)]))
    for chosen in (range(16), range(1, 16), range(15), range(0, 16, 2), (0, 15), (7, 8), (3,)):
        ts = [(b"7\r" if i in chosen else b"8\r") + t[2:] for i, t in enumerate(FULL[0])]
        zd(*of(7), *of(7, 8, lent=True), begin=encode(ts), stage="closed")
    zd(*of(7, 0), begin=encode([])), zd(*of(7, lent=True), *of(0), begin=encode([b"7\r"])), zd(*of(7), begin=encode([b"7\r" + b"A" * 1997 + b"\r"]))


def malformed():
    """Journals that are none, each by its bytes and the length that is given; mostly with a good newest record, for the pager 7."""
    good, last = encode(SEVERAL[:3]), b"7\rA\r"
    cut_off = [(good, n) for n in (0, 1, 3, 4, len(good) - 1, len(good) + 1, 32003, 32004, 32005, 65535)]
    books = [good[1:], b"\r" + good, good[:-1], good + b"\0", b"", bytes(3), bytes(5), encode([last] * 65), encode([b"\n\r", last]), encode([b"A\x7f\r", last]), encode([b"\x80\r", last]), encode([b"A", last]), encode([b"", last]),
             encode([b"A" * 2000 + b"\r", last]), encode([b"A" * 1999 + b"\r"] * 16 + [last]), encode([last, b"7\x1f\r"]), encode([last, b"7"]), encode([last, b""])]
    for place, more in itertools.product(range(1, 5), (-1, 1)):
        books.append(good[:-place] + bytes([(good[-place] + more) % 256]) + good[len(good) - place + 1:])
    books += [b"\0\0" + two(1) + two(2), b"\r" + two(2) + two(1) + two(3), b"XX" + encode([last])[:-4] + two(1) + two(8), b"\r\0\1" + encode([last])[:-4] + two(1) + two(9)]
    return cut_off + [(book, len(book)) for book in books]


def orders():
    good = encode(SEVERAL)
    some = nth(1, 0, 7) + of(7, 8, 10 ** 8)
    stages = ("idle", "logon", "block", "closed")
    # every stage with failures or something unfinished, in every company
    for stage, (failures, n), size, (begin, length) in itertools.product(stages, ((0, 0), (1, 0), (0, 1), (2, 3)), (32004, 32003), ((good, len(good)), (good, len(good) - 1))):
        zd(*some, *nth(1, lent=True), *of(7, lent=True), stage=stage, failures=failures, pending=b"7\r" * (n > 1), n=n, size=size, begin=begin, length=length)
    for stage, failures, n in itertools.product(stages, (0, 9, 10, 256, 65535), (0, 2000, 2001, 256, 65535)):
        if failures == 0 or n == 0 or failures == n:
            zd(*nth(1), *of(9), stage=stage, failures=failures, n=n, begin=good)
    for stage in stages:
        zd(*some, stage=stage, pending=b"\x80\0" + b"A" * 1998, n=0, begin=good), zd(*some, stage=stage, pending=b"A" * 1999 + b"\xff", begin=good), zd(*some, stage=stage, begin=encode([]))
        for size in (0, 3, 4, len(good), 32003, 32005, 65535):
            zd(*nth(1, 9), *of(7), stage=stage, size=size, begin=good)
        for size in (0, 32005):
            zd(*nth(1, 0), stage=stage, size=size, begin=good[1:]), zd(*nth(1, 0), stage=stage, size=size, begin=good, failures=1)
    # what is no journal, with a record that there would be and one that there would not; with a call open; with a state out of range
    for i, (begin, length) in enumerate(malformed()):
        zd(*nth(1, 2, 0, 99), *of(7, 9), *nth(1, lent=True), begin=begin, length=length), zd(*nth(1, 0), *of(7), stage=stages[1 + i % 2], begin=begin, length=length), zd(*nth(1), *of(7), stage="closed", failures=i % 2, n=1 - i % 2, begin=begin, length=length)
    # bytes behind the journal: zeros, a journal, its own bytes again
    for rest in (bytes(40), b"\xff" * 40, good, encode([b"7\r\r"]), good[:-4] * 3):
        zd(*nth(1, 3, 6), *of(7, 123), *nth(7), begin=good + rest, length=len(good)), zd(*nth(1, 2), *of(7), begin=encode([b"7\r"]) + rest, length=8)


def chain(given, ts, stage="idle", walked=True):
    """Deletions one behind the other, a call each, and the journal walked behind each that is done; the buffer behind the last and the journal's length."""
    begin = encode(ts)
    length = len(begin)
    for x in given:
        zd(x, begin=begin, length=length, stage=stage)
        try:
            after, buffer = deleted(x[0].lower(), x[1], Saved(stage, 0, b"", 0, length), laid(begin, PATTERN)[:32004])
        except Refused:
            continue
        begin, length = buffer[:len(begin)], after.journal
        if walked:
            call("v", hexed(begin[:length]), answer=lambda: walk(begin[:length]))
    return begin, length


def chains():
    # to the empty journal and once more
    for order in ((1,) * 7, (6, 5, 4, 3, 2, 1, 1), (3, 3, 3, 1, 2, 1), (2, 0, 9, 2, 4)):
        chain([x for i, n in enumerate(order) for x in nth(n, lent=i % 2 > 0)], SEVERAL)
    chain(of(7, 7) + nth(1) + of(123, lent=True) + nth(9, 2, 1, 1, 1), SEVERAL, stage="closed")
    chain(nth(8, 15, 1, 12, 5, 0, 1), FULL[0], walked=False), chain(of(7, 8, 8), [b"%d\r%s" % (7 + i % 2, t) for i, t in enumerate(filling(*[497] * 63))], walked=False)
    # no room, and once a record is deleted just enough, but not for a byte more: of bytes, and of records
    page, more = (block(b"123\r%s\r" % text, ETX) for text in (b"ABC", b"ABCD"))
    call_up = (b"\r", b"\x1bPG1\r")
    for at, (kind, x) in ((1, nth(1)[0]), (17, nth(17, lent=True)[0]), (7, of(7)[0])):
        ts = FULL[0][:15] + [b"C" * 1987 + b"\r"]
        ts.insert(len(ts) + 1 - at, b"7\rABCDE\r")
        assert sum(len(t) + 2 for t in ts) == 32000
        f(page, more, begin=encode(ts)), f(*call_up, page, b"\x04\r", begin=encode(ts), stage="idle")
        begin, length = chain([(kind, x)], ts, stage="closed", walked=False)
        f(more, page, page, begin=begin, length=length), f(*call_up, more, page, page, b"\x04\r", begin=begin, length=length, stage="idle"), f([DROP], *call_up, page, begin=begin, length=length, stage="closed")
    for ts in ([b"7\r\r"] * 64, [b"%d\r\r" % n for n in range(64)]):
        f(page, begin=encode(ts))
        begin, length = chain(nth(40), ts)
        f(page, page, begin=begin, length=length), f(*call_up, page, page, b"\x04\r", begin=begin, length=length, stage="idle")
    # pages that the central stored, and the room that it found
    begin, length = chain(nth(2, 2) + of(7), SEVERAL)
    book = encode(decode(begin[:length]) + [b"123\rABC\r"])
    f(page, begin=begin, length=length), zd(*nth(1, 2, 3, 9), *of(123, 7), begin=laid(book, begin), length=len(book), stage="closed")


def some_record(rng):
    """A record: of any fields, its first mostly of digits."""
    first = rng.choice((b"7", b"07", b"00000007", b"123", b"0123", b"0", b"00", b"99999999", b"000000007", b"", b"7 ", b"A7", b"%d" % rng.randrange(10 ** rng.randint(1, 9))))
    return first + b"\r" + b"".join(rng.choice(b" 7AZ~").to_bytes(1, "big") * rng.choice((0, 0, 1, 2, 3, 9, 40, 300)) + b"\r" for _ in range(rng.choice((0, 1, 1, 1, 2, 3))))


def some_deletion(rng, ts):
    """A deletion, of a record that there is or of another."""
    lent = rng.random() < 0.3
    if rng.random() < 0.6:
        return nth(rng.choice([*range(1, len(ts) + 1)] * 3 + [0, 1, len(ts) + 1, rng.randrange(2 ** 64)]), lent=lent)[0]
    firsts = [fields(t)[0][:-1] for t in ts]
    return of(rng.choice([int(x) for x in firsts if x.isdigit()] + [7, 123, 0, 99999999, rng.randrange(2 ** 32)]), lent=lent)[0]


def some_deletions(rng, count):
    """Deletions of all kinds, from journals of all kinds."""
    for _ in range(count):
        ts = [some_record(rng) for _ in range(rng.choice((0, 1, 2, 3, 4, 5, 8, 12)))]
        begin, wrong, odd = bytearray(encode(ts)), rng.random() < 0.15, rng.random() < 0.08
        length = len(begin)
        if wrong:
            begin[rng.randrange(length)] ^= 1 << rng.randrange(8)
        zd(*[some_deletion(rng, ts) for _ in range(rng.randint(1, 5))], begin=bytes(begin) + rng.choice((b"", b"", bytes(9), b"\xff" * 9)), length=length, size=rng.choice((32004,) * 12 + (32003, 32005)),
           stage=rng.choice(("idle",) * 4 + ("closed",) * 4 + ("logon", "block")), failures=rng.choice((0, 1)) * odd, n=rng.choice((0, 1)) * odd)


def deletions(rng):
    # the words of the wish on document 01's journal of 123, ABC
    zd(*nth(1), begin=encode([b"123\rABC\r"]))
    assert answers[-1] == "4, idle 0 0 1 4 3132330d00*7d00"
    zd(*of(123), begin=encode([b"123\rABC\r"] * 2))
    positions()
    pagers_of()
    orders()
    chains()
    some_deletions(rng, 110)


def main():
    rng = random.Random(1861)
    codec(rng)
    replies(rng)
    journal(rng)
    central(rng)
    device(rng)
    program = lines(rng)
    runs(rng)
    central_steps(rng)
    device_steps(rng)
    walks()
    framing(rng)
    sums(rng)
    cuttings(rng)
    whole_devices(rng)
    whole_runs(rng)
    settling(rng)
    drivers(rng)
    late_runs(rng)
    late_devices()
    remarks(random.Random(5))
    reports(random.Random(5))
    gateway(random.Random(6))
    deletions(random.Random(7))
    crates = os.path.join(os.path.dirname(os.path.abspath(__file__)), "..", "crates")
    vectors = ["\n".join(rows + [""]).encode() for rows in (calls, answers)]
    for crate, files in (("vectors", vectors), ("blocks", program)):
        for name, content in zip(("stdin", "stdout"), files):
            with open(os.path.join(crates, crate, name), "wb") as f:
                f.write(content)
    print(len(calls), "calls")


if __name__ == "__main__":
    main()
