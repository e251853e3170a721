#!/usr/bin/env python3
"""Session tapes from the outside: a second implementation of docs/RULES.md, "The session tape", to make tapes and to check the program by.

usage: tools/tape.py make  < TEXT  > TAPE    the tape of these lines, in the form that `list` prints
       tools/tape.py list  < TAPE  > TEXT    what `list` prints of a tape
       tools/tape.py edges         > BUNDLE  the tapes that the program `edges` is run on
       tools/tape.py told  < BUNDLE > TEXT   what `edges` prints of them

A bundle is a row of tapes, each behind its length in four bytes.
"""
import random
import struct
import sys

MOST_BYTES = 65536
ENTRY = [("member", "H"), ("price", "I"), ("quantity", "I")]
FIELDS = {
    "G": [("tick", "I"), ("greatest quantity", "I"), ("liquid", "B"), ("settlement", "I"), ("form", "form")] + [("band", "i")] * 6,
    "B": ENTRY,
    "S": ENTRY,
    "A": [("member", "H"), ("number", "I"), ("price", "I"), ("quantity", "I")],
    "X": [("member", "H"), ("number", "I")],
    "L": [],
    "T": [("second", "I"), ("draw", "H")],
}


def width(kind):
    return struct.calcsize(">" + "".join("B" if f == "form" else f for _, f in FIELDS[kind]))


def spell(kind, values):
    body = kind.encode()
    if len(values) != len(FIELDS[kind]):
        sys.exit(f"tape.py: {kind} has {len(FIELDS[kind])} fields, not {len(values)}")
    for (name, form), value in zip(FIELDS[kind], values):
        if form == "form":
            body += bytes([ord(value) if value in ("A", "W") else int(value)])
        else:
            body += struct.pack(">" + form, int(value))
    return struct.pack(">H", len(body)) + body


def make(text):
    tape = b"\x01"
    for line in text.splitlines():
        words = line.split()
        if words:
            tape += spell(words[0], words[1:])
    return tape


def line(kind, body):
    words = [kind]
    at = 0
    for _, form in FIELDS[kind]:
        size = struct.calcsize("B" if form == "form" else form)
        piece = body[at : at + size]
        at += size
        if form == "form":
            words.append(chr(piece[0]) if piece in (b"A", b"W") else str(piece[0]))
        else:
            words.append(str(struct.unpack(">" + form, piece)[0]))
    return " ".join(words) + "\n"


def list_tape(tape):
    if tape[:1] != b"\x01":
        return "tape 19 at 0\n"
    if len(tape) > MOST_BYTES:
        return "tape 24 at 0\n"
    text = ""
    place = 1
    while place < len(tape):
        fault = None
        size = int.from_bytes(tape[place : place + 2], "big")
        body = tape[place + 2 : place + 2 + size]
        kind = body[:1].decode("latin-1")
        if place + 2 > len(tape) or len(body) < size:
            fault = 20
        elif kind not in FIELDS or (kind == "G") != (place == 1):
            fault = 21
        elif size != 1 + width(kind):
            fault = 22
        if fault:
            return text + f"tape {fault} at {place}\n"
        text += line(kind, body[1:])
        place += 2 + size
    return text


def extremes(kind):
    """the record's fields all least, all zero and all greatest"""
    least = {"i": -(2**31)}
    most = {"H": 2**16 - 1, "I": 2**32 - 1, "B": 255, "form": "255", "i": 2**31 - 1}
    forms = [f for _, f in FIELDS[kind]]
    return [[least.get(f, 0) for f in forms], [0 for _ in forms], [most[f] for f in forms]]


def edge_tapes():
    group = "G 1 500 1 1000 A -150 50 -50 150 -20 20\n"
    sheet = make(group)
    sample = make(open("samples/session.txt").read())
    tapes = [b"", b"\x00", b"\x02" + sample[1:], b"\x01", sample]
    # cut short: a byte of a length, a length alone, a length past the end, every cut of the sample
    tapes += [b"\x01\x00", b"\x01\x00\x27", b"\x01\xff\xffG"] + [sample[:n] for n in range(1, len(sample))]
    # length 0, at the start and later, and a cut record with an unknown kind
    tapes += [b"\x01\x00\x00", sheet + b"\x00\x00", sheet + b"\x00\x02?", b"\x01\x00\x01?", sheet + b"\x00\x01?"]
    # every letter as the kind of a record of one byte, behind the group's
    tapes += [sheet + b"\x00\x01" + bytes([k]) for k in range(256)]
    # a second group's record, and each other kind first
    tapes += [sheet + sheet[1:]] + [b"\x01" + spell(k, extremes(k)[1]) for k in "BSAXLT"]
    for kind in FIELDS:
        front = b"\x01" if kind == "G" else sheet
        for values in extremes(kind):
            tapes.append(front + spell(kind, values))
        body = spell(kind, extremes(kind)[2])[2:]
        for wrong in (body[:-1], body + b"\x00"):
            tapes.append(front + struct.pack(">H", len(wrong)) + wrong)
    # forms: the two letters, their neighbours and a small letter
    tapes += [make(group.replace(" A ", f" {form} ")) for form in ("W", "64", "66", "86", "88", "97", "119")]
    # as long as a tape may be, and one byte more
    full = sheet + spell("B", [8, 1040, 4])
    full += spell("L", []) * ((MOST_BYTES - len(full)) // 3)
    assert len(full) == MOST_BYTES
    tapes += [full, full + b"\x00", b"\x00" + full]
    # damage at random, always the same
    rnd = random.Random(2011)
    for _ in range(400):
        kinds = [rnd.choice("BSAXLT") for _ in range(rnd.randrange(6))]
        tape = bytearray(sheet + b"".join(spell(k, [rnd.choice(c) for c in zip(*extremes(k))]) for k in kinds))
        for _ in range(rnd.randrange(4)):
            tape[rnd.randrange(len(tape))] = rnd.choice([0, 1, 2, 7, 11, 15, 39, 66, 71, 83, 84, 88, 255])
        tapes.append(bytes(tape[: rnd.randrange(len(tape) + 1)] if rnd.randrange(3) == 0 else tape))
    return tapes


def bundle(tapes):
    return b"".join(struct.pack(">I", len(t)) + t for t in tapes)


def told(data):
    text, at, number = "", 0, 0
    while at < len(data):
        (size,) = struct.unpack(">I", data[at : at + 4])
        text += f"-- {number}\n" + list_tape(data[at + 4 : at + 4 + size])
        at += 4 + size
        number += 1
    return text


def main():
    words = sys.argv[1:]
    if words == ["make"]:
        sys.stdout.buffer.write(make(sys.stdin.read()))
    elif words == ["list"]:
        sys.stdout.write(list_tape(sys.stdin.buffer.read()))
    elif words == ["edges"]:
        sys.stdout.buffer.write(bundle(edge_tapes()))
    elif words == ["told"]:
        sys.stdout.write(told(sys.stdin.buffer.read()))
    else:
        sys.exit(__doc__)


main()
