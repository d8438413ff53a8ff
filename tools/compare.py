#!/usr/bin/env python3
"""Compares uslp_run with the Rust, which answers the same commands: crc, hr, dr, fr, hw, fw, rw, random, damaged and at the boundaries.

Usage: compare.py ORACLE PROGRAM [COMMANDS [SEED]]     ORACLE is the built driver of the Rust, PROGRAM what runs uslp_run,
                                                       as 'tools/run uslp_run'; default 16,000
       compare.py --write DIR ORACLE PROGRAM COMMANDS SEED    writes the commands that have equal answers, and what was due,
                                                              to DIR/stdin and DIR/stdout
What is due is the Rust's answer. With 6 the Rust gives the stored FECF alone: there its answer to `crc` of the octets before the FECF is due behind it.
Counts the answers by command and number, and the differences by kind with the shortest command of each. A difference that docs/DIFFERENCES.md
does not list, judged from the command's own words, makes the exit status 1.
"""
import collections
import random
import shlex
import subprocess
import sys

BLOCK = 16000


def octets(r, n):
    return bytes(r.randrange(256) for _ in range(n)).hex() or "-"


def crc(data):
    c = 0xFFFF
    for o in data:
        c ^= o << 8
        for _ in range(8):
            c = (c << 1 ^ 0x1021 if c & 0x8000 else c << 1) & 0xFFFF
    return c


def pick(r, edges, top):
    return r.choice(edges) if r.random() < 0.5 else r.randrange(top)


def header(r, total=None, trouble=0.15):
    """The octets of a header, mostly well formed."""
    width = r.randrange(8)
    version = 12 if r.random() > trouble else r.randrange(16)
    end = 0 if r.random() > trouble / 3 else 1
    length = r.randrange(65536) if total is None else (total - 1) % 65536
    word = version << 28 | r.randrange(65536) << 12 | r.randrange(2) << 11 | r.randrange(64) << 5 | r.randrange(16) << 1 | end
    flags = r.randrange(256) & 0xF8 | width
    return bytearray(word.to_bytes(4, "big") + length.to_bytes(2, "big") + bytes([flags]) + r.randbytes(width))


def field(r):
    rule, pid = r.randrange(8), r.choice([0, 1, 2, 3, 4, 5, 6, 7, 8, 31] + [r.randrange(32)])
    return bytes([rule << 5 | pid]) + (r.randbytes(2) if rule < 3 else b"")


def make_crc(r):
    return "crc " + octets(r, r.choice([0, 1, 2, 3, 9, r.randrange(200), r.randrange(4000)]))


def make_hr(r):
    h = header(r)
    if r.random() < 0.3:
        h = h[: r.randrange(len(h) + 1)]
    if r.random() < 0.2:
        h = bytearray(r.randbytes(r.randrange(20)))
    return "hr " + ((h + r.randbytes(r.choice([0, 0, 3]))).hex() or "-")


def make_dr(r):
    f = field(r) if r.random() < 0.7 else r.randbytes(r.randrange(6))
    return "dr " + (f[: r.choice([9, 9, 9, 1, 2, 0])].hex() or "-")


def make_fr(r):
    fecf = r.randrange(2)
    f, data = field(r), r.randbytes(r.choice([0, 1, 2, 5, r.randrange(60), r.randrange(3000)]))
    h = header(r, 1, 0.05)
    ocf = r.randbytes(4) if h[6] & 8 else b""
    total = len(h) + len(f) + len(data) + len(ocf) + 2 * fecf
    if r.random() < 0.35:
        total = max(1, min(65536, total + r.randrange(-14, 15)))
    h[4:6] = ((total - 1) % 65536).to_bytes(2, "big")
    body = bytes(h) + f + data + ocf
    if fecf:
        end = max(0, min(total - 2, len(body)))
        body = body[:end] + crc(body[:end]).to_bytes(2, "big") + body[end:]
        if r.random() < 0.15:
            at = r.randrange(len(body))
            body = body[:at] + bytes([body[at] ^ 1 << r.randrange(8)]) + body[at + 1 :]
    body += r.randbytes(r.choice([0, 0, 0, 1, 20]))
    if r.random() < 0.1:
        body = body[: r.randrange(len(body) + 1)]
    return f"fr {fecf} {body.hex() or '-'}"


def ids(r):
    big = r.random() < 0.1
    return [pick(r, [0, 1, 65535, 65536 if big else 7], 65536), r.randrange(2), pick(r, [0, 63, 64 if big else 5], 64), pick(r, [0, 15, 16 if big else 3], 16)]


def flags(r):
    width = pick(r, [0, 1, 7, 8 if r.random() < 0.1 else 7, 300 if r.random() < 0.05 else 2], 8)
    top = 256 ** min(width, 7)
    count = pick(r, [0, top - 1, top if r.random() < 0.2 else 0, 2**64 - 1 if r.random() < 0.1 else 0], top)
    return [r.randrange(2), r.randrange(2), r.randrange(2), width, count]


def make_hw(r):
    total = pick(r, [0, 1, 2, 65535, 65536, 65537, 2**32, 2**64 - 1], 65537)
    room = pick(r, [0, 6, 7, 8, 14, 15, 20], 30)
    return "hw " + " ".join(map(str, ids(r) + [total] + flags(r) + [room]))


def make_write(r, name):
    rule = r.randrange(8) if r.random() < 0.95 else r.choice([8, 255, 256])
    pid = r.choice([0, 1, 2, 3, 4, 5, 6, 7, 8, 31]) if r.random() < 0.95 else r.choice([9, 30, 32, 256, 287])
    right = rule < 3
    ptr = pick(r, [0, 65535], 65536) if right == (r.random() < 0.9) else "-"
    fl = flags(r)
    ocf = pick(r, [0, 2**32 - 1], 2**32) if r.random() < (0.9 if fl[2] else 0.3) else "-"
    fecf = r.randrange(2)
    n = r.choice([0, 1, 2, 7, r.randrange(300)] + ([r.randrange(65480, 65545)] if r.random() < 0.03 else []))
    total = 7 + fl[3] + (3 if right else 1) + n + (4 if ocf != "-" else 0) + 2 * fecf
    room = max(0, total + r.choice([0, 0, 1, -1, 17, -total, 70000 if n > 60000 else 5]))
    if r.random() < 0.01:
        room = r.choice([140000, 140001])
    return " ".join(map(str, [name] + ids(r) + fl + [rule, pid, ptr, ocf, fecf, room, octets(r, n)]))


def make_bad(r):
    """A good line spoilt: a word dropped, doubled, or changed."""
    words = r.choice(MAKERS)(r).split()
    at = r.randrange(len(words))
    how = r.randrange(4)
    if how == 0:
        del words[at]
    elif how == 1:
        words.insert(at, words[at])
    elif how == 2:
        words[at] = r.choice(["x", "-1", "18446744073709551616", "18446744073709551615", "00", "01", "0A", "abc", "2", "65536", "-", "0x1", "1.0", "zz"])
    else:
        words[at] = words[at][:-1] + r.choice("0aAg-\x0b~")
    return r.choice([" ", "  ", "\t", " \x0c "]).join(words) + r.choice(["", "", " ", "\r"])


MAKERS = [make_crc, make_hr, make_dr, make_fr, make_hw, lambda r: make_write(r, "fw"), lambda r: make_write(r, "rw")]
FIXED = ["", " ", "\t", "crc", "crc -", "crc - -", "hr", "fr", "fr 0", "fr 2 -", "dr -", "hr -", "nothing", "CRC 00", "crc 0", "crc 0A",
         "hw 0 0 0 0 0 0 0 0 0 0 7", "hw 0 0 0 0 0 0 0 0 0 1 7", "hw 65535 1 63 15 65536 1 1 1 7 72057594037927935 14",
         "hw 65535 1 63 15 65537 1 1 1 7 72057594037927936 14", "crc " + "00" * 149997, "crc " + "00" * 149998, "crc 31323334353637383 9"]


def edges():
    """Each size one short, exact and one over, with the largest counts and totals, for every width, rule, OCF and FECF."""
    lines = list(FIXED)
    for width in range(8):
        top = 256**width - 1
        for count in sorted({0, top, top + 1}):
            for room in (6 + width, 7 + width, 8 + width):
                lines.append(f"hw 65535 1 63 15 65536 1 0 1 {width} {count} {room}")
                lines.append(f"hw 0 0 0 0 1 0 1 0 {width} {count} {room}")
        h = bytes([0xC1, 0x23, 0x48, 0xA6, 0, 0, width]) + bytes(range(1, width + 1))
        lines += ["hr " + (h[:n].hex() or "-") for n in range(len(h) + 1)]
        for rule in range(8):
            field = bytes([rule << 5 | 4]) + (b"\x01\x02" if rule < 3 else b"")
            for ocf in (b"", b"\x0a\x0b\x0c\x0d"):
                for fecf in (0, 1):
                    lines += frames(h, field, ocf, fecf) + written(width, rule, ocf, fecf)
    for rule in range(8):
        for pid in range(32):
            octets = bytes([rule << 5 | pid, 255, 254])
            lines += [f"dr {octets[:n].hex() or '-'}" for n in range(4)]
    for total in (65535, 65536, 65537):
        for rule, pointer, fixed in ((7, "-", 8), (0, 65535, 10)):
            lines.append(f"fw 1 0 2 3 0 0 0 0 0 {rule} 4 {pointer} - 0 {total} {'5a' * (total - fixed)}")
    lines.append(f"rw 1 0 2 3 0 0 0 0 0 7 4 - - 0 65536 {'a5' * 65528}")
    lines.append(f"fr 0 c0001046ffff00e4{'c3' * 65528}")
    lines.append(f"fr 0 c0001046ffff00e4{'c3' * 65527}")
    return lines


def frames(h, field, ocf, fecf):
    out = []
    for n in (0, 2):
        total = len(h) + len(field) + n + len(ocf) + 2 * fecf
        for declared in (total - 1, total, total + 1):
            head = bytearray(h)
            head[4:6] = (declared - 1).to_bytes(2, "big")
            head[6] |= 8 if ocf else 0
            body = bytes(head) + field + b"\x0a\xf0"[:n] + ocf
            if fecf:
                body = body[: declared - 2]
                body += crc(body).to_bytes(2, "big")
            out += [f"fr {fecf} {body.hex()}", f"fr {fecf} {body[:-1].hex()}", f"fr {fecf} {body.hex()}ee"]
            out.append(f"fr {fecf} {body[:-1].hex()}{body[-1] ^ 1:02x}")
    return out


def written(width, rule, ocf, fecf):
    out = []
    for pointer in ("-", 258):
        total = 7 + width + (3 if rule < 3 else 1) + 2 + len(ocf) + 2 * fecf
        word = int.from_bytes(ocf, "big") if ocf else "-"
        for room in (total - 1, total, total + 1):
            for name in ("fw", "rw"):
                out.append(f"{name} 4660 1 5 3 0 0 {int(bool(ocf))} {width} {256**width - 1} {rule} 4 {pointer} {word} {fecf} {room} 0af0")
    return out


def answers(program, lines):
    done = subprocess.run(shlex.split(program), input=("\n".join(lines) + "\n").encode(), stdout=subprocess.PIPE, stderr=subprocess.DEVNULL, check=True)
    said = done.stdout.decode().split("\n")
    assert said.pop() == "" and len(said) == len(lines), f"{program}: {len(said)} answers to {len(lines)} lines"
    return said


def before_fecf(line):
    """The octets of a frame before its FECF, as a word."""
    octets = bytes.fromhex(line.split()[2])
    return octets[: max(0, int.from_bytes(octets[4:6], "big") - 1)].hex() or "-"


def due(oracle, lines, there):
    """The Rust's answers, each 6 with the Rust's checksum of the octets before the FECF."""
    bad = [i for i, answer in enumerate(there) if lines[i].split()[:1] == ["fr"] and answer.startswith("6 ")]
    out = list(there)
    for i, computed in zip(bad, answers(oracle, ["crc " + before_fecf(lines[i]) for i in bad]) if bad else []):
        out[i] += " " + computed
    return out


def short_frame(words):
    """Whether the length that a frame declares is below its headers, OCF and FECF; and the two numbers."""
    octets = bytes.fromhex(words[2])
    head = 7 + (octets[6] & 7)
    length = int.from_bytes(octets[4:6], "big") + 1
    need = head + (3 if octets[head] >> 5 < 3 else 1) + (4 if octets[6] & 8 else 0) + 2 * int(words[1])
    return length < need, f"7 {length} {need}"


def frame_total(words):
    """The octets of the frame that fw and rw are to write."""
    data = 0 if words[16] == "-" else len(words[16]) // 2
    return 7 + int(words[8]) + (3 if int(words[10]) < 3 else 1) + data + (0 if words[13] == "-" else 4) + 2 * int(words[14])


def kind(line, theirs, ours):
    """What kind of difference it is, and whether docs/DIFFERENCES.md lists it."""
    words = line.split()
    name, there = words[0] if words else "", theirs.split()[0]
    if name == "fr" and ours.startswith("7 ") and there in ("panic", "6"):
        short, expected = short_frame(words)
        return f"7 here, {there} there", short and ours == expected
    if name in ("fw", "rw") and ours == "11" and there in ("0", "2"):
        return f"11 here, {there} there", words[7] == "1" and words[13] == "-"
    if name in ("fw", "rw") and ours == "12" and there in ("0", "2"):
        return f"12 here, {there} there", frame_total(words) > 65536
    if name == "hw" and ours == "12" and there in ("0", "2"):
        return f"12 here for a header, {there} there", int(words[5]) > 65536
    if name in ("hw", "fw", "rw") and ours == "bad buflen":
        return "no such buffer here", int(words[11 if name == "hw" else 15]) > 140000
    return f"{name}: {there} there, {ours.split()[0]} here", False


def tell(name, answer):
    return name, "0" if name == "crc" and answer.isdigit() else answer.split()[0]


def main():
    words, out = sys.argv[1:], None
    if words[:1] == ["--write"]:
        out, words = words[1], words[2:]
    if len(words) < 2:
        sys.exit(__doc__)
    count = int(words[2]) if len(words) > 2 else BLOCK
    r = random.Random(int(words[3]) if len(words) > 3 else 1)
    equal, found, kept, done, bad = collections.Counter(), {}, [], 0, False
    while done < count:
        lines = edges() if done == 0 else []
        while len(lines) < min(BLOCK, count - done):
            lines.append(r.choice(MAKERS + [make_bad])(r))
        there, here = answers(words[0], lines), answers(words[1], lines)
        for line, a, expected, b in zip(lines, there, due(words[0], lines, there), here):
            if b == expected:
                equal[tell(NAMES.get((line.split() or [""])[0], "no command"), a)] += 1
                if out:
                    kept.append((line, expected))
            else:
                difference = kind(line, a, b)
                n, shortest = found.get(difference, (0, None))
                found[difference] = n + 1, min(shortest or (line, a, b), (line, a, b), key=lambda c: len(c[0]))
        done += len(lines)
    print(done, "commands,", sum(equal.values()), "equal answers:")
    for name in sorted({n for n, _ in equal}):
        print(" ", name + ":", ", ".join(f"{k} {n}" for (m, k), n in sorted(equal.items()) if m == name))
    print(f"  {equal['fr', '6']} answers 6: the stored FECF is the Rust's, the computed one is the Rust's crc of the octets before it")
    for (what, listed), (n, (line, a, b)) in sorted(found.items()):
        bad = bad or not listed
        print(f"{'listed' if listed else 'NOT LISTED'}: {what}: {n}; shortest: {line[:160]!r}: there {a[:60]!r}, here {b[:60]!r}")
    if out:
        for name, text in (("stdin", [l for l, _ in kept]), ("stdout", [a for _, a in kept])):
            with open(f"{out}/{name}", "w", newline="\n") as f:
                f.write("".join(t + "\n" for t in text))
    sys.exit(1 if bad else 0)


NAMES = {name: name for name in ("crc", "hr", "dr", "fr", "hw", "fw", "rw")}

if __name__ == "__main__":
    main()
