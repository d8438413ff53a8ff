#!/usr/bin/env python3
"""Tries the intake from outside: random recordings of good and damaged frames, cut into blocks at random, and a model of its own, which
takes octet by octet for as long as a reader says that the octets are too few. Every answer to feed and drop is compared. However a
recording is cut, the frames, the refusal and what is held are to be the same, and many and fr are to find these frames in the whole of it.

Usage: blocks.py PROGRAM [RECORDINGS [SEED]]     (PROGRAM is what runs uslp_run, as 'tools/run uslp_run'; default 200, 1)
       blocks.py --session STDIN STDOUT    compares the answers to feed and drop of a stored session
"""
import random
import shlex
import subprocess
import sys
from binascii import crc_hqx

from reading import number, reading


class Intake:
    def __init__(self):
        self.held = bytearray()

    def feed(self, fecf, block):
        """How many octets of the block are taken, and the answer: FRAME, WAIT or STOP, with what the bench prints behind it."""
        taken, said = 0, reading(self.held, fecf)
        while str(said).startswith("1 ") and taken < len(block):
            self.held.append(block[taken])
            taken, said = taken + 1, reading(self.held, fecf)
        if isinstance(said, int):
            frame, self.held = self.held[:said], bytearray()
            return taken, f"0 FRAME {taken} {frame.hex()}"
        stop = not said.startswith("1 ")
        return taken, f"0 {'STOP' if stop else 'WAIT'} {taken} {len(self.held)}" + (" " + said if stop else "")

    def answer(self, line):
        """To a line of the bench: the model's answer to feed and drop, nothing to others."""
        words = line.split(" ")
        if words == ["drop"]:
            self.held = bytearray()
            return "0"
        if words[0] == "feed":
            return self.feed(int(words[1]), bytes.fromhex(words[2].strip("-")))[1]
        return None


def shown(octets, fecf):
    """What fr prints of a good frame."""
    first, at, ocf = number(octets[:4]), 7 + (octets[6] & 7), octets[6] >> 3 & 1
    fields = [first >> 12 & 65535, first >> 11 & 1, first >> 5 & 63, first >> 1 & 15, number(octets[4:6])]
    fields += [octets[6] >> 7, octets[6] >> 6 & 1, ocf, octets[6] & 7, number(octets[7:at]), octets[at] >> 5, octets[at] & 31]
    start, end = at + (3 if octets[at] >> 5 < 3 else 1), len(octets) - 2 * fecf - 4 * ocf
    fields += [number(octets[at + 1: start]) if start == at + 3 else "-", number(octets[end: end + 4]) if ocf else "-", octets[start:end].hex() or "-"]
    return "0 " + " ".join(map(str, fields))


def good(rng, fecf, size):
    """A frame with so many octets of data, or as many as it has room for."""
    width, rule, ocf = rng.randrange(8), rng.randrange(8), rng.randrange(2)
    room = 7 + width + (3 if rule < 3 else 1) + 4 * ocf + 2 * fecf
    size = min(size, 65536 - room)
    octets = bytearray(((12 << 28) + (rng.randrange(1 << 27) << 1)).to_bytes(4, "big") + (room + size - 1).to_bytes(2, "big"))
    octets.append(rng.randrange(16) << 4 | ocf << 3 | width)
    octets += rng.randbytes(width) + bytes([rule << 5 | rng.choice([0, 1, 2, 3, 4, 5, 6, 7, 8, 31])])
    octets += rng.randbytes(room + size - len(octets) - 2 * fecf)
    return bytes(octets + crc_hqx(octets, 0xFFFF).to_bytes(2, "big")) if fecf else bytes(octets)


def bad(rng, fecf):
    """Octets near a frame: truncated, of another version, too short a length, an unknown protocol, exchanged or changed octets, cut; or noise."""
    octets, kind = bytearray(good(rng, fecf, rng.randrange(12))), rng.randrange(8)
    at = 7 + (octets[6] & 7)
    if kind == 0:
        octets[3] |= 1
    elif kind == 1:
        octets[0] ^= rng.randint(1, 15) << 4
    elif kind == 2:
        octets[4:6] = rng.randrange(at + 9).to_bytes(2, "big")
    elif kind == 3:
        octets[at] = octets[at] & 224 | rng.randint(9, 30)
    elif kind == 4:
        octets[-2:] = octets[-1], octets[-2]
    elif kind == 5:
        octets[rng.randrange(len(octets))] ^= rng.randint(1, 255)
    return rng.randbytes(rng.randrange(20)) if kind == 7 else bytes(octets[: rng.randrange(len(octets))] if kind == 6 else octets)


def blocks(rng, octets):
    """The octets cut: into single ones (but not a long recording), blocks of one length, all in one, or blocks of any length and of nothing."""
    one = rng.choice([1, rng.randint(2, 12), len(octets), 0])
    if one and len(octets) > 2000:
        one = max(one, len(octets) // 100)
    while octets:
        n = one or rng.choice([0, 0, 1, 2, 4, rng.randrange(30), rng.randrange(len(octets) + 1)])
        yield octets[:n]
        octets = octets[n:]


def fed(rng, intake, fecf, octets, say):
    """Feeds a recording in blocks, the rest of each again behind a frame; says which frames came, what is held, and the reader's word of it."""
    frames, stops = [], 0
    for block in blocks(rng, octets):
        answer = "0 FRAME"
        while answer.startswith("0 FRAME") and (block or answer == "0 FRAME"):
            taken, answer = intake.feed(fecf, block)
            say(f"feed {fecf} {block.hex() or '-'}", answer)
            frames += [bytes.fromhex(answer.split()[3])] if answer.startswith("0 FRAME") else []
            block = block[taken:]
        stops += answer.startswith("0 STOP")
        if stops > 3:
            break
    return frames, bytes(intake.held), str(reading(intake.held, fecf))


def tried(rng, intake, say):
    """A recording, cut three times, then cut by many and fr."""
    fecf = rng.randrange(2)
    pieces = [good(rng, fecf, rng.randrange(rng.choice([1, 6, 40]))) for _ in range(rng.randrange(7))]
    if rng.randrange(2):
        pieces.insert(rng.randrange(len(pieces) + 1), bad(rng, fecf))
    if rng.randrange(40) == 0:
        pieces.insert(rng.randrange(len(pieces) + 1), good(rng, fecf, rng.choice([65536, 65535 - rng.randrange(40), rng.randrange(65536)])))
    octets, outcomes = b"".join(pieces), []
    for _ in range(3):
        outcomes.append(fed(rng, intake, fecf, octets, say))
        for _ in range(rng.choice([0, 0, 1, 2])):
            block, other = rng.choice([b"", b"\0", good(rng, fecf, 3)]), fecf if rng.randrange(3) else 1 - fecf
            say(f"feed {other} {block.hex() or '-'}", intake.feed(other, block)[1])
        say("drop", intake.answer("drop"))
    frames, held, said = outcomes[0]
    if outcomes != [outcomes[0]] * 3:
        sys.exit(f"{octets.hex()}: the model itself goes by the cutting")
    for k, frame in enumerate(frames):
        say(f"fr {fecf} {octets[len(b''.join(frames[:k])):].hex()}", shown(frame, fecf))
    place = len(b"".join(frames))
    say(f"many {fecf} {octets.hex() or '-'}", f"0 {place} 0 0 0 0 {len(frames)} 0 0 {said if place < len(octets) else '0'}")


def compare(commands, answers, said):
    """The first answer that is another ends the run."""
    if len(said) != len(commands):
        sys.exit(f"{len(commands)} commands, {len(said)} answers")
    for command, expected, found in zip(commands, answers, said):
        if expected not in (None, found):
            sys.exit(f"{command}\n  expected {expected}\n  found    {found}")


def main():
    words = sys.argv[1:]
    if words[:1] == ["--session"] and len(words) == 3:
        commands, said = (open(name).read().splitlines() for name in words[1:])
        intake = Intake()
        answers = [None if a.startswith("bad") else intake.answer(c) for c, a in zip(commands, said)]
        compare(commands, answers, said)
        print(f"{len(answers) - answers.count(None)} answers, all equal")
        return
    if not words or words[0].startswith("-"):
        sys.exit(__doc__)
    recordings, seed = (int(w) for w in (words[1:] + ["200", "1"][len(words) - 1:]))
    counts = {}
    for first in range(0, recordings, 100):
        commands, answers, intake = [], [], Intake()
        for k in range(first, min(first + 100, recordings)):
            tried(random.Random(seed * 1000003 + k), intake, lambda c, a: (commands.append(c), answers.append(a)))
        text = "".join(c + "\n" for c in commands)
        said = subprocess.run(shlex.split(words[0]), input=text, stdout=subprocess.PIPE, text=True, check=True).stdout.splitlines()
        compare(commands, answers, said)
        for c, a in zip(commands, answers):
            kind, answer = c.split()[0], a.split()
            if kind == "feed":
                kind = " ".join([kind, answer[1]] + (answer[4:5] if answer[1] == "STOP" else []))
            counts[kind] = counts.get(kind, 0) + 1
    print(f"{recordings} recordings of seed {seed}: {sum(counts.values())} answers, all equal:", ", ".join(f"{k} {n}" for k, n in sorted(counts.items())))


main()
