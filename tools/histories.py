#!/usr/bin/env python3
"""Tries demand 3 from outside: random senders, most with sequence-controlled and expedited frames numbered apart, a link that loses,
repeats, reorders and damages frames of several channels within the window, frames heard one at a time or several end to end, restarts
of the console from form 1, form 2, what one was converted to, or there and back again, and a count of its own, over the places sent, of
what was never handed on. Every answer of the program is compared, and every octet that it saves or converts.

Usage: histories.py PROGRAM [HISTORIES [FRAMES [SEED]]]     (PROGRAM is what runs uslp_run, as 'tools/run uslp_run'; default 100, 1000)
       histories.py --write DIR PROGRAM HISTORIES FRAMES SEED    writes the commands and the program's answers to DIR/stdin, DIR/stdout
"""
import random
import shlex
import subprocess
import sys

from reading import reading

SAVE = {1: "save", 2: "save2"}
RESTORE = {1: "restore", 2: "restore2"}
CONVERT = {1: "up", 2: "down"}
LONGEST = {1: 354, 2: 362}


def checksum(octets):
    register = 0xFFFF
    for octet in octets:
        register ^= octet << 8
        for _ in range(8):
            register = (register << 1) ^ 0x1021 if register & 0x8000 else register << 1
            register &= 0xFFFF
    return register


class Sender:
    """One channel, a spacecraft with a number and a bypass flag: its frame at a place, and what the record is to say of it."""

    def __init__(self, rng, key, fecf):
        self.key = key
        self.width = rng.choice([1, 1, 1, 2, 2, 3, 4, 5, 6, 7])
        self.counts = 256 ** self.width
        self.start = rng.choice([0, 1, self.counts - 1, rng.randrange(self.counts)])
        self.fecf = fecf
        self.data = {}
        self.counted = (frozenset(), None, None, 0, 0)

    @property
    def counted(self):
        return frozenset(self.handed), self.first, self.furthest, self.repeats, self.late

    @counted.setter
    def counted(self, state):
        handed, self.first, self.furthest, self.repeats, self.late = state
        self.handed = set(handed)

    def frame(self, rng, place, width=None):
        """The frame at a place; in another width than its channel's it is counted nowhere."""
        width = width or self.width
        if place not in self.data:
            rule = rng.randrange(8)
            ocf = bytes(rng.randrange(256) for _ in range(4)) if rng.randrange(4) == 0 else b""
            data = bytes(rng.randrange(256) for _ in range(rng.randrange(12)))
            bits = rng.randrange(2), rng.randrange(16), rng.randrange(2), rng.randrange(4)
            self.data[place] = (rule, rng.choice([0, 1, 2, 3, 4, 5, 6, 7, 8, 31]), ocf, data, bits)
        rule, protocol, ocf, data, (dest, map_id, command, spare) = self.data[place]
        craft, channel, bypass = self.key
        total = 7 + width + (3 if rule < 3 else 1) + len(data) + len(ocf) + 2 * self.fecf
        octets = bytearray([0xC0 | craft >> 12, craft >> 4 & 255, (craft & 15) << 4 | dest << 3 | channel >> 3, (channel & 7) << 5 | map_id << 1])
        octets += (total - 1).to_bytes(2, "big")
        octets.append(bypass << 7 | command << 6 | spare << 4 | (8 if ocf else 0) | width)
        octets += ((self.start + place) % 256**width).to_bytes(width, "big")
        octets.append(rule << 5 | protocol)
        if rule < 3:
            octets += (place & 0xFFFF).to_bytes(2, "big")
        octets += data + ocf
        if self.fecf:
            octets += checksum(octets).to_bytes(2, "big")
        return bytes(octets)

    def next_place(self, rng):
        """A place that the window allows: at most half ahead of the furthest, fewer than half behind it."""
        if self.furthest is None:
            return rng.randrange(1000, 2000)
        half = self.counts // 2
        kind = rng.randrange(10)
        if kind < 5:
            return self.furthest + 1
        if kind < 7:
            return self.furthest + rng.randint(1, min(half, rng.choice([3, 20, half])))
        if kind < 8:
            return self.furthest
        return max(0, self.furthest - rng.randint(1, min(half - 1, rng.choice([2, 10, 127]))))

    def arrives(self, place):
        data = self.data[place][3].hex() or "-"
        if self.furthest is None:
            self.first = self.furthest = place
            self.handed.add(place)
            return "0 NEW 0 " + data
        if place > self.furthest:
            gap = place - self.furthest - 1
            if self.missing() + gap >= 2**60:
                return "17"
            self.furthest = place
            self.handed.add(place)
            return f"0 NEW {gap} {data}"
        if place == self.furthest:
            self.repeats += 1
            return "0 REPEAT"
        self.late += 1
        return "0 LATE"

    def missing(self):
        """Counted over the places sent: from the first handed on to the furthest, those never handed on."""
        if self.first is None:
            return 0
        return (self.furthest - self.first + 1) - len(self.handed)

    def totals(self):
        return (self.start + self.furthest) % self.counts, len(self.handed), self.missing(), self.repeats, self.late

    def shown(self):
        if self.first is None:
            return f"0 {self.width} unheard"
        return f"0 {self.width} " + " ".join(map(str, self.totals()))

    def entry(self, n):
        octets = self.key[0].to_bytes(2, "big") + bytes([*self.key[1:1 + n], self.width])
        return octets if self.first is None else octets + b"".join(t.to_bytes(8, "big") for t in self.totals())


def form(opened, n):
    """The open channels as octets of form n; form 1 has the sequence-controlled ones alone."""
    senders = [opened[key] for key in sorted(opened) if key[2] < n]
    sections = [[s.entry(n) for s in senders if s.first is None], [s.entry(n) for s in senders if s.first is not None]]
    return b"".join(bytes([len(entries)]) + b"".join(entries) for entries in sections)


def is_form(octets, n):
    """Whether octets are a good form n, said by reading them."""
    keys, rest = [], octets
    for size in (3 + n, 43 + n):
        if not rest or len(rest) < 1 + rest[0] * size:
            return False
        entries, rest = [rest[1 + k * size: 1 + (k + 1) * size] for k in range(rest[0])], rest[1 + rest[0] * size:]
        section = [entry[:2 + n] for entry in entries]
        if section != sorted(set(section)):
            return False
        keys += section
        for entry in entries:
            width, totals = entry[2 + n], [int.from_bytes(entry[k: k + 8], "big") for k in range(3 + n, size, 8)]
            if entry[2] > 63 or n == 2 and entry[3] > 1 or not 1 <= width <= 7 or any(t >= 2**60 for t in totals[1:]):
                return False
            if totals and (totals[0] >= 256**width or totals[1] == 0):
                return False
    return not rest and len(keys) <= 8 and len(set(keys)) == len(keys)


def spoiled(rng, octets, n):
    """Octets near a form n: cut, longer, or with one octet or one entry changed."""
    octets, size = bytearray(octets), 3 + n
    kind = rng.randrange(4)
    if kind == 0:
        return bytes(octets[: rng.randrange(len(octets))])
    if kind == 1:
        return bytes(octets) + bytes(rng.randrange(256) for _ in range(rng.randint(1, 50)))
    if kind == 2 and octets[0] > 0:
        octets[1 + size: 1 + size] = octets[1: 1 + size]
        octets[0] += 1
        return bytes(octets)
    octets[rng.randrange(len(octets))] = rng.choice([0, 1, 8, 64, 255, rng.randrange(256)])
    return bytes(octets)


def damaged(rng, sender, frame):
    """Octets that the reader refuses: a burst within 16 bits where there is a FECF, else a cut, or a spoiled version or truncated flag."""
    octets = bytearray(frame)
    if sender.fecf and len(octets) > 8 and rng.randrange(2):
        at = rng.randrange(8 * 7, 8 * len(octets) - 16)
        mask = rng.randrange(1, 1 << 16)
        for bit in range(16):
            if mask >> bit & 1:
                octets[(at + bit) // 8] ^= 0x80 >> (at + bit) % 8
    elif rng.randrange(2):
        octets = octets[: rng.randrange(len(octets))]
    else:
        at, mask = rng.choice([(0, 0x10), (0, 0x20), (0, 0x40), (0, 0x80), (3, 1)])
        octets[at] ^= mask
    return bytes(octets)


def add(tally, answer):
    """Counts the answer to one frame: NEW, the sum of gaps, REPEAT, LATE, 13, 14, 17."""
    words = answer.split()
    kind = words[1] if words[0] == "0" else words[0]
    tally[["NEW", None, "REPEAT", "LATE", "13", "14", "17"].index(kind)] += 1
    if kind == "NEW":
        tally[1] += int(words[2])


def history(rng, frames):
    """The commands, the answers that are due, and how many frames came while both flags of their channel number were open."""
    senders = {}
    for _ in range(rng.randint(1, 6)):
        craft, channel, flag, fecf = rng.choice([0, 7, 0x1234, 0xFFFF]), rng.randrange(64), rng.randrange(2), rng.randrange(2)
        for bypass in (flag, 1 - flag) if rng.randrange(4) else (flag,):
            senders.setdefault((craft, channel, bypass), Sender(rng, (craft, channel, bypass), fecf))
    opened, saved, commands, answers, mixed, closes = {}, [], [], [], 0, rng.randrange(3)

    def say(command, answer):
        commands.append(command)
        answers.append(answer)

    def ask(*asked):
        for sender in asked:
            say("show %d %d %d" % sender.key, sender.shown() if sender.key in opened else "13")
        say("total", "0 %d" % sum(s.missing() for s in opened.values()))

    def start(sender):
        full = len(opened) == 8
        say("open %d %d %d %d" % (*sender.key, sender.width), "16" if full else "0")
        if not full:
            opened[sender.key] = sender

    def end(sender):
        say("close %d %d %d" % sender.key, "0")
        del opened[sender.key]
        sender.counted = (frozenset(), None, None, 0, 0)

    def writes(command, n, forms, flagged, octets=b""):
        """A command that writes form n, with room or too little; 19 where form 1 lacks a flag, whatever the room. Says whether it is done."""
        if n == 1 and flagged:
            room, answer = rng.choice([0, len(forms[1]), 354]), "19"
        elif rng.randrange(5) == 0:
            room = rng.randrange(len(forms[n]))
            answer = f"2 {room} {len(forms[n])}"
        else:
            room = rng.choice([len(forms[n]), len(forms[n]) + rng.randrange(3), LONGEST[n]])
            answer = f"0 {len(forms[n])} {forms[n].hex()}{'ee' * (room - len(forms[n]))}"
        say(f"{command} {room} {octets.hex()}".rstrip(), answer)
        return answer[0] == "0"

    def restart():
        """Saves in either form, perhaps behind a closing of the expedited channels; restores what was saved, converted never, once or there and
        back again as far as that is done, whatever happened since; or tries octets that are no good form."""
        kind, n = rng.randrange(4), rng.choice([1, 2])
        if kind < 2:
            if closes and rng.randrange(4):
                for sender in [sender for key, sender in opened.items() if key[2] == 1]:
                    end(sender)
            forms, flagged = {1: form(opened, 1), 2: form(opened, 2)}, any(key[2] for key in opened)
            if writes(SAVE[n], n, forms, flagged):
                saved.append((n, forms, flagged, {key: sender.counted for key, sender in opened.items()}))
        elif kind == 2 and saved:
            n, forms, flagged, states = rng.choice(saved)
            for _ in range(rng.choice([0, 1, 1, 2, 2])):
                if not writes(CONVERT[n], 3 - n, forms, flagged, forms[n]):
                    break
                n = 3 - n
            say(f"{RESTORE[n]} {forms[n].hex()}", "0")
            opened.clear()
            for key, sender in senders.items():
                sender.counted = states.get(key, (frozenset(), None, None, 0, 0))
                if key in states:
                    opened[key] = sender
        else:
            octets = spoiled(rng, form(opened, n), n)
            n = n if rng.randrange(8) else 3 - n
            if not is_form(octets, n):
                command = rng.choice([RESTORE[n], f"{CONVERT[n]} {rng.choice([0, 362])}"])
                say(f"{command} {octets.hex() or '-'}", "18")

    def heard(sender, place):
        nonlocal mixed
        mixed += all((*sender.key[:2], flag) in opened for flag in (0, 1))
        return sender.arrives(place) if sender.key in opened else "13"

    def several(fecf):
        """Hears frames end to end, all with this FECF choice, the last perhaps damaged, with one behind it or none; says how many were sent."""
        link = [s for s in senders.values() if s.fecf == fecf]
        octets, rest, tally, sent = b"", b"", [0] * 7, rng.randrange(6)
        for _ in range(sent):
            sender = rng.choice(link)
            place = sender.next_place(rng)
            width = sender.width if rng.randrange(10) else rng.choice([w for w in range(1, 8) if w != sender.width])
            octets += sender.frame(rng, place, width)
            add(tally, "14" if width != sender.width and sender.key in opened else heard(sender, place))
        if rng.randrange(2):
            sender, behind = rng.choice(link), rng.choice(link)
            frame = sender.frame(rng, sender.next_place(rng))
            rest = damaged(rng, sender, frame)
            if len(rest) == len(frame) and rng.randrange(2):
                rest += behind.frame(rng, behind.next_place(rng))
        stop = reading(rest, fecf) if rest else "0"
        say(f"many {fecf} {(octets + rest).hex() or '-'}", f"0 {len(octets)} {' '.join(map(str, tally))} {stop}")
        ask(*link)
        return sent + len(rest[:1])

    first = next(iter(senders))
    studied = [sender for key, sender in senders.items() if key[:2] == first[:2]]
    for sender in studied:
        start(sender)
    sent = 0
    while sent < frames:
        sender = rng.choice(studied if rng.randrange(3) else list(senders.values()))
        if sender.key not in opened and rng.randrange(4) == 0:
            start(sender)
        elif sender.key in opened and sender not in studied and rng.randrange(12) == 0:
            end(sender)
        if rng.randrange(10) == 0:
            restart()
        if rng.randrange(12) == 0:
            sent += several(sender.fecf)
            continue
        place = sender.next_place(rng)
        frame = sender.frame(rng, place)
        if rng.randrange(8) == 0:
            octets = damaged(rng, sender, frame)
            say(f"hear {sender.fecf} {octets.hex() or '-'}", reading(octets, sender.fecf))
        else:
            behind = b"" if rng.randrange(4) else bytes(rng.randrange(256) for _ in range(rng.randrange(9)))
            say(f"hear {sender.fecf} {(frame + behind).hex()}", heard(sender, place))
        ask(sender)
        sent += 1
    return commands, answers, mixed


def ask_program(program, commands):
    text = "".join(c + "\n" for c in commands)
    return subprocess.run(shlex.split(program), input=text, stdout=subprocess.PIPE, text=True, check=True).stdout.splitlines()


def compare(program, commands, answers):
    said = ask_program(program, commands)
    if len(said) != len(commands):
        return f"{len(commands)} commands, {len(said)} answers"
    for command, expected, found in zip(commands, answers, said):
        if found != expected:
            return f"{command}\n  expected {expected}\n  found    {found}"
    return None


def main():
    words = sys.argv[1:]
    out = None
    if words and words[0] == "--write":
        out, words = words[1], words[2:]
    if not words or words[0].startswith("-"):
        sys.exit(__doc__)
    program = words[0]
    number, frames, seed = (int(w) for w in (words[1:] + ["100", "1000", "1"][len(words) - 1:]))
    steps, at_once, mixed, restarts, converted, all_commands = 0, 0, 0, 0, 0, []
    for k in range(number):
        commands, answers, both = history(random.Random(seed * 1000003 + k), frames)
        wrong = compare(program, commands, answers)
        if wrong:
            sys.exit(f"history {k} of seed {seed}: {wrong}")
        steps += len(commands)
        at_once += sum(c.startswith("many ") for c in commands)
        mixed += both
        restarts += sum(c.startswith("restore") and a == "0" for c, a in zip(commands, answers))
        converted += sum(c.startswith(("up ", "down ")) and a[0] == "0" for c, a in zip(commands, answers))
        all_commands += commands + ["restore 0000"]
    if out:
        with open(out + "/stdin", "w") as f:
            f.write("".join(c + "\n" for c in all_commands))
        with open(out + "/stdout", "w") as f:
            f.write("".join(a + "\n" for a in ask_program(program, all_commands)))
    print(f"{number} histories of {frames} frames, {steps} answers, {at_once} of them to many, all equal")
    print(f"{mixed} frames came while both flags of their channel number were open; {restarts} restarts, {converted} conversions")


main()
