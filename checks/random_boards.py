#!/usr/bin/env python3
"""Plays random scripts with a program, and compares output, exit status and standard error with those of board_model.py.

Each command has its turn; `load` leaves the random script unread. Scripts are of both versions; some are hostile: wild calls,
ops in user mode, addresses outside memory, strays, lines that are refused. It is outside the gate.
usage: checks/random_boards.py [--program P] [COUNT [FIRST]]   (1000 scripts from number 0 by default; a number always gives the
same script)
"""
import pathlib
import random
import subprocess
import sys

import board_model

TOP = pathlib.Path(__file__).resolve().parent.parent
LOCAL = [0x0, 0x10000, 0x100000, 0xFFFF0000, 0x4000, 0x14000]
GLOBAL = [0x8000, 0x108000, 0xFFFF8000, 0xC000]
COMMANDS = [["play", "--trace"]] * 5 + [["play"], ["play", "--short"], ["move"], ["pages", "1"], ["pages", "0002"], ["load"]]


class Writer:
    def __init__(self, seed):
        self.r = random.Random(seed)
        self.hostile = self.r.random() < 0.3
        self.lines = []

    def say(self, *words):
        self.lines.append(" ".join(str(word) for word in words))

    def spelled(self, number):
        return hex(number) if self.r.random() < 0.5 else str(number)

    def wild(self):
        return self.r.choice([0, 1, 7, 255, 256, 1 << 14, 1 << 32, (1 << 64) - 1, self.r.getrandbits(64)])

    def word(self):
        if self.hostile and self.r.random() < 0.1:
            return self.r.choice([0x80000004, 0x80001000, 0x7FFFFFF8, self.wild()])
        return 0x80000000 + 8 * self.r.randrange(16)

    def script(self):
        r = self.r
        self.version = r.choice([1, 2])
        self.harts = r.randint(1, 4) if r.random() < 0.9 else (32 if self.version == 2 else 8)
        self.say("board", self.version, self.harts)
        self.ids = r.sample(LOCAL + GLOBAL, r.randint(0, 6))
        for ident in self.ids:
            self.say("event", hex(ident), r.choice(["inject", "inject", "noinject"]))
        self.banks = []
        for bank in range(r.randint(0, 3)):
            self.banks.append(r.randint(1, 3))
            self.say("bank", r.randrange(self.harts), r.choice(["local", "global"]), self.banks[-1])
            plats = [ident for ident in self.ids if ident >> 14 & 1]
            if plats and r.random() < 0.5:
                self.say("plat", bank, hex(r.choice(plats)))
            if self.version == 2 and r.random() < 0.6:
                self.say("gather", bank, r.randint(1, 4))
            for rec in range(self.banks[-1]):
                if r.random() < 0.9:
                    control = r.choice([0x95, 0x97, 0x95, r.randrange(256)])
                    self.say("record", bank, rec, hex(control), r.choice([0, 0, 65534, 65535]))
        self.programs()
        self.reporters()
        if r.random() < 0.5:
            self.schedule()
        if self.hostile and r.random() < 0.3:
            self.spoil()
        return "\n".join(self.lines).encode() + b"\n"

    def programs(self):
        r = self.r
        entries = [0x2000 + 0x100 * k for k in range(3)]
        starts = [0x1000 + 0x200 * h for h in range(min(self.harts, 4))]
        for hart, start in enumerate(starts):
            self.say("at", hex(start))
            if r.random() < 0.9:
                for ident in self.ids:
                    if r.random() < 0.8:
                        self.setup(ident, r.choice(entries))
                self.say("op sbi 0x535345 8")
            for _ in range(r.randint(0, 12)):
                self.op(starts + entries)
            if r.random() < 0.3:
                self.say("op jlt", hex(0x80000000 + 8 * hart), r.randint(1, 5), hex(start))
        for entry in entries:
            self.say("at", hex(entry))
            for _ in range(r.randint(0, 5)):
                self.op(starts + entries)
            for bank in range(len(self.banks)):
                if r.random() < 0.6:
                    self.say("op ack", bank)
            if r.random() < 0.9:
                self.say("op sbi 0x535345 6")
        for hart, start in enumerate(starts):
            self.say("start", hart, hex(start), r.randint(0, 120))

    def setup(self, ident, entry):
        r = self.r
        attributes = {1: r.randint(0, 3), 2: r.randint(0, 1), 3: r.randrange(self.harts)}
        for attribute, value in attributes.items():
            if r.random() < 0.4:
                self.say("op store", "0x800000f8", value)
                self.say("op sbi 0x535345 1", hex(ident), attribute, 1, "0x800000f8", 0)
        self.say("op sbi 0x535345 2", hex(ident), hex(entry), r.randint(0, 9))
        self.say("op sbi 0x535345 4", hex(ident))

    def op(self, places):
        r = self.r
        kind = r.choice("nop sbi sbi sbi sbi set load save store inc inc jump jlt sret ack unplug".split())
        if kind == "sbi":
            return self.call()
        reg = r.choice("a6 a7 sepc spp spie sie".split())
        value = r.randint(0, 1) if reg in ("spp", "spie", "sie") else r.choice(places + [5, self.wild()])
        words = {
            "set": [reg, self.spelled(value)],
            "load": [reg, hex(self.word())],
            "save": [reg, hex(self.word())],
            "store": [hex(self.word()), r.choice([0, 1, 3, self.wild()])],
            "inc": [hex(self.word())],
            "jump": [hex(r.choice(places))],
            "jlt": [hex(self.word()), r.randint(0, 4), hex(r.choice(places))],
            "ack": [r.choice([0, 1, 2, 9 if self.hostile else 0])],
            "unplug": [r.choice([0, 1, 9 if self.hostile else 0])],
        }
        if kind in ("jump", "sret", "unplug") and r.random() < 0.6:
            kind = "nop"
        self.say("op", kind, *words.get(kind, []))

    def call(self):
        r = self.r
        if self.hostile and r.random() < 0.2:
            args = [hex(self.wild()) for _ in range(r.randint(0, 5))]
            return self.say("op sbi", r.choice(["0x535345", hex(self.wild())]), r.randint(0, 12), *args)
        ident = hex(r.choice((self.ids or [0]) + [0xFFFF0000]))
        function = r.choice([0, 1, 1, 2, 3, 4, 5, 6, 7, 7, 7, 8, 9])
        args = {
            2: [ident, hex(r.choice([0x2000, 0x2100, 0x2200, 0x2001])), r.randint(0, 9)],
            6: [],
            7: [ident, r.randrange(self.harts + 1)],
            8: [],
            9: [],
        }
        ranged = [ident, r.randint(0, 9), r.randint(0, 4), hex(self.word()), r.choice([0, 0, 0, 0, 1])]
        self.say("op sbi 0x535345", function, *args.get(function, ranged if function < 2 else [ident]))

    def reporters(self):
        r = self.r
        devices = r.sample(range(6), 3)
        self.count = r.randint(0, 3)
        for reporter in range(self.count):
            if r.random() < 0.3:
                self.say("reporter device", devices.pop(), r.randint(0, 30))
                continue
            self.say("reporter list")
            for _ in range(r.randint(0, 12)):
                if r.random() < 0.2:
                    self.say("act", reporter, "raise", hex(r.choice((self.ids or [0]) + [0xFFFF0000])), r.randrange(self.harts + 1))
                    continue
                bank = r.randrange(len(self.banks) + (r.random() < 0.1)) if self.banks else 0
                rec = r.randrange((self.banks + [1])[min(bank, len(self.banks))] + (r.random() < 0.1))
                severity = r.choice(["ce", "ce", "ued", "uec"])
                values = [self.spelled(r.choice([0, 0x1000, r.getrandbits(64)])) for _ in range(4)]
                self.say("act", reporter, "error", bank, rec, severity, r.randint(0, 3), r.randint(0, 255), *values)

    def schedule(self):
        r = self.r
        actors = ["h%d" % hart for hart in range(min(self.harts, 4))] * 3 + ["r%d" % at for at in range(self.count)]
        for _ in range(r.randint(0, 4)):
            self.say("schedule", *[r.choice(actors) for _ in range(r.randint(0, 60))])

    def spoil(self):
        r = self.r
        at = r.randrange(len(self.lines))
        words = self.lines[at].split()
        pick = r.randrange(len(words))
        change = r.randrange(5)
        if change == 0:
            words[pick] = r.choice(["foo", "0x", "-1", "99999999999999999999", "65536", "256", "33", "4"])
        elif change == 1:
            words.append(r.choice(["0", "x"]))
        elif change == 2:
            words.pop(pick)
        elif change == 3:
            self.lines.insert(at, self.lines[at])
        else:
            self.lines.insert(r.randrange(len(self.lines)), r.choice(["# a comment", "", "\t", "gather 0 2", "board 1 1", "at 0x1001"]))
        self.lines[at] = r.choice([" ", "\t", "  "]).join(words) if change < 3 else self.lines[at]


def main():
    args = sys.argv[1:]
    program = str(TOP / "rasboard")
    if args[:1] == ["--program"]:
        program, args = args[1], args[2:]
    count, first = int(args[0]) if args else 1000, int(args[1]) if len(args) > 1 else 0
    differ = 0
    for number in range(first, first + count):
        text = Writer(number).script()
        words = COMMANDS[number % len(COMMANDS)]
        if words == ["load"]:
            words = ["load", str(number % 1001)]
        wanted = board_model.command(words, text)
        got = subprocess.run([program, *words], input=text, capture_output=True)
        if (got.stdout.decode(), got.returncode, got.stderr.decode()) != wanted:
            differ += 1
            pathlib.Path("/tmp/random-%d.script" % number).write_bytes(text)
            print("script %d (%s) differs: /tmp/random-%d.script" % (number, " ".join(words), number))
    print("%d of %d scripts as the model has them" % (count - differ, count))
    sys.exit(differ != 0)


if __name__ == "__main__":
    main()
