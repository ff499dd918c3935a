#!/usr/bin/env python3
"""Plays random scripts with rasboard, and compares each report with that of the model below.

The model is written from the rules of the calls and of scripts, apart from the definitions and from the code. It is outside the gate.
usage: checks/random_scripts.py [COUNT [FIRST]]   (1000 scripts from number 0 by default; a number always gives the same script)
"""
import pathlib
import random
import subprocess
import sys

TOP = pathlib.Path(__file__).resolve().parent.parent
MAX = (1 << 64) - 1
SSE = 0x535345
EVENT = 0xFFFF0000
MEMORY = 0x80000000
WORDS = 512

SUCCESS, NOT_SUPPORTED, INVALID_PARAM, DENIED, INVALID_ADDRESS = 0, -2, -3, -4, -5
ALREADY_STARTED, ALREADY_STOPPED, INVALID_STATE, BAD_RANGE = -7, -8, -10, -11
UNUSED, REGISTERED, ENABLED, RUNNING = range(4)
DEFINED = (0x0, 0x1, 0x8000, 0x10000, 0x100000, 0x108000, 0xFFFF0000, 0xFFFF8000)


class Board:
    """One hart, and the local event that software injects."""

    def __init__(self, ops, pc, budget):
        self.ops, self.budget = ops, budget
        self.pc, self.mode, self.sie = pc, 1, 0
        self.sepc, self.spp, self.spie = 0, 0, 0
        self.a6, self.a7, self.masked = 0, 0, 1
        self.state, self.pending, self.priority, self.oneshot = UNUSED, 0, 0, 0
        self.entry, self.arg = 0, 0
        self.kept = None  # attributes 6 to 9 while the handler runs
        self.memory = [0] * WORDS
        self.steps = self.calls = self.failed = self.last = 0

    def place(self, addr):
        """The number of the word at an address, or None."""
        inside = MEMORY <= addr < MEMORY + 8 * WORDS and addr % 8 == 0
        return (addr - MEMORY) // 8 if inside else None

    def play(self):
        while self.steps < self.budget and self.step():
            self.steps += 1

    def step(self):
        if self.kept is None and not self.masked and self.pending and self.state == ENABLED:
            self.deliver()
            return True
        op = self.ops.get(self.pc)
        if op is None:
            return False
        self.pc = (self.pc + 4) & MAX
        if op[0] == "inc":
            at = self.place(op[1])
            if at is not None:
                self.memory[at] = (self.memory[at] + 1) & MAX
        elif self.mode == 1:
            self.calls += 1
            self.last = self.call(*op[1:])
            self.failed += self.last != SUCCESS
        return True

    def deliver(self):
        self.kept = [self.sepc, self.spp + 2 * self.spie, self.a6, self.a7]
        self.sepc, self.spp, self.spie = self.pc, self.mode, self.sie
        self.pc, self.mode, self.sie, self.a6, self.a7 = self.entry, 1, 0, 0, self.arg
        self.state, self.pending = RUNNING, 0

    def complete(self):
        if self.kept is None:
            return SUCCESS
        self.pc, self.mode, self.sie = self.sepc, self.spp, self.spie
        self.sepc, flags, self.a6, self.a7 = self.kept
        self.spp, self.spie = flags % 2, flags // 2
        self.kept = None
        self.state = REGISTERED if self.oneshot else ENABLED
        return SUCCESS

    def refusal_of_id(self, number):
        if number > 0xFFFFFFFF or (number not in DEFINED and not number >> 14 & 1):
            return INVALID_PARAM
        return None if number == EVENT else NOT_SUPPORTED

    def refusal_of_range(self, base, count, low, high):
        if count == 0:
            return INVALID_PARAM
        if base + count > 10:
            return BAD_RANGE
        if high or any(self.place(low + 8 * k) is None for k in range(count)):
            return INVALID_ADDRESS
        return None

    def attribute(self, number):
        if number >= 6:
            return self.kept[number - 6] if self.state == RUNNING else 0
        status = self.state + 4 * self.pending + 8
        return (status, self.priority, self.oneshot, 0, self.entry, self.arg)[number]

    def read(self, base, count, low):
        values = [self.attribute(base + k) for k in range(count)]
        for k, value in enumerate(values):
            self.memory[self.place(low + 8 * k)] = value
        return SUCCESS

    def write(self, base, count, low):
        pairs = [(base + k, self.memory[self.place(low + 8 * k)]) for k in range(count)]
        if any(a in (0, 3, 4, 5) for a, _ in pairs):
            return DENIED
        if any(self.state > REGISTERED if a < 6 else self.state != RUNNING for a, _ in pairs):
            return INVALID_STATE
        most = {1: 0xFFFFFFFF, 2: 1, 7: 3}
        if any(value > most.get(a, MAX) for a, value in pairs):
            return INVALID_PARAM
        for a, value in pairs:
            if a == 1:
                self.priority = value
            elif a == 2:
                self.oneshot = value
            else:
                self.kept[a - 6] = value
        return SUCCESS

    def move(self, before, after):
        if self.state != before:
            return INVALID_STATE
        self.state = after
        return SUCCESS

    def call(self, extension, function, args):
        if extension != SSE or function > 9:
            return NOT_SUPPORTED
        if function == 6:
            return self.complete()
        if function in (8, 9):
            wanted = function - 8
            if self.masked == wanted:
                return ALREADY_STOPPED if wanted else ALREADY_STARTED
            self.masked = wanted
            return SUCCESS
        refusal = self.refusal_of_id(args[0])
        if refusal is None and function < 2:
            refusal = self.refusal_of_range(*args[1:])
        if refusal is not None:
            return refusal
        return self.on_event(function, args)

    def on_event(self, function, args):
        if function < 2:
            return (self.read, self.write)[function](*args[1:4])
        if function == 2:
            if args[1] % 2:
                return INVALID_PARAM
            code = self.move(UNUSED, REGISTERED)
            if code == SUCCESS:
                self.entry, self.arg = args[1:3]
            return code
        if function == 3:
            code = self.move(REGISTERED, UNUSED)
            if code == SUCCESS:
                self.entry = self.arg = 0
            return code
        if function in (4, 5):
            return self.move(*((REGISTERED, ENABLED), (ENABLED, REGISTERED))[function - 4])
        if args[1] != 0:
            return INVALID_PARAM
        self.pending = 1
        return SUCCESS

    def report(self):
        depth = int(self.kept is not None)
        yield f"board 1 harts 1 banks 0 reporters 0 steps {self.steps}"
        yield (
            f"hart 0 steps {self.steps} masked {self.masked} pc {self.pc:#x} priv {'US'[self.mode]} sie {self.sie}"
            f" sepc {self.sepc:#x} spp {self.spp} spie {self.spie} a6 {self.a6:#x} a7 {self.a7:#x}"
            f" depth {depth} calls {self.calls} failed {self.failed} last {self.last}"
        )
        if depth:
            sepc, flags, a6, a7 = self.kept
            yield f"frame 0 1 event {EVENT:#x} sepc {sepc:#x} flags {flags} a6 {a6:#x} a7 {a7:#x}"
        yield (
            f"event {EVENT:#x} hart 0 state {self.state} pending {self.pending} priority {self.priority}"
            f" config {self.oneshot} preferred 0 entry {self.entry:#x} arg {self.arg:#x}"
        )
        fates = "made stray disabled counted drained overwritten kept stands".split()
        yield " ".join(["fates"] + [f"{fate} 0" for fate in fates])
        for k, word in enumerate(self.memory):
            if word:
                yield f"word {MEMORY + 8 * k:#x} {word:#x}"
        for k in range(0, max(self.steps, 1), 16):
            yield "schedule" + " h0" * min(16, self.steps - k)
        yield "end"


class Script:
    """A random script: mostly an event that is set up and injected, with ops strewn in between, and a handler."""

    def __init__(self, seed):
        self.random = random.Random(seed)
        self.lines, self.ops, self.next = ["board 1 1", "event 0xffff0000 inject"], {}, 0x1000
        if self.often(0.8):
            self.set_up()
            self.strewn(0.8)
            self.at(0x2000)
            self.strewn(0.8)
            self.op(self.sbi(6))
            self.strewn(0.7)
        else:
            self.strewn(0.95)
        self.pc = self.random.choice([0x1000] * 9 + [0x2000, 0x1004])
        self.budget = self.random.choice([100, 200, 1000, 10000, self.random.randrange(40), 0])
        self.lines.append(f"start 0 {self.number(self.pc)} {self.number(self.budget)}")

    def often(self, chance):
        return self.random.random() < chance

    def number(self, n):
        return self.random.choice([str(n), f"0{n}", f"{n:#x}", f"0x{n:X}"])

    def at(self, addr):
        self.next = addr
        self.lines.append(f"at {self.number(addr)}")

    def op(self, op):
        if self.next in self.ops:
            return
        self.ops[self.next] = op
        self.next += 4
        words = [op[1]] if op[0] == "inc" else list(op[1:3])
        if op[0] == "sbi":
            args = list(op[3])
            while args and args[-1] == 0 and self.often(0.8):
                args.pop()
            words += args
        self.lines.append(" ".join(["op", op[0]] + [self.number(n) for n in words]))

    def sbi(self, function, *args):
        return ("sbi", SSE, function, list(args) + [0] * (5 - len(args)))

    def set_up(self):
        arg = self.random.choice([7, MAX, self.random.randrange(1 << 64)])
        calls = [self.sbi(8), self.sbi(2, EVENT, 0x2000, arg), self.sbi(4, EVENT), self.sbi(7, EVENT)]
        if self.often(0.5):
            self.random.shuffle(calls)
        if self.often(0.4):
            calls = [("inc", MEMORY + 8), self.sbi(1, EVENT, self.random.choice([1, 2]), 1, MEMORY + 8)] + calls
        for call in calls:
            if self.often(0.97):
                self.op(call)
            self.strewn(0.3)

    def strewn(self, chance):
        while self.often(chance):
            self.op(("inc", self.address()) if self.often(0.25) else self.any_call())

    def address(self):
        near = MEMORY + 8 * self.random.randrange(16)
        last = MEMORY + 8 * (WORDS - 1 - self.random.randrange(10))
        outside = [MEMORY + 4, MEMORY + 8 * WORDS, MEMORY - 8, MAX - 7, self.random.randrange(1 << 64)]
        return self.random.choice([MEMORY, near, near, near, last] + outside)

    def event(self):
        others = list(DEFINED) + [0x2, 0x4000, 1 << 32, EVENT | 1 << 32, self.random.randrange(1 << 34)]
        return EVENT if self.often(0.7) else self.random.choice(others)

    def any_call(self):
        pick = self.random.choice
        function = pick([0, 0, 1, 1, 1, 1, 2, 2, 3, 4, 4, 5, 6, 6, 6, 7, 7, 7, 8, 8, 9, 10, self.random.randrange(1 << 64)])
        args = [self.event(), 0, 0, 0, 0]
        if function in (0, 1):
            base = pick([0, 1, 1, 2, 2, 6, 6, 7, 8, 9, 10, MAX])
            count = pick([1, 1, 1, 2, 2, 3, 4, 10, max(10 - base, 0), 0, 11, MAX])
            low = self.address() if self.often(0.3) else MEMORY + 8 * self.random.randrange(12)
            args[1:] = [base, count, low, int(self.often(0.05))]
        elif function == 2:
            args[1] = pick([0x2000, 0x2000, 0x2000, 0x3000, 0x1001, 0x1000, MAX - 1])
            args[2] = pick([0, 1, 2, 3, 5, 7, MAX, self.random.randrange(1 << 64)])
        elif function == 7:
            args[1] = pick([0, 0, 0, 0, 1, MAX])
        extension = SSE if self.often(0.96) else pick([0, 0x10, SSE << 8, 1 << 63])
        return ("sbi", extension, function, args)

    def text(self):
        return "".join(f"{line}\n" for line in self.lines)


def main():
    count, first = ([int(word) for word in sys.argv[1:3]] + [1000, 0][len(sys.argv[1:3]):])
    for seed in range(first, first + count):
        script = Script(seed)
        board = Board(script.ops, script.pc, script.budget)
        board.play()
        wanted = "".join(f"{line}\n" for line in board.report())
        played = subprocess.run([TOP / "rasboard", "play"], input=script.text().encode(), capture_output=True)
        if (played.returncode, played.stdout.decode()) != (0, wanted):
            sys.exit(f"script {seed} differs; its text is:\n{script.text()}")
    print(f"{count} scripts have the report of the model")


main()
