#!/usr/bin/env python3
"""A model of the whole board: scripts, steps, reports. It is written from the rules, apart from definitions and code.

Alone it does what `rasboard` does: `board_model.py play --trace < script`. `random_boards.py` compares the two.
"""
import itertools
import re
import struct
import sys

M64 = (1 << 64) - 1
SSE = 0x535345
DEFINED = {0x0, 0x1, 0x8000, 0x10000, 0x100000, 0x108000, 0xFFFF0000, 0xFFFF8000}
MEMORY, WORDS = 0x80000000, 512
SUCCESS, NOT_SUPPORTED, INVALID_PARAM, DENIED, INVALID_ADDRESS = 0, -2, -3, -4, -5
ALREADY_STARTED, ALREADY_STOPPED, INVALID_STATE, BAD_RANGE = -7, -8, -10, -11
UNUSED, REGISTERED, ENABLED, RUNNING = range(4)
SEVERITIES = ("ce", "ued", "uec")
PHASES = ("scan", "claim", "address", "info", "supplement", "time", "check", "invalidate", "signal")


def is_global(ident):
    return ident >> 15 & 1


def is_reserved(ident):
    return ident not in DEFINED and not ident >> 14 & 1


# ---- scripts ----


class Refused(Exception):
    def __init__(self, kind):
        super().__init__(kind)
        self.kind = kind


def need(holds, kind):
    if not holds:
        raise Refused(kind)


def number(word):
    if re.fullmatch(rb"0x[0-9a-fA-F]+", word):
        value = int(word[2:], 16)
    else:
        need(re.fullmatch(rb"[0-9]+", word), "number")
        value = int(word)
    need(value <= M64, "number")
    return value


def at_most(word, most, least=0):
    value = number(word)
    need(least <= value <= most, "range")
    return value


def known(word, count):
    value = number(word)
    need(value < count, "unknown")
    return value


def keyword(word, *words):
    need(word in words, "word")
    return word


REGS = (b"a6", b"a7", b"sepc", b"spp", b"spie", b"sie")


class Script:
    def __init__(self):
        self.version = None
        self.events, self.banks, self.records, self.ops = {}, [], {}, []
        self.addresses, self.starts, self.reporters = set(), [], []
        self.schedule, self.next = None, 0x1000

    def statement(self, words):
        if self.version is None:
            need(words[0] == b"board", "head")
            need(len(words) < 2 or words[1] in (b"1", b"2"), "head")
            need(len(words) == 3, "count")
            self.harts = at_most(words[2], 32 if words[1] == b"2" else 8, 1)
            self.version = int(words[1])
            return
        name, rest = words[0].decode("latin1"), words[1:]
        need(name != "board", "twice")
        forms = "event bank plat record at op start reporter act schedule".split() + ["gather"] * (self.version == 2)
        need(name in forms, "word")
        getattr(self, "on_" + name)(rest)

    def on_event(self, words):
        need(len(words) == 2, "count")
        ident = at_most(words[0], 0xFFFFFFFF)
        need(not is_reserved(ident) and ident != 1, "range")
        keyword(words[1], b"inject", b"noinject")
        need(ident not in self.events, "twice")
        need(len(self.events) < 8, "full")
        self.events[ident] = words[1] == b"inject"

    def on_bank(self, words):
        need(len(words) == 3, "count")
        home = at_most(words[0], self.harts - 1)
        keyword(words[1], b"local", b"global")
        recs = at_most(words[2], 63 if self.version == 2 else 16, 1)
        need(len(self.banks) < 4, "full")
        gather = 4 if self.version == 2 else 1
        self.banks.append(dict(home=home, wide=words[1] == b"global", recs=recs, plat=None, gather=gather, gathered=False))

    def on_plat(self, words):
        need(len(words) == 2, "count")
        bank = known(words[0], len(self.banks))
        ident = at_most(words[1], 0xFFFFFFFF)
        need(ident >> 14 & 1, "range")
        need(ident in self.events, "unknown")
        need(self.banks[bank]["plat"] is None, "twice")
        self.banks[bank]["plat"] = ident

    def on_gather(self, words):
        need(len(words) == 2, "count")
        bank = known(words[0], len(self.banks))
        count = at_most(words[1], 4, 1)
        need(not self.banks[bank]["gathered"], "twice")
        self.banks[bank].update(gather=count, gathered=True)

    def on_record(self, words):
        need(len(words) == 4, "count")
        bank = known(words[0], len(self.banks))
        rec = known(words[1], self.banks[bank]["recs"])
        control, count = at_most(words[2], 0xFF), at_most(words[3], 0xFFFF)
        need((bank, rec) not in self.records, "twice")
        self.records[bank, rec] = (control, count)

    def on_at(self, words):
        need(len(words) == 1, "count")
        addr = at_most(words[0], 0xFFFF0000)
        need(addr % 2 == 0, "range")
        self.next = addr

    def on_op(self, words):
        need(words, "count")
        name = words[0].decode("latin1")
        counts = dict(nop=0, set=2, load=2, save=2, store=2, inc=1, jump=1, jlt=3, sret=0, ack=1, unplug=1)
        need(name in counts or name == "sbi", "word")
        rest = words[1:]
        need(2 <= len(rest) <= 7 if name == "sbi" else len(rest) == counts[name], "count")
        if name == "sbi":
            values = [number(word) for word in rest]
            op = ("sbi", values[0], values[1], (values[2:] + [0] * 5)[:5])
        elif name in ("set", "load", "save"):
            reg = keyword(rest[0], *REGS).decode()
            one_bit = name == "set" and reg in ("spp", "spie", "sie")
            op = (name, reg, at_most(rest[1], 1) if one_bit else number(rest[1]))
        elif name in ("ack", "unplug"):
            op = (name, at_most(rest[0], 255))
        else:
            op = (name, *[number(word) for word in rest])
        need(self.next not in self.addresses, "twice")
        need(len(self.ops) < 4096, "full")
        self.addresses.add(self.next)
        self.ops.append((self.next, op))
        self.next += 4

    def on_start(self, words):
        need(len(words) == 3, "count")
        hart = at_most(words[0], self.harts - 1)
        pc, budget = number(words[1]), at_most(words[2], 10000)
        need(hart not in [s[0] for s in self.starts], "twice")
        need(sum(s[2] for s in self.starts) + budget <= 80000, "full")
        self.starts.append((hart, pc, budget))

    def on_reporter(self, words):
        need(words, "count")
        keyword(words[0], b"list", b"device")
        if words[0] == b"list":
            need(len(words) == 1, "count")
            need(len(self.reporters) < 8, "full")
            self.reporters.append(dict(device=None, limit=0, acts=[]))
            return
        need(len(words) == 3, "count")
        device, limit = at_most(words[1], 7), at_most(words[2], 10000)
        need(device not in [r["device"] for r in self.reporters], "twice")
        need(len(self.reporters) < 8, "full")
        self.reporters.append(dict(device=device, limit=limit, acts=[]))

    def on_act(self, words):
        need(len(words) >= 2, "count")
        keyword(words[1], b"error", b"raise")
        need(len(words) == (11 if words[1] == b"error" else 4), "count")
        reporter = known(words[0], len(self.reporters))
        need(self.reporters[reporter]["device"] is None, "unknown")
        if words[1] == b"raise":
            act = ("raise", at_most(words[2], 0xFFFFFFFF), at_most(words[3], 255))
        else:
            bank, rec = at_most(words[2], 255), at_most(words[3], 255)
            severity = SEVERITIES.index(keyword(words[4], b"ce", b"ued", b"uec").decode())
            priority, code = at_most(words[5], 3), at_most(words[6], 255)
            act = ("error", bank, rec, severity, priority, code, *[number(word) for word in words[7:]])
        acts = self.reporters[reporter]["acts"]
        need(len(acts) < 10000, "full")
        acts.append(act)
        self.reporters[reporter]["limit"] = len(acts)

    def on_schedule(self, words):
        entries = []
        for word in words:
            need(re.fullmatch(rb"[hr][0-9]+", word), "word")
            need(int(word[1:]) <= 255, "range")
            count = self.harts if word[:1] == b"h" else len(self.reporters)
            need(int(word[1:]) < count, "unknown")
            entries.append((chr(word[0]), int(word[1:])))
        need(len(self.schedule or []) + len(entries) <= 200000, "full")
        self.schedule = (self.schedule or []) + entries


def read_script(text):
    """The script, or (line, kind) where it is refused."""
    lines = text.split(b"\n")
    if lines[-1] == b"":
        lines.pop()
    script = Script()
    for at, line in enumerate(lines, 1):
        words = [word for word in re.split(rb"[ \t]+", line[:-1] if line.endswith(b"\r") else line) if word]
        if not words or words[0].startswith(b"#"):
            continue
        try:
            script.statement(words)
        except Refused as refused:
            return at, refused.kind
    return script if script.version else (len(lines) + 1, "head")


def canonical(script):
    out = ["board %d %d" % (script.version, script.harts)]
    out += ["event %d %s" % (ident, "inject" if inject else "noinject") for ident, inject in script.events.items()]
    for at, bank in enumerate(script.banks):
        out.append("bank %d %s %d" % (bank["home"], "global" if bank["wide"] else "local", bank["recs"]))
        if bank["plat"] is not None:
            out.append("plat %d %d" % (at, bank["plat"]))
        if script.version == 2 and bank["gather"] != 4:
            out.append("gather %d %d" % (at, bank["gather"]))
    out += ["record %d %d %d %d" % (key + value) for key, value in script.records.items()]
    following = 0x1000
    for addr, op in script.ops:
        if addr != following:
            out.append("at %d" % addr)
        flat = [op[0], op[1], op[2], *op[3]] if op[0] == "sbi" else op
        out.append("op " + " ".join(str(word) for word in flat))
        following = addr + 4
    out += ["start %d %d %d" % start for start in script.starts]
    for at, reporter in enumerate(script.reporters):
        if reporter["device"] is not None:
            out.append("reporter device %d %d" % (reporter["device"], reporter["limit"]))
            continue
        out.append("reporter list")
        for act in reporter["acts"]:
            words = list(act)
            if act[0] == "error":
                words[3] = SEVERITIES[act[3]]
            out.append("act %d %s" % (at, " ".join(str(word) for word in words)))
    if script.schedule is not None:
        out += schedule_lines(script.schedule)
    return "".join(line + "\n" for line in out)


def schedule_lines(entries):
    pieces = [entries[at : at + 16] for at in range(0, len(entries), 16)] or [[]]
    return ["schedule" + "".join(" %s%d" % entry for entry in piece) for piece in pieces]


# ---- the board ----


class Record:
    def __init__(self, control, count):
        self.control, self.first = control, count
        self.errors = []  # since the last invalidation that took effect: (step, act)
        self.counted, self.claimed, self.shown = count, False, None

    def level(self, severity):
        return self.control >> 2 + 2 * severity & 3

    def log(self, step, act):
        severity = act[3]
        if not self.control & 1:
            return ("disabled",)
        if severity == 0 and self.control >> 1 & 1:
            self.counted += 1
            if self.counted % 65536:
                return ("counted",)
        self.errors.append((step, act))
        best = max(error[1][3:5] for error in self.errors)
        shown = next(error for error in self.errors if error[1][3:5] == best)
        if shown[0] != step:
            return ("kept",)
        self.shown, self.claimed = shown, False
        return ("wrote", self.level(severity))

    def signalled(self):
        return bool(self.errors) and self.level(max(error[1][3] for error in self.errors)) > 0

    def invalidate(self):
        if not self.claimed:
            return False
        self.errors, self.claimed, self.shown = [], False, None
        return True

    def registers(self):
        status = self.counted % 65536 << 32 | (self.counted >= 65536) << 8
        if not self.errors:
            return (self.control, status, 0, 0, 0, 0)
        act = self.shown[1]
        worst = max(error[1][3] for error in self.errors)
        status |= 1 | act[4] << 4 | act[5] << 16 | self.claimed << 7
        for error in self.errors:
            status |= 2 << error[1][3]
        status |= (sum(error[1][3] == worst for error in self.errors) > 1) << 6
        return (self.control, status, *act[6:10])


def worst_of(copy):
    return next(severity for severity in (2, 1, 0) if copy[1] >> 1 + severity & 1)


def block_bytes(copies):
    kinds = [[c for c in copies if (worst_of(c) == 0) == corrected] for corrected in (False, True)]
    several = [len(kind) > 1 or any(c[1] >> 6 & 1 for c in kind) for kind in kinds]
    status = bool(kinds[0]) | bool(kinds[1]) << 1 | several[0] << 2 | several[1] << 3 | len(copies) << 4
    number_of = {0: 2, 1: 0, 2: 1}
    worst = max(worst_of(c) for c in copies)
    out = struct.pack("<5I", status, 0, 0, 120 * len(copies), number_of[worst])
    for copy in copies:
        out += b"RERI-RECORD-0001" + struct.pack("<IHBBI", number_of[worst_of(copy)], 0x300, 0, 0, 48)
        out += bytes(44) + struct.pack("<6Q", *copy)
    return out


class Bank:
    def __init__(self, decl, records):
        self.decl, self.records = decl, records
        self.asks, self.slot, self.drain = False, [], None  # drain: phase, record, published, level


class Event:
    def __init__(self, ident, hart, inject):
        self.ident, self.hart, self.inject = ident, hart, inject
        self.state, self.pending, self.priority, self.oneshot = UNUSED, False, 0, False
        self.preferred, self.entry, self.arg = hart or 0, 0, 0
        self.kept, self.on = [0] * 4, None


class Hart:
    def __init__(self, pc, budget):
        self.pc, self.budget = pc, budget
        self.privilege, self.sie, self.sepc, self.spp, self.spie, self.a6, self.a7 = 1, 0, 0, 0, 0, 0, 0
        self.masked, self.stack = True, []
        self.steps = self.calls = self.failed = self.last = 0


def shelf():
    def scrubber():
        for i in range(100):
            yield ("error", 0, 0, 0, 0, 1, 4096 * i, i, 0, i)

    def storm():
        for i in range(100):
            yield ("error", 0, i % 4, i % 3, i // 3 % 4, 2, 0x100000 + 64 * i, i, 0, i)

    def pulses(hart, period, count):
        for _ in range(count):
            yield from [("error", 255, 255, 0, 0, 0, 0, 0, 0, 0)] * period
            yield ("raise", 0x10000, hart)

    def countdown(ident, hart, count):
        yield from [("raise", ident, hart)] * count
        yield ("error", 0, 0, 0, 0, 3, 0, count, 0, count)

    chain = itertools.chain(countdown(0xFFFF0000, 1, 5), pulses(1, 1, 5))
    return [scrubber(), storm(), iter(()), pulses(0, 3, 10), countdown(0xFFFF0000, 0, 10), chain]


class Board:
    def __init__(self, script, devices):
        self.script = script
        starts = {hart: (pc, budget) for hart, pc, budget in script.starts}
        self.harts = [Hart(*starts.get(hart, (0, 0))) for hart in range(script.harts)]
        self.events = []
        for ident in sorted(script.events):
            for hart in [None] if is_global(ident) else range(script.harts):
                self.events.append(Event(ident, hart, script.events[ident]))
        self.place = {(event.ident, event.hart): event for event in self.events}
        self.banks = []
        for at, decl in enumerate(script.banks):
            records = [Record(*script.records.get((at, rec), (0, 0))) for rec in range(decl["recs"])]
            self.banks.append(Bank(decl, records))
        self.ops = dict(script.ops)
        self.memory = [0] * WORDS
        self.plugged = [True] * len(script.reporters)
        self.made = [0] * len(script.reporters)
        self.sources = []
        for reporter in script.reporters:
            device = reporter["device"]
            if device is None:
                self.sources.append(iter(reporter["acts"]))
            else:
                self.sources.append(devices[device] if device < len(devices) else iter(()))
        self.steps, self.notes, self.published = [], [], []
        self.errors, self.fate, self.done = 0, {}, {}

    # -- events

    def instance(self, ident, hart):
        return self.place.get((ident, None if is_global(ident) else hart))

    def target(self, event):
        if event.hart is not None:
            return event.hart
        if not self.harts[event.preferred].masked:
            return event.preferred
        return next((at for at, hart in enumerate(self.harts) if not hart.masked), None)

    def chosen(self, at):
        hart = self.harts[at]
        if hart.masked:
            return None
        waiting = [e for e in self.events if e.pending and e.state == ENABLED and self.target(e) == at]
        if not waiting:
            return None
        best = min(waiting, key=lambda e: (e.priority, e.ident))
        if hart.stack:
            top = hart.stack[-1]
            if (best.priority, best.ident) >= (top.priority, top.ident):
                return None
        return best

    def deliver(self, at, event):
        hart = self.harts[at]
        event.kept = [hart.sepc, hart.spp | hart.spie << 1, hart.a6, hart.a7]
        hart.a6, hart.a7, hart.sepc, hart.spp, hart.spie = at, event.arg, hart.pc, hart.privilege, hart.sie
        hart.sie, hart.privilege, hart.pc = 0, 1, event.entry
        event.state, event.pending, event.on = RUNNING, False, at
        hart.stack.append(event)

    def complete(self, hart):
        if hart.stack:
            event = hart.stack.pop()
            hart.pc, hart.privilege, hart.sie = hart.sepc, hart.spp, hart.spie
            hart.sepc, flags, hart.a6, hart.a7 = event.kept
            hart.spp, hart.spie = flags & 1, flags >> 1 & 1
            event.state, event.on = REGISTERED if event.oneshot else ENABLED, None

    def word(self, addr):
        return (addr - MEMORY) // 8 if MEMORY <= addr < MEMORY + 8 * WORDS and addr % 8 == 0 else None

    def call(self, at, eid, fid, args):
        hart = self.harts[at]
        if eid != SSE or fid > 9:
            return NOT_SUPPORTED, ()
        if fid == 6:
            self.complete(hart)
            return SUCCESS, ()
        if fid in (8, 9):
            if hart.masked == (fid == 9):
                return (ALREADY_STOPPED if fid == 9 else ALREADY_STARTED), ()
            hart.masked = fid == 9
            return SUCCESS, ()
        ident = args[0]
        if ident > 0xFFFFFFFF or is_reserved(ident):
            return INVALID_PARAM, ()
        event = self.instance(ident, at)
        if event is None:
            return NOT_SUPPORTED, ()
        if fid < 2:
            return self.attributes(at, event, fid == 1, *args[1:])
        return self.on_event(at, event, fid, args), ()

    def attributes(self, at, event, writes, base, count, low, high):
        if count == 0:
            return INVALID_PARAM, ()
        if base + count > 10:
            return BAD_RANGE, ()
        places = [self.word(low + 8 * k) for k in range(count)]
        if high or None in places:
            return INVALID_ADDRESS, ()
        numbers = range(base, base + count)
        if not writes:
            status = event.state | event.pending << 2 | event.inject << 3
            kept = event.kept if event.state == RUNNING else [0] * 4
            all_ten = [status, event.priority, int(event.oneshot), event.preferred, event.entry, event.arg, *kept]
            for place, attr in zip(places, numbers):
                self.memory[place] = all_ten[attr]
            return SUCCESS, ()
        values = [self.memory[place] for place in places]
        if any(attr in (0, 4, 5) or (attr == 3 and event.hart is not None) for attr in numbers):
            return DENIED, ()
        running_here = event.state == RUNNING and event.on == at
        if any((event.state > REGISTERED) if attr <= 3 else not running_here for attr in numbers):
            return INVALID_STATE, ()
        most = {1: 0xFFFFFFFF, 2: 1, 3: len(self.harts) - 1, 7: 3}
        if any(value > most.get(attr, M64) for attr, value in zip(numbers, values)):
            return INVALID_PARAM, ()
        for attr, value in zip(numbers, values):
            if attr == 1:
                event.priority = value
            elif attr == 2:
                event.oneshot = bool(value)
            elif attr == 3:
                event.preferred = value
            else:
                event.kept[attr - 6] = value
        return SUCCESS, values

    def on_event(self, at, event, fid, args):
        if fid == 7:
            if not event.inject or (event.hart is not None and args[1] >= len(self.harts)):
                return INVALID_PARAM
            self.instance(event.ident, args[1]).pending = True
            return SUCCESS
        if fid == 2 and args[1] % 2:
            return INVALID_PARAM
        before, after = {2: (0, 1), 3: (1, 0), 4: (1, 2), 5: (2, 1)}[fid]
        if event.state != before:
            return INVALID_STATE
        event.state = after
        if fid == 2:
            event.entry, event.arg = args[1], args[2]
        elif fid == 3:
            event.entry = event.arg = 0
        return SUCCESS

    # -- steps

    def hart_step(self, at):
        hart = self.harts[at]
        if hart.steps >= hart.budget:
            return None
        own = [(b, bank) for b, bank in enumerate(self.banks) if bank.decl["home"] == at]
        going = next((pair for pair in own if pair[1].drain), None)
        if going is None:
            going = next((pair for pair in own if pair[1].asks and not pair[1].slot), None)
            if going is not None:
                going[1].drain = ["scan", 0, 0, 0]
        if going is not None:
            note = self.drain_step(*going)
        else:
            event = self.chosen(at)
            if event is not None:
                self.deliver(at, event)
                note = "deliver 0x%x" % event.ident
            elif hart.pc in self.ops:
                note = self.op(at, self.ops[hart.pc])
            else:
                return None
        hart.steps += 1
        return note

    def drain_step(self, b, bank):
        phase, rec, count, level = bank.drain
        record = bank.records[rec]
        if phase == "scan":
            found = next((at for at, one in enumerate(bank.records) if one.signalled()), None)
            if found is None:
                bank.asks = False
                bank.drain = ["signal", 0, count, level] if count else None
                return "scan %d over" % b
            bank.drain = ["claim", found, count, level]
            return "scan %d %d" % (b, found)
        if phase == "claim":
            record.claimed = bool(record.errors)
            bank.drain[0] = "address"
            return "claim %d %d" % (b, rec)
        if phase in ("address", "info", "supplement", "time"):
            bank.drain[0] = PHASES[PHASES.index(phase) + 1]
            return "read %d %d %s" % (b, rec, phase)
        if phase == "check":
            if not record.claimed:
                bank.drain[0] = "claim"
                return "check %d %d torn" % (b, rec)
            copy = record.registers()
            self.published.append((b, copy))
            bank.slot.append(copy)
            self.done[record.shown[0]] = True
            level = max(level, record.level(worst_of(copy)))
            bank.drain = ["invalidate", rec, count + 1, level]
            return "check %d %d published" % (b, rec)
        if phase == "invalidate":
            cleared = record.invalidate()
            more = count < bank.decl["gather"]
            bank.drain = ["scan", 0, count, level] if more else ["signal", rec, count, level]
            return "invalidate %d %d %s" % (b, rec, "cleared" if cleared else "stood")
        bank.drain = None
        return "signal %d %d %s" % (b, level, self.signal(bank.decl, level))

    def signal(self, decl, level):
        ident = None
        if level == 3:
            ident = decl["plat"]
        elif level:
            ident = {1: 0x100000, 2: 0x0}[level] | 0x8000 * decl["wide"]
        event = None if ident is None else self.instance(ident, decl["home"])
        if event is None:
            return "none"
        event.pending = True
        return "0x%x" % ident

    def op(self, at, op):
        hart = self.harts[at]
        hart.pc = hart.pc + 4 & M64
        name = op[0]
        guarded = name in ("sbi", "sret", "ack", "unplug")
        if name in ("set", "load", "save"):
            guarded = op[1] not in ("a6", "a7")
        if guarded and not hart.privilege:
            return "illegal"
        return getattr(self, "op_" + name)(at, hart, *op[1:])

    def op_nop(self, at, hart):
        return "nop"

    def op_sbi(self, at, hart, eid, fid, args):
        code, words = self.call(at, eid, fid, args)
        hart.calls += 1
        hart.failed += code != SUCCESS
        hart.last = code
        taken = " :" + "".join(" 0x%x" % word for word in words) if words else ""
        return "call 0x%x 0x%x %s = %d%s" % (eid, fid, " ".join("0x%x" % arg for arg in args), code, taken)

    def put(self, hart, reg, value):
        setattr(hart, reg, value & 1 if reg in ("spp", "spie", "sie") else value)

    def op_set(self, at, hart, reg, value):
        self.put(hart, reg, value)
        return "set %s 0x%x" % (reg, value)

    def op_load(self, at, hart, reg, addr):
        place = self.word(addr)
        if place is None:
            return "fault"
        self.put(hart, reg, self.memory[place])
        return "load %s 0x%x" % (reg, getattr(hart, reg))

    def op_save(self, at, hart, reg, addr):
        place = self.word(addr)
        if place is None:
            return "fault"
        self.memory[place] = getattr(hart, reg)
        return "save 0x%x 0x%x" % (addr, getattr(hart, reg))

    def op_store(self, at, hart, addr, value):
        place = self.word(addr)
        if place is None:
            return "fault"
        self.memory[place] = value
        return "store 0x%x 0x%x" % (addr, value)

    def op_inc(self, at, hart, addr):
        place = self.word(addr)
        if place is None:
            return "fault"
        self.memory[place] = self.memory[place] + 1 & M64
        return "inc 0x%x 0x%x" % (addr, self.memory[place])

    def op_jump(self, at, hart, pc):
        hart.pc = pc
        return "jump 0x%x" % pc

    def op_jlt(self, at, hart, addr, value, pc):
        place = self.word(addr)
        if place is None:
            return "fault"
        if self.memory[place] >= value:
            return "jlt no"
        hart.pc = pc
        return "jlt yes"

    def op_sret(self, at, hart):
        hart.pc, hart.privilege, hart.sie = hart.sepc, hart.spp, hart.spie
        hart.spie, hart.spp = 1, 0
        return "sret"

    def op_ack(self, at, hart, bank):
        if bank >= len(self.banks):
            return "ack %d none" % bank
        was = bool(self.banks[bank].slot)
        self.banks[bank].slot = []
        return "ack %d %s" % (bank, "yes" if was else "no")

    def op_unplug(self, at, hart, reporter):
        was = reporter < len(self.plugged) and self.plugged[reporter]
        if was:
            self.plugged[reporter] = False
        return "unplug %d %s" % (reporter, "yes" if was else "no")

    def reporter_step(self, at):
        if not self.plugged[at] or self.made[at] >= self.script.reporters[at]["limit"]:
            return None
        act = next(self.sources[at], None)
        if act is None:
            return None
        self.made[at] += 1
        if act[0] == "raise":
            event = self.instance(act[1], act[2])
            if event is not None:
                event.pending = True
            return "raise 0x%x %d %s" % (act[1], act[2], "stray" if event is None else "signalled")
        answer = self.report(len(self.steps) + 1, act)
        values = " ".join("0x%x" % value for value in act[6:])
        error = "error %d %d %s %d %d %s" % (act[1], act[2], SEVERITIES[act[3]], act[4], act[5], values)
        return error + " = " + " ".join(str(word) for word in answer)

    def report(self, step, act):
        self.errors += 1
        if act[1] >= len(self.banks) or act[2] >= len(self.banks[act[1]].records):
            self.fate[step] = "stray"
            return ("stray",)
        bank = self.banks[act[1]]
        record = bank.records[act[2]]
        before = record.shown
        answer = record.log(step, act)
        if answer[0] == "wrote":
            if before is not None and not self.done.get(before[0]):
                self.fate[before[0]] = "overwritten"
            bank.asks = bank.asks or answer[1] > 0
        else:
            self.fate[step] = answer[0]
        return answer

    def try_step(self, kind, at):
        note = self.hart_step(at) if kind == "h" else self.reporter_step(at)
        if note is not None:
            self.steps.append((kind, at))
            self.notes.append(note)
        return note is not None

    def play(self):
        if self.script.schedule is not None:
            for entry in self.script.schedule:
                self.try_step(*entry)
            return
        everybody = [("h", at) for at in range(len(self.harts))] + [("r", at) for at in range(len(self.plugged))]
        while any([self.try_step(*entry) for entry in everybody]):
            pass

    # -- reports

    def fates_line(self):
        counts = dict.fromkeys("stray disabled counted drained overwritten kept".split(), 0)
        for fate in self.fate.values():
            counts[fate] += 1
        counts["drained"] = len(self.done)
        stands = self.errors - sum(counts.values())
        pairs = [("made", self.errors), *counts.items(), ("stands", stands)]
        return "fates " + " ".join("%s %d" % pair for pair in pairs)

    def head_line(self):
        sizes = (self.script.version, len(self.harts), len(self.banks), len(self.plugged), len(self.steps))
        return "board %d harts %d banks %d reporters %d steps %d" % sizes

    def short(self):
        return "\n".join([self.head_line(), self.fates_line(), "end", ""])

    def trace(self):
        lines = zip(self.steps, self.notes)
        return "".join("%d %s%d %s\n" % (at, *step, note) for at, (step, note) in enumerate(lines, 1))

    def hart_lines(self, at, hart):
        values = (at, hart.steps, hart.masked, hart.pc, "US"[hart.privilege], hart.sie, hart.sepc, hart.spp, hart.spie)
        rest = (hart.a6, hart.a7, len(hart.stack), hart.calls, hart.failed, hart.last)
        form = "hart %d steps %d masked %d pc 0x%x priv %s sie %d sepc 0x%x spp %d spie %d"
        yield form % values + " a6 0x%x a7 0x%x depth %d calls %d failed %d last %d" % rest
        for depth, event in enumerate(hart.stack, 1):
            form = "frame %d %d event 0x%x sepc 0x%x flags %d a6 0x%x a7 0x%x"
            yield form % (at, depth, event.ident, *event.kept)

    def bank_lines(self, at, bank):
        scope, block = "global" if bank.decl["wide"] else "local", "full" if bank.slot else "free"
        drain = "%s %d" % tuple(bank.drain[:2]) if bank.drain else "none"
        yield "bank %d home %d scope %s asks %d block %s drain %s" % (at, bank.decl["home"], scope, bank.asks, block, drain)
        for rec, record in enumerate(bank.records):
            form = "record %d %d control 0x%x status 0x%x address 0x%x info 0x%x supplement 0x%x time 0x%x"
            yield form % (at, rec, *record.registers())
        if bank.slot:
            block = block_bytes(bank.slot)
            ends = [0] + [140 + 120 * k for k in range(len(bank.slot))]
            for start, end in zip(ends, ends[1:]):
                yield "block %d %s" % (at, block[start:end].hex())

    def full(self):
        out = [self.head_line()]
        for at, hart in enumerate(self.harts):
            out += self.hart_lines(at, hart)
        for event in self.events:
            owner = "-" if event.hart is None else str(event.hart)
            form = "event 0x%x hart %s state %d pending %d priority %d config %d preferred %d entry 0x%x arg 0x%x"
            values = (event.state, event.pending, event.priority, event.oneshot, event.preferred, event.entry, event.arg)
            out.append(form % (event.ident, owner, *values))
        for at, bank in enumerate(self.banks):
            out += self.bank_lines(at, bank)
        out.append(self.fates_line())
        out += ["word 0x%x 0x%x" % (MEMORY + 8 * at, word) for at, word in enumerate(self.memory) if word]
        out += schedule_lines(self.steps)
        return "\n".join(out + ["end", ""])

    def pages(self, threshold):
        pages = {}
        for _, copy in self.published:
            numbers = pages.setdefault(copy[2] // 4096, [0, 0])
            numbers[worst_of(copy) > 0] += 1
        form = "page 0x%x corrected %d uncorrected %d\n"
        kept = ((page, *n) for page, n in sorted(pages.items()) if n[0] >= threshold or n[1])
        return "".join(form % line for line in kept)


def generated(n):
    """The script that `load N` plays."""
    out = ["board 1 4"]
    out += ["event 0x%x noinject" % ident for ident in (0, 0x8000, 0x100000, 0x108000)]
    out += ["event 0xffff0000 inject", "bank 0 local 4", "bank 1 local 4", "bank 2 global 4"]
    for b in range(3):
        out += ["record %d %d %s 0" % (b, j, "0x97" if (b + j + n) % 2 else "0x95") for j in range(4)]
    for h in range(4):
        a, w = 4096 * (h + 1), MEMORY + 8 * h
        handler, inner = a + 1024, a + 2048
        out.append("at %d" % a)
        pairs = [("0x0", handler), ("0x100000", handler), ("0xffff0000", inner)]
        if h == 0:
            pairs += [("0x8000", handler), ("0x108000", handler)]
        for ident, entry in pairs:
            out += ["op sbi 0x535345 2 %s %d 0" % (ident, entry), "op sbi 0x535345 4 %s" % ident]
        loop = a + (44 if h == 0 else 28)
        out += ["op sbi 0x535345 8", "op inc %d" % w, "op sbi 0x535345 7 0xffff0000 %d" % ((h + 1) % 4)]
        out += ["op jlt %d 200 %d" % (w, loop), "at %d" % handler, "op inc %d" % (w + 128)]
        out += ["op ack 0", "op ack 1", "op ack 2", "op sbi 0x535345 6"]
        out += ["at %d" % inner, "op inc %d" % (w + 256), "op sbi 0x535345 6", "start %d %d 10000" % (h, a)]
    out += ["reporter list"] * 4
    x = n + 1
    for k in range(4):
        for i in range(500):
            x = (x * 6364136223846793005 + 1442695040888963407) & M64
            r = x >> 32
            severity = ("ce",) * 6 + ("ued", "uec")
            words = (k, r % 3, r // 3 % 4, severity[r // 12 % 8], r // 96 % 4, r // 384 % 256, 4096 * (r // 98304 % 64), i, i)
            out.append("act %d error %d %d %s %d %d %d %d 0 %d" % words)
    return "".join(line + "\n" for line in out).encode()


def command(words, text):
    """The output, the exit status and the line on standard error."""
    count = int(words[1]) if len(words) == 2 and re.fullmatch(r"[0-9]{1,4}", words[1]) else None
    if words in (["play"], ["play", "--trace"], ["play", "--short"], ["move"]):
        pass
    elif words[:1] == ["load"] and count is not None and count <= 1000:
        text = generated(count)
    elif words[:1] == ["pages"] and count is not None and 1 <= count <= 1000:
        pass
    else:
        return "", 2, "usage: rasboard COMMAND\n"
    if len(text) > 1 << 20:
        return "", 8, "input too long\n"
    script = read_script(text)
    if isinstance(script, tuple):
        return "", 3, "line %d: %s\n" % script
    if words == ["move"]:
        if script.version == 1:
            script.version = 2
        return canonical(script), 0, ""
    board = Board(script, shelf())
    board.play()
    if words[0] == "pages":
        return board.pages(count), 0, ""
    if words[0] == "load" or words[1:] == ["--short"]:
        return board.short(), 0, ""
    return (board.trace() if words[1:] else "") + board.full(), 0, ""


if __name__ == "__main__":
    output, status, line = command(sys.argv[1:], b"" if sys.argv[1:2] == ["load"] else sys.stdin.buffer.read())
    sys.stdout.write(output)
    sys.stderr.write(line)
    sys.exit(status)
