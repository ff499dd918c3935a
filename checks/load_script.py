#!/usr/bin/env python3
"""Writes the script of the load of a number, from the rules of its text and apart from definitions and code.

`load_script.py 7 | board_model.py play --short` gives the report of load 7.
"""
import sys

M64 = (1 << 64) - 1
CALL = "op sbi 0x535345"


def board(n):
    yield "board 1 4"
    for ident in ("0x0", "0x8000", "0x100000", "0x108000"):
        yield f"event {ident} noinject"
    yield "event 0xffff0000 inject"
    for home, scope in enumerate(("local", "local", "global")):
        yield f"bank {home} {scope} 4"
    for bank in range(3):
        for rec in range(4):
            control = "0x97" if (bank + rec + n) % 2 else "0x95"
            yield f"record {bank} {rec} {control} 0"


def registered(ident, entry):
    yield f"{CALL} 2 {ident} {entry} 0"
    yield f"{CALL} 4 {ident}"


def hart(h):
    start, turns = 4096 * (h + 1), 2147483648 + 8 * h
    ops = [
        *registered("0x0", start + 1024),
        *registered("0x100000", start + 1024),
        *registered("0xffff0000", start + 2048),
    ]
    if h == 0:
        ops += [*registered("0x8000", start + 1024), *registered("0x108000", start + 1024)]
    ops.append(f"{CALL} 8")
    loop = start + 4 * len(ops)
    ops += [f"op inc {turns}", f"{CALL} 7 0xffff0000 {(h + 1) % 4}", f"op jlt {turns} 200 {loop}"]
    yield f"at {start}"
    yield from ops
    yield from (f"at {start + 1024}", f"op inc {turns + 128}", "op ack 0", "op ack 1", "op ack 2", f"{CALL} 6")
    yield from (f"at {start + 2048}", f"op inc {turns + 256}", f"{CALL} 6")
    yield f"start {h} {start} 10000"


def acts(n):
    x = n + 1
    for reporter in range(4):
        for i in range(500):
            x = (x * 6364136223846793005 + 1442695040888963407) & M64
            r = x >> 32
            bank, rec = r % 3, r // 3 % 4
            severity = ("ce", "ce", "ce", "ce", "ce", "ce", "ued", "uec")[r // 12 % 8]
            priority, code, address = r // 96 % 4, r // 384 % 256, 4096 * (r // 98304 % 64)
            yield f"act {reporter} error {bank} {rec} {severity} {priority} {code} {address} {i} 0 {i}"


def script(n):
    yield from board(n)
    for h in range(4):
        yield from hart(h)
    yield from ["reporter list"] * 4
    yield from acts(n)


def main():
    if len(sys.argv) != 2 or not sys.argv[1].isdecimal() or int(sys.argv[1]) > 1000:
        print("usage: load_script.py N, 0 to 1000", file=sys.stderr)
        return 2
    sys.stdout.write("".join(line + "\n" for line in script(int(sys.argv[1]))))
    return 0


if __name__ == "__main__":
    sys.exit(main())
