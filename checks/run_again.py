#!/usr/bin/env python3
"""Runs random scripts with `run`, and plays each with the schedule that it printed: the reports must be the same bytes. Not part of
the gate. usage: checks/run_again.py [--program P] [COUNT [FIRST]]   (200 scripts from number 0 by default; a number always gives
the same script; scripts that are refused are passed over)
"""
import pathlib
import subprocess
import sys

from random_boards import TOP, Writer


def schedule_of(report):
    """The schedule lines of a report."""
    return [line for line in report.splitlines() if line.startswith(b"schedule ")]


def without_schedule(text):
    """A script without its schedule."""
    return b"".join(line + b"\n" for line in text.splitlines() if line.split()[:1] != [b"schedule"])


def main():
    args = sys.argv[1:]
    program = str(TOP / "rasboard")
    if args[:1] == ["--program"]:
        program, args = args[1], args[2:]
    count, number = int(args[0]) if args else 200, int(args[1]) if len(args) > 1 else 0
    same = differ = steps = 0
    while same + differ < count:
        text = without_schedule(Writer(number).script())
        ran = subprocess.run([program, "run"], input=text, capture_output=True)
        if ran.returncode == 0:
            schedule = schedule_of(ran.stdout)
            steps += sum(len(line.split()) - 1 for line in schedule)
            # without a step there is no schedule line, and play would make rounds: they make no step either
            again = text + b"".join(line + b"\n" for line in schedule)
            played = subprocess.run([program, "play"], input=again, capture_output=True)
            if (played.stdout, played.returncode) == (ran.stdout, 0):
                same += 1
            else:
                differ += 1
                pathlib.Path("/tmp/run-again-%d.script" % number).write_bytes(again)
                print("script %d differs: /tmp/run-again-%d.script" % (number, number))
        elif ran.returncode != 3:
            sys.exit("script %d: status %d, %s" % (number, ran.returncode, ran.stderr.decode()))
        number += 1
    print("%d of %d runs are played again as they were, %d steps" % (same, count, steps))
    sys.exit(differ != 0)


if __name__ == "__main__":
    main()
