"""Reads what the program `frames` prints, and codes of stabilising that go with it. Used by to-wav and to-picture."""

import re
import struct

FRAME = 240
RATE = 8000

SAMPLES = re.compile(rb"[0-9A-F]{960}")
REFUSAL = re.compile(rb"R[0-9]{2}")
COUNT = re.compile(rb"N[0-9]{2} [0-9]+")
CODE = re.compile(rb"[0-3]")


class Unreadable(Exception):
    """The text is not what `frames` prints, or the records or the codes do not belong to it."""


def lines_of(data):
    """The lines as `frames` counts them: a newline ends one, and bytes after the last newline are one too."""
    lines = data.split(b"\n")
    if not lines[-1]:
        lines.pop()
    return lines


def answers_of(data):
    """For each line that was decoded a tuple of 240 samples, or the number it was refused with."""
    answers = []
    for place, line in enumerate(lines_of(data), 1):
        if SAMPLES.fullmatch(line):
            answers.append(struct.unpack(">240h", bytes.fromhex(line.decode())))
        elif REFUSAL.fullmatch(line):
            answers.append(int(line[1:]))
        elif not COUNT.fullmatch(line):
            raise Unreadable(f"line {place} of the input is not 960 uppercase hexadecimal digits, R or N with a number")
    return answers


def refused(answer):
    return isinstance(answer, int)


def codes_of(lines, answers):
    """For each accepted frame what stabilising did with the candidate LSPs: 0 nothing, 1 moved them, 2 used the previous."""
    codes = []
    for place, (line, answer) in enumerate(zip(lines, answers), 1):
        if not CODE.fullmatch(line):
            raise Unreadable(f"line {place} of the codes is not 0, 1, 2 or 3")
        code = int(line)
        # 3 stands for a refused line, which has no LSPs.
        if (code == 3) != refused(answer):
            outcome = "refused" if refused(answer) else "accepted"
            raise Unreadable(f"line {place} of the codes is {code}, but that line was {outcome}")
        if code != 3:
            codes.append(code)
    return codes
