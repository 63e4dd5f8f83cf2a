"""Holds a program that says records while they come to its word: python3 arrivals.py STORED PROGRAM [WORD...].

A GFF3 text goes into the program's standard input, piece by piece. A piece is sent only when all that the pieces before it let the program
say has come out, so that a program which waits for more than the end of a line never gets more; and only when they are read, so that it
comes by a read of its own. STORED is what comes out in all.
"""

import os
import subprocess
import sys
from array import array
from fcntl import ioctl
from pathlib import Path
from termios import FIONREAD
from threading import Timer

SECONDS = 60  # The program is ended then, where it waits for a piece that waits for it.

RECORD = b"chr1\tlab\texon\t%d\t%d\t.\t+\t.\tID=exon%d"
LONG = b"the line has more than 65,536 bytes"

# Each piece, how many lines of the stored output are out behind it, and what is said on standard error by it, without what may follow.
PIECES = [
    (b"##gff-version 3\n" + RECORD % (1, 9, 1) + b"\n", 1, []),
    (b"chr1\tlab\texon\t2", 1, []),
    (b"0\t29\t.\t+\t.\tID=ex", 1, []),
    (b"on2\n", 2, []),
    (RECORD % (30, 39, 3) + b"\r", 2, []),
    (b"\n", 3, []),
    (b"# a comment, and a blank line\n\r\n" + RECORD % (40, 49, 4) + b"\nchr1", 4, []),
    (b"\tlab\n", 4, [b"line 8: the line has fewer than eight tabs"]),
    (RECORD % (50, 59, 5) + b"\n" + RECORD % (60, 69, 6) + b"\r\nchr%201\tlab", 6, []),
    (b"\texon\t70\t79\t.\t+\t.\tNote=" + b"a" * 100_000, 6, []),
    (b"a" * 100_000 + b"\r", 6, []),
    (b"\n", 6, [b"line 11: " + LONG]),
    (b"chr%201\tlab\texon\t80\t89\t.\t-\t.\t.\n", 7, []),
    (b"chr%201\tlab\texon\t0\t89\t.\t-\t.\t.\n", 7, [b"line 13: not a position"]),
    (RECORD % (90, 99, 9), 7, []),
]


def send(program, piece):
    """Sends a piece, and waits until the program has read it: the pipe, asked how many bytes are in it, says none."""
    program.stdin.write(piece)
    program.stdin.flush()
    left = array("i", [len(piece)])
    while left[0] > 0 and program.poll() is None:
        os.sched_yield()
        ioctl(program.stdin, FIONREAD, left)


def lines(stream, count):
    """The next lines of a stream; fewer, or one without its end, where the stream ends first."""
    return b"".join(stream.readline() for _ in range(count))


def run(program, stored):
    """What the program does otherwise than it should, in words; nothing where it does as it should."""
    out = b""
    for piece, said, refused in PIECES:
        send(program, piece)
        out += lines(program.stdout, said - out.count(b"\n"))
        if out != b"".join(stored[:said]):
            return f"behind {piece[-40:]} it has said {out}"
        for words in refused:
            line = program.stderr.readline()
            if not line.startswith(words):
                return f"behind {piece[-40:]} standard error has {line}"
    rest, errors = program.communicate()
    if (out + rest, errors, program.returncode) != (b"".join(stored), b"", 0):
        return f"at the end it has said {rest}, on standard error {errors}, with status {program.returncode}"
    return None


def held(stored, words):
    """As run, for a program that is started here and ended at the latest when its time is over."""
    with subprocess.Popen(words, stdin=subprocess.PIPE, stdout=subprocess.PIPE, stderr=subprocess.PIPE) as program:
        limit = Timer(SECONDS, program.kill)
        limit.start()
        try:
            return run(program, stored)
        finally:
            limit.cancel()
            program.kill()


try:
    amiss = held(Path(sys.argv[1]).read_bytes().splitlines(keepends=True), sys.argv[2:])
except BrokenPipeError:
    amiss = "it takes no more input"
if amiss:
    print(f"arrivals.py: {sys.argv[2]}: {amiss}")
sys.exit(1 if amiss else 0)
