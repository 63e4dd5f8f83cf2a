"""Texts that the proved program takes, with what it writes, and the reference for any text: the cases of tools/try-rewrite, and noise."""

import random
import subprocess

from desk import REWRITE, ROOM, program, row

# Pieces of lines, and what lines are cut by.
NOISE = [b"\t", b"\t\t", b"\n", b"\r\n", b"\r", b";", b"=", b'"', b" ", b"%", b"%4", b"%41", b">", b"#", b"##FASTA", b"\xe3\x81\x82"]
NOISE += [b"\xff", b"\x00", b"\x1b[", b"CDS", b'gene_id "', b".", b"+", row(), row()[:20], row(rest=b'a "="'), b"##gff-version", b"x" * 99]


def program_cases():
    """Texts that the program takes, each with what it writes."""
    r = random.Random(1)
    texts = [text for text, _ in REWRITE.BY_HAND if len(text) <= ROOM] + [REWRITE.made(r) for _ in range(300)]
    texts += [b"".join(r.choice(NOISE) for _ in range(r.randrange(60))) for _ in range(100)]
    return [(text, subprocess.run([program], input=text, stdout=subprocess.PIPE, timeout=60).stdout) for text in texts]


def rewritten(text, refused="mark"):
    """The reference for a text of any length: what rewriting writes, and its status."""
    out = []
    status = 0
    for line in REWRITE.lines(text):
        answer = 25 if len(line) > ROOM else line if line.startswith(b"#") else REWRITE.record(line)
        if isinstance(answer, int):
            status = 1
            answer = {"mark": b"! %d" % answer, "keep": line, "drop": None}[refused]
        if answer is not None:
            out.append(answer + b"\n")
    return b"".join(out), status
