"""What `gff3 rewrite` writes: what the proved program writes, and refused lines as it is asked."""

import random

from cases import program_cases, rewritten
from desk import GOOD, LONG, REWRITE, ROOM, arrows, call, cut, hold_call, hold_done, in_pieces, put, row, said, shown, summed


def try_program(folder):
    """Byte by byte what the proved program writes, from a pipe and from a file."""
    for text, expected in program_cases():
        status = 1 if any(line.startswith(b"! ") for line in expected.split(b"\n")) else 0
        hold_call(["rewrite"], status, expected, None, text)
        put(folder, "case.gff3", text)
        hold_call(["rewrite", "-q", "case.gff3"], status, expected, cwd=folder, what=shown(text, 200))


def joined():
    """Texts of more than 65,536 bytes, of all kinds of lines, of which some are too long."""
    r = random.Random(2)
    short = [REWRITE.made(r) for _ in range(2000)]
    by_hand = [text for text, _ in REWRITE.BY_HAND]
    edges = [REWRITE.FITS, b"#" + LONG, LONG, b"", b"\r" + LONG, LONG + b"\r", row(rest=b"a=" + LONG), b"x" * ROOM + b"\r"]
    yield b"\n".join(short)
    yield b"\r\n".join(by_hand)
    yield b"\n".join(edges)
    yield b"\r\n".join(edges)
    mixed = short[:200] + by_hand + edges
    r.shuffle(mixed)
    yield b"\n".join(mixed)


def try_long_texts(folder):
    """What the program does not take, held to the reference: from a file, and in pieces."""
    r = random.Random(3)
    for number, text in enumerate(joined()):
        put(folder, "long.gff3", text)
        for refused in ["mark", "keep", "drop"]:
            expected, status = rewritten(text, refused)
            what = f"rewrite --refused {refused}, long text {number}"
            done = call(["rewrite", "-q", "--refused", refused, "long.gff3"], cwd=folder)
            hold_done(what, done, status, expected)
            sizes = [r.choice([1, 2, 3, 1000, ROOM - 1, ROOM, ROOM + 1, 2 * ROOM]) for _ in range(2000)]
            pieces, at = [], 0
            for size in sizes + [len(text)]:
                pieces.append(text[at : at + size])
                at += size
            hold_done(what + ", in pieces", in_pieces(["rewrite", "-q", "--refused", refused], pieces), status, expected)


def try_kept_lines(folder):
    """A line that is too long to be held is kept as it came, without its line ending; a CR that no line feed follows is of the line."""
    kept = ["rewrite", "-q", "--refused", "keep"]
    table = [
        (LONG + b"\n", LONG + b"\n"),
        (LONG + b"\r\n", LONG + b"\n"),
        (LONG, LONG + b"\n"),
        (LONG + b"\r", LONG + b"\r\n"),
        (LONG + b"\r\r\n", LONG + b"\r\n"),
        (b"x" * ROOM + b"\r", b"x" * ROOM + b"\r\n"),
        (b"x" * ROOM + b"\r\n", b"x" * ROOM + b"\n"),
        (b"\r" * (ROOM + 3), b"\r" * (ROOM + 3) + b"\n"),
        (b"\r" * ROOM + b"\r\r\n", b"\r" * (ROOM + 1) + b"\n"),
        (b"#" + LONG + b"\n#b\n", b"#" + LONG + b"\n#b\n"),
        (b"#a\n\n\r\n" + LONG * 4 + b"\r\n\r\n\n#b", b"#a\n" + LONG * 4 + b"\n#b\n"),
        (b"x\n" + LONG + b"\n" + LONG + b"\nx\n", b"x\n" + LONG + b"\n" + LONG + b"\nx\n"),
        (b"\n" * 200000 + LONG + b"\n", LONG + b"\n"),
        (b"\r\n" * 100001 + LONG, LONG + b"\n"),
    ]
    for number, (text, expected) in enumerate(table):
        hold_done(f"a long line kept, {number}", call(kept, text), 1, expected)
        for size in [8191, ROOM, ROOM + 1]:
            pieces = cut(text[:-6], size) + [text[-6 + at : len(text) - 5 + at] for at in range(6)]
            hold_done(f"a long line kept, {number}, by {size}", in_pieces(kept, pieces, 0.001), 1, expected)
    dropped = ["rewrite", "-q", "--refused", "drop"]
    hold_call(dropped, 1, b"#a\n#b\n", text=b"#a\nx\n" + LONG + b"\n#b")
    hold_call(["rewrite", "--refused=keep"], 1, b"x\n" + GOOD, None, text=b"x\r\n" + GOOD)
    hold_call(["rewrite", "-q", "--refused", "keep"], 1, row(type=b"CDS") + b"\n", text=row(type=b"CDS") + b"\r\n")


def try_reports(folder):
    """What rewriting says on standard error: the refused lines, and their counts where there are any."""
    cds, full = row(type=b"CDS"), REWRITE.FITS + b"x"
    one = b"1 line: 1 refused; 0 warnings"
    table = [
        (b"x", said(1, 1, None, b"0 tabs", b"x") + summed(one, {1: 1})),
        (row(end=b"x"), said(1, 2, 5, b"`x`", arrows(row(end=b"x"))) + summed(one, {2: 1})),
        (cds, said(1, 18, 8, b"`.`", arrows(cds)) + summed(one, {18: 1})),
        (full, said(1, 22, None, b"", arrows(full[:76]) [:-1] + "…".encode()) + summed(one, {22: 1})),
        (LONG, said(1, 25) + summed(one, {25: 1})),
        (row(start=b"14", rest=b"a=1;;b=%"), b""),
    ]
    for line, err in table:
        for refused in ["mark", "keep", "drop"]:
            hold_call(["rewrite", "--refused", refused], 1 if err else 0, None, err, text=line + b"\n")
        hold_call(["rewrite", "-q"], 1 if err else 0, None, b"", text=line + b"\n")
    some = said(1, 1, None, b"0 tabs", b"x") + b"2 more are counted and not said\n"
    counts = summed(b"5 lines: 1 record, 1 comment, 3 refused; 0 warnings", {1: 3})
    hold_call(["rewrite", "--max", "1"], 1, b"! 1\n#\n! 1\n! 1\n" + GOOD, some + counts, text=b"x\n#\ny\nz\n" + GOOD)
    fasta = said(2, b"fasta") + summed(b"3 lines: 1 directive, 2 refused; 1 warning", {1: 2, b"fasta": 1})
    hold_call(["rewrite"], 1, b"##FASTA\n! 1\n! 1\n", fasta, text=b"##FASTA\n>x\nAC\n")
    hold_call(["rewrite", "--refused", "keep"], 1, b"##FASTA\n>x\nAC\n", fasta, text=b"##FASTA\n>x\nAC\n")
    unended = said(2, b"cut", None, b"the last line has no line feed")
    hold_call(["rewrite"], 0, b"#\n" + GOOD, unended, text=b"#\n" + GOOD[:-1])
    counts = summed(b"2 lines: 1 comment, 1 refused; 1 warning", {1: 1, b"cut": 1})
    hold_call(["rewrite"], 1, b"#\n! 1\n", said(2, 1, None, b"0 tabs", b"x") + unended + counts, text=b"#\nx")
    put(folder, "a b", b"x\n")
    named = said(1, 1, None, b"0 tabs", b"x", b"a b") + summed(one, {1: 1}, b"a b")
    hold_call(["rewrite", "a b"], 1, b"! 1\n", named, cwd=folder)
    hold_call(["rewrite", "-o", "out", "a b"], 1, b"", named, cwd=folder)
