"""How much `gff3 check` says, how it says it, and that it refuses what the proved program refuses."""

import json
import re
import resource

from cases import program_cases
from desk import (
    GOOD,
    LONG,
    REASONS,
    ROOM,
    TSV_HEAD,
    WARNINGS,
    arrows,
    call,
    called,
    hold,
    hold_call,
    put,
    refused_rows,
    row,
    said,
    summary_of,
    summed,
    tsv_row,
)
from terminals import on_terminal

# ── how much is said, and how ──


def try_limits(folder):
    """--max, for each file, and --quiet."""
    for name, lines in [("a", b"xyz"), ("b", b"v"), ("c", b"uw")]:
        put(folder, name, b"".join(b"%c\n" % line for line in lines))
    both = {}
    for name, lines in [(b"a", b"xyz"), (b"b", b"v"), (b"c", b"uw")]:
        rows = [said(at, 1, None, b"0 tabs", b"%c" % line, name) for at, line in enumerate(lines, 1)]
        plural = b"line" if len(lines) == 1 else b"lines"
        both[name] = rows, summed(b"%d %s: %d refused; 0 warnings" % (len(lines), plural, len(lines)), {1: len(lines)}, name)
    more = {0: b"", 1: b"1 more is counted and not said\n"}
    for most in range(5):
        expected = b""
        for rows, counts in both.values():
            unsaid = max(0, len(rows) - most)
            expected += b"".join(rows[:most]) + more.get(unsaid, b"%d more are counted and not said\n" % unsaid) + counts
        expected += summed(b"6 lines: 6 refused; 0 warnings", {1: 6}, b"all 3 files")
        hold_call(["check", "--max", str(most), "a", "b", "c"], 1, expected, cwd=folder)
    for words in [["--quiet"], ["-q"], ["-q", "--format", "tsv"], ["-q", "--format", "json"], ["-q", "--max", "1"]]:
        hold_call(["check", *words, "a", "b"], 1, b"", cwd=folder)
    hold_call(["check", "-q"], 0, b"", text=GOOD)
    hold_call(["check", "-q", "a", "no"], 2, b"", [b"gff3: no: "], cwd=folder)
    three = TSV_HEAD + tsv_row(1, b"refused", b"1", b".", REASONS[1] + b": 0 tabs", b"x", b"a")
    hold_call(["check", "--format", "tsv", "--max", "1", "a"], 1, three, cwd=folder)


def try_tsv(folder):
    """A header and a line for each finding, with what would end a column written with a backslash."""
    turned = WARNINGS[b"reversed"] + b": 14, 13"
    table = [
        (b"a\\b\tc\rd\n", tsv_row(1, b"refused", b"1", b".", REASONS[1] + b": 1 tab", b"a\\\\b\\tc\\rd")),
        (b"\n" + row(end=b"x") + b"\n", tsv_row(2, b"refused", b"2", b"5", REASONS[2] + b": `x`", row(end=b"x").replace(b"\t", b"\\t"))),
        (row(start=b"14") + b"\n", tsv_row(1, b"warning", b"reversed", b"4", turned, row(start=b"14").replace(b"\t", b"\\t"))),
        (b"\xff\n", tsv_row(1, b"refused", b"1", b".", REASONS[1] + b": 0 tabs", b"\xff")),
        (b"y" * 300 + b"\n", tsv_row(1, b"refused", b"1", b".", REASONS[1] + b": 0 tabs", b"y" * 300)),
        (LONG + b"\n", tsv_row(1, b"refused", b"25", b".", REASONS[25], b"")),
        (GOOD, b""),
        (b"", b""),
    ]
    for text, rows in table:
        hold_call(["check", "--format", "tsv"], 1 if b"refused" in rows else 0, TSV_HEAD + rows, text=text)
    put(folder, "a\tb\\", b"x\n")
    named = tsv_row(1, b"refused", b"1", b".", REASONS[1] + b": 0 tabs", b"x", b"a\\tb\\\\")
    hold_call(["check", "--format", "tsv", "a\tb\\", "a\tb\\"], 1, TSV_HEAD + named + named, cwd=folder)


def try_json(folder):
    """An object for each finding, and one for the counts of each file."""
    reason = "fewer than eight tabs, so not nine columns: 0 tabs"
    broken = {"file": "a", "line": 2, "kind": "refused", "name": "1", "column": None, "reason": reason, "text": 'x"\ufffd\x1b'}
    line = row(start=b"14").decode()
    turned = {"file": "a", "line": 3, "kind": "warning", "name": "reversed", "column": 4, "text": line}
    turned["reason"] = "the start lies above the end: 14, 13"
    ended = {"file": "a", "line": 6, "kind": "warning", "name": "cut", "column": None, "text": ""}
    ended["reason"] = "the end is missing: the transfer may have been cut off: the last line has no line feed"
    counts = {"file": "a", "kind": "summary", "lines": 5, "records": 2, "directives": 1, "comments": 1, "sequence": 0}
    counts.update({"refused": 1, "refused_by": {"1": 1}, "warnings": {"reversed": 1, "cut": 1}, "unsaid": 0})
    put(folder, "a", b'#\nx"\xff\x1b\n' + row(start=b"14") + b"\n\n##x\n" + row())
    blank = {"file": "b", "kind": "summary", "refused_by": {}, "warnings": {}}
    blank.update({name: 0 for name in ["lines", "records", "directives", "comments", "sequence", "refused", "unsaid"]})
    put(folder, "b", b"\n\n")
    done = call(["check", "--format", "json", "a", "b"], cwd=folder)
    objects = [json.loads(line) for line in done.out.splitlines()]
    hold("check --format json a b", (done.status, done.err, objects), (1, b"", [broken, turned, ended, counts, blank]))
    done = call(["check", "--format", "json", "--max", "1", "a"], cwd=folder)
    objects = [json.loads(line) for line in done.out.splitlines()]
    hold("check --format json --max 1 a", objects, [broken, {**counts, "unsaid": 2}])
    sequence = summary_of(call(["check", "--format", "json"], b"##FASTA\n>x\nAC\n" + LONG + b"\n"))
    hold("sequence in JSON", [sequence.get(name) for name in ["file", "lines", "sequence", "refused"]], ["<stdin>", 4, 3, 0])


def try_several_files(folder):
    """Several files are checked one behind the other, and counted together."""
    put(folder, "a", b"x\n" + GOOD)
    put(folder, "b", b"##gff-version 2\n" + row(start=b"x"))
    first = said(1, 1, None, b"0 tabs", b"x", b"a") + summed(b"2 lines: 1 record, 1 refused; 0 warnings", {1: 1}, b"a")
    second = said(1, b"directive", None, b"gff-version 2", file=b"b")
    second += said(2, 2, 4, b"`x`", arrows(row(start=b"x")), b"b")
    second += said(2, b"cut", None, b"the last line has no line feed", file=b"b")
    second += summed(b"2 lines: 1 directive, 1 refused; 2 warnings", {2: 1, b"directive": 1, b"cut": 1}, b"b")
    counts = {1: 1, 2: 1, b"directive": 1, b"cut": 1}
    both = summed(b"4 lines: 1 record, 1 directive, 2 refused; 2 warnings", counts, b"all 2 files")
    hold_call(["check", "a", "b"], 1, first + second + both, cwd=folder)
    hold_call(["check", "a"], 1, first, cwd=folder)
    put(folder, "good", GOOD)
    good = summed(b"1 line: 1 record, 0 refused; 0 warnings", file=b"good")
    twice = summed(b"2 lines: 2 records, 0 refused; 0 warnings", file=b"all 2 files")
    hold_call(["check", "good", "good"], 0, good + good + twice, cwd=folder)
    few = {"preexec_fn": lambda: resource.setrlimit(resource.RLIMIT_NOFILE, (32, 32))}
    last = summed(b"500 lines: 500 records, 0 refused; 0 warnings", file=b"all 500 files")
    hold_call(["check", *["good"] * 500], 0, [good * 500 + last], cwd=folder, what="with 32 files open at most", **few)


# ── lines for the eyes of a person ──


def try_cut_lines(folder):
    """A text is cut to 80 columns where there is no terminal; the column that is meant is in it."""
    wide, bold = "あ".encode(), "𝐀".encode()
    dots = "…".encode()
    before = b"s" * 100
    table = [
        (b"x" * 75, b"x" * 75),
        (b"x" * 76, b"x" * 76),
        (b"x" * 77, b"x" * 75 + dots),
        (b"x" * ROOM, b"x" * 75 + dots),
        (wide * 38, wide * 38),
        (wide * 39, wide * 37 + dots),
        (bold * 77, bold * 75 + dots),
        (b"x\xff" + b"x" * 80, b"x\\xff" + b"x" * 70 + dots),
    ]
    for line, text in table:
        expected = [said(1, 1, None, b"0 tabs", text)]
        hold_call(["check"], 1, expected, text=line + b"\n")
    far = dots + arrows(b"s" * 8 + b"\tlab\tgene\t8\t13x\t.\t+\t.\ta=1")
    hold_call(["check"], 1, [said(1, 2, 5, b"`13x`", far)], text=row(name=before, end=b"13x") + b"\n")
    # the text begins behind a whole character, whatever its length
    for count in range(28, 32):
        line = row(name=b"n" * count + wide * 10, end=b"13x")
        done = call(["check"], line + b"\n")
        hold(f"characters are not cut: {line!r}", (b"\\x" in done.out, "→13x→".encode() in done.out), (False, True))
    hold_call(["check"], 0, [said(1, b"percent", None, b"`%5" + wide + b"`")], text=row(rest=b"a=%5" + wide) + b"\n")


def try_control_bytes(folder):
    """What a terminal would obey is shown by its number, wherever it stands."""
    line = b"a\x1b[31m\x07\x00\x7f\xc2\x9b\x08\xff"
    text = b"a\\x1b[31m\\x07\\x00\\x7f\\x9b\\x08\\xff"
    hold_call(["check"], 1, [said(1, 1, None, b"0 tabs", text)], text=line + b"\n")
    hold_call(["rewrite"], 1, b"! 1\n", [said(1, 1, None, b"0 tabs", text)], text=line + b"\n")
    hold_call(["check"], 1, [said(1, 2, 4, b"`\\x1b[2J`")], text=row(start=b"\x1b[2J") + b"\n")
    hold_call(["check"], 0, [said(1, b"tag-semicolon", 9, b"`;\\x1b[2J`")], text=row(rest=b"a=1;;\x1b[2J=2") + b"\n")
    hold_call(["check"], 0, [said(1, b"percent", None, b"`%\\x1b[`")], text=row(rest=b"a=%\x1b[2J") + b"\n")
    status, screen = on_terminal(["check"], ["stdout"], text=line + b"\n" + row(start=line) + b"\n", color="never")
    hold("control bytes on a terminal", (status, re.findall(rb"[\x00-\x08\x0b-\x1f\x7f\xff]|\xc2\x9b", screen)), (1, []))
    # a mark at the head of a file, or an order to write from right to left, is not seen where it is not shown
    for unseen in ["\ufeff", "\u200b", "\u202e", "\u2066", "\u061c", "\xad", "\u2028"]:
        done = call(["check"], unseen.encode() + b"##gff-version 3\n")
        hold(f"{unseen!r} is shown by its number", (done.status, unseen.encode() in done.out), (1, False))
    name = "a\x1b[31m"
    put(folder, name, b"x\n")
    for words in [["check", name], ["count", name], ["check", "-q", name + "-"], ["rewrite", name]]:
        status, screen = on_terminal(words, ["stdout", "stderr"], cwd=folder, color="never")
        hold(f"a file's name on a terminal: {words[0]}", (status in (1, 2), b"\x1b" in screen, len(screen) > 3), (True, False, True))


# ── the proved program ──


def numbered(text):
    """The lines that a text hands out, with their numbers."""
    lines = text.split(b"\n")
    ended = [line[:-1] if line.endswith(b"\r") else line for line in lines[:-1]]
    return [(number, line) for number, line in enumerate(ended + lines[-1:], 1) if line]


def marks(text, written):
    """The same by the program's output. What it can only not write, 18 and 22, is read all the same."""
    pairs = zip(numbered(text), written.split(b"\n"))
    return [(number, int(line[2:])) for (number, _), line in pairs if line.startswith(b"! ") and line not in (b"! 18", b"! 22")]


def try_agreement(folder):
    """`check` refuses what the proved program refuses to read, by the same numbers."""
    words = ["check", "--format", "tsv", "--off", "fasta,gtf"]
    for text, written in program_cases():
        done = call(words, text)
        expected = marks(text, written)
        came = done.status, done.out[: len(TSV_HEAD)], refused_rows(done)
        hold(called(words, text), came, (1 if expected else 0, TSV_HEAD, expected))
