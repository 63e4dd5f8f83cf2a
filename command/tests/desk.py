"""The table that the tests work at: the words that the command has for what it finds, and how it is called and held to them."""

import collections
import contextlib
import importlib.machinery
import importlib.util
import json
import os
import subprocess
import sys
import tempfile
import time

ROOT = os.path.realpath(os.path.join(os.path.dirname(os.path.abspath(__file__)), "../.."))


def loaded(path):
    """A tool as a module, of which nothing is left beside it."""
    sys.dont_write_bytecode = True
    loader = importlib.machinery.SourceFileLoader(os.path.basename(path), path)
    module = importlib.util.module_from_spec(importlib.util.spec_from_loader(loader.name, loader))
    loader.exec_module(module)
    return module


REWRITE = loaded(os.path.join(ROOT, "tools/try-rewrite"))
row = REWRITE.row
ROOM = REWRITE.ROOM
GOOD = row() + b"\n"
LONG = b"y" * (ROOM + 1)

# ── what the command says, in its words ──

REASONS = {
    1: b"fewer than eight tabs, so not nine columns",
    2: b"not a position, or a position of zero",
    3: b"not a strand",
    4: b"not a phase",
    5: b"text is left in column 9 without an equals sign",
    17: b"not a score",
    18: b"a CDS has no phase",
    22: b"too long to be written: its texts, or the line, pass 65,536 bytes",
    25: b"the line has more than 65,536 bytes",
}
WARNINGS = {
    b"tag-semicolon": b"a tag holds a semicolon",
    b"tag-space": b"a tag begins or ends with a space",
    b"extra-columns": b"more than nine columns, folded into column 9",
    b"reversed": b"the start lies above the end",
    b"phase-missing": b"a CDS without a phase reads, and cannot be written",
    b"gtf": b"looks like GTF, and not like GFF3",
    b"percent": b"a percent sign begins no escape",
    b"utf8": b"bytes that are not UTF-8",
    b"directive": b"a version other than 3, or the value of a directive is not valid",
    b"fasta": b"sequence behind ##FASTA, whose lines are not GFF3",
    b"cut": b"the end is missing: the transfer may have been cut off",
}
COLUMNS = {
    4: b"column 4 (start): ",
    5: b"column 5 (end): ",
    6: b"column 6 (score): ",
    7: b"column 7 (strand): ",
    8: b"column 8 (phase): ",
    9: b"column 9 (attributes): ",
}
TSV_HEAD = b"file\tline\tkind\tname\tcolumn\treason\ttext\n"
STDIN = b"<stdin>"


def matter(name):
    """A refusal by its number, or a warning by its name, as it is said: what it is, and its words."""
    return (b"refused by %d" % name, REASONS[name]) if isinstance(name, int) else (b"warning " + name, WARNINGS[name])


def said(number, name, column=None, what=b"", text=b"", file=STDIN):
    """What is said of a line: for a refused one, its text as well, as it is shown."""
    title, words = matter(name)
    line = b"%s:%d: %s: %s%s%s\n" % (file, number, title, COLUMNS.get(column, b""), words, what and b": " + what)
    return line + (b"    %s\n" % text if text else b"")


def summed(sentence, counts=None, file=STDIN):
    """The counts at the end: a sentence, and a line for each number or name."""
    lines = [b"%8d  %s: %s\n" % (count, *matter(name)) for name, count in (counts or {}).items()]
    return b"%s: %s\n" % (file, sentence) + b"".join(lines)


def arrows(line):
    """A line as a person is shown it."""
    return line.replace(b"\t", "→".encode())


def tsv_row(number, kind, name, column, reason, text, file=STDIN):
    return b"\t".join([file, b"%d" % number, kind, name, column, reason, text]) + b"\n"


# ── running ──

command = program = None
passed = failed = 0
# Nothing of the caller's environment changes what is printed.
ENVIRONMENT = {"PATH": os.environ.get("PATH", os.defpath), "TERM": "xterm", "LC_ALL": "C.UTF-8"}
Done = collections.namedtuple("Done", "status out err")


def shown(thing, most=400):
    text = repr(thing)
    return text if len(text) <= most else f"{text[:most]}… ({len(text)} characters)"


def side_by_side(came, expected):
    """Both, shown; of long bytes what lies around the first difference, and how many there are."""
    if not (isinstance(came, bytes) and isinstance(expected, bytes)) or came == expected:
        return shown(came), shown(expected)
    same = len(os.path.commonprefix([came, expected]))
    around = slice(max(0, same - 80), same + 80)
    return tuple(shown(of) if len(of) <= 160 else f"{of[around]!r} around byte {same} of {len(of)}" for of in (came, expected))


def fail(what, came, expected):
    global failed
    failed += 1
    print(f"tools/try-gff3: FAILED: {what}\n    came:     {came}\n    expected: {expected}", flush=True)


def judge(fits, what, came, expected):
    """Counts a case."""
    global passed
    if fits:
        passed += 1
    else:
        fail(what, *side_by_side(came, expected))


def hold(what, came, expected):
    judge(came == expected, what, came, expected)


def left_out(what, why):
    print(f"tools/try-gff3: left out: {what}: {why}", flush=True)


def call(words, text=b"", **more):
    """Calls the command with a text on its standard input."""
    usual = {"stdout": subprocess.PIPE, "stderr": subprocess.PIPE, "timeout": 120, "env": ENVIRONMENT}
    if "stdin" not in more:
        usual["input"] = text
    try:
        done = subprocess.run([command, *words], **{**usual, **more})
    except subprocess.TimeoutExpired:
        return Done("does not end", b"", b"")
    return Done(done.returncode, done.stdout, done.stderr)


def is_as(came, expected):
    """Whether an output is as expected: bytes are all of it, each of a list has to be in it, and None is anything."""
    if isinstance(expected, list):
        return all(piece in came for piece in expected)
    return expected is None or came == expected


def called(words, text):
    """A call in words, without a byte that a terminal would obey."""
    plain = [word if isinstance(word, str) and word.isprintable() else repr(word) for word in words]
    return " ".join(["gff3", *plain]) + (f" <{shown(text, 200)}" if text else "")


def hold_call(words, status, out=None, err=b"", text=b"", what="", **more):
    """Calls the command, and holds its status and both its outputs, as `is_as` says."""
    done = call(words, text, **more)
    hold_done(called(words, text) + (what and f" ({what})"), done, status, out, err)
    return done


def hold_done(what, done, status, out=None, err=b""):
    global passed
    if done.status == status and is_as(done.out, out) and is_as(done.err, err):
        passed += 1
        return
    pairs = zip(["status", "out", "err"], map(side_by_side, done, (status, out, err)))
    came, expected = zip(*((f"{name} {came}", f"{name} {expected}") for name, (came, expected) in pairs))
    fail(what, ", ".join(came), ", ".join(expected))


def put(folder, name, text):
    path = os.path.join(folder, name)
    with open(os.fsencode(path), "wb") as out:
        out.write(text)
    return path


def got(folder, name):
    with open(os.path.join(folder, name), "rb") as file:
        return file.read()


def in_pieces(words, pieces, pause=0.0):
    """Calls the command with a text that comes in pieces through a pipe. Its outputs go to files, which are never full."""
    with tempfile.TemporaryFile() as out, tempfile.TemporaryFile() as err:
        child = subprocess.Popen([command, *words], stdin=subprocess.PIPE, stdout=out, stderr=err, env=ENVIRONMENT)
        with contextlib.suppress(BrokenPipeError):
            for piece in pieces:
                child.stdin.write(piece)
                child.stdin.flush()
                time.sleep(pause)
            child.stdin.close()
        status = child.wait(timeout=120)
        out.seek(0)
        err.seek(0)
        return Done(status, out.read(), err.read())


def cut(text, size):
    return [text[at : at + size] for at in range(0, len(text), size)]

# ── what came, read ──


def names_said(done):
    """The names in the rows of `check --format tsv`."""
    return [line.split(b"\t")[3] for line in done.out.split(b"\n")[1:-1]]


def summary_of(done):
    """The counts that end what `check --format json` writes; none where it ends early."""
    last = done.out.splitlines()[-1:]
    return json.loads(last[0]) if last else {}


def refused_rows(done):
    """The refused lines in what `check --format tsv` wrote: the number of each, and that of its refusal."""
    rows = [line.split(b"\t") for line in done.out.split(b"\n")[1:-1]]
    return [(int(row[1]), int(row[3])) for row in rows if row[2] == b"refused"]
