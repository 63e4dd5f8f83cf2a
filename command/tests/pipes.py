"""Pipes that close, disks that are full, texts that come slowly, and texts without end."""

import contextlib
import fcntl
import gzip
import os
import re
import select
import subprocess
import tempfile
import time
import zlib

from desk import Done, ENVIRONMENT, GOOD, command, hold, hold_call, hold_done, judge, left_out, put, said, summed
from outputs import close

# ── pipes and full disks ──


def try_closed_pipes(folder):
    """An output that nobody reads any more ends the command, and nothing is said."""
    put(folder, "refused", b"x\n" * 200000)
    put(folder, "comments", b"# a comment\n" * 200000)
    for words in [
        ["check", "refused"],
        ["check", "--format", "tsv", "refused"],
        ["check", "--format", "json", "refused"],
        ["rewrite", "comments"],
        ["rewrite", "-q", "refused"],
        ["count", *["comments"] * 2, *["/dev/null"] * 3000],
    ]:
        child = subprocess.Popen([command, *words], cwd=folder, env=ENVIRONMENT, stdout=subprocess.PIPE, stderr=subprocess.PIPE)
        child.stdout.read(1)
        child.stdout.close()
        hold(f"gff3 {' '.join(words[:4])} | head -c 1", (child.wait(timeout=60), child.stderr.read()), (141, b""))
        child.stderr.close()


def try_full(folder):
    """A full disk is trouble, and said."""
    put(folder, "some", b"x\n" + GOOD)
    for words in [["check", "some"], ["check", "--format", "json", "some"], ["rewrite", "-q", "some"], ["count", "some"], ["manual"]]:
        with open("/dev/full", "wb") as full:
            hold_call(words, 2, None, [b"gff3: standard output: No space left"], cwd=folder, stdout=full, what=">/dev/full")
    with open("/dev/full", "wb") as full:
        hold_call(["completions", "bash"], 2, None, [b"No space left"], stdout=full, what=">/dev/full")
        hold_call(["rewrite", "some"], 2, None, None, cwd=folder, stderr=full, what="2>/dev/full")
    large = put(folder, "large", b"# some comment\n" * 50000)
    disk = os.path.join(folder, "disk")
    os.mkdir(disk)
    # a small disk of its own, which no other process sees
    script = 'mount -t tmpfs -o size=256k none "$1" && cd "$1" && echo old >out || exit 77; '
    script += '"$2" rewrite "$3" -o out; echo $?; cat out; ls -A'
    words = ["unshare", "-m", "bash", "-c", script, "bash", disk, command, large]
    try:
        done = subprocess.run(words, capture_output=True, timeout=60, env=ENVIRONMENT)
    except OSError as why:
        left_out("a full disk", why)
        return
    if done.returncode in (1, 77):
        left_out("a full disk", done.stderr.decode(errors="replace").strip())
        return
    is_said = b"gff3: out: No space left" in done.stderr
    hold("rewrite -o on a full disk: status, the old text, the files", (done.stdout, is_said), (b"2\nold\nout\n", True))


def read_up_to(stream, ending, seconds=60):
    """What comes from a pipe, up to some ending of it. Where that does not come, the wait is long, so that no slow machine is at fault."""
    came = b""
    while not came.endswith(ending) and select.select([stream], [], [], seconds)[0]:
        piece = os.read(stream.fileno(), 1 << 16)
        if not piece:
            break
        came += piece
    return came


def try_slowly(folder):
    """A line is said, and written again, as soon as it has come, and not when more has."""
    packer = zlib.compressobj(6, zlib.DEFLATED, 31)
    plain, packed = (lambda text: text), (lambda text: packer.compress(text) + packer.flush(zlib.Z_SYNC_FLUSH))
    table = [("check", b"some words", plain), ("rewrite", b"some words", plain), ("check", b"some words", packed), ("check", b"x", plain)]
    for name, line, form in table:
        streams = {stream: subprocess.PIPE for stream in ["stdin", "stdout", "stderr"]}
        child = subprocess.Popen([command, name], env=ENVIRONMENT, **streams)
        for number in range(1, 4):
            child.stdin.write(form(line + b"\n"))
            child.stdin.flush()
            expected = said(number, 1, None, b"0 tabs", line)
            came = read_up_to(child.stdout if name == "check" else child.stderr, expected)
            hold(f"gff3 {name}, {line!r} as line {number} while it comes", came, expected)
            if came != expected:
                break
            if name == "rewrite":
                hold(f"line {number}, rewritten while it comes", read_up_to(child.stdout, b"! 1\n"), b"! 1\n")
        if form is packed:
            child.stdin.write(packer.flush())
        child.stdin.close()
        hold(f"gff3 {name}, slowly: the status", child.wait(timeout=60), 1)
        close(child)


# ── size ──


def most_memory(pid):
    """The most memory that a process has had, in kB, since it has become what it is; 0 where it is gone."""
    try:
        with open(f"/proc/{pid}/status") as status:
            found = re.search(r"^VmHWM:\s+(\d+) kB", status.read(), re.M)
    except (FileNotFoundError, ProcessLookupError):
        return 0
    return int(found.group(1)) if found else 0


def fed(words, piece, times, ending=b""):
    """Calls the command with a piece many times on its input; and the most memory that it was seen to have."""
    with tempfile.TemporaryFile() as out, tempfile.TemporaryFile() as err:
        child = subprocess.Popen([command, *words], stdin=subprocess.PIPE, stdout=out, stderr=err, env=ENVIRONMENT)
        most = 0
        with contextlib.suppress(OSError):
            fcntl.fcntl(child.stdin, fcntl.F_SETPIPE_SZ, 1 << 20)
        with contextlib.suppress(BrokenPipeError):
            for _ in range(times):
                child.stdin.write(piece)
                most = max(most, most_memory(child.pid))
            child.stdin.write(ending)
            child.stdin.close()
        while child.poll() is None:
            most = max(most, most_memory(child.pid))
            time.sleep(0.001)
        out.seek(0)
        err.seek(0)
        return Done(child.returncode, out.read(), err.read()), most


def try_size(folder):
    """Streams of any length, in less than 16 MB."""
    none, one = b"0 lines: 0 refused; 0 warnings", b"1 line: 1 refused; 0 warnings"
    long_line = said(1, 25) + summed(one, {25: 1})
    off = ["--off", "cut"]
    million = 1 << 20
    table = [
        ("1 GB in one line", ["check", *off], b"x" * million, 1024, b"", 1, long_line),
        ("256 MB of line feeds", ["check"], b"\n" * million, 256, b"", 0, summed(none)),
        ("64 MB of blank lines with CR", ["check"], b"\r\n" * (million // 2), 64, b"", 0, summed(none)),
        ("64 MB of CR", ["check", *off], b"\r" * million, 64, b"", 1, long_line),
        ("64 MB of CR, and a line feed", ["check"], b"\r" * million, 64, b"\n", 1, long_line),
        ("200 MB in one line, kept", ["rewrite", "-q", "--refused", "keep", "-o", "/dev/null"], b"x" * million, 200, b"\n", 1, b""),
        ("64 MB in one line, counted", ["count"], b"x" * million, 64, b"", 1, [b"refused         1\n  by 25         1  "]),
        ("64 MB of comments", ["rewrite", "-o", "/dev/null"], b"# a comment....\n" * (million // 16), 64, b"", 0, b""),
        ("32 MB of refused lines", ["check", "-q"], b"x\n" * (million // 2), 32, b"", 1, b""),
        ("32 MB of records", ["count"], GOOD * (million // len(GOOD)), 32, b"", 0, [b"reversed            0\n"]),
    ]
    is_measured = os.uname().machine == "x86_64"
    if not is_measured:
        left_out("how much memory is taken", "the command runs in an emulator")
    for what, words, piece, times, ending, status, out in table:
        done, most = fed(words, piece, times, ending)
        hold_done(what, done, status, out)
        if is_measured:
            judge(0 < most < 16 << 10, f"{what}: memory", f"{most} kB", "less than 16 MB, and more than none")
    # 200 MB kept are all there
    counter = subprocess.Popen(["wc", "-c"], stdin=subprocess.PIPE, stdout=subprocess.PIPE)
    packed = gzip.compress(b"x" * (200 * million), 1)
    hold_call(["rewrite", "-q", "--refused", "keep"], 1, None, text=packed, stdout=counter.stdin, what="200 MB, unpacked and kept")
    hold("200 MB in one line, unpacked, kept and counted", counter.communicate(timeout=60)[0].strip(), b"%d" % (200 * million + 1))
