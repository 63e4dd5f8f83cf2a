"""Where `gff3 rewrite -o` writes: all of a file, or nothing."""

import contextlib
import gzip
import os
import random
import resource
import shutil
import signal
import stat
import subprocess
import time

from desk import ENVIRONMENT, command, got, hold, hold_call, left_out, put, row

FROM = b"##x\r\n\n" + row(start=b"08") + b"\r\n"
TO = b"##x\n" + row() + b"\n"


def hold_files(what, folder, expected):
    """Which files a folder has, and what is in them: no part is left."""
    came = {name: got(folder, name) if os.path.isfile(os.path.join(folder, name)) else None for name in sorted(os.listdir(folder))}
    hold(what, came, expected)


def emptied(folder):
    for name in os.listdir(folder):
        os.remove(os.path.join(folder, name))
    put(folder, "in", FROM)


def mode(path):
    return stat.S_IMODE(os.stat(path).st_mode)


def try_outputs(folder):
    """OUT is there as a whole, with the mode that its user wants, and nothing is left beside it."""
    out = os.path.join(folder, "out")
    for umask, expected in [(0o022, 0o644), (0o077, 0o600), (0o002, 0o664)]:
        emptied(folder)
        hold_call(["rewrite", "in", "-o", "out"], 0, b"", cwd=folder, umask=umask)
        hold_files("rewrite in -o out", folder, {"in": FROM, "out": TO})
        hold(f"the mode of a new file, umask {umask:o}", oct(mode(out)), oct(expected))
    for old in [0o640, 0o600, 0o755, 0o444]:
        os.chmod(out, old)
        put(folder, "in", b"#%o\n" % old)
        hold_call(["rewrite", "--output", "out", "in"], 0, b"", cwd=folder)
        hold_files("rewrite --output out in", folder, {"in": b"#%o\n" % old, "out": b"#%o\n" % old})
        hold("the mode of a file that is replaced", oct(mode(out)), oct(old))
    emptied(folder)
    hold_call(["rewrite", "in", "-o", "in"], 0, b"", cwd=folder)
    hold_files("OUT is FILE", folder, {"in": TO})
    emptied(folder)
    hold_call(["rewrite", "-o", out], 1, b"", None, text=b"x\n")
    hold_files("a refused line is no reason against OUT", folder, {"in": FROM, "out": b"! 1\n"})
    hold_call(["rewrite", "-o", out], 0, b"", text=b"")
    hold_files("nothing, written", folder, {"in": FROM, "out": b""})
    os.remove(out)
    hold_call(["rewrite", "-o", "-", "in"], 0, TO, cwd=folder)
    hold_files("-o -", folder, {"in": FROM})
    longest = "n" * 255
    hold_call(["rewrite", "-o", longest, "in"], 0, b"", cwd=folder)
    hold_files("the longest name", folder, {"in": FROM, longest: TO})


def try_links(folder):
    """A link stays a link, and what it leads to is written."""
    for old in [b"old", None]:
        emptied(folder)
        if old:
            put(folder, "real", old)
        os.symlink("real", os.path.join(folder, "link"))
        os.symlink("link", os.path.join(folder, "second"))
        hold_call(["rewrite", "in", "-o", "second"], 0, b"", cwd=folder)
        hold_files(f"through two links, to {old!r}", folder, {"in": FROM, "link": TO, "real": TO, "second": TO})
        links = [os.path.islink(os.path.join(folder, name)) for name in ["link", "second", "real"]]
        hold(f"links are links, to {old!r}", links, [True, True, False])


def try_special_outputs(folder):
    """Pipes and devices are written to as they are."""
    emptied(folder)
    pipe = os.path.join(folder, "pipe")
    os.mkfifo(pipe)
    reader = os.open(pipe, os.O_RDONLY | os.O_NONBLOCK)
    hold_call(["rewrite", "in", "-o", "pipe"], 0, b"", cwd=folder)
    hold("what came through a pipe", os.read(reader, 1000), TO)
    hold("a pipe stays one", stat.S_ISFIFO(os.stat(pipe).st_mode), True)
    os.close(reader)
    os.remove(pipe)
    hold_call(["rewrite", "in", "-o", "/dev/null"], 0, b"", cwd=folder)
    hold("/dev/null stays a device", stat.S_ISCHR(os.stat("/dev/null").st_mode), True)
    hold_call(["rewrite", "in", "-o", "/dev/full"], 2, b"", [b"gff3: /dev/full: No space left"], cwd=folder)
    hold_call(["rewrite", "in", "-o", "/dev/stdout"], 0, TO, cwd=folder)
    hold_files("pipes and devices", folder, {"in": FROM})


def try_bad_outputs(folder):
    """Where OUT cannot be written, or the input not be read to its end, the status is 2 and nothing is changed."""
    emptied(folder)
    put(folder, "old", b"old")
    put(folder, "old.gz", b"old")
    put(folder, "cut", gzip.compress(random.Random(4).randbytes(300000))[:200000])
    before = {name: got(folder, name) for name in sorted(os.listdir(folder))}
    table = [
        (["in", "-o", "nowhere/out"], [b"gff3: nowhere/out: No such file or directory"]),
        (["in", "-o", "in/out"], [b"gff3: in/out: Not a directory"]),
        (["in", "-o", "nowhere/"], [b"gff3: nowhere/: "]),
        (["in", "-o", "."], [b"gff3: .: is a folder"]),
        (["in", "-o", ".."], [b"gff3: ..: is a folder"]),
        (["in", "-o", "/"], [b"gff3: /: is a folder"]),
        (["in", "-o", ""], [b"--output <OUT>"]),
        (["in", "-o", "new.gz"], [b"gff3: new.gz: ", b"plain text"]),
        (["in", "-o", "new.bgz"], [b"gff3: new.bgz: ", b"plain text"]),
        (["in", "-o", "old.gz"], [b"gff3: old.gz: ", b"plain text"]),
        (["no", "-o", "old"], [b"gff3: no: No such file or directory"]),
        (["no", "-o", "new"], [b"gff3: no: No such file or directory"]),
        ([".", "-o", "old"], [b"gff3: .: is a folder"]),
        (["cut", "-q", "-o", "old"], [b"gff3: cut: ", b"ends too early"]),
        (["cut", "-q", "-o", "new"], [b"gff3: cut: ", b"ends too early"]),
    ]
    for words, err in table:
        hold_call(["rewrite", *words], 2, b"", err, cwd=folder)
        hold_files(" ".join(["rewrite", *words]) + " changes nothing", folder, before)


def try_own_input(folder):
    """An output that is appended to the file that is read would be read, too: as cat has it, that is trouble, and nothing is written."""
    text = b"# a comment\n" * 20000
    path = put(folder, "same", text)
    with open(path, "ab") as same:
        # where it is not noticed, it does not grow without end
        limit = {"preexec_fn": lambda: resource.setrlimit(resource.RLIMIT_FSIZE, (10 * len(text), 10 * len(text)))}
        hold_call(["rewrite", "same"], 2, None, [b"gff3: "], cwd=folder, stdout=same, what=">>same", **limit)
    hold("the file that would be appended to itself", len(got(folder, "same")), len(text))


def begun(folder, starter=(), **more):
    """A call that has begun to write `out`, and waits for more of its input."""
    words = [*starter, command, "rewrite", "-o", "out"]
    streams = {name: subprocess.PIPE for name in ["stdin", "stdout", "stderr"]}
    child = subprocess.Popen(words, cwd=folder, env=ENVIRONMENT, **streams, **more)
    child.stdin.write(b"#a\n")
    child.stdin.flush()
    for _ in range(6000):
        if set(os.listdir(folder)) - {"out"} or child.poll() is not None:
            break
        time.sleep(0.01)
    return child


def try_signals(folder):
    """A signal ends the command, and leaves OUT as it was and nothing beside it. One that is ignored, as under nohup, changes nothing."""
    for number in [signal.SIGTERM, signal.SIGINT, signal.SIGHUP]:
        for old in [b"old", None]:
            shutil.rmtree(folder)
            os.mkdir(folder)
            if old:
                put(folder, "out", old)
            child = begun(folder)
            hold(f"a part is written beside OUT, before {number.name}", len(os.listdir(folder)), 2 if old else 1)
            child.send_signal(number)
            status = child.wait(timeout=60)
            hold(f"{number.name} while reading", (status, child.stdout.read(), child.stderr.read()), (-number, b"", b""))
            hold_files(f"{number.name} and OUT", folder, {"out": old} if old else {})
            close(child)
    for number in [signal.SIGHUP, signal.SIGINT]:
        child = begun(folder, preexec_fn=lambda: signal.signal(number, signal.SIG_IGN))
        child.send_signal(number)
        time.sleep(0.2)
        hold(f"{number.name}, ignored", child.poll(), None)
        with contextlib.suppress(BrokenPipeError):
            child.stdin.write(b"#b\n")
            child.stdin.close()
        hold(f"{number.name}, ignored: the status", child.wait(timeout=60), 0)
        hold_files(f"{number.name}, ignored: OUT", folder, {"out": b"#a\n#b\n"})
        close(child)


# Starts a command as process 1 of its own, as a container does.
ALONE = ["unshare", "--pid", "--fork"]


def try_containers(folder):
    """Two calls may write in one folder at once: with one number, too, as in two containers. And a signal ends one that is process 1."""
    can_be_alone = shutil.which("unshare") and subprocess.run([*ALONE, "true"], capture_output=True).returncode == 0
    if not can_be_alone:
        left_out("calls in containers", "no process can be given a number of its own")
    for starter in [[], ALONE] if can_be_alone else [[]]:
        first = begun(folder, starter)
        words = [*starter, command, "rewrite", "-o", "second"]
        second = subprocess.run(words, input=FROM, cwd=folder, env=ENVIRONMENT, capture_output=True, timeout=60)
        hold(f"a second call beside the first {starter}", (second.returncode, second.stdout, second.stderr), (0, b"", b""))
        first.stdin.close()
        hold(f"the first of two calls {starter}", (first.wait(timeout=60), first.stderr.read()), (0, b""))
        hold_files(f"what two calls have written {starter}", folder, {"out": b"#a\n", "second": TO})
        close(first)
        with contextlib.suppress(FileNotFoundError):
            os.remove(os.path.join(folder, "second"))
    for number in [signal.SIGTERM, signal.SIGINT] if can_be_alone else []:
        child = begun(folder, ALONE)
        with open(f"/proc/{child.pid}/task/{child.pid}/children") as children:
            os.kill(int(children.read()), number)
        # the kernel lets no process 1 die by a signal's own way
        hold(f"{number.name} for process 1", (child.wait(timeout=60), child.stderr.read()), (128 + number, b""))
        hold_files(f"{number.name} for process 1, and OUT", folder, {"out": b"#a\n"})
        close(child)


def close(child):
    for stream in [child.stdin, child.stdout, child.stderr]:
        with contextlib.suppress(BrokenPipeError):
            stream.close()
