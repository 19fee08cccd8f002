#!/usr/bin/env python3
"""Runs the program from outside, where reading and writing go well and where they fail.

    program.py PATH     runs every case on the program at PATH

Its exit status is always 0. It writes a listing and nothing else, or no listing and one line on
standard error; only where a write fails there can be the start of a listing and that line. A
listing is whole exactly if its last line is `accepted`, `ambiguous ..` or `refused ..`. The
listings expected come from samples.py.
"""

import contextlib
import fcntl
import functools
import os
import pathlib
import random
import resource
import shutil
import signal
import socket
import subprocess
import sys
import tempfile
import termios
import threading
import time

sys.dont_write_bytecode = True
import samples

SECONDS = 30  # what a run may take
CASES = []


def case(test):
    CASES.append(test)
    return test


class Wrong(Exception):
    """What a case found."""


class Skipped(Exception):
    """Why a case cannot be tried here."""


# ---- Running the program ----


def run(*arguments, **how):
    """One run; its input is empty if nothing is said of it."""
    if "input" not in how:
        how.setdefault("stdin", subprocess.DEVNULL)
    how = {"stdout": subprocess.PIPE, "stderr": subprocess.PIPE, "timeout": SECONDS, **how}
    return subprocess.run([PROGRAM, *arguments], **how)


@contextlib.contextmanager
def started(**how):
    """A run that the case itself feeds or reads from; it is ended when its time is over."""
    child = subprocess.Popen([PROGRAM], stderr=subprocess.PIPE, **how)
    timer = threading.Timer(SECONDS, child.kill)
    timer.start()
    try:
        yield child
    finally:
        timer.cancel()
        child.kill()
        child.communicate()


def ended(child, out=b""):
    """Such a run at its end, of whose output the case has taken all."""
    err = child.stderr.read()
    return subprocess.CompletedProcess(child.args, child.wait(), out, err)


@contextlib.contextmanager
def pipe(narrow=False):
    """The two ends of a pipe, each closed at the end if it is still open."""
    ends = [open(end, mode, buffering=0) for end, mode in zip(os.pipe(), ("rb", "wb"))]
    if narrow:
        fcntl.fcntl(ends[1], fcntl.F_SETPIPE_SZ, 4096)
    with ends[0], ends[1]:
        yield ends


def unread(end):
    """How many bytes a pipe holds."""
    return int.from_bytes(fcntl.ioctl(end, termios.FIONREAD, bytes(4)), sys.byteorder)


# ---- What is expected ----


def differs(name, got, want):
    """What is wrong with a text, if something is."""
    if got == want:
        return []
    at = len(os.path.commonprefix([got, want]))
    parts = [f"{text[at:at + 80]!r} of {len(text)} bytes" for text in (got, want)]
    return [f"{name} from byte {at} on: {parts[0]}, should be {parts[1]}"]


def hold(wrong):
    if wrong:
        raise Wrong("; ".join(wrong))


def expect(ran, out=b"", err=b""):
    """That the program ended with status 0 and wrote just this."""
    wrong = differs("standard output", ran.stdout or b"", out)
    wrong += differs("standard error", ran.stderr, err)
    hold(wrong + [f"exit status {ran.returncode}"] * (ran.returncode != 0))


def expect_start(out, whole):
    """That what was written is the start of a listing, and shows that it is not the whole one."""
    hold(differs("what was written", out, whole[: len(out)]))
    last = out.split(b"\n")[-2 if out.endswith(b"\n") else -1]
    if last.split(b" ")[0] in (b"accepted", b"ambiguous", b"refused"):
        raise Wrong(f"{len(out)} of {len(whole)} bytes, and the last line says that they are all")


def cannot_read(reason):
    return f"rights: cannot read the file: {reason}\n".encode()


def cannot_write(reason):
    return f"rights: cannot write the listing: {reason}\n".encode()


def cannot_open(name, reason):
    return b"rights: " + name + b": " + reason.encode() + b"\n"


# ---- Files ----


@functools.cache
def listing(file):
    return samples.listing(file).encode()


def put(name, file):
    """The path of a file with these bytes."""
    path = FOLDER / name
    path.write_bytes(file)
    return path


B = {
    "boxes": [0, 0, 0, 1],
    "containments": [[2, 0], [2, 1]],
    "arrows": [[0, 3, 0, 1], [2, 3, 0, 0]],
}
FILE_B = samples.file_of(B)


def last_block_decides():
    """A group that is granted a file by 83 arrows, a block of them, and one of its users who is
    denied it by the only arrow of the last block."""
    return samples.file_of({**B, "arrows": [[2, 3, 0, 1]] * 83 + [[0, 3, 0, 0]]})


def large_clear():
    """Nested groups and as many arrows as there may be, over all modes. Each arrow's head is a
    file, and no two arrows of a mode have both ends in common, so nothing is unclear."""
    draw = random.Random(1)
    rows = [[127, 126], [126, 125], [125, 124]] + [[124 + user % 4, user] for user in range(124)]
    users = [[user, file] for user in range(124) for file in range(128, 256)]
    groups = [[group, file] for group in range(124, 128) for file in range(128, 256)]
    arrows = [
        [*ends, mode, draw.randrange(2)]
        for mode in range(8)
        for ends in draw.sample(users, 32) + draw.sample(groups, 32)
    ]
    draw.shuffle(arrows)
    return samples.file_of({"boxes": [0] * 128 + [1] * 128, "containments": rows, "arrows": arrows})


def large_unclear():
    """Crossing groups and folders. Modes 1 and 4 have no arrow, 0 positive ones only and 2
    negative ones only; in the other modes pairs are unclear."""
    draw = random.Random(2)
    rows = [
        [outer, inner]
        for first in (0, 128)
        for outer in range(first + 112, first + 128)
        for inner in draw.sample(range(first, outer), 30)
    ]
    signs = {0: [1], 2: [0], 3: [0, 1], 5: [0, 1], 6: [0, 1], 7: [0, 1]}
    modes = [draw.choice(list(signs)) for _ in range(512)]
    arrows = [
        [draw.randrange(128), draw.randrange(128, 256), mode, draw.choice(signs[mode])]
        for mode in modes
    ]
    return samples.file_of({"boxes": [0] * 128 + [1] * 128, "containments": rows, "arrows": arrows})


# ---- Reading ----


@case
def a_directory_as_standard_input():
    folder = os.open(FOLDER, os.O_RDONLY)
    ran = run(stdin=folder)
    os.close(folder)
    expect(ran, err=cannot_read("Is a directory"))


@case
def a_directory_as_argument():
    expect(run(FOLDER), err=cannot_read("Is a directory"))


@case
def closed_standard_input():
    expect(run(preexec_fn=lambda: os.close(0)), err=cannot_read("Bad file descriptor"))


@case
def closed_standard_input_and_an_argument():
    path = put("B.blk", FILE_B)
    expect(run(path, preexec_fn=lambda: os.close(0)), listing(FILE_B))


@case
def a_read_that_fails_before_the_last_block():
    """The blocks that come before are a file too, in which the user is granted what is denied."""
    file = last_block_decides()
    for length in (len(file) - 512, 0, 1, 512, len(file) - 1, len(file)):
        with pipe() as (source, sink):
            os.set_blocking(source.fileno(), False)
            sink.write(file[:length])
            expect(run(stdin=source), err=cannot_read("Resource temporarily unavailable"))


@case
def the_same_file_whole():
    file = last_block_decides()
    expect(run(input=file), listing(file))
    if b"\n0 0 3 neg 83\n" not in listing(file):
        raise Wrong("the last block's arrow does not show")


@case
def one_byte_at_a_time():
    with pipe() as (source, sink), started(stdin=source, stdout=subprocess.PIPE) as child:
        source.close()
        for at in range(len(FILE_B)):
            sink.write(FILE_B[at : at + 1])
            while unread(sink) and child.poll() is None:
                time.sleep(0.0001)
        sink.close()
        expect(ended(child, child.stdout.read()), listing(FILE_B))


@case
def more_than_may_be_read():
    """Document 01: of a longer input 32,769 bytes are read."""
    blocks = [["boxes", 4], ["containments", 2], ["arrows", 2]] + [["arrows", 0]] * 62
    file = samples.file_of({**B, "blocks": blocks})
    expect(run(input=file[:32768]), listing(FILE_B))
    expect(run(put("64.blk", file[:32768])), listing(FILE_B))
    refused = b"refused 14 32769 0 0\n"
    for longer in (file[:32769], file, file + bytes(100000)):
        path = put("longer.blk", longer)
        expect(run(input=longer), refused)
        expect(run(path), refused)
        with open(path, "rb", buffering=0) as source:
            expect(run(stdin=source), refused)
            if source.tell() != 32769:
                raise Wrong(f"{source.tell()} bytes were read")
    with open("/dev/zero", "rb") as endless:
        expect(run(stdin=endless), refused)
    expect(run("/dev/zero"), refused)


# ---- The argument ----


@case
def every_sample_as_standard_input_and_as_argument():
    for name, file in samples.wanted().items():
        if name.endswith(".blk"):
            expect(run(input=file), listing(file))
            expect(run(put(name, file)), listing(file))


@case
def a_missing_file():
    for name in (b"missing.blk", b"no such \xff"):
        expect(run(name, cwd=FOLDER), err=cannot_open(name, "No such file or directory"))


@case
def an_unreadable_file():
    """Root reads every file, so root has another user run a copy that this user can reach."""
    path = put("unreadable.blk", FILE_B)
    path.chmod(0)
    copy = shutil.copy(PROGRAM, FOLDER / "program")
    other = {} if os.geteuid() else {"user": 65534, "group": 65534, "extra_groups": []}
    try:
        ran = run(path, executable=copy, **other)
    except PermissionError as why:
        raise Skipped(f"no other user can run the program here: {why}") from why
    expect(ran, err=cannot_open(os.fsencode(path), "Permission denied"))


@case
def an_empty_argument():
    expect(run(""), err=cannot_open(b"", "No such file or directory"))


@case
def a_long_argument():
    """A path has at most 4,095 bytes, and a name in it at most 255."""
    path = os.fsencode(put("B.blk", FILE_B))
    expect(run(path.rjust(4095, b"/")), listing(FILE_B))
    expect(run(b"x" * 256), err=cannot_open(b"x" * 256, "File name too long"))
    expect(run(b"x" * 5000), err=cannot_open(b"argument", "File name too long"))


def expect_usage(*arguments):
    ran = run(*arguments, input=FILE_B)
    first, *_ = ran.stderr.splitlines(keepends=True) or [b""]
    hold(differs("first line on standard error", first, b"usage: rights [FILE]\n"))
    expect(ran, err=ran.stderr)


@case
def two_arguments():
    path = put("B.blk", FILE_B)
    expect_usage(path, path)
    expect_usage(path, "")
    expect_usage("--help", path)
    expect_usage(path, path, path)


@case
def asked_for_help():
    expect_usage("--help")


# ---- Writing ----


@case
def output_to_a_full_device():
    for file in (FILE_B, b"", large_clear()):
        with open("/dev/full", "wb") as full:
            expect(run(input=file, stdout=full), err=cannot_write("No space left on device"))


@case
def closed_standard_output():
    path = put("B.blk", FILE_B)
    for arguments in ([], [path]):
        how = {"input": FILE_B, "stdout": subprocess.DEVNULL, "preexec_fn": lambda: os.close(1)}
        expect(run(*arguments, **how), err=cannot_write("Bad file descriptor"))


@case
def closed_standard_error():
    """With nowhere to say it, a failure still gives no listing."""
    path = put("B.blk", FILE_B)
    for arguments, out in (([path], listing(FILE_B)), (["missing.blk"], b""), ([FOLDER], b"")):
        expect(run(*arguments, cwd=FOLDER, preexec_fn=lambda: os.close(2)), out)


@case
def a_write_that_fails_in_the_middle():
    """A file that may grow no further: the write that meets its limit is cut, the next fails."""
    file = large_clear()
    whole = listing(file)

    def limited():
        signal.signal(signal.SIGXFSZ, signal.SIG_IGN)
        resource.setrlimit(resource.RLIMIT_FSIZE, (limit, limit))

    for limit in (0, 1, 65536, 100000, 1000000, len(whole) - 2):
        path = FOLDER / "limited.txt"
        with open(path, "wb") as out:
            ran = run(input=file, stdout=out, preexec_fn=limited)
        expect(ran, err=cannot_write("File too large"))
        expect_start(path.read_bytes(), whole)


@case
def a_pipe_that_is_full_for_a_while():
    """A write that cannot wait fails, though there is room again soon."""
    file = large_clear()
    with open(put("large.blk", file)) as stdin, pipe(narrow=True) as (source, sink):
        os.set_blocking(sink.fileno(), False)
        with started(stdin=stdin, stdout=sink) as child:
            sink.close()
            while not unread(source) and child.poll() is None:
                time.sleep(0.0001)
            time.sleep(0.002)
            out = b"".join(iter(lambda: source.read(512), b""))
            expect_start(out, listing(file))
            expect(ended(child), err=cannot_write("Resource temporarily unavailable"))


@case
def an_output_that_takes_short_parts_only():
    """A socket for messages refuses a long part and takes a shorter one that comes after it: what
    arrives must have no gap. A program that writes short parts gets all of them through."""
    for file in (large_clear(), large_unclear()):
        for half in (2304, 8192, 16384, 30000):  # the system doubles it
            ends = socket.socketpair(socket.AF_UNIX, socket.SOCK_SEQPACKET)
            with open(put("large.blk", file)) as stdin, ends[0] as source, ends[1] as sink:
                sink.setsockopt(socket.SOL_SOCKET, socket.SO_SNDBUF, half)
                with started(stdin=stdin, stdout=sink) as child:
                    sink.close()
                    out = b"".join(iter(lambda: source.recv(65536), b""))
                    if out == listing(file):
                        expect(ended(child))
                    else:
                        expect_start(out, listing(file))
                        expect(ended(child), err=cannot_write("Message too long"))


@case
def a_pipe_that_nobody_reads():
    """Whether SIGPIPE is ignored or not when the program starts: it ignores it."""
    for restored in (False, True):
        with pipe() as (source, sink):
            source.close()
            ran = run(input=FILE_B, stdout=sink, restore_signals=restored)
            expect(ran, err=cannot_write("Broken pipe"))


@case
def a_slow_reader():
    file = large_unclear()
    with open(put("large.blk", file)) as stdin, pipe(narrow=True) as (source, sink):
        with started(stdin=stdin, stdout=sink) as child:
            sink.close()
            out = b""
            while part := source.read(1000):
                out += part
                time.sleep(0.0002)
            expect(ended(child, out), listing(file))


@case
def large_listings():
    for file, last in ((large_clear(), b"accepted"), (large_unclear(), b"ambiguous 3")):
        whole = listing(file)
        if len(whole) < 1000000 or not whole.splitlines()[-1].startswith(last):
            raise Wrong(f"the picture is not the one meant: {len(whole)} bytes, {whole[-30:]!r}")
        expect(run(input=file), whole)
        path = FOLDER / "large.txt"
        with open(path, "wb") as out:
            expect(run(put("large.blk", file), stdout=out))
        hold(differs("the file", path.read_bytes(), whole))


def main():
    count = {"passed": 0, "failed": 0, "skipped": 0}
    for test in CASES:
        name, verdict, why = test.__name__.replace("_", " "), "passed", ""
        try:
            test()
        except Skipped as reason:
            verdict, why = "skipped", reason
        except Exception as reason:
            verdict, why = "failed", f"{type(reason).__name__}: {reason}"
        count[verdict] += 1
        if verdict != "passed":
            print(f"{name}: {verdict}: {why}")
    print("program: " + ", ".join(f"{number} {verdict}" for verdict, number in count.items()))
    return 1 if count["failed"] else 0


if __name__ == "__main__":
    if len(sys.argv) != 2 or not os.access(sys.argv[1], os.X_OK):
        sys.exit("usage: program.py PATH, where PATH is the program")
    PROGRAM = os.path.abspath(sys.argv[1])
    with tempfile.TemporaryDirectory() as folder:
        FOLDER = pathlib.Path(folder)
        FOLDER.chmod(0o755)
        sys.exit(main())
