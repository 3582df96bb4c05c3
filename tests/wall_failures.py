#!/usr/bin/env python3
"""Runs the built program `wall` where reading or writing fails, is interrupted or moves only a few bytes.

    python3 tests/wall_failures.py

A failure is told on standard error by one write of one line with the system's error number, and nothing more is
printed: standard output has a prefix of the text. An interrupted call is made again, and a short write goes on where it
stopped: the text is then that of an undisturbed run. Failures that no file or device gives come from a library in C that is loaded before the C
library and answers for `read` and `write`; without a C compiler for x86-64 those cases are left out, and a line says
so. What is expected comes from the reference of tests/wall_sessions.py. Prints 'wall: N failures, 0 differ'; exits 1 at
the first case that differs. Works from any folder; proves and builds the program first if that is needed (`rt run` in
its folder), or runs the one that the environment variable WALL names."""
import itertools
import os
import platform
import shutil
import socket
import subprocess
import sys
import tempfile

sys.dont_write_bytecode = True
import wall_sessions

# `read` of descriptor 0 and `write` of descriptor 1, as the environment asks. A call moves at most READ_STEP or
# WRITE_STEP bytes. With READ_INTERRUPT or WRITE_INTERRUPT every other call is interrupted. After READ_STOP or
# WRITE_STOP bytes one call fails with the number READ_ERROR or WRITE_ERROR (0: it answers 0); later ones work again, so
# that a program that goes on is found out.
SHIM = r"""
#include <errno.h>
#include <stdlib.h>
#include <sys/syscall.h>
#include <unistd.h>

struct side { const char *step, *interrupt, *stop, *error; long moved, calls; int stopped; };

static long asked(const char *name, long otherwise) {
    const char *value = getenv(name);
    return value ? atol(value) : otherwise;
}

static ssize_t move(struct side *s, long call, int fd, void *bytes, size_t n) {
    if (getenv(s->interrupt) && s->calls++ % 2 == 0) {
        errno = EINTR;
        return -1;
    }
    long stop = asked(s->stop, -1);
    if (s->moved == stop && !s->stopped) {
        s->stopped = 1;
        errno = asked(s->error, EIO);
        return errno ? -1 : 0;
    }
    size_t most = asked(s->step, n ? n : 1);
    if (n > most) n = most;
    if (!s->stopped && stop >= 0 && s->moved + (long)n > stop) n = stop - s->moved;
    ssize_t got = syscall(call, fd, bytes, n);
    if (got > 0) s->moved += got;
    return got;
}

ssize_t read(int fd, void *bytes, size_t n) {
    static struct side s = { "READ_STEP", "READ_INTERRUPT", "READ_STOP", "READ_ERROR" };
    return fd == 0 ? move(&s, SYS_read, fd, bytes, n) : syscall(SYS_read, fd, bytes, n);
}

ssize_t write(int fd, const void *bytes, size_t n) {
    static struct side s = { "WRITE_STEP", "WRITE_INTERRUPT", "WRITE_STOP", "WRITE_ERROR" };
    return fd == 1 ? move(&s, SYS_write, fd, (void *)bytes, n) : syscall(SYS_write, fd, bytes, n);
}
"""

PLAN = b"lane,5\nno line\nlane,3\nleast,3\nleast,0\nlane,99999999\nleast,1\n"
CHANGES = b"drawin,A,1,1,9\ndrawin,A,1,9,1\n\nspotin,A,2,3,7\nspotout,A,7,3,7\ndrawin,A,1000000,1,1\n"
# refusals, one row and a pair too short to make one; refusals, overlong lines and the longest report, whose rows have
# just as many minutes as they must; no refusal
SHORT = PLAN + CHANGES + b"spotin,A,3,8,9\nlane,7\nunfinished"
LONG = b"drawin,A,1,1,1\nleast,51\n" + wall_sessions.longest() + b"x" * 9_000 + b"\n" + CHANGES * 40 + b"unfinished"
PLAIN = wall_sessions.longest()


class Differs(Exception):
    pass


def text(data):
    return wall_sessions.expected(data, {})


def refusals(data):
    """What is printed of the lines that are finished, before the end of the input is known."""
    finished = data[:data.rfind(b"\n") + 1]
    return b"".join(line for line in text(finished).splitlines(True) if line.startswith(b"refused"))


def run(program, data=b"", stdin=None, stdout=None, closed=None, shim=None, **asked):
    """What the program writes to standard output and standard error, the latter as a list of its writes."""
    env = dict(os.environ, **{name: str(value) for name, value in asked.items()})
    if shim:
        env["LD_PRELOAD"] = shim
    told, err = socket.socketpair(socket.AF_UNIX, socket.SOCK_SEQPACKET)
    with tempfile.TemporaryFile() as lines, tempfile.TemporaryFile() as out, told:
        lines.write(data)
        lines.seek(0)
        with err:
            ended = subprocess.run([program], stdin=stdin or lines, stdout=stdout or out, stderr=err, env=env,
                                   timeout=60, preexec_fn=None if closed is None else lambda: os.close(closed))
        writes = []
        while True:
            write = told.recv(4_096)
            if not write:
                break
            writes.append(write)
        out.seek(0)
        if ended.returncode:
            raise Differs(f"it ended with {ended.returncode}, expected 0")
        return out.read(), writes


def same(got, want):
    if got[1] != want[1]:
        raise Differs(f"on standard error it wrote {got[1]}, expected {want[1]}")
    if got[0] != want[0]:
        at = len(os.path.commonprefix([got[0], want[0]]))
        raise Differs(f"it printed {len(got[0])} bytes, expected {len(want[0])}; from byte {at} on it printed "
                      f"{got[0][at:at + 60]!r}, expected {want[0][at:at + 60]!r}")


def read_error(number):
    return [b"wall: read: error %d\n" % number]


def write_error(number):
    return [b"wall: write: error %d\n" % number]


def plain_cases():
    """Failures that files and devices give: the name of each, how the program is run, and what it must write."""
    root = os.open("/", os.O_RDONLY)
    yield "standard input is a directory", dict(stdin=root), (b"", read_error(21))
    yield "standard input is a directory and standard error is closed", dict(stdin=root, closed=2), (b"", [])
    os.close(root)
    yield "standard input is closed", dict(closed=0), (b"", read_error(9))
    for name, data in (("of refusals", SHORT), ("of a long report", PLAIN), ("of nothing", b"")):
        with open("/dev/full", "wb") as full:
            way = dict(data=data, stdout=full)
            yield f"standard output is a full device, a text {name}", way, (b"", write_error(28))
        yield f"standard output is closed, a text {name}", dict(data=data, closed=1), (b"", write_error(9))
    reader, broken = os.pipe()
    os.close(reader)
    yield ("standard output is a pipe whose reader has gone",
           dict(data=SHORT, stdout=broken), (b"", write_error(32)))
    os.close(broken)
    yield "nothing fails", dict(data=SHORT), (text(SHORT), [])


def shim_cases(shim):
    """Failures, interruptions and short calls by the library, likewise."""
    for data in (SHORT, LONG):
        ends = [k + 1 for k, byte in enumerate(data) if byte == 10]
        for stop in (0, 1, ends[0], ends[1] - 1, ends[1], len(data) // 5, len(data) * 3 // 4, len(data) - 50, ends[-1]):
            yield (f"a read fails after {stop} bytes of {len(data)}", dict(data=data, shim=shim, READ_STOP=stop),
                   (refusals(data[:stop]), read_error(5)))
        want = text(data)
        for stop in (0, 1, 12, 13, 14, len(want) // 2, len(want) - 1):
            for number in (5, 28, 0):
                yield (f"a write fails with {number} after {stop} bytes of {len(want)}",
                       dict(data=data, shim=shim, WRITE_STOP=stop, WRITE_ERROR=number),
                       (want[:stop], write_error(number)))
    for data in (b"", SHORT, LONG, PLAIN):
        want = text(data), []
        yield "every other read is interrupted", dict(data=data, shim=shim, READ_INTERRUPT=1), want
        yield "every other write is interrupted", dict(data=data, shim=shim, WRITE_INTERRUPT=1), want
        for step in (1, 2, 7):
            yield f"writes move {step} bytes", dict(data=data, shim=shim, WRITE_STEP=step), want
            way = dict(READ_STEP=step, READ_INTERRUPT=1, WRITE_STEP=step, WRITE_INTERRUPT=1)
            yield f"calls move {step} bytes, every other is interrupted", dict(data=data, shim=shim, **way), want
    yield ("a write fails among interrupted and short ones",
           dict(data=SHORT, shim=shim, WRITE_STEP=5, WRITE_INTERRUPT=1, WRITE_STOP=15),
           (text(SHORT)[:15], write_error(5)))
    yield ("a read fails among interrupted and short ones",
           dict(data=SHORT, shim=shim, READ_STEP=3, READ_INTERRUPT=1, READ_STOP=20),
           (refusals(SHORT[:20]), read_error(5)))


def compiled(room):
    """The library's path; none where it cannot be compiled."""
    if not shutil.which("cc") or platform.machine() != "x86_64":
        return None
    source, shim = os.path.join(room, "shim.c"), os.path.join(room, "shim.so")
    with open(source, "w") as file:
        file.write(SHIM)
    subprocess.run(["cc", "-O1", "-shared", "-fPIC", "-o", shim, source], check=True)
    return shim


def main():
    program = wall_sessions.built()
    if not program:
        return 1
    count = 0
    with tempfile.TemporaryDirectory() as room:
        shim = compiled(room)
        if not shim:
            print("wall: failures by a library in C are not run, there is no C compiler for x86-64")
        for name, way, want in itertools.chain(plain_cases(), shim_cases(shim) if shim else ()):
            try:
                same(run(program, **way), want)
            except (Differs, subprocess.TimeoutExpired) as wrong:
                print(f"wall: where {name}: {wrong}")
                return 1
            count += 1
    print(f"wall: {count} failures, 0 differ")
    return 0


if __name__ == "__main__":
    sys.exit(main())
