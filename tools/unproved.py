#!/usr/bin/env python3
"""unproved.py OUT NAME: builds a program without proofs, optimised, as the file OUT/NAME, for the scripts ./automizer and ./explain. NAME is the
program's, or begins with that and a dash.

`rt try` makes the whole program into one LLVM module before it compiles it for a run of its own. That module is taken, the try is ended, and the
toolchain's linker compiles what is needed of the module. Says on the error stream what it does. Ends with status 0 where OUT/NAME stands (another
run may have made it meanwhile), and else with 1, and then it has left nothing behind.
"""
import ctypes
import fcntl
import glob
import os
import shutil
import signal
import subprocess
import sys
import tempfile
import time

TOP = os.path.dirname(os.path.dirname(os.path.abspath(__file__)))
# What a program is linked with, as the toolchain's own linker program links it; an archive of its C code and the C library follow the module.
BEFORE = "-m elf_x86_64 -pie --dynamic-linker /lib64/ld-linux-x86-64.so.2 --as-needed -z relro -z now -z noexecstack --eh-frame-hdr --gc-sections"
COMPILED = "--lto-O2 -mllvm -no-trap-after-noreturn -mllvm -trap-unreachable"
# How a file of bitcode begins. The toolchain first compiles a few lines of text, to try its compiler; the program comes as bitcode.
BITCODE = b"BC\xc0\xde"
START = "Scrt1.o crti.o crtbeginS.o"
LIBRARIES = "libm.so.6 libc.so.6 libc_nonshared.a ld-linux-x86-64.so.2 libgcc.a libgcc_s.so.1 crtendS.o crtn.o"
# How long the parts may take, in seconds: far more than they do.
MOST = 3600


class Failed(Exception):
    """Why there is no program."""


def say(program, text):
    print(f"{program}: {text}", file=sys.stderr, flush=True)


class Life:
    """A line on the error stream that tells what is being done and for how long, every few seconds, where that stream is a terminal."""

    def __init__(self, program):
        self.program = program
        self.begun, self.last, self.shows = time.monotonic(), 0.0, sys.stderr.isatty()

    def tell(self, what):
        now = time.monotonic()
        if self.shows and now - self.last >= 2:
            self.last = now
            print(f"\r\x1b[K{self.program}: {what}, {now - self.begun:.0f} s", end="", file=sys.stderr, flush=True)

    def end(self):
        if self.shows:
            print("\r\x1b[K", end="", file=sys.stderr, flush=True)

    def seconds(self):
        return time.monotonic() - self.begun


def ends_with_us(signal_number):
    """What a child runs first: it is sent this signal when this process ends, however it ends."""
    def begin():
        ctypes.CDLL(None).prctl(1, signal_number)
    return begin


def kit():
    """The toolchain's folder: that of the command `rt`."""
    rt = shutil.which("rt")
    if not rt:
        raise Failed("rt, the command of the toolchain, is not in PATH")
    return os.path.dirname(os.path.dirname(os.path.realpath(rt)))


def is_compiling(folder):
    """Whether a compiler works in this folder, so that what it reads is whole."""
    for link in glob.glob("/proc/[0-9]*/cwd"):
        try:
            if os.readlink(link) == folder and os.path.basename(os.readlink(os.path.dirname(link) + "/exe")) == "clang":
                return True
        except OSError:
            # (not ours, or ended)
            pass
    return False


def is_bitcode(module):
    """Whether this file holds bitcode."""
    try:
        with open(module, "rb") as it:
            return it.read(len(BITCODE)) == BITCODE
    except OSError:
        # (gone meanwhile)
        return False


def whole_module(room):
    """The program's module, where a try below this folder has written it to its end."""
    for module in glob.glob(f"{glob.escape(room)}/**/module.bc", recursive=True):
        if is_bitcode(module) and is_compiling(os.path.dirname(os.path.realpath(module))):
            return module
    return None


def make_module(crate, room, life):
    """Has the toolchain make the module of a program, and keeps it as room/program.bc."""
    os.mkdir(f"{room}/try")
    with open(f"{room}/said", "w+b") as said:
        run = subprocess.Popen(["rt", "try"], cwd=crate, env={**os.environ, "TMPDIR": f"{room}/try"}, stdin=subprocess.DEVNULL, stdout=said,
                               stderr=said, start_new_session=True, preexec_fn=ends_with_us(signal.SIGTERM))
        try:
            while run.poll() is None and life.seconds() < MOST:
                module = whole_module(f"{room}/try")
                if module:
                    # (a copy: whoever ends the try may write to the file once more)
                    shutil.copyfile(module, f"{room}/program.bc")
                    return
                life.tell("reading the sources")
                time.sleep(0.2)
        finally:
            stop(run)
        said.seek(0)
        lines = said.read().decode(errors="replace").splitlines()
    raise Failed("rt try made no module: " + "; ".join(lines[-3:]))


def stop(run):
    """Ends a command and all that it started."""
    run.terminate()
    try:
        run.wait(timeout=20)
    except subprocess.TimeoutExpired:
        try:
            os.killpg(run.pid, signal.SIGKILL)
        except ProcessLookupError:
            pass
        run.wait()


def run_tool(words, room, life):
    """Runs a tool of the toolchain to its end."""
    with open(f"{room}/said", "w+b") as said:
        run = subprocess.Popen(words, stdin=subprocess.DEVNULL, stdout=said, stderr=said, preexec_fn=ends_with_us(signal.SIGKILL))
        try:
            while run.poll() is None and life.seconds() < MOST:
                life.tell("compiling the program")
                time.sleep(0.2)
        finally:
            stop(run)
        if run.returncode:
            said.seek(0)
            raise Failed(f"{os.path.basename(words[0])} refused the module: " + said.read().decode(errors="replace").strip()[-300:])


def link(room, life):
    """Compiles what is needed of the module and links it, as room/program."""
    tools = f"{kit()}/toolchain"
    words = [f"{tools}/bin/ld.lld", *BEFORE.split(), *COMPILED.split(), f"--lto-partitions={os.cpu_count() or 1}", "-o", f"{room}/program"]
    words += [f"{tools}/lib/{it}" for it in START.split()] + [f"{room}/program.bc"] + sorted(glob.glob(f"{kit()}/c/lib*_c.a"), reverse=True)
    words += [f"{tools}/lib/{it}" for it in LIBRARIES.split()]
    run_tool(words, room, life)


def read(path):
    with open(path, "rb") as it:
        return it.read()


def answers(crate, program):
    """Whether the program answers as its crate says."""
    words = read(f"{crate}/args").decode().splitlines()
    try:
        ran = subprocess.run([program, *words], cwd=f"{crate}/data", stdin=subprocess.DEVNULL, capture_output=True, timeout=60)
    except (OSError, subprocess.TimeoutExpired):
        return False
    return ran.returncode == 0 and ran.stdout == read(f"{crate}/stdout")


def build(program, out, name):
    crate = f"{TOP}/crates/{program}"
    life = Life(program)
    with tempfile.TemporaryDirectory(prefix="building-", dir=out) as room:
        try:
            make_module(crate, room, life)
            link(room, life)
        finally:
            life.end()
        if not answers(crate, f"{room}/program"):
            raise Failed("the program that was linked does not answer as it should")
        for old in glob.glob(f"{glob.escape(out)}/{program}-*"):
            os.remove(old)
        os.rename(f"{room}/program", f"{out}/{name}")
    return life.seconds()


def main(out, name):
    program = name.split("-")[0]
    for number in (signal.SIGTERM, signal.SIGHUP, signal.SIGINT):
        signal.signal(number, lambda number, _: sys.exit(128 + number))
    # (a lock on the folder itself leaves no file behind)
    lock = os.open(TOP, os.O_RDONLY)
    try:
        fcntl.flock(lock, fcntl.LOCK_EX | fcntl.LOCK_NB)
    except BlockingIOError:
        say(program, "another run of this script is building a program; waiting for it")
        fcntl.flock(lock, fcntl.LOCK_EX)
    if os.path.exists(f"{out}/{name}"):
        return 0
    say(program, "building an optimised program without proofs, once for these sources: some two to four minutes on four processors, and 4 GB of memory")
    try:
        os.makedirs(out, exist_ok=True)
        # Whoever left these was killed, since this run has the lock.
        for left in glob.glob(f"{glob.escape(out)}/building-*/"):
            shutil.rmtree(left, ignore_errors=True)
        say(program, f"built in {build(program, out, name):.0f} s")
        return 0
    except (Failed, OSError) as error:
        say(program, f"that failed: {error}")
        return 1
    finally:
        try:
            # (only where nothing stands in it)
            os.rmdir(out)
        except OSError:
            pass


if __name__ == "__main__":
    sys.exit(main(*sys.argv[1:]))
