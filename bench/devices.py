#!/usr/bin/env python3
"""Runs the program where files and the output fail, and where there is little memory: devices.py [PROGRAM]

Each mode is run over devices that fail (a full one, a closed output, a pipe that nobody reads any more, a folder, a file that is missing or may not be
read), over named pipes, and with limits of its memory from too little to ample. The statuses and outputs are those of docs/FORMATS.md: after a failed
read 5 and nothing, after a failed write 5 and a front of the output, without memory 6 and nothing, and else the usual answer; no run ends by a signal,
but for the one that the system sends where a file may not grow, and nothing stands on the error stream. Stops at the first that is otherwise, with
status 1. It wants the proved program:
cd crates/automizer && rt run"""
import os
import pathlib
import resource
import signal
import subprocess
import sys
import tempfile
import threading

TOP = pathlib.Path(__file__).resolve().parent.parent
EXAMPLES = TOP / "examples"
VISITS, FILL, PROOF = EXAMPLES / "verify" / "visits.bpl", EXAMPLES / "check" / "fill.bpl", EXAMPLES / "check" / "fill.proof"
WITHDRAW, FAILURE, COUNTER = EXAMPLES / "replay" / "withdraw.bpl", EXAMPLES / "replay" / "withdraw.failure", EXAMPLES / "print" / "counter.bpl"
# With one worker `verify` is always the same.
MODES = {
    "verify": ["verify", VISITS, "--workers", "1"],
    "check": ["check", FILL, PROOF],
    "replay": ["replay", WITHDRAW, FAILURE],
    "print": ["print", COUNTER],
    "big": ["big", "3", "--workers", "1"],
    "usage": ["nothing"],
}
MORE_WORKERS = {"verify by four": ["verify", VISITS], "big by four": ["big", "20"]}
MB = 1 << 20


class Wrong(Exception):
    """What is otherwise."""


class Tried:
    """How a run ended and what it wrote."""

    def __init__(self, program, words, **how):
        self.words = [str(word) for word in words]
        pipes = {"stdin": subprocess.DEVNULL, "stdout": subprocess.PIPE, "stderr": subprocess.PIPE}
        run = subprocess.run([program, *self.words], timeout=300, **{**pipes, **how})
        self.status, self.text, self.error = run.returncode, run.stdout, run.stderr

    def expect(self, name, allowed):
        """One of these pairs of a status and an output, where None is any."""
        if self.error or not any(self.status == status and (self.text is None or text is None or self.text == text) for status, text in allowed):
            raise Wrong(f"{name}: {' '.join(self.words)}: status {self.status}, {self.text!r}, on the error stream {self.error!r}")


def outputs(program, usual):
    """Outputs that take nothing, or not all."""

    def closes_output():
        os.close(1)

    for name, words in MODES.items():
        whole = usual[name].text
        with open("/dev/full", "wb") as full:
            Tried(program, words, stdout=full).expect("a full device", [(5, None)])
        Tried(program, words, stdout=None, preexec_fn=closes_output).expect("a closed output", [(5, None)])
        with open(os.devnull, "rb") as reading:
            Tried(program, words, stdout=reading).expect("an output that may not be written", [(5, None)])
        read, write = os.pipe()
        os.close(read)
        Tried(program, words, stdout=write).expect("a pipe that nobody reads", [(5, None)])
        os.close(write)
        with tempfile.TemporaryFile() as file:
            # Half of the output fits, and then no byte; the signal that comes with that ends the program, since nothing in it handles signals.
            half = len(whole) // 2
            limit = lambda: resource.setrlimit(resource.RLIMIT_FSIZE, (half, half))
            Tried(program, words, stdout=file, preexec_fn=limit).expect("a file that may not grow", [(5, None), (-signal.SIGXFSZ, None)])
            file.seek(0)
            taken = file.read()
            if not whole.startswith(taken):
                raise Wrong(f"{name}: a file that may not grow took {taken!r}, which is no front of {whole!r}")
        with open(os.devnull, "wb") as nothing:
            Tried(program, words, stdout=nothing).expect("an output that takes all", [(usual[name].status, None)])
        Tried(program, words, stdin=None, preexec_fn=lambda: (os.close(0), os.close(2))).expect(
            "no input and no error stream", [(usual[name].status, whole)])


def inputs(program, usual, work):
    """Names of files that cannot be read, and named pipes."""
    missing, folder, closed, empty = work / "missing", work / "folder", work / "closed", work / "empty"
    folder.mkdir()
    closed.write_bytes(VISITS.read_bytes())
    closed.chmod(0)
    empty.write_bytes(b"")
    names = [missing, folder, empty / "below a file", work / ("n" * 300), work / ("d/" * 3000), ""]
    if os.getuid() != 0:
        names.append(closed)
    for name in names:
        for mode in ("verify", "print", "check", "replay"):
            second = [[], [PROOF]][mode in ("check", "replay")]
            Tried(program, [mode, name, *second]).expect("a program that cannot be read", [(5, b"")])
        Tried(program, ["check", FILL, name]).expect("an annotation that cannot be read", [(5, b"")])
        Tried(program, ["replay", WITHDRAW, name]).expect("a failure that cannot be read", [(5, b"")])
    if os.getuid() == 0:
        # Root may read everything, so another user tries.
        def as_nobody():
            os.setgroups([])
            os.setgid(65534)
            os.setuid(65534)

        work.chmod(0o755)
        open_copy = work / "program"
        open_copy.write_bytes(pathlib.Path(program).read_bytes())
        open_copy.chmod(0o755)
        try:
            for mode in ("verify", "print"):
                Tried(str(open_copy), [mode, closed], preexec_fn=as_nobody).expect("a program that may not be read", [(5, b"")])
        except (PermissionError, subprocess.SubprocessError):
            print("a file that may not be read: not tried, since no other user can be taken")
    Tried(program, ["verify", empty]).expect("a program without bytes", [(3, b"refused NoEntry 1 1\n")])
    Tried(program, ["check", FILL, empty]).expect("an annotation without bytes", [(1, b"rejected 1 Syntax\n")])
    for mode, place in (("verify", 1), ("check", 1), ("check", 2), ("replay", 1), ("replay", 2), ("print", 1)):
        words = list(MODES[mode])
        for text, allowed in ((words[place].read_bytes(), (usual[mode].status, usual[mode].text)), (b"", None)):
            pipe = work / "pipe"
            os.mkfifo(pipe)

            def feed():
                with open(pipe, "wb", buffering=0) as writing:
                    for begin in range(0, len(text), 7):
                        try:
                            writing.write(text[begin : begin + 7])
                        except BrokenPipeError:
                            return

            writer = threading.Thread(target=feed)
            writer.start()
            tried = Tried(program, words[:place] + [pipe] + words[place + 1 :])
            writer.join()
            pipe.unlink()
            nothing = (1, b"rejected 1 Syntax\n") if place == 2 else (0, b"") if mode == "print" else (3, b"refused NoEntry 1 1\n")
            tried.expect("a named pipe", [allowed or nothing])


def starts(program, limit):
    """Whether a run with this limit comes as far as the program itself: the loader needs memory, too."""

    def limited():
        resource.setrlimit(resource.RLIMIT_AS, (limit, limit))

    run = subprocess.run([program, "nothing"], stdin=subprocess.DEVNULL, capture_output=True, preexec_fn=limited)
    return run.returncode == 4


def memory(program, usual):
    """Limits of the address space, from the least with which the program begins."""
    least = MB
    while not starts(program, least):
        least += MB // 8
        if least > 1 << 31:
            raise Wrong("the program begins with no memory of 2 GB or less")
    print(f"the program begins with {least / MB:.1f} MB of address space")
    limits = [least + (MB // 4) * step for step in range(40)] + [least + MB * step for step in range(10, 160, 5)] + [MB << power for power in range(8, 13)]
    for name, words in {**MODES, **MORE_WORKERS}.items():
        suffices = None
        for limit in limits:
            tried = Tried(program, words, preexec_fn=lambda: resource.setrlimit(resource.RLIMIT_AS, (limit, limit)))
            # Which words several workers take, and so an annotation, may differ.
            answer = (usual[name].status, usual[name].text)
            if name == "verify by four" and tried.text.startswith(b"safe\nrounds "):
                answer = 0, None
            tried.expect(f"{limit / MB:.1f} MB", [(6, b""), answer])
            if tried.status != 6 and suffices is None:
                suffices = limit
        last = Tried(program, words, preexec_fn=lambda: resource.setrlimit(resource.RLIMIT_AS, (1 << 32, 1 << 32)))
        if last.status == 6:
            raise Wrong(f"{name}: 4 GB do not suffice")
        print(f"{name}: {f'{suffices / MB:.1f}' if suffices else 'more'} MB suffice", flush=True)


def main() -> int:
    program = os.path.abspath(sys.argv[1]) if len(sys.argv) > 1 else str(TOP / "crates" / "automizer" / "out" / "automizer")
    try:
        usual = {name: Tried(program, words) for name, words in {**MODES, **MORE_WORKERS}.items()}
        wanted = {"verify": 0, "check": 0, "replay": 0, "print": 0, "big": 0, "usage": 4, "verify by four": 0, "big by four": 0}
        for name, status in wanted.items():
            usual[name].expect("nothing fails", [(status, None)])
        outputs(program, usual)
        print("outputs that fail: as they should be", flush=True)
        with tempfile.TemporaryDirectory() as work:
            inputs(program, usual, pathlib.Path(work))
        print("names of files and named pipes: as they should be", flush=True)
        memory(program, usual)
    except Wrong as wrong:
        print(wrong)
        return 1
    return 0


if __name__ == "__main__":
    sys.exit(main())
