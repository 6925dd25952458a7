#!/usr/bin/env python3
"""Refuses the program one allocation after another, each in a run of its own: refused_memory.py [PROGRAM [STEP]]

`verify` runs on a recursion and on two error words by two workers, `check` on an annotation of a call, and `replay` on a failure at an early return. In the
n-th run of each the n-th allocation fails, until a run makes fewer; with a STEP only every so many numbers are tried. There are some 230,000 of them, of
which `check` and `replay` have a thousand. Each run has to end with its usual output, or with status 6 and nothing written, or
with status 5 and a front of it, where what writes found no memory. Stops at the first that ends otherwise, with status 1. What the program takes from the
system beside allocations, as the room of its threads, is tried by devices.py.

`rt try --fail-alloc N` does the same for one number, and builds the program each time. So a small library is put between the program and the C library
here, by the compiler of the toolchain. It wants the proved program: cd crates/automizer && rt run"""
import concurrent.futures
import os
import pathlib
import shutil
import subprocess
import sys
import tempfile

TOP = pathlib.Path(__file__).resolve().parent.parent
# Counts the calls, and answers none at the one whose number the environment tells; says so by a byte to the file of number 200, which is free.
LIBRARY = r"""
typedef unsigned long size_t;
extern void *__libc_malloc(size_t), *__libc_calloc(size_t, size_t), *__libc_realloc(void *, size_t), *__libc_memalign(size_t, size_t);
extern int *__errno_location(void);
extern char *getenv(const char *);
extern long write(int, const void *, size_t);
static long wanted = -1, made;
static int is_refused(void) {
  long number = __atomic_add_fetch(&made, 1, __ATOMIC_SEQ_CST);
  if (number != wanted) return 0;
  write(200, "r", 1);
  *__errno_location() = 12;
  return 1;
}
__attribute__((constructor)) static void begin(void) {
  char *text = getenv("REFUSED"); long number = 0;
  while (text && *text) number = number * 10 + (*text++ - '0');
  made = 0; wanted = number;
}
void *malloc(size_t n) { return is_refused() ? 0 : __libc_malloc(n); }
void *calloc(size_t n, size_t m) { return is_refused() ? 0 : __libc_calloc(n, m); }
void *realloc(void *p, size_t n) { return is_refused() ? 0 : __libc_realloc(p, n); }
void *memalign(size_t a, size_t n) { return is_refused() ? 0 : __libc_memalign(a, n); }
void *aligned_alloc(size_t a, size_t n) { return is_refused() ? 0 : __libc_memalign(a, n); }
int posix_memalign(void **p, size_t a, size_t n) { if (is_refused()) return 12; *p = __libc_memalign(a, n); return *p ? 0 : 12; }
"""

RECURSION = """procedure main() { var r: int; call r := sum(5); assert r >= 5; }
procedure sum(n: int) returns (s: int)
  ensures s >= n;
{
  if (n <= 0) { s := 0; } else { call s := sum(n - 1); s := s + n; }
}
"""
TWO_WORDS = "procedure main() { var x: int; x := 1; assert x == 1; }\n"
CALL = """var g: int;
procedure main() modifies g; { g := 0; call inc(); assert g <= 1; }
procedure inc() modifies g; { g := g + 1; }
"""
PROOF = """safe
rounds 1
annotation 1
pred 2 main (le 0 1 g:g)
pred 3 inc (le 1 1 g:g -1 o:g)
pred 4 main (le 1 1 g:g)
pred 5 inc (le 0 1 g:g -1 o:g)
triple in 0 1 2 (leaf 0:1 1:1)
triple call 0 2 5 (leaf 0:1 1:-1 2:1)
triple in 5 6 3 (leaf 0:1 1:1 2:1)
triple ret 3 2 3 4 (leaf 0:1 1:1 2:1 3:1 4:1)
triple in 4 5 1 (leaf 0:1 1:1)
node 0 0 0
node 1 1 0
node 2 2 0 2
node 3 5 3 5
node 4 6 3 3
node 5 3 0 4
node 6 4 0
node 7 7 0 1
step 0 0 1
step 1 1 2
step 2 2 3
step 3 6 4
back 4 2 3 5
step 5 4 6
step 5 5 7
end
"""
EARLY_RETURN = """procedure main() { var r: int; call r := f(1); }
procedure f(n: int) returns (r: int) ensures r == n; { r := n; if (n > 0) { r := 0; return; } }
"""
FAILURE = "unsafe\nrounds 0\nassertion 1 line 2\nsteps 8\nvalues 2\n0\n0\n"
# What is run, over which texts, and how its output begins; all of it, where it does not depend on the schedule.
CASES = [
    ("replay", EARLY_RETURN, FAILURE, ["replay", "p", "q"], "replayed assertion 1 line 2\n"),
    ("check", CALL, PROOF, ["check", "p", "q"], "accepted\n"),
    ("verify of two words by two workers", TWO_WORDS, "", ["verify", "p", "--rounds", "1000", "--workers", "2"], "safe\nrounds 2\n"),
    ("verify of a recursion by one worker", RECURSION, "", ["verify", "p", "--workers", "1"], "safe\n"),
    ("verify of a recursion by two workers", RECURSION, "", ["verify", "p", "--workers", "2"], "safe\n"),
]
BATCH = 256


def library(work: pathlib.Path) -> str:
    kit = pathlib.Path(shutil.which("rt") or sys.exit("rt, the command of the toolchain, is not in PATH")).resolve().parent.parent
    source, made = work / "refusing.c", work / "refusing.so"
    source.write_text(LIBRARY)
    tools = kit / "toolchain" / "bin"
    subprocess.run([tools / "clang", "--target=x86_64-unknown-linux-gnu", "-O1", "-fPIC", "-ffreestanding", "-fno-builtin", "-c", "-o", work / "refusing.o", source], check=True)
    subprocess.run([tools / "ld.lld", "-shared", "-o", made, work / "refusing.o"], check=True)
    return str(made)


def run(program, words, work, preload, number):
    """Status, output, what stands on the error stream, and whether the allocation of that number was made, and refused."""
    read, write = os.pipe()
    try:
        ran = subprocess.run([program, *words], cwd=work, stdin=subprocess.DEVNULL, capture_output=True, timeout=300, preexec_fn=lambda: os.dup2(write, 200),
                             close_fds=False, env={**os.environ, "LD_PRELOAD": preload, "REFUSED": str(number)})
    finally:
        os.close(write)
    with os.fdopen(read, "rb") as told:
        return ran.returncode, ran.stdout.decode(), ran.stderr.decode(), told.read() == b"r"


def tried(program, words, work, preload, begins, usual, step):
    """How many allocations were refused in turn, and how the runs ended; the first that ended otherwise is told instead."""
    counts = {}
    numbers, last = iter(range(1, 1 << 40, step)), None
    with concurrent.futures.ThreadPoolExecutor(os.cpu_count() or 1) as pool:
        while last is None:
            batch = [next(numbers) for _ in range(BATCH)]
            for number, (status, text, error, refused) in zip(batch, pool.map(lambda n: run(program, words, work, preload, n), batch)):
                same = status == 0 and (text == usual or begins != usual and text.startswith(begins) and text.endswith("\nend\n"))
                if error or not (same or (status, text) == (6, "") or status == 5 and usual.startswith(text)):
                    return None, f"allocation {number} refused: status {status}, {text!r}, on the error stream {error!r}"
                if not refused:
                    last = last or number
                    continue
                counts[status] = counts.get(status, 0) + 1
    return last, ", ".join(f"{count} with status {status}" for status, count in sorted(counts.items()))


def main() -> int:
    program = os.path.abspath(sys.argv[1]) if len(sys.argv) > 1 else str(TOP / "crates" / "automizer" / "out" / "automizer")
    step = int(sys.argv[2]) if len(sys.argv) > 2 else 1
    with tempfile.TemporaryDirectory() as folder:
        work = pathlib.Path(folder)
        preload = library(work)
        for name, first, second, words, begins in CASES:
            (work / "p").write_text(first)
            (work / "q").write_text(second)
            status, usual, error, _ = run(program, words, work, preload, 0)
            if status != 0 or error or not usual.startswith(begins):
                print(f"{name}: nothing refused: status {status}, {usual!r}, {error!r}")
                return 1
            last, told = tried(program, words, work, preload, begins, usual, step)
            print(f"{name}: {told}", flush=True)
            if last is None:
                return 1
    return 0


if __name__ == "__main__":
    sys.exit(main())
