"""Refuses each allocation of built programs in turn, and checks the outcome.

    memory.py [PROGRAM]            the cases of the part `memory` of
                                   crates/test_all/out/test_all
    memory.py --program CONTACTS   orders of the built program `contacts` over files
    --short                        only each 50th allocation
    --jobs N                       parallel processes; by default the number of processors
    --only TEXT                    only the cases whose names contain the text

An allocation is a call of malloc, calloc or realloc. `refuse.c`, which is built with `cc` and
preloaded, refuses one: the n-th alone, and in another run the n-th and all later ones. Each is a
separate run of the program, which gets one case on its standard input: it prepares the case, writes
the case's name, makes the one call in which allocations are refused, writes `: `, and checks the
state, with nothing refused any more. So the shim recognizes the call by the program's standard
output, and the program needs no support for refusals. Of `contacts` all allocations of the process
are refused in turn, from its start on.

The line of a case has the number of its allocations (growths), and of its runs, two for each
allocation, the numbers that reported out of memory, that gave the result without refusals, and that
are findings. The status is 1 if there is a finding: a line that begins with `**`, another answer, a
signal, an unexpected status, or text on standard error. For `contacts`, status 3 with
`fault no-memory 20` or `fault open 6` and nothing printed is out of memory; the file must then have
the books before the order, which is repeated, or those after it.
"""

import argparse
import collections
import multiprocessing
import os
import pathlib
import subprocess
import sys
import tempfile

sys.dont_write_bytecode = True
from programs import Cases, Orders  # noqa: E402

HERE = pathlib.Path(__file__).resolve().parent
PROGRAM = HERE.parent / "crates/test_all/out/test_all"
SHOWN = 5
KEPT = None


def run_task(task):
    """The outcome of a run with one refused allocation. It is run in a forked process."""
    name, at, later = task
    kind, ran = KEPT.outcome(name, at, later)
    return at, later, kind, ran


def built(folder):
    shim = pathlib.Path(folder) / "refuse.so"
    words = ["cc", "-O2", "-shared", "-fPIC", "-o", str(shim), str(HERE / "refuse.c")]
    subprocess.run(words, check=True)
    return shim


def places(found):
    """The refused allocations as a short text."""
    texts = [f"{at}{' and later' if later else ''}" for at, later in sorted(found)]
    return ", ".join(texts[:SHOWN]) + (" .." if len(texts) > SHOWN else "")


def swept(name, step, jobs):
    """Refuses each allocation of the case, prints its line, and returns its counts."""
    growths, kind = KEPT.growths(name)
    counts = collections.Counter(cases=1, growths=growths)
    if kind != "same":
        print(f"** {name}: another result although nothing is refused")
        counts["finding"] = 1
        return counts
    tasks = [(name, at, later) for at in range(1, growths + 1, step) for later in (False, True)]
    same, findings = [], []
    with multiprocessing.get_context("fork").Pool(jobs) as pool:
        for at, later, kind, ran in pool.imap_unordered(run_task, tasks, 16):
            counts[kind] += 1
            if kind == "same":
                same.append((at, later))
            elif kind == "finding":
                findings.append((at, later, ran))
    line = f"{name}: {growths} growths, {counts['no memory']} answered out of memory, "
    line += f"{counts['same']} as without refusal, findings {counts['finding']}"
    print(line + (f"; as without refusal: {places(same)}" if same else ""))
    for at, later, ran in sorted(findings, key=lambda found: found[:2])[:SHOWN]:
        print(f"** {name}, growth {at}{' and later' if later else ''}: {ran}")
    sys.stdout.flush()
    return counts


def main():
    global KEPT
    parser = argparse.ArgumentParser(description=__doc__.splitlines()[0])
    parser.add_argument("refused", nargs="?", default=PROGRAM)
    parser.add_argument("--program")
    parser.add_argument("--short", action="store_true")
    parser.add_argument("--jobs", type=int, default=os.cpu_count())
    parser.add_argument("--only", default="")
    given = parser.parse_args()
    program = pathlib.Path(given.program or given.refused).resolve()
    if not program.is_file():
        sys.exit(f"{program} isn't built: `rt run` in its crate builds it")
    counts = collections.Counter()
    with tempfile.TemporaryDirectory() as folder:
        shim = built(folder)
        KEPT = Orders(str(program), shim, folder) if given.program else Cases(str(program), shim)
        for name in KEPT.names():
            if given.only in name:
                counts += swept(name, 50 if given.short else 1, given.jobs)
    print(
        f"{counts['cases']} cases, {counts['growths']} growths, {counts['no memory']} answered out "
        f"of memory, {counts['same']} as without refusal, findings {counts['finding']}"
    )
    return 1 if counts["finding"] or not counts["cases"] else 0


if __name__ == "__main__":
    sys.exit(main())
