"""Runs the mutants that the gate doesn't run: edits.py [CRATE..]

Each `edits/CRATE/NAME.edit` makes the code of that crate wrong, in the format of the edits under
`crates/CRATE/must-fail/`. The prover must refuse it. The gate runs only the edits that
break a rule of the promise, or the meaning of a statement for the books, since each takes half a
minute or more, and the first one of a crate also the crate's whole proof.

They are run in a copy of the repository, including the crates' `out/` folders, so that libraries
that are built here aren't built again there. The status is 1 if an edit isn't refused or can't be
applied.
"""

import pathlib
import shutil
import subprocess
import sys
import tempfile

ROOT = pathlib.Path(__file__).resolve().parent.parent
EDITS = ROOT / "sweeps" / "edits"


def main():
    names = sys.argv[1:] or sorted(it.name for it in EDITS.iterdir())
    for name in names:
        if not (EDITS / name).is_dir():
            sys.exit(f"sweeps/edits has no edits of a crate {name}")
    with tempfile.TemporaryDirectory(prefix="edits-") as room:
        copy = pathlib.Path(room) / "copy"
        shutil.copytree(ROOT, copy, ignore=shutil.ignore_patterns(".git"))
        failed = 0
        for name in names:
            shutil.rmtree(copy / "crates" / name / "must-fail", ignore_errors=True)
            shutil.copytree(EDITS / name, copy / "crates" / name / "must-fail")
            failed += bool(subprocess.run(["rt", "must-fail", name], cwd=copy).returncode)
    print(f"{failed} crates have edits that are not refused" if failed else "each edit is refused")
    return 1 if failed else 0


sys.exit(main())
