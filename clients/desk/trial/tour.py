"""The office that examples/office.sh leaves: the script runs as it is, and its file is served."""

import shlex
import shutil
import subprocess

from office import ROOT, Office

# The script removes its folder at its end. So this keeps the file after each order.
KEEPING = """\
#!/bin/sh
[ "$1" = serve ] && exec {program} "$@"
{program} "$@"
ended=$?
[ ! -e office.db ] || {{ rm -f {kept}/*; cp office.db* {kept}/; }}
exit $ended
"""


class Tour(Office):
    """An office whose books and cards are those of examples/office.sh."""

    def begin(self):
        kept, program = self.folder / "kept", self.folder / "contacts"
        kept.mkdir()
        names = {"program": shlex.quote(str(self.program)), "kept": shlex.quote(str(kept))}
        program.write_text(KEEPING.format(**names))
        program.chmod(0o755)
        ran = subprocess.run(
            ["sh", ROOT / "examples/office.sh", program],
            stdout=subprocess.PIPE, stderr=subprocess.STDOUT, text=True,
        )
        if ran.returncode:
            raise AssertionError(f"examples/office.sh: {ran.stdout}")
        for part in kept.iterdir():
            shutil.copy(part, self.folder)

    def curl(self, user, path, *words):
        """What curl prints for a request of a user; a refusal is an error."""
        ran = subprocess.run(
            ["curl", "-sS", "--fail-with-body", "--cacert", self.folder / "office.pem",
             "-u", f"{user}:{user}-pw", "-H", "Expect:", *words, f"{self.front}books{path}"],
            stdout=subprocess.PIPE, stderr=subprocess.STDOUT,
        )
        if ran.returncode:
            raise AssertionError(f"curl {path}: {ran.stdout}")
        return ran.stdout.decode()
