"""Instructions of one call, counted by callgrind. They vary little from machine to machine.

A server does some calls and another one none, over copies of one file; the difference is the
calls' part.
"""

import re
import shutil
import tempfile
from pathlib import Path

from cards import rows
from tosculai import Tosculai
from wire import Failure

TIMES = 20  # calls of one kind that are counted together
CALLS = {
    "get-instructions": lambda server, number: server.get(number),
    "put-instructions": lambda server, number: server.put(number, edition=1),
    "page-instructions": lambda server, number: server.page(),
    "tally-instructions": lambda server, number: server.tally(),
    "delete-instructions": lambda server, number: server.delete(number),
    "move-instructions": lambda server, number: server.move(number),
}


def have_valgrind():
    return shutil.which("valgrind") is not None


def count_instructions(program, folder, cards):
    """The instructions of a call of each kind, over a book with this many cards."""
    template = Path(folder) / "template"
    template.mkdir()
    server = Tosculai(program, template)
    try:
        server.start()
        server.load(rows(cards), "staff")
    finally:
        server.stop()
    base = count_run(program, template, None, 0)
    counts = {name: count_run(program, template, call, TIMES) for name, call in CALLS.items()}
    return {name: (count - base) / TIMES for name, count in counts.items()}


def count_run(program, template, call, times):
    """The instructions of a server from start to end, which has this many calls on a connection."""
    with tempfile.TemporaryDirectory(dir=str(template.parent)) as folder:
        copy = Path(folder) / "copy"
        shutil.copytree(str(template), str(copy))
        log = copy / "valgrind.log"
        valgrind = ["valgrind", "--tool=callgrind", "--callgrind-out-file=/dev/null"]
        server = Tosculai(program, copy, before=valgrind + [f"--log-file={log}"])
        try:
            server.start(connections=1)
            server.wire.open()
            for number in range(times):
                call(server, number)
            server.wait()
        finally:
            server.stop()
        counted = re.search(r"Collected\s*:\s*(\d+)", log.read_text())
        if not counted:
            raise Failure(f"valgrind counted nothing: {log.read_text()}")
        return int(counted[1])
