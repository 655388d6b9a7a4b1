"""Runs the blocks of shell commands of a page, as a reader would, and compares what they print.

A block `console` is a session: lines that begin with `$ ` are commands, and below each is what it
prints. A block `sh` has commands alone; if the text after it says that they print something, the
next block is their output. All blocks of a page run in their order, in one folder, in which
`contacts` is the program. A block whose fence says more than that, as `sh root`, isn't run.
"""

import os
import re
import shutil
import signal
import subprocess
from collections import namedtuple

from program import PATIENCE, PROGRAM, ROOT, free_port

# A command and the text that it prints.
Step = namedtuple("Step", "command prints line")

# The port of the pages, and how many others are tried in its place.
PORT = "8080"
# What a reader's machine may lack.
TOOLS = ["curl", "jq", "sqlite3"]
# What isn't run here: the tests themselves, and what builds, proves, measures or installs.
LEFT_OUT = re.compile(r"(\./test|tools/|\.ci/|perf/|python3 perf|rt|git|cd|apt-get|systemctl)\b")
# Between a block of commands and a block of what they print.
PRINTS = re.compile(r"\bprints?:?\s*$")


def steps_of(page):
    """All steps of a page that can be run."""
    steps = []
    blocks = page.blocks()
    for block, following in zip(blocks, [*blocks[1:], None]):
        if block.info == "console" or (block.info == "" and block.text.startswith("$ ")):
            steps += session(block)
        elif block.info == "sh":
            commands = [line for line in block.text.splitlines() if line]
            if not any(LEFT_OUT.match(line) for line in commands):
                steps.append(Step(f"(set -eu\n{block.text})", printed(page, following), block.line))
    return [step for step in steps if not LEFT_OUT.match(step.command)]


def session(block):
    """The steps of a session, each command with the lines up to the next one."""
    steps = []
    for number, line in enumerate(block.text.splitlines(), block.line):
        if line.startswith("$ "):
            steps.append(Step(line[2:], "", number))
        else:
            last = steps.pop()
            steps.append(last._replace(prints=last.prints + line + "\n"))
    return steps


def printed(page, block):
    """What commands print by the block after them, or None if that block is something else."""
    if block is None or block.info:
        return None
    before = "\n".join(page.text.splitlines()[: block.line - 2])
    return block.text if PRINTS.search(before) else None


def missing_tools(steps):
    """The tools that these steps use and this machine lacks."""
    used = [tool for tool in TOOLS if any(re.search(rf"\b{tool}\b", it.command) for it in steps)]
    return [tool for tool in used if not shutil.which(tool)]


class Shell:
    """A shell in a folder with the program, examples and clients. 8080 is another port there."""

    def __init__(self, folder):
        self.port = str(free_port())
        (folder / "contacts").symlink_to(PROGRAM)
        for name in "examples", "clients":
            (folder / name).symlink_to(ROOT / name)
        (folder / ".curlrc").write_text("silent\nshow-error\n")
        path = f"{folder}{os.pathsep}{os.environ.get('PATH', os.defpath)}"
        self.process = subprocess.Popen(
            ["sh"],
            cwd=folder,
            env={**os.environ, "PATH": path, "CURL_HOME": str(folder), "LC_ALL": "C"},
            stdin=subprocess.PIPE,
            stdout=subprocess.PIPE,
            stderr=subprocess.STDOUT,
            start_new_session=True,
        )

    def __enter__(self):
        return self

    def __exit__(self, *_):
        self._kill()
        self.process.communicate()

    def run(self, step):
        """What the step prints, standard error included, and its status.

        For a command in the background: as many lines as the page shows, and no status.
        """
        command = step.command.replace(PORT, self.port)
        if command.endswith("&"):
            self._send(f"{command}\n")
            lines = [self._line() for _ in step.prints.splitlines()]
            return self._text(b"".join(lines)), None
        self._send(f"{{ {command}\n}} < /dev/null\nprintf '\\nended %s\\n' $?\n")
        octets = b""
        while True:
            line = self._line()
            ended = re.fullmatch(rb"ended (\d+)\n", line)
            if ended or not line:
                # Before the mark there is a line end of its own.
                return self._text(octets[:-1]), int(ended[1]) if ended else None
            octets += line

    def _send(self, text):
        self.process.stdin.write(text.encode())
        self.process.stdin.flush()

    def _line(self):
        """The next line that is printed; empty if the shell ends, or prints nothing for long.

        Then the shell is killed, and with it the command that never ends.
        """
        before = signal.signal(signal.SIGALRM, self._kill)
        signal.alarm(PATIENCE)
        try:
            return self.process.stdout.readline()
        finally:
            signal.alarm(0)
            signal.signal(signal.SIGALRM, before)

    def _kill(self, *_):
        """Ends the shell and all that it started."""
        try:
            os.killpg(self.process.pid, signal.SIGKILL)
        except ProcessLookupError:
            pass

    def _text(self, octets):
        text = octets.decode()
        text += "" if text.endswith("\n") or not text else "\n"
        return text.replace(self.port, PORT)
