"""Commands whose standard error is a terminal."""

import os
import pty
import subprocess

from program import PROGRAM


def read_all(terminal):
    """What was written to the terminal, whose other side is closed."""
    octets = b""
    while True:
        try:
            some = os.read(terminal, 65_536)
        except OSError:
            return octets
        if not some:
            return octets
        octets += some


def run_at_terminal(*arguments, cwd, **options):
    """The status and the output of a command, and what it said on the terminal."""
    terminal, side = pty.openpty()
    try:
        with subprocess.Popen([PROGRAM, *arguments], **{
                "stdin": subprocess.DEVNULL, "stdout": subprocess.PIPE, "stderr": side,
                "cwd": cwd, **options}) as process:
            os.close(side)
            output = process.stdout.read() if process.stdout else b""
        return process.returncode, output, read_all(terminal).replace(b"\r\n", b"\n")
    finally:
        os.close(terminal)
