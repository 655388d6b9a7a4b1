"""What Tosculai's server and its peers have in common: a process that is started and ended."""

import subprocess

from wire import PATIENCE


def most_memory(pid):
    """The most octets of memory that a process had at once until now (Linux's VmHWM)."""
    with open(f"/proc/{pid}/status", encoding="ascii") as file:
        return next(int(line.split()[1]) * 1024 for line in file if line.startswith("VmHWM:"))


class Server:
    """A server as a process, and its client's connection."""

    process = wire = None

    def launch(self, command, **options):
        """Starts the process; its standard input is empty."""
        self.process = subprocess.Popen(command, stdin=subprocess.DEVNULL, **options)

    def most_memory(self):
        """The most octets of memory that the server had at once until now."""
        return most_memory(self.process.pid)

    def wait(self):
        """Closes the connection, and waits until the server has ended by itself."""
        if self.wire is not None:
            self.wire.close()
        self.process.wait(PATIENCE)

    def stop(self):
        """Ends the server if it is still running, by force if it has to."""
        if self.process is None:
            return
        self.process.terminate()
        try:
            self.wait()
        except subprocess.TimeoutExpired:
            self.process.kill()
            self.process.wait()
        if self.process.stdout is not None:
            self.process.stdout.close()
