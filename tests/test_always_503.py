"""A server that always answers 503 is within its contracts: the suite's checks have to fail on it.

Modules of the suite are run over `always_503.py` in place of the program. Over the program itself
they pass, as a part of the suite.
"""

import os
import re
import subprocess
import sys
import unittest
from pathlib import Path

from program import PROGRAM

TESTS = Path(__file__).resolve().parent
# A worked history, request by request, and each refusal.
MODULES = ["test_worked_rows", "test_refusals"]


class Always503(unittest.TestCase):
    def test_the_checks_fail(self):
        for module in MODULES:
            with self.subTest(module):
                status, printed = self.run_over_503(module)
                self.assertEqual(1, status, printed)
                failed = re.search(r"^FAILED \(failures=(\d+)(, skipped=\d+)?\)$", printed, re.MULTILINE)
                self.assertIsNotNone(failed, printed[-2000:])
                # Each of them failed for its 503.
                reasons = re.findall(r"^AssertionError: .*\b503 Service", printed, re.MULTILINE)
                self.assertEqual(int(failed[1]), len(reasons))
                self.assertGreater(len(reasons), 10)

    def run_over_503(self, module):
        """The status of the module's tests over the stand-in, and what they printed."""
        done = subprocess.run(
            [sys.executable, "-m", "unittest", module],
            cwd=TESTS,
            env={**os.environ, "CONTACTS": str(TESTS / "always_503.py"), "BEHIND": PROGRAM},
            stdin=subprocess.DEVNULL,
            stdout=subprocess.PIPE,
            stderr=subprocess.STDOUT,
            text=True,
            errors="backslashreplace",
        )
        return done.returncode, done.stdout


if __name__ == "__main__":
    unittest.main()
