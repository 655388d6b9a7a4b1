"""Programs that are started without standard input, output or error.

The system gives the number of a closed stream to the next file or socket. What is printed must not
get there.
"""

import os
import unittest

from http_requests import put
from order_trials import OrderTest
from program import Server, run

VCARD = "BEGIN:VCARD\r\nVERSION:3.0\r\nUID:a\r\nFN:Ann\r\nEND:VCARD\r\n"


class ClosedStreams(OrderTest):
    def without(self, *streams):
        def close():
            for stream in streams:
                os.close(stream)
        return close

    def test_convert(self):
        """Standard input and standard error are closed; the rows are written to a file."""
        self.write({"x.vcf": VCARD})
        wanted = run("convert", "--rows", "1", "x.vcf", cwd=self.folder)
        rows = (self.folder / "x-1.csv").read_bytes()
        (self.folder / "x-1.csv").unlink()
        self.assertNotEqual(b"", wanted.err)
        ended = run("convert", "--rows", "1", "x.vcf", cwd=self.folder, input=None,
                    preexec_fn=self.without(0, 2))
        self.assertEqual((3, b""), (ended.status, ended.out))
        written = self.folder / "x-1.csv"
        if written.exists():
            self.assertTrue(rows.startswith(written.read_bytes()))

    def test_log(self):
        """The listening socket isn't standard error."""
        self.make_books()
        with Server(self.folder / "a.db", order="run", more=["--log", "--host", "office"],
                    preexec_fn=self.without(0, 2)) as server:
            for status in b"201", b"200":
                self.assertEqual(b"HTTP/1.1 " + status,
                                 server.ask(put("staff", "a", "Ann"))[:12])
            self.assertEqual(b"", server.stop().err)

    def test_orders(self):
        """With all three closed, no order writes into the file of books."""
        self.make_books()
        for arguments, status in [(["tally", "a.db", "staff"], 3), (["tally", "a.db", "none"], 1),
                                  (["book", "a.db", "staff"], 1)]:
            ended = run(*arguments, cwd=self.folder, input=None, preexec_fn=self.without(0, 1, 2))
            self.assertEqual((status, b"", b""), ended)
        self.assertEqual(0, run("verify", "a.db", cwd=self.folder).status)


if __name__ == "__main__":
    unittest.main()
