"""How orders end if a device, a connection or memory fails, or a disk is full.

What must be reported and left is what docs/OPERATING.md says: `fault device 1` if a file of rows,
the port, or standard input or output can't be used; changes remain if they can't be printed; a
failure of standard error changes nothing.
"""

import os
import resource
import shutil
import subprocess
import unittest
from functools import lru_cache
from pathlib import Path

import order_rows as rows
from card_rows import ANN
from dialogue import reset
from http_requests import books, get, request
from office_files import log_of, make, serve, up_to
from order_trials import FIRST_STAFF, FIVE_CHANGES, NEEDS_STRICT, OrderTest, numbered
from program import PATIENCE, PROGRAM, Ended, Folder, Server, run

DEVICE = Ended(3, b"", b"fault device 1\n")
NO_MEMORY = Ended(3, b"", b"fault no-memory 20\n")
NO_MEMORY_TO_OPEN = Ended(3, b"", b"fault open 6\n")
STORE_FAULT = Ended(3, b"", b"fault store-fault 19\n")
ROWS_MAX = 8_388_608  # the most octets of a file of rows
FULL = "/dev/full"
NOBODY = 65_534

# Orders that print something, each of them in the file a.db after five changes of staff.
READING = ["tally a.db staff", "export a.db staff", "export a.db staff --form columns",
           "mirror a.db staff", "serve a.db"]
# Orders that change a file, and what shows afterwards that it was changed.
CHANGING = [
    ("init new.db", rows.refused("tally new.db staff", "no-such-book 1")),
    ("book a.db more", rows.refused("book a.db more", "book-exists 2")),
    ("import a.db staff k three.csv",
     rows.done("import a.db staff k header.csv", "new 3 edited 0 same 0 number 8\n")),
    ("forget a.db staff 5", rows.done("forget a.db staff 5", "dropped 0 horizon 5\n")),
]


@lru_cache(maxsize=None)
def five_changes():
    """The octets of a.db and its log after five changes of staff, by their names."""
    with Folder() as folder:
        serve(make(folder / "a.db", "staff"), *FIVE_CHANGES)
        return {it.name: it.read_bytes() for it in folder.iterdir()}


class FaultTest(OrderTest):
    """A test with a.db, in which staff has had five changes, and files of rows."""

    def setUp(self):
        super().setUp()
        self.write(rows.IMPORTS_FILES)
        for name, octets in five_changes().items():
            (self.folder / name).write_bytes(octets)
        self.file = self.folder / "a.db"

    def run_here(self, arguments, **options):
        return run(*arguments.split(), cwd=self.folder, **options)

    def run_full(self, arguments):
        """Runs it with standard output on a device without room."""
        with open(FULL, "wb") as full:
            status, _, err = self.run_here(arguments, stdout=full)
        return Ended(status, b"", err)

    def run_closed(self, arguments):
        """Runs it with standard output closed."""
        return self.run_here(arguments, preexec_fn=lambda: os.close(1))


@unittest.skipUnless(os.path.exists(FULL), f"there is no {FULL}")
class Outputs(FaultTest):
    def test_nothing_can_be_printed(self):
        for arguments in READING:
            for fail in self.run_full, self.run_closed:
                with self.subTest(arguments, fail=fail.__name__):
                    self.assertEqual(DEVICE, fail(arguments))
        self.run_rows(rows.FIVE_CHANGES)

    def test_changes_stay_where_they_cannot_be_printed(self):
        for arguments, shown in CHANGING:
            with self.subTest(arguments):
                self.assertEqual(DEVICE, self.run_full(arguments))
                self.run_rows([shown])

    def test_changes_stay_where_output_is_closed(self):
        for arguments, shown in CHANGING:
            with self.subTest(arguments):
                self.assertEqual(DEVICE, self.run_closed(arguments))
                self.run_rows([shown])

    @NEEDS_STRICT
    def test_migration_stays_where_it_cannot_be_printed(self):
        for number, fail in enumerate([self.run_full, self.run_closed]):
            self.lay(f"first{number}.db", FIRST_STAFF)
            self.assertEqual(DEVICE, fail(f"migrate first{number}.db"))
            self.run_rows([rows.fault(f"migrate first{number}.db", "open 3")])

    def test_groups_that_cannot_be_printed(self):
        self.write(rows.GROUPS_FILES)
        making = rows.GROUPS[:3]
        self.run_rows(making)
        self.assertEqual(DEVICE, self.run_full("expand g.db staff g"))
        # There is nothing to print.
        self.assertEqual(Ended(0, b"", b""), self.run_full("expand g.db staff none"))

    def test_refusals_print_nothing(self):
        for arguments, err in [("book a.db staff", b"refused book-exists 2\n"),
                               ("export a.db nobody", b"refused no-such-book 1\n")]:
            self.assertEqual(Ended(1, b"", err), self.run_full(arguments))
            self.assertEqual(Ended(1, b"", err), self.run_closed(arguments))

    def test_standard_error_changes_nothing(self):
        for arguments, status in [("tally none.db staff", 3), ("book a.db staff", 1), ("tell", 2),
                                  ("--help", 2)]:
            with self.subTest(arguments), open(FULL, "wb") as full:
                self.assertEqual((status, b""), self.run_here(arguments, stderr=full)[:2])
                closed = self.run_here(arguments, preexec_fn=lambda: os.close(2))
                self.assertEqual(Ended(status, b"", b""), closed)
        closed = self.run_here("tally a.db staff", preexec_fn=lambda: os.close(2))
        self.assertEqual(Ended(0, rows.FIVE_CHANGES_TALLY.encode(), b""), closed)

    def test_all_streams_closed(self):
        """No file that the program opens is taken for a stream that is closed."""
        def close_all():
            for stream in 0, 1, 2:
                os.close(stream)

        for arguments, status in [("tally a.db staff", 3), ("book a.db staff", 1), ("tell", 2),
                                  ("forget a.db staff 9", 1), ("try", 3), ("serve a.db", 3)]:
            ended = self.run_here(arguments, input=None, preexec_fn=close_all)
            self.assertEqual(Ended(status, b"", b""), ended, arguments)
        self.run_rows(rows.FIVE_CHANGES)

    def test_reader_that_goes(self):
        """As `head -c 1` goes: no signal ends the program."""
        self.write({"many.csv": numbered(0, 9_000)})
        self.run_here("import a.db staff k many.csv")
        for form in "cards", "columns":
            process = subprocess.Popen(
                [PROGRAM, "export", "a.db", "staff", "--form", form], cwd=self.folder,
                stdin=subprocess.DEVNULL, stdout=subprocess.PIPE, stderr=subprocess.PIPE, bufsize=0)
            self.assertEqual(b"u", process.stdout.read(1))
            process.stdout.close()
            with process.stderr:
                self.assertEqual(b"fault device 1\n", process.stderr.read())
            self.assertEqual(3, process.wait(PATIENCE))


class Rows(FaultTest):
    """Files of rows that can't be used, and the largest one that can."""

    def test_no_file(self):
        (self.folder / "folder.csv").mkdir()
        (self.folder / "loop.csv").symlink_to("loop.csv")
        for csv in "none.csv", "folder.csv", "no/rows.csv", "three.csv/", "loop.csv":
            self.run_rows([rows.fault(f"import a.db staff k {csv}", "device 1")])
        self.run_rows([
            rows.fault(["import", "a.db", "staff", "k", ""], "device 1"),
            # The file of books is opened first.
            rows.fault("import none.db staff k none.csv", "open 1"),
            rows.fault("import three.csv staff k none.csv", "open 2"),
        ])

    def test_no_right(self):
        """Root may read every file: then the program runs as user nobody, who owns the folder."""
        (self.folder / "three.csv").chmod(0)
        if os.geteuid() != 0:
            ended = self.run_here("import a.db staff k three.csv")
        else:
            program = shutil.copy(PROGRAM, self.folder / "contacts")
            for it in [self.folder, *self.folder.iterdir()]:
                os.chown(it, NOBODY, NOBODY)
            try:
                ended = self.run_here("import a.db staff k three.csv", executable=str(program),
                                      preexec_fn=lambda: os.setuid(NOBODY))
            except (PermissionError, subprocess.SubprocessError) as error:
                self.skipTest(f"nobody can't run the program here: {error}")
        self.assertEqual(DEVICE, ended)

    @unittest.skipUnless(os.path.exists("/proc/self/mem"), "no file is known whose reading fails")
    def test_reading_fails(self):
        self.run_rows([rows.fault("import a.db staff k /proc/self/mem", "device 1")])

    def test_most_octets(self):
        """The longest file is read; one that has an octet more isn't, whatever it holds."""
        three = (self.folder / "three.csv").read_bytes()
        for name, octets in [
                ("most.csv", ROWS_MAX * b"x"), ("more.csv", (ROWS_MAX + 1) * b"x"),
                # Empty lines are no rows.
                ("most-cards.csv", three.ljust(ROWS_MAX, b"\n")),
                ("more-cards.csv", three.ljust(ROWS_MAX + 1, b"\n"))]:
            (self.folder / name).write_bytes(octets)
        self.run_rows([
            rows.refused("import a.db staff n most.csv", "bad-import 14"),
            rows.fault("import a.db staff n more.csv", "device 1"),
            rows.fault("import a.db staff n more-cards.csv", "device 1"),
            rows.done("import a.db staff n most-cards.csv", "new 3 edited 0 same 0 number 8\n"),
            rows.fault("import a.db staff n /dev/zero", "device 1"),
        ])

    def test_rows_from_a_pipe(self):
        arguments = "import a.db staff {} /dev/stdin"
        said = b"new 3 edited 0 same 0 number 8\n"
        three = (self.folder / "three.csv").read_bytes()
        self.assertEqual(Ended(0, said, b""), self.run_here(arguments.format("k"), input=three))
        self.assertEqual(DEVICE, self.run_here(arguments.format("l"), input=(ROWS_MAX + 1) * b"x"))


class Connections(FaultTest):
    """Connections that `serve` aborts. The others are served; the first fault is reported last."""

    def assert_served(self, server):
        self.assertIn(b'"name":"staff"', server.ask(books()))

    def assert_ended(self, server, number):
        port = server.address[1]
        err = b"fault serve %d\n" % number
        self.assertEqual(Ended(3, b"listening 127.0.0.1:%d\n" % port, err), server.end())

    def break_off(self, server):
        """A client that breaks off in the middle of a request."""
        with server.connect() as connection:
            connection.send(b"GET /books HTTP/1.1\r\nHo")
            reset(connection)

    def go_early(self, server):
        """A client that goes while its replies are written, which are more than sockets hold."""
        with server.connect() as connection:
            connection.send(100 * get("staff", "long"))
            connection.take(1)
            reset(connection)

    def put_long_card(self):
        text = rows.card("long", "Long", "NOTE:" + 200_000 * "x")
        self.change("a.db", [request("PUT", "/books/staff/cards/long", text)])

    def test_broken_off(self):
        with Server(self.file, 3) as server:
            self.assert_served(server)
            self.break_off(server)
            self.assert_served(server)
            self.assert_ended(server, 1)

    def test_gone_early(self):
        self.put_long_card()
        with Server(self.file, 2) as server:
            self.go_early(server)
            self.assert_served(server)
            self.assert_ended(server, 2)

    def test_first_of_two_faults(self):
        self.put_long_card()
        with Server(self.file, 3) as server:
            self.go_early(server)
            self.break_off(server)
            self.assert_served(server)
            self.assert_ended(server, 2)

    @unittest.skipUnless(hasattr(resource, "prlimit"), "another process can't be limited here")
    def test_no_memory(self):
        """A body has no room; the next connection is served."""
        with Server(self.file, 3) as server:
            self.assert_served(server)
            pid = server.process.pid
            pages = int(Path(f"/proc/{pid}/statm").read_text().split()[0])
            _, most = resource.prlimit(pid, resource.RLIMIT_AS)
            room = pages * resource.getpagesize() + (1 << 20)
            resource.prlimit(pid, resource.RLIMIT_AS, (room, most))
            body = 8_388_608 * b"x"
            self.assertEqual(b"", server.ask(request("PUT", "/books/staff/cards/a", body)))
            self.assert_served(server)
            self.assert_ended(server, 4)
        self.run_rows(rows.FIVE_CHANGES)


class Memory(FaultTest):
    """Less and less memory: an order is done, or says that memory ran out."""

    MOST = 1 << 14  # pages of memory, with which each of these orders is done

    @staticmethod
    def limited(octets):
        def limit():
            resource.setrlimit(resource.RLIMIT_CORE, (0, 0))
            resource.setrlimit(resource.RLIMIT_AS, (octets, octets))

        return limit

    def run_within(self, arguments, pages):
        limit = self.limited(pages * resource.getpagesize())
        return self.run_here(arguments, input=ANN.encode(), preexec_fn=limit)

    def least(self, arguments, is_enough):
        """The least number of pages with which the order ends so."""
        low, high = 0, self.MOST
        while high - low > 1:
            middle = (low + high) // 2
            if is_enough(self.run_within(arguments, middle)):
                high = middle
            else:
                low = middle
        return high

    def outcomes(self, arguments, status=0, count=12):
        """How an order ends, from the least memory with which a program starts up to enough for it.

        With less memory the program isn't started: the loader reports it, or a signal ends it.
        """
        least = self.least("--help", lambda ended: ended.status in range(4))
        enough = self.least(arguments, lambda ended: ended.status == status)
        self.assertLess(least, enough)
        step = max(1, (enough - least) // count)
        return [self.run_within(arguments, pages) for pages in range(least, enough, step)]

    def test_arguments(self):
        self.assertEqual({NO_MEMORY}, set(self.outcomes("--help", status=2)))

    def test_try(self):
        self.assertEqual({NO_MEMORY}, set(self.outcomes("try")))

    def test_opening(self):
        outcomes = set(self.outcomes("tally a.db staff"))
        self.assertIn(NO_MEMORY_TO_OPEN, outcomes)
        self.assertLessEqual(outcomes, {NO_MEMORY, NO_MEMORY_TO_OPEN})

    def test_places(self):
        """The places of 1,000 connections need 16 MB, of which a few are there. The order may have
        announced its port by then."""
        pages = self.least("tally a.db staff", lambda ended: ended.status == 0) + 1_000
        ended = self.run_within("run a.db --port 0 --max-open 1000", pages)
        line = ended.err[ended.err.rfind(b"\n", 0, -1) + 1:]  # after its sentence
        self.assertEqual(NO_MEMORY, ended._replace(out=b"", err=line))
        self.assertRegex(ended.out, rb"\A(listening 127\.0\.0\.1:[0-9]+\n)?\Z")

    def test_rows(self):
        """Room for the most octets of rows is more than opening the file needs."""
        outcomes = set(self.outcomes("import a.db staff k three.csv", count=24))
        self.assertIn(NO_MEMORY, outcomes)
        self.assertLessEqual(outcomes, {NO_MEMORY, NO_MEMORY_TO_OPEN})
        self.run_rows([rows.done("import a.db staff k header.csv",
                                 "new 3 edited 0 same 0 number 8\n")])


class Disks(FaultTest):
    """A full disk, by a limit on how far a file may grow."""

    def test_full_disk(self):
        limit = up_to(log_of(self.file).stat().st_size)
        for arguments in ["import a.db staff k three.csv", "book a.db more", "forget a.db staff 5"]:
            with self.subTest(arguments):
                self.assertEqual(STORE_FAULT, self.run_here(arguments, preexec_fn=limit))
        self.assertEqual(Ended(3, b"", b"fault open 1\n"),
                         self.run_here("init new.db", preexec_fn=up_to(0)))
        self.run_rows(rows.FIVE_CHANGES)
        self.run_rows([rows.done("book a.db more", "book 2\n"),
                       rows.done("import a.db staff k three.csv",
                                 "new 3 edited 0 same 0 number 8\n")])


if __name__ == "__main__":
    unittest.main()
