"""What each order prints, over a file from its creation on: rows that were worked out by hand.

The rows are in `order_rows`. A file that orders and requests can't make in seconds is made by
sqlite3, with the tables that its format declares.
"""

import os
import socket
import unittest
from pathlib import Path

import order_rows as rows
from http_requests import create, export, get, put
from order_trials import (
    FIRST_STAFF, FIVE_CHANGES, LAST_STAFF, MORE_CHANGES, NEEDS_STRICT, TWO_BOOKS, OrderTest,
    mirrored, numbered,
)
from program import PATIENCE, Ended, Server, free_port, run


def listening_addresses(port):
    """The addresses at which this host listens on a port, as the system writes them."""
    rows = []
    for table in "/proc/net/tcp", "/proc/net/tcp6":
        if os.path.exists(table):
            rows += [row.split() for row in Path(table).read_text().splitlines()[1:]]
    ends = [row[1].split(":") for row in rows if row[3] == "0A"]
    return [address for address, number in ends if int(number, 16) == port]


class Orders(OrderTest):
    def test_making(self):
        self.run_rows(rows.MAKING)
        self.assertFalse((self.folder / "b.db").exists())

    def test_five_changes(self):
        self.assertEqual(308, len(rows.FIVE_CHANGES_TALLY))
        self.make_books()
        self.change("a.db", FIVE_CHANGES)
        self.run_rows(rows.FIVE_CHANGES)

    def test_forgetting(self):
        self.make_books()
        self.change("a.db", FIVE_CHANGES)
        self.run_rows(rows.FORGETTING)

    def test_move_and_imports(self):
        self.write(rows.IMPORTS_FILES)
        self.make_books(books=["staff", "clients"])
        self.change("a.db", FIVE_CHANGES + MORE_CHANGES)
        self.run_rows(rows.MOVE)
        self.run_rows(rows.IMPORTS)

    def test_groups(self):
        self.write(rows.GROUPS_FILES)
        self.run_rows(rows.GROUPS)

    def test_group_put_over_http(self):
        """Members are people, a person twice, and a value that names no card."""
        self.make_books()
        lines = ["KIND:group", "MEMBER:a", "MEMBER:c", "MEMBER:a", "MEMBER:urn:x"]
        two = rows.card("h", "Two", *lines).encode()
        head = b"PUT /books/staff/cards/h HTTP/1.1\r\nHost: office\r\nContent-Length: %d\r\n\r\n"
        self.change("a.db", [put("staff", "a", "Ann"), put("staff", "c", "Cy"),
                             head % len(two) + two])
        self.run_rows([rows.done("expand a.db staff h", "person a\n", "person c\n",
                                 "missing urn:x\n")])

    def test_exported_rows(self):
        self.write(rows.ROUND_FILES)
        self.run_rows(rows.ROUND)

    def test_whole_export_is_imported_elsewhere(self):
        self.write({"all.csv": numbered(0, 250)})
        self.make_books(books=["one", "two"])
        self.run_rows([rows.done("import a.db one k all.csv",
                                 "new 250 edited 0 same 0 number 250\n")])
        for form in "cards", "columns":
            exported = run("export", "a.db", "one", "--form", form, cwd=self.folder)
            (self.folder / f"{form}.csv").write_bytes(exported.out)
        self.assertEqual((self.folder / "all.csv").read_bytes(), exported.out)
        self.run_rows([
            rows.done("import a.db two k cards.csv", "new 250 edited 0 same 0 number 250\n"),
            rows.done("import a.db two l columns.csv", "new 0 edited 0 same 250 number 250\n"),
            rows.done("import a.db one l cards.csv", "new 0 edited 0 same 250 number 250\n"),
        ])

    def test_pages_of_a_mirror(self):
        """Books of 0, 200, 201 and 250 cards, a hundred cards a page."""
        self.make_books(books=["b0", "b200", "b201", "b250"])
        for book, (count, pages) in enumerate([(0, 1), (200, 2), (201, 3), (250, 3)], 1):
            self.write({"some.csv": numbered(0, count)})
            self.run_rows([
                rows.done(f"import a.db b{count} k some.csv",
                          f"new {count} edited 0 same 0 number {count}\n"),
                rows.done(f"mirror a.db b{count} --limit 101",
                          mirrored(pages, True, range(1, count + 1), f"{book}/{count}/{count}")),
            ])
        self.run_rows([
            rows.done("mirror a.db b250 --pages 2",
                      mirrored(2, False, range(1, 201), "4/200/250")),
            rows.done("mirror a.db b250 --limit 99 --pages 3",
                      mirrored(3, True, range(1, 251), "4/250/250")),
            rows.done("mirror a.db b250 --limit 50",
                      mirrored(5, True, range(1, 251), "4/250/250")),
        ])

    def test_kept_file(self):
        """What is in a file is there when it is opened again."""
        self.make_books("kept.db")
        self.change("kept.db", [put("staff", "n", "Ann")])
        self.run_rows([rows.fault("init kept.db", "open 5")])
        with Server(self.folder / "kept.db") as server:
            self.assertIn(
                b'\r\n\r\n{"card":"BEGIN:VCARD\\r\\nVERSION:4.0\\r\\nUID:n\\r\\nFN:Ann\\r\\n'
                b'END:VCARD\\r\\n","uid":"n","version":1}', server.ask(get("staff", "n")))
        self.run_rows([rows.done("mirror kept.db staff", "pages 1 done yes\n",
                                 "            1 n\n", rows.TOKEN + "1/1/1\n")])

    @NEEDS_STRICT
    def test_first_schema(self):
        self.lay("first.db", FIRST_STAFF)
        self.lay("second.db", TWO_BOOKS)
        self.run_rows(rows.FIRST_SCHEMA)

    def test_names_of_files(self):
        """A name may have spaces, other letters, or a hyphen at its beginning."""
        for name in ["my office.db", "büro.db", "-office.db", "office", "a'b.db", "a?b#c%20.db"]:
            self.run_rows([
                rows.done(["init", "--", name], "made\n"),
                rows.done(["book", "--", name, "staff"], "book 1\n"),
                rows.done(["tally", "--", str(self.folder / name), "staff"], rows.tally()),
            ])
            self.assertTrue((self.folder / name).exists())


class Refusals(OrderTest):
    def test_no_book(self):
        self.write(rows.IMPORTS_FILES)
        self.make_books()
        self.run_rows(rows.NO_BOOK)

    def test_names_and_keys(self):
        self.write(rows.IMPORTS_FILES)
        self.run_rows(rows.NAMES)
        self.run_rows(rows.KEYS)

    def test_hundred_books(self):
        self.make_books()
        self.change("a.db", [create(f"b{number}") for number in range(2, 100)])
        self.run_rows([
            rows.done("book a.db b100", "book 100\n"),
            rows.refused("book a.db b101", "too-many-books 18"),
            rows.refused("book a.db b100", "book-exists 2"),
            rows.refused("book a.db B101", "bad-book-name 3"),
        ])

    def test_full_book(self):
        self.write({"many.csv": numbered(0, 10_001), "most.csv": numbered(0, 10_000),
                    "last.csv": numbered(9_999, 2), "one.csv": numbered(9_999, 1),
                    "edit.csv": rows.COLUMNS + "n00000,Other,,,,,,\n"})
        self.make_books()
        self.run_rows([
            rows.refused("import a.db staff k many.csv", "book-full 12"),
            rows.done("tally a.db staff", rows.tally()),
            rows.done("import a.db staff k most.csv",
                      "new 10000 edited 0 same 0 number 10000\n"),
            rows.refused("import a.db staff l last.csv", "book-full 12"),
            rows.done("import a.db staff l one.csv", "new 0 edited 0 same 1 number 10000\n"),
            rows.done("import a.db staff m edit.csv", "new 0 edited 1 same 0 number 10001\n"),
        ])

    @NEEDS_STRICT
    def test_last_number(self):
        self.write({**rows.IMPORTS_FILES, **rows.ROUND_FILES})
        self.lay("last.db", LAST_STAFF)
        self.run_rows(rows.LAST_NUMBER)


class Ports(OrderTest):
    """The line that names the port, the port that is asked for, and the count of connections."""

    def setUp(self):
        super().setUp()
        self.make_books()
        self.file = self.folder / "a.db"

    def serve(self, *arguments, connections=1, port=None):
        """Serves the file with these arguments, each connection with one request, to the end."""
        with Server(None, arguments=arguments, cwd=self.folder) as server:
            if port is not None:
                self.assertEqual(("127.0.0.1", port), server.address)
            self.assertGreater(server.address[1], 0)
            for _ in range(connections):
                self.assertEqual(
                    b"HTTP/1.1 200 OK\r\nContent-Type: text/csv\r\nContent-Length: 10\r\n"
                    b"Connection: keep-alive\r\n\r\nuid,vcard\n",
                    server.ask(export("staff")))
            line = b"listening 127.0.0.1:%d\n" % server.address[1]
            self.assertEqual(Ended(0, line, b""), server.end())

    def test_any_free_port(self):
        self.serve("a.db")
        self.serve("a.db", "--port", "0")

    def test_ports_that_are_asked_for(self):
        for form in [["--port", "{}"], ["--port={}"], ["--port=+0{}"]]:
            port = free_port()
            self.serve("a.db", *(part.format(port) for part in form), port=port)

    def test_count_of_connections(self):
        self.serve("a.db", "--connections", "2", connections=2)
        port = free_port()
        self.serve("--connections=3", f"--port={port}", "a.db", connections=3, port=port)

    def test_connections_without_a_request(self):
        with Server(self.file, connections=3) as server:
            for octets in b"", b"GET / HT", b"":
                self.assertEqual(b"", server.ask(octets))
            self.assertEqual(0, server.end().status)

    def test_last_port(self):
        with Server(None, arguments=["a.db", "--port", "65535"], cwd=self.folder) as server:
            if server.address:
                self.assertEqual(b"listening 127.0.0.1:65535\n", server.line)
            else:
                # Somebody has it.
                self.assertEqual(Ended(3, b"", b"fault device 1\n"), server.end())

    def test_address(self):
        """The port is bound at 127.0.0.1, which only programs of this host can connect to."""
        for port in 0, free_port():
            arguments = ["a.db", "--port", str(port), "--connections", "2"]
            with Server(None, arguments=arguments, cwd=self.folder) as server:
                number = server.address[1]
                self.assertEqual(["0100007F"], listening_addresses(number))
                # A listener at all addresses would accept this one too.
                with self.assertRaises(ConnectionRefusedError):
                    socket.create_connection(("127.0.0.2", number), timeout=PATIENCE)

    def test_port_in_use(self):
        with socket.socket() as bound:
            bound.bind(("127.0.0.1", 0))
            bound.listen()
            port = bound.getsockname()[1]
            self.run_rows([
                rows.fault(f"serve a.db --port {port}", "device 1"),
                rows.fault(f"serve a.db --port={port} --connections 2", "device 1"),
                # The file is opened before the port is bound.
                rows.fault(f"serve none.db --port {port}", "open 1"),
            ])

    def test_served_file(self):
        """One program at a time has a file open."""
        with Server(self.file) as server:
            self.run_rows([rows.fault(f"{order} a.db", "open 1")
                           for order in ("init", "serve", "migrate")])
            self.run_rows([rows.fault("tally a.db staff", "open 1")])
            self.assertIn(b"uid,vcard\n", server.ask(export("staff")))
        self.run_rows([rows.done("tally a.db staff", rows.tally())])

    def test_port_again(self):
        """A port is free again as soon as the server has ended."""
        port = free_port()
        for _ in range(3):
            self.serve("a.db", f"--port={port}", port=port)


if __name__ == "__main__":
    unittest.main()
