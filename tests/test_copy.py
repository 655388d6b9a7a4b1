"""`contacts copy FILE NEW`: the new file holds the books of the old one, and no text besides.

With `--without BOOK` it holds the other books, and every device starts again.

What the new file has to hold is read from the old one by sqlite3, or laid by it; what is served of
it is computed by tests/model from the same requests. SQLite's own check finds each copy sound.
"""

import shutil
import unittest

from histories import Drawing, csv_text, path
from http_requests import (
    card, create, export, import_rows, move, people, put, remove, request, sync, tally,
)
from model.books import Office
from model.http import Session
from office_files import (
    QuickFolder, contents, copy as copy_by_hand, fault, log_of, make, run_order, serve, up_to,
)
from program import Ended, Server, run
from test_resync import TOO_OLD, after, ask
from tables import Tables, first_store, setUpModule, small_store  # noqa: F401

SEEDS = range(1, 4)
SECRET, OLD_NOTE, GONE_PHOTO = "Zsuzsanna Secret", "an old note of hers", "iVBORw0KGgoGONE"
PHOTO = "PHOTO:data:image/png;base64," + "iVBORw0KGgo" * 4000


def copied(count):
    return Ended(0, b"copied %d\n" % count, b"")


class CopyTest(unittest.TestCase):
    def setUp(self):
        folder = QuickFolder()
        self.folder = folder.__enter__()
        self.addCleanup(folder.__exit__)
        self.file, self.new = self.folder / "office.db", self.folder / "new.db"
        self.looks = 0

    def lay(self, filled):
        with Tables(self.file) as tables:
            tables.lay(filled)

    def contents(self, file):
        self.looks += 1
        return contents(file, self.folder / f"look {self.looks}")

    def there(self):
        return sorted(it.name for it in self.folder.iterdir() if not it.name.startswith("look"))

    def copy_at_each_write(self, before, last, look, *options):
        """Copies with each room on the disk up to `last` octets: a write past it fails, or kills.

        The file holds what it held before. `look` gets how the order ended, and its new file.
        """
        for room in [*range(0, last, last // 40), last]:
            for is_killed in [False, True]:
                with self.subTest(room=room, is_killed=is_killed):
                    place = self.folder / f"{room} {is_killed}"
                    file, new = copy_by_hand(self.file, place), place / "new.db"
                    ended = run_order("copy", file, new, *options,
                                      preexec_fn=up_to(room, is_killed))
                    self.assertEqual(before, self.contents(file))
                    look(ended, new, is_killed)

    def assert_copied(self, count, file=None, new=None):
        """Copies the file; the new one alone holds what the file holds with its log."""
        file, new = file or self.file, new or self.new
        before = self.contents(file)
        self.assertEqual(copied(count), run_order("copy", file, new))
        self.assertFalse(log_of(new).exists())
        self.assertEqual(before, self.contents(new))
        self.assertEqual(before, self.contents(file))


class Copies(CopyTest):
    """Files that are copied."""

    def test_small_store(self):
        """Tombstones, a keep of its own for each book, and imports come with it."""
        filled = small_store()
        filled[4] = ("keeping", [(1, 3), (2, 17), (3, 10_000)])
        self.lay(filled)
        self.assert_copied(3)
        self.assertEqual(run_order("verify", self.file), run_order("verify", self.new))
        asked = [tally("staff"), sync("staff"), sync("staff", "1/4/4"), sync("clients", "2/4/4"),
                 import_rows("staff", "k1", "no rows"), put("staff", "zoe", "Zoe")]
        self.assertEqual(serve(self.file, *asked), serve(self.new, *asked))

    def test_counts_of_books(self):
        for count in [0, 1, 100]:
            with self.subTest(count=count):
                self.file, self.new = self.folder / f"{count}.db", self.folder / f"{count} new.db"
                self.lay([("meta", [("schema", 2)]),
                          ("book", [(it, f"book-{it}", *[0] * 9) for it in range(1, count + 1)]),
                          ("member", []), ("import_key", []),
                          ("keeping", [(it, 10_000) for it in range(1, count + 1)])])
                self.assert_copied(count)

    def test_histories(self):
        """After any requests, both files serve what the model serves, and go on alike."""
        for seed in SEEDS:
            with self.subTest(seed=seed):
                self.file, self.new = self.folder / f"{seed}.db", self.folder / f"{seed} new.db"
                make(self.file, "staff", "clients", "desk")
                office, drawing = Office(), Drawing(seed)
                first = b"".join(create(book) for book in ["staff", "clients", "desk"])
                Session(office).feed(first)
                asked = b"".join(drawing.draw() for _ in range(400))
                self.assertEqual(Session(office).feed(asked), serve(self.file, asked))
                self.assert_copied(len(office.books))
                later = b"".join(drawing.draw() for _ in range(100))
                due = Session(office).feed(later)
                self.assertEqual(due, serve(self.new, later))
                self.assertEqual(due, serve(self.file, later))

    def test_groups_and_photos(self):
        make(self.file, "staff")
        group = card("g", "Choir", "KIND:group", "MEMBER:urn:uuid:a")
        rows = csv_text([["uid", "vcard"], ["a", card("a", "Ann", PHOTO)], ["g", group]])
        serve(self.file, request("POST", path("staff", "import", key="k"), rows))
        self.assert_copied(1)
        asked = [people("staff", "g"), export("staff"), sync("staff")]
        self.assertEqual(serve(self.file, *asked), serve(self.new, *asked))
        unfolded = serve(self.new, export("staff")).replace(b"\r\n ", b"")
        self.assertIn(b"iVBORw0KGgo" * 100, unfolded)

    def test_copy_of_a_copy(self):
        """It has the same octets, so that a second backup of an unchanged file is recognized."""
        self.lay(small_store())
        self.assert_copied(3)
        again, third = self.folder / "again.db", self.folder / "third.db"
        self.assert_copied(3, self.new, again)
        self.assert_copied(3, self.file, third)
        self.assertEqual(self.new.read_bytes(), again.read_bytes())
        self.assertEqual(self.new.read_bytes(), third.read_bytes())

    def test_file_whose_log_has_everything(self):
        first = self.folder / "open.db"
        with Tables(first) as tables:
            tables.run("PRAGMA journal_mode = WAL")
            tables.lay(small_store())
            self.file = copy_by_hand(first, self.folder / "copy")
        self.assertGreater(log_of(self.file).stat().st_size, 0)
        self.assert_copied(3)

    def test_a_name_without_an_ending_and_in_another_folder(self):
        self.lay(small_store())
        (self.folder / "b c").mkdir()
        self.assert_copied(3, new=self.folder / "b c" / "é")

    def test_output_that_cant_be_written(self):
        """The copy remains."""
        self.lay(small_store())
        with open("/dev/full", "wb") as full:
            ended = run_order("copy", self.file, self.new, stdout=full)
        self.assertEqual((3, b"fault device 1\n"), (ended.status, ended.err))
        self.assertEqual(self.contents(self.file), self.contents(self.new))


class Erased(CopyTest):
    """What was removed or replaced is in the old file's octets, and not in the new one's."""

    def test_no_text_of_what_was_removed(self):
        make(self.file, "staff", "clients")
        gone = card("s", SECRET, "PHOTO:data:image/png;base64," + GONE_PHOTO * 3000)
        serve(self.file,
              request("PUT", path("staff", "cards", "s"), gone),
              request("PUT", path("staff", "cards", "m"), card("m", SECRET + " too")),
              request("PUT", path("staff", "cards", "a"), card("a", "Ann", "NOTE:" + OLD_NOTE)),
              *(put("staff", f"n{it}", f"Name {it}") for it in range(200)),
              put("staff", "a", "Ann"), move("m", "staff", "clients"), remove("clients", "m"),
              remove("staff", "s"))
        octets = self.file.read_bytes() + log_of(self.file).read_bytes()
        for text in SECRET, OLD_NOTE, GONE_PHOTO:
            self.assertIn(text.encode(), octets)
        self.assert_copied(2)
        for text in SECRET, OLD_NOTE, GONE_PHOTO:
            self.assertNotIn(text.encode(), self.new.read_bytes())
        self.assertIn(b"Name 199", self.new.read_bytes())
        self.assertLess(self.new.stat().st_size, 100_000)


def without(rows, names):
    """The rows of all tables without the books with these names, and after a resync.

    The ids of the other books close up. Each takes as many numbers as the greatest number of any
    book of the old file, if that is even, or else one fewer, and 1,000,000 more.
    """
    meta, books, members, imports, keeps = rows
    gone = {it[0] for it in books if it[1].decode() in names}
    kept = sorted(it[0] for it in books if it[0] not in gone)
    new = {old: at for at, old in enumerate(kept, 1)}
    greatest = max(it[2] for it in books)

    def others(rows):
        return [(new[book], *more) for book, *more in rows if book not in gone]

    return after([meta, *map(others, [books, members, imports, keeps])],
                 greatest - greatest % 2 + 1_000_000)


def leave_out(file, new, *names):
    return run("copy", file, new, *(f"--without={it}" for it in names))


class WithoutBooks(CopyTest):
    """Files that are copied without some of their books."""

    def assert_left_out(self, *names):
        """The new file alone has the rows of the other books, and the old file is as it was."""
        before = self.contents(self.file)
        left = [it for it in before.rows[1] if it[1].decode() not in names]
        self.assertEqual(copied(len(left)), leave_out(self.file, self.new, *names))
        self.assertEqual(["new.db"], [it.name for it in self.folder.glob("new*")])
        after_it = self.contents(self.new)
        self.assertEqual(before.declared, after_it.declared)
        for table, rows in zip(without(before.rows, names), after_it.rows):
            self.assertEqual(sorted(table, key=repr), sorted(rows, key=repr))
        self.assertEqual(before, self.contents(self.file))
        self.assertEqual(0, run("verify", self.new).status)
        for file in self.new, log_of(self.new):
            file.unlink()

    def test_each_choice_of_books(self):
        """One, two, all, and the same twice; each book has tombstones, imports and a keep."""
        filled = small_store()
        filled[4] = ("keeping", [(1, 3), (2, 17), (3, 10_000)])
        self.lay(filled)
        names = [it[1] for it in dict(filled)["book"]]
        self.assertEqual(3, len(names))
        for name in names:
            self.assert_left_out(name)
            self.assert_left_out(name, name)
            self.assert_left_out(*(it for it in names if it != name))
        self.assert_left_out(*names)

    def test_histories(self):
        """After any requests."""
        for seed in SEEDS:
            with self.subTest(seed=seed):
                self.file = self.folder / f"{seed}.db"
                make(self.file, "staff", "clients", "desk")
                drawing = Drawing(seed)
                serve(self.file, b"".join(drawing.draw() for _ in range(300)))
                for names in [["staff"], ["clients"], ["desk", "staff"]]:
                    self.assert_left_out(*names)

    def test_names_that_are_no_books(self):
        """Nothing is written, whatever else is named."""
        self.lay(small_store())
        run("verify", self.file)
        before = self.there()
        for names in [["nobody"], ["staff", "nobody"], ["nobody", "staff"], [""], ["Staff"]]:
            with self.subTest(names=names):
                ended = leave_out(self.file, self.new, *names)
                said = f"{self.file}: there is no such book; contacts books {self.file} lists them"
                line = "refused no-such-book 1"
                self.assertEqual(Ended(1, b"", f"{said}\n{line}\n".encode()), ended)
                self.assertEqual(before, self.there())

    def test_no_text_of_a_book_that_is_left_out(self):
        make(self.file, "trial", "staff")
        serve(self.file, put("trial", "t", SECRET), put("staff", "a", "Ann"),
              put("staff", "b", GONE_PHOTO), remove("staff", "b"))
        self.assertEqual(copied(1), leave_out(self.file, self.new, "trial"))
        octets = self.new.read_bytes()
        for text in SECRET, GONE_PHOTO, "trial":
            self.assertNotIn(text.encode(), octets)
        self.assertIn(b"FN:Ann", octets)

    def test_devices_start_again(self):
        """The token of a book that gets another's id is refused, also if it was the newer one."""
        make(self.file, "trial", "staff", "desk")
        serve(self.file, *(put("trial", f"t{it}", "Try") for it in range(9)),
              put("staff", "a", "Ann"), put("desk", "d", "Dee"), put("desk", "e", "Eve"))
        self.assertEqual(copied(2), leave_out(self.file, self.new, "trial"))
        old = ["1/9/9", "1/3/9", "2/1/1", "3/2/2", "3/1/2"]
        asked = [sync(book, token) for book in ["staff", "desk"] for token in old]
        wrong, too_old = {"cause": 2, "fault": "valid-sync-token", "number": 10}, TOO_OLD
        self.assertEqual([too_old, too_old, wrong, wrong, wrong,
                          wrong, wrong, too_old, wrong, wrong], ask(self.new, *asked))
        served = serve(self.new, sync("staff"), sync("desk"), put("desk", "f", "Fay"))
        for text in b"FN:Ann", b"FN:Dee", b"FN:Eve", b"1/1000009", b'"version":1000011':
            self.assertIn(text, served)

    def test_a_book_that_has_no_numbers_left(self):
        """The resync refuses it, and there is no new file."""
        half = 300_000_000_000
        self.lay([("meta", [("schema", 2)]),
                  ("book", [(1, "trial", *[0] * 9),
                            (2, "staff", 2 * half, 2 * half, half, 0, 0, 0, 0, half, 0)]),
                  ("member", []), ("import_key", []), ("keeping", [(1, 3), (2, 3)])])
        run("verify", self.file)
        before = self.there()
        ended = leave_out(self.file, self.new, "trial")
        line = ended.err.splitlines(True)[-1]
        self.assertEqual((1, b"refused changes-spent 13\n"), (ended.status, line))
        self.assertEqual(before, self.there())

    def test_what_is_at_the_other_names(self):
        """A log or a file at NEW is kept. What a stopped copy left is replaced."""
        self.lay(small_store())
        run("verify", self.file)
        for name in "new.db", "new.db-wal":
            with self.subTest(name=name):
                (self.folder / name).write_bytes(b"text")
                before = self.there()
                self.assertEqual(3, leave_out(self.file, self.new, "staff").status)
                self.assertEqual(before, self.there())
                self.assertEqual(b"text", (self.folder / name).read_bytes())
                (self.folder / name).unlink()
        for ending in "", "-wal":
            (self.folder / f"new.db.copying{ending}").write_bytes(self.file.read_bytes())
        self.assert_left_out("staff")

    def test_each_write(self):
        """A full disk, or a kill, at any write: NEW is the finished file, or isn't there."""
        self.lay(small_store())
        run("verify", self.file)
        before, done = self.contents(self.file), self.folder / "done.db"
        self.assertEqual(copied(2), leave_out(self.file, done, "staff"))
        whole, last = self.contents(done), 4 * done.stat().st_size

        def look(ended, new, is_killed):
            self.assertEqual(ended.status == 0, new.exists())
            left = [it.name for it in new.parent.glob("new*")]
            if ended.status == 0:
                self.assertEqual(whole, self.contents(new))
                self.assertEqual(["new.db"], left)
            elif not is_killed:
                self.assertEqual([], left)

        self.copy_at_each_write(before, last, look, "--without", "staff")


class Refusals(CopyTest):
    """Nothing is copied, and whatever was there is as it was."""

    def refuse(self, number, file=None, new=None):
        file, before = file or self.file, self.there()
        self.assertEqual(fault(number), run_order("copy", file, new or self.new))
        # To look for the cause, the file is opened and its log closed.
        logs = {log_of(file).name}
        self.assertEqual(set(before) - logs, set(self.there()) - logs)

    def test_something_is_there(self):
        self.lay(small_store())
        for octets in b"", b"text", self.file.read_bytes():
            self.new.write_bytes(octets)
            self.refuse(5)
            self.assertEqual(octets, self.new.read_bytes())
        self.new.unlink()
        self.refuse(5, new=self.folder)
        self.refuse(5, new=self.file)
        log_of(self.new).write_bytes(b"text")
        self.refuse(5)
        self.assertEqual(b"text", log_of(self.new).read_bytes())

    def test_places_where_no_file_can_be(self):
        self.lay(small_store())
        run_order("tally", self.file, "staff")
        self.refuse(1, new=self.folder / "nowhere" / "new.db")
        self.refuse(1, new=self.file / "new.db")
        self.refuse(1, new=":memory:")
        self.new.symlink_to("nowhere")
        self.refuse(1)

    def test_files_that_are_no_store(self):
        self.refuse(1, file=self.folder / "nothing.db")
        text = self.folder / "text.db"
        text.write_bytes(b"This is no database.\n" * 100)
        run_order("verify", text)
        self.refuse(2, file=text)
        with Tables(self.folder / "first.db") as tables:
            tables.lay(first_store())
        run_order("verify", self.folder / "first.db")
        self.refuse(3, file=self.folder / "first.db")
        self.lay(small_store())
        with Tables(self.file) as tables:
            tables.run("UPDATE book SET created = 4 WHERE id = 1")
        run_order("verify", self.file)
        self.refuse(4)

    def test_while_it_is_served(self):
        """One program at a time has a file open."""
        make(self.file, "staff")
        with Server(self.file):
            self.refuse(1)
        self.assert_copied(1)


class Stops(CopyTest):
    """A full disk, or a kill, at any write: no new file looks like a backup unless it is one."""

    def test_each_write(self):
        self.lay(small_store())
        run_order("verify", self.file)
        before, done = self.contents(self.file), self.folder / "done.db"
        self.assertEqual(copied(3), run_order("copy", self.file, done))

        def look(ended, new, is_killed):
            if ended.status == 0:
                self.assertEqual(copied(3), ended)
                self.assertEqual(["new.db"], [it.name for it in new.parent.glob("new*")])
            elif not is_killed:
                self.assertEqual(fault(1), ended)
            if new.exists():
                self.assert_backup_or_nothing(new, before)

        self.copy_at_each_write(before, 2 * done.stat().st_size + 4096, look)

    def assert_backup_or_nothing(self, new, whole):
        """The file opens as the whole copy, or not at all."""
        tried = copy_by_hand(new, new.parent / "tried")
        ended = run_order("verify", tried)
        if ended.status == 0:
            self.assertEqual(whole, self.contents(new))
        else:
            self.assertIn(ended, [fault(1), fault(2)])
        shutil.rmtree(tried.parent)


if __name__ == "__main__":
    unittest.main()
