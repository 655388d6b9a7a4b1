"""The programs that are run for each refused allocation, and the check of their outcomes."""

import collections
import hashlib
import pathlib
import shutil
import sqlite3
import subprocess
import sys
import tempfile

SECONDS = 60
SAME = "as it is without refusals"
NO_MEMORY = "out of memory, nothing changed, asked again gives the same"

Run = collections.namedtuple("Run", "status out err")


def run(words, given=b"", environment=None, folder=None):
    try:
        ran = subprocess.run(
            words,
            input=given,
            capture_output=True,
            env=environment or {},
            cwd=folder,
            timeout=SECONDS,
        )
    except subprocess.TimeoutExpired:
        return Run("no end", b"", b"")
    return Run(ran.returncode, ran.stdout, ran.stderr)


def refusing(shim, at, later, whole):
    """The environment that refuses that allocation; 0 refuses none."""
    words = {"LD_PRELOAD": str(shim), "REFUSE_AT": str(at)}
    if later:
        words["REFUSE_LATER"] = "1"
    if whole:
        words["REFUSE_WHOLE"] = "1"
    return words


def counted(ran):
    """The number of allocations that the shim reported, and the run without that line."""
    lines = ran.err.splitlines(keepends=True)
    if not lines or not lines[-1].startswith(b"growths "):
        sys.exit(f"the shim didn't count: is the program linked dynamically? {ran}")
    return int(lines[-1].split()[1]), ran._replace(err=b"".join(lines[:-1]))


class Cases:
    """The cases of the part `memory`, each named on standard input."""

    def __init__(self, program, shim):
        self.program, self.shim = program, shim

    def names(self):
        ran = run([self.program], b"all")
        lines = ran.out.decode().splitlines()
        bad = [line for line in lines if not line.endswith(f": {SAME}")]
        if ran.status != 0 or bad or not lines:
            sys.exit(f"without refusals: status {ran.status} {bad}")
        return [line.removesuffix(f": {SAME}") for line in lines]

    def ran(self, name, at, later):
        return run([self.program], name.encode(), refusing(self.shim, at, later, False))

    def growths(self, name):
        growths, ran = counted(self.ran(name, 0, False))
        return growths, self.kind(name, ran)

    def outcome(self, name, at, later):
        ran = self.ran(name, at, later)
        return self.kind(name, ran), ran

    @staticmethod
    def kind(name, ran):
        if ran.status == 0 and not ran.err:
            if ran.out == f"{name}: {SAME}\n".encode():
                return "same"
            if ran.out == f"{name}: {NO_MEMORY}\n".encode():
                return "no memory"
        return "finding"


CARD = b"BEGIN:VCARD\r\nVERSION:4.0\r\nUID:a\r\nfn:An\r\n n\r\nEND:VCARD\r\n"
HEADER = "uid,fn,family,given,email,tel,org,note\n"
FILLED = HEADER + "a,Ann,Example,Ann,ann@office.invalid,1,Office,\nb,Bob,,,,,,one two\nc,Cy,,,,,,\n"
ROWS = HEADER + "a,Anna,Example,Ann,,,,\nc,Cy,,,,,,\nk,Kay,,,,,,\n"
GROUP_LINES = "UID:g\nFN:All\nKIND:group\nMEMBER:a\nMEMBER:x\n"
GROUP = f'uid,vcard\ng,"BEGIN:VCARD\nVERSION:4.0\n{GROUP_LINES}END:VCARD\n"\n'
FIRST = """
CREATE TABLE meta (name TEXT NOT NULL PRIMARY KEY, val INTEGER NOT NULL) STRICT;
CREATE TABLE book (id INTEGER PRIMARY KEY, name TEXT NOT NULL UNIQUE, number INTEGER NOT NULL,
horizon INTEGER NOT NULL, created INTEGER NOT NULL, edited INTEGER NOT NULL,
imported INTEGER NOT NULL, import_edited INTEGER NOT NULL, moved_in INTEGER NOT NULL,
deleted INTEGER NOT NULL, moved_out INTEGER NOT NULL) STRICT;
CREATE TABLE member (book INTEGER NOT NULL REFERENCES book(id), uid TEXT NOT NULL,
changed INTEGER NOT NULL, card TEXT, PRIMARY KEY (book, uid), UNIQUE (book, changed)) STRICT;
CREATE TABLE import_key (book INTEGER NOT NULL REFERENCES book(id), ikey TEXT NOT NULL,
added INTEGER NOT NULL, edited INTEGER NOT NULL, same INTEGER NOT NULL,
number INTEGER NOT NULL, PRIMARY KEY (book, ikey)) STRICT;
INSERT INTO meta VALUES ('schema', 1);
INSERT INTO book VALUES (1, 'staff', 9, 0, 5, 1, 0, 0, 0, 3, 0);
INSERT INTO member VALUES (1, 'c', 6, NULL), (1, 'd', 9, NULL);
"""
LIVE = [("a", 4, "Anna"), ("b", 7, "Bob")]


def lay_first(path):
    """Creates a file with the first schema."""
    conn = sqlite3.connect(path)
    conn.executescript(FIRST)
    for uid, changed, name in LIVE:
        card = f"BEGIN:VCARD\r\nVERSION:4.0\r\nUID:{uid}\r\nFN:{name}\r\nEND:VCARD\r\n"
        conn.execute("INSERT INTO member VALUES (1, ?, ?, ?)", (uid, changed, card))
    conn.commit()
    conn.close()


class Orders:
    """Orders of the program `contacts`, each over copies of two files."""

    orders = [
        "try", "init new.db", "book office.db third", "import office.db staff k rows.csv",
        "export office.db staff", "export office.db staff --form columns", "tally office.db staff",
        "forget office.db staff 2", "mirror office.db staff --limit 2", "expand office.db staff g",
        "migrate first.db", "tally office.db nobody", "nonsense office.db", "--help",
    ]
    filling = [
        "init office.db", "book office.db staff", "book office.db clients",
        "import office.db staff one filled.csv", "import office.db staff two group.csv",
    ]

    def __init__(self, program, shim, folder):
        self.program, self.shim = program, shim
        self.base = pathlib.Path(folder) / "base"
        self.work = pathlib.Path(folder)
        self.seen, self.wanted = {}, {}
        self.base.mkdir()
        for name, text in [("rows.csv", ROWS), ("filled.csv", FILLED), ("group.csv", GROUP)]:
            (self.base / name).write_text(text)
        lay_first(self.base / "first.db")
        for line in self.filling:
            ran = self.asked(line, self.base)
            if ran.status != 0:
                sys.exit(f"{line}: {ran}")

    def names(self):
        return self.orders

    def asked(self, line, folder, environment=None):
        return run([self.program, *line.split()], CARD, environment, folder)

    def books(self, name, folder):
        """The books of the order's file, read without refusals."""
        files = [word for word in name.split() if word.endswith(".db")]
        asked = ["export {} staff", "tally {} staff", "tally {} clients", "tally {} third"]
        return [self.asked(line.format(file), folder) for file in files for line in asked]

    def ran(self, name, at, later):
        """The run with that allocation refused, in a folder of its own, and the state that it left:
        the books before the order, those after it, or others."""
        with tempfile.TemporaryDirectory(dir=self.work) as folder:
            shutil.copytree(self.base, folder, dirs_exist_ok=True)
            ran = self.asked(name, folder, refusing(self.shim, at, later, True))
            return ran, self.left(name, folder)

    def left(self, name, folder):
        paths = sorted(pathlib.Path(folder).glob("*.db*"))
        octets = b"".join(path.name.encode() + path.read_bytes() for path in paths)
        digest = (name, hashlib.sha256(octets).digest())
        if digest not in self.seen:
            self.seen[digest] = self.state(name, folder)
        return self.seen[digest]

    def state(self, name, folder):
        """Which books the folder has. If they aren't those after the order, the order is repeated,
        and then they must be."""
        wanted, before, after = self.wanted[name]
        books = self.books(name, folder)
        # `init` may leave a new file, empty or as a database without tables.
        bare = name.startswith("init") and all(it.err == b"fault open 2\n" for it in books)
        if books == after and after != before:
            return "after"
        again = self.asked(name, folder)
        if again != wanted or self.books(name, folder) != after:
            return f"asked again: {again}"
        return "before" if books == before or bare else f"other books: {books}"

    def growths(self, name):
        with tempfile.TemporaryDirectory(dir=self.work) as folder:
            shutil.copytree(self.base, folder, dirs_exist_ok=True)
            before = self.books(name, folder)
            growths, ran = counted(self.asked(name, folder, refusing(self.shim, 0, False, True)))
            self.wanted[name] = ran, before, self.books(name, folder)
        return growths, "same"

    def outcome(self, name, at, later):
        ran, left = self.ran(name, at, later)
        wanted, before, after = self.wanted[name]
        done = "before" if before == after else "after"
        if ran == wanted and left == done:
            return "same", ran
        said = ran.err in (b"fault no-memory 20\n", b"fault open 6\n")
        if ran.status == 3 and not ran.out and said and left in ("before", "after"):
            return "no memory", ran
        return "finding", ran._replace(err=ran.err + f" left: {left}".encode())
