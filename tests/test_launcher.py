"""The launcher `./contacts` and its tools, in copies of the tree, where Rattle's kit is missing.

A first start must do what README.md says: it runs the program of dist/ if that was made from the
present sources. Otherwise nothing is run, the reason is on standard error, and the status is 125.
"""

import os
import shutil
import subprocess
import sys
import unittest

from program import PATIENCE, ROOT, Folder

# The system's commands that a first start needs, beside xz or python3.
COMMANDS = """
awk cat chmod cut dirname env find flock mkdir mv readlink rm sed sh sha256sum sort touch tr xargs
""".split()
CARD = b"BEGIN:VCARD\nVERSION:4.0\nUID:a\nFN:Ann\nEND:VCARD\n"


def copy_tree(folder):
    """Copies what a checkout has of the launcher's: no program that was unpacked or built."""
    tree = folder / "a checkout"
    tree.mkdir()
    for name in ["contacts", "crates.txt", "HANDLES"]:
        shutil.copy2(ROOT / name, tree)
    for name in ["tools", "dist"]:
        shutil.copytree(ROOT / name, tree / name)
    for crate in os.listdir(ROOT / "crates"):
        for part in ["src", "specs", "proofs"]:
            source = ROOT / "crates" / crate / part
            if source.is_dir():
                shutil.copytree(source, tree / "crates" / crate / part)
    return tree


def make_path(folder, *more):
    """Makes a folder of the commands, with python3 and these, and without the kit's."""
    path = folder / "commands"
    path.mkdir()
    (path / "python3").symlink_to(sys.executable)
    for name in [*COMMANDS, *more]:
        found = shutil.which(name)
        if found:
            (path / name).symlink_to(os.path.realpath(found))
    return path


def start(launcher, path, *arguments):
    """Runs the launcher on a card, from another folder."""
    done = subprocess.run(
        [str(launcher), *arguments],
        input=CARD,
        stdout=subprocess.PIPE,
        stderr=subprocess.PIPE,
        cwd="/",
        env={"PATH": str(path)},
        timeout=PATIENCE,
    )
    return done.returncode, done.stdout, done.stderr.decode()


class Launcher(unittest.TestCase):
    """All tests share one tree; each puts back what it changes."""

    @classmethod
    def setUpClass(cls):
        digest = subprocess.run([ROOT / "tools/digest"], stdout=subprocess.PIPE, check=True).stdout
        sources = ROOT / "dist/SOURCES"
        if not sources.exists() or b"sources " + digest not in sources.read_bytes():
            raise unittest.SkipTest("dist/ is of other sources: tools/release makes it anew")
        cls.context = Folder()
        cls.folder = cls.context.__enter__()
        cls.tree = copy_tree(cls.folder)
        cls.path = make_path(cls.folder)

    @classmethod
    def tearDownClass(cls):
        cls.context.__exit__()

    def setUp(self):
        # As in a new checkout: nothing was unpacked.
        shutil.rmtree(self.tree / "crates/contacts/out", ignore_errors=True)

    def start(self, *arguments):
        return start(self.tree / "contacts", self.path, *arguments)

    def change(self, name, octets):
        """Writes these octets to the file, or removes it for None, until the test ends."""
        file = self.tree / name
        before, times = file.read_bytes(), (file.stat().st_atime, file.stat().st_mtime)
        # Whatever the clock's steps are, the file and its folder are newer than any program.
        later = (2**32, 2**32)
        if octets is None:
            file.unlink()
        else:
            file.write_bytes(octets)
            os.utime(file, later)
        folder_times = (file.parent.stat().st_atime, file.parent.stat().st_mtime)
        os.utime(file.parent, later)

        def put_back():
            file.write_bytes(before)
            os.utime(file, times)
            os.utime(file.parent, folder_times)

        self.addCleanup(put_back)

    def check_no_program(self, *reasons):
        status, out, err = self.start()
        self.assertEqual((status, out), (125, b""), err)
        for reason in reasons:
            self.assertIn(reason, err)
        self.assertFalse((self.tree / "crates/contacts/out/contacts").exists())

    def test_first_start_unpacks(self):
        for _ in range(2):
            status, out, err = self.start()
            self.assertEqual((status, err), (0, ""))
            self.assertTrue(out.startswith(b"put created 1\ncard a version 1 octets 52\n"), out)

    def test_status_is_the_program_s(self):
        self.assertEqual(self.start("tally", "/no/such/file", "staff")[0], 3)

    def test_link_to_the_launcher(self):
        link = self.folder / "link"
        link.symlink_to(self.tree / "contacts")
        self.assertEqual(start(link, self.path)[0], 0)

    def test_touched_source_is_unpacked_again(self):
        self.start()
        os.utime(self.tree / "crates/contacts/src/main.rt")
        self.assertEqual(self.start()[0], 0)

    def test_changed_source_needs_the_kit(self):
        self.start()
        name = "crates/contacts/src/main.rt"
        self.change(name, (self.tree / name).read_bytes() + b"\n")
        self.check_no_program("dist/ holds no program of these sources", "Rattle's kit is not here")

    def test_removed_source_needs_the_kit(self):
        self.start()
        self.change("crates/cli_host/src/lib.rt", None)
        self.check_no_program("dist/ holds no program of these sources")

    def test_wrong_octet_in_dist(self):
        name = "dist/contacts-x86_64-linux.xz"
        octets = bytearray((self.tree / name).read_bytes())
        octets[len(octets) // 2] ^= 1
        self.change(name, bytes(octets))
        self.check_no_program("Rattle's kit is not here")

    def test_other_program_in_dist(self):
        name = "dist/SOURCES"
        self.change(name, (self.tree / name).read_bytes().replace(b"program ", b"program 0"))
        self.check_no_program("is not the program that dist/SOURCES names")

    def test_xz_or_python(self):
        for more in [[], ["xz"]]:
            shutil.rmtree(self.tree / "crates/contacts/out", ignore_errors=True)
            shutil.rmtree(self.path)
            make_path(self.folder, *more)
            with self.subTest(commands=more):
                self.assertEqual(self.start()[0], 0)


if __name__ == "__main__":
    unittest.main()
