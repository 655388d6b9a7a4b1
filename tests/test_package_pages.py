"""What the package says: man pages, the page of the installation, the completion, the sample office.

What the program's orders and options are is said by help_texts, and by nothing of the package. Man
and bash read the pages and the completion where these are.
"""

import csv
import gzip
import io
import os
import re
import shlex
import shutil
import subprocess
import sys
import unittest
from pathlib import Path

from packed import ORDERS, Packed, options_of, pack, wait_for
from pages import Page
from program import ROOT, Folder, run


def setUpModule():
    global PACKED
    folder = Folder(in_memory=True)
    PACKED = Packed(folder.__enter__() / "out")
    unittest.addModuleCleanup(folder.__exit__)
    wait_for(pack(ROOT, PACKED.folder, 0o022))


def installed():
    return PACKED.installed()


class Manuals(unittest.TestCase):
    def pages(self):
        return {Path(path).stem: octets for path, octets in installed().items()
                if path.startswith("usr/share/man/")}

    def test_each_order_and_option_is_named(self):
        pages = {name: gzip.decompress(it).decode() for name, it in self.pages().items()}
        for order in ORDERS:
            self.assertIn(rf"\fBcontacts\-{order}\fR(1)", pages["contacts.1"])
            page = pages[f"contacts-{order}.1"].replace(r"\-", "-")
            bold = [it for line in re.findall(r"(?m)^\\fB(-.*)\\fR$", page) for it in line.split()]
            self.assertEqual(set(), options_of(order) - {it.rstrip(",") for it in bold}, order)
        for option in options_of(""):
            self.assertIn(option, pages["contacts.1"].replace(r"\-", "-"))
        for said in "262,144", "fault store\\-fault 19", "/etc/default/tosculai":
            self.assertIn(said, pages["tosculai.7"])

    def test_each_option_of_the_commands_in_python_is_named(self):
        pages = {name: gzip.decompress(it).decode().replace(r"\-", "-")
                 for name, it in self.pages().items()}
        rows = {"tosculai.1": "python/tosculai.py", "tosculai-carddav.1": "carddav/carddav",
                "tosculai-ldap.1": "ldap/ldap", "tosculai-follow.1": "python/follow.py"}
        orders = {"tosculai.1": ["sync", "import", "put"], "tosculai-carddav.1": ["user add"],
                  "tosculai-follow.1": ["log", "restore", "purge"]}
        for name, script in rows.items():
            for order in "", *orders.get(name, []):
                said = subprocess.run([sys.executable, "-B", ROOT / "clients" / script,
                                       *order.split(), "--help"], check=True,
                                      stdout=subprocess.PIPE, universal_newlines=True).stdout
                asked = set(re.findall(r"(?m)^  (--[\w-]+)", said)) - {"--help"}
                self.assertEqual(set(), asked - set(re.findall(r"\\fB(--[\w-]+)", pages[name])),
                                 (name, order))
                if order:
                    self.assertIn(f"\n.SS {order.rpartition(' ')[2]} ", pages[name])
        for said in "KEEP", "FILE FOLDER [BOOK ..]":
            self.assertIn(said, pages["contacts-backup.8"])

    def test_they_are_packed_without_a_time(self):
        for name, octets in self.pages().items():
            self.assertEqual((b"\x1f\x8b\x08\0", b"\0" * 4), (octets[:4], octets[4:8]), name)

    def test_each_program_has_its_page(self):
        names = {Path(it).name for it in installed() if re.match(r"usr/s?bin/", it)}
        self.assertEqual(set(), names - {it.rpartition(".")[0] for it in self.pages()})

    def test_groff_warns_of_none(self):
        if not shutil.which("man"):
            self.skipTest("no man on this machine")
        with Folder(in_memory=True) as folder:
            # One page of all, since each start takes its time.
            whole = folder / "all.1"
            whole.write_bytes(b"".join(gzip.decompress(it) for it in self.pages().values()))
            done = subprocess.run(
                ["man", "-l", "--warnings", "-E", "UTF-8", "-Tutf8", "-Z", whole],
                env={**os.environ, "LC_ALL": "C.UTF-8", "MANWIDTH": "80"},
                stdout=subprocess.PIPE, stderr=subprocess.PIPE)
        self.assertEqual((0, b""), (done.returncode, done.stderr))


class InstallPage(unittest.TestCase):
    """docs/INSTALL.md, which packaging/trial/newcomer follows in a Debian with systemd."""

    def blocks(self):
        return [it for it in Page("docs/INSTALL.md").blocks() if it.info.startswith("sh")]

    def test_what_it_names_is_in_the_package(self):
        files, named = installed(), set()
        for block in self.blocks():
            named |= set(re.findall(r"/usr/share/\S+", block.text))
            for command in re.findall(r"(?m)^(?:runuser .*-- )?\\?\n? *(tosculai[\w-]*) ",
                                      block.text):
                self.assertIn(f"usr/bin/{command}", files)
            for unit in re.findall(r"\b(?:contacts|carddav)[\w-]*\.(?:service|timer)", block.text):
                self.assertIn(f"usr/lib/systemd/system/{unit}", files)
        self.assertLessEqual(2, len(named))
        self.assertEqual(set(), {it[1:] for it in named} - set(files))

    def test_each_block_is_a_script_and_a_question_ends_it(self):
        self.assertLessEqual(8, len(self.blocks()))
        for block in self.blocks():
            done = subprocess.run(["sh", "-n"], input=block.text.encode(), stderr=subprocess.PIPE)
            self.assertEqual((0, b""), (done.returncode, done.stderr))
            # What is pasted after a question for a password would answer it.
            lines = block.text.replace("\\\n", "").splitlines()
            asking = [it for it in lines if re.search(r"\bhtpasswd|user add", it)]
            self.assertLessEqual(set(asking), {lines[-1]})

    def test_the_changes_of_the_two_files(self):
        block = next(it.text for it in self.blocks() if "htpasswd" in it.text)
        with Folder(in_memory=True) as folder:
            for path in "etc/default/tosculai", "usr/share/doc/tosculai/examples/nginx.conf":
                (folder / path).parent.mkdir(parents=True)
                (folder / path).write_bytes(installed()[path])
            (folder / "etc/nginx/conf.d").mkdir(parents=True)
            lines = [it for it in block.replace("\\\n", "").splitlines()
                     if it.startswith(("name=", "sed "))]
            self.assertEqual(3, len(lines))
            script = re.sub(r"(?<=[ >])/(?=etc|usr)", f"{folder}/", "\n".join(lines))
            subprocess.run(["sh", "-eu"], input=script.encode(), check=True)
            self.assertIn("\n    server_name office.example;\n",
                          (folder / "etc/nginx/conf.d/contacts.conf").read_text())
            script = f". {folder}/etc/default/tosculai\necho $CONTACTS_OPTIONS"
            said = subprocess.run(["sh"], input=script.encode(), check=True,
                                  stdout=subprocess.PIPE).stdout
        self.assertEqual(b"--socket /run/tosculai/office.sock --host office.example\n", said)


class Completion(unittest.TestCase):
    def completed(self, *rows):
        """What bash offers after each of these rows of words, of which the last is completed."""
        file = PACKED.folder / "completion"
        file.write_bytes(installed()["usr/share/bash-completion/completions/contacts"])
        script = [f"source {shlex.quote(str(file))}"]
        for words in rows:
            listed = " ".join(map(shlex.quote, words))
            script.append(f"COMP_WORDS=({listed}); COMP_CWORD={len(words) - 1}; _contacts; "
                          'echo "${COMPREPLY[*]}"')
        done = subprocess.run(["bash", "--norc", "-c", "\n".join(script)], check=True,
                              stdout=subprocess.PIPE, stderr=subprocess.PIPE)
        file.unlink()
        self.assertEqual(b"", done.stderr)
        return [set(it.split()) for it in done.stdout.decode().split("\n")[:-1]]

    def setUp(self):
        if not shutil.which("bash"):
            self.skipTest("no bash on this machine")

    def test_orders_and_options(self):
        rows = [["contacts", ""], ["contacts", "help", ""], ["contacts", "-"]]
        rows += [["contacts", order, "-"] for order in ORDERS]
        wanted = [set(ORDERS), set(ORDERS), options_of("")] + [options_of(it) for it in ORDERS]
        for row, want, offered in zip(rows, wanted, self.completed(*rows)):
            self.assertEqual(want, offered, row)

    def test_values(self):
        rows = [(["contacts", "export", "--form", ""], {"cards", "columns"}),
                (["contacts", "export", "--form", "co"], {"columns"}),
                (["contacts", "run", "--port", ""], set()),
                (["contacts", "c"], {"check", "convert", "copy"}),
                (["contacts", "run", "a.db", "--max"], {"--max-held", "--max-open"}),
                (["contacts", "tally", "a.db", ""], set())]
        found = self.completed(*(words for words, _ in rows))
        self.assertEqual([want for _, want in rows], found)


class SampleOffice(unittest.TestCase):
    def test_it_is_what_its_script_prints(self):
        made = subprocess.run([sys.executable, str(ROOT / "examples/sample-office.py")], check=True,
                              stdout=subprocess.PIPE).stdout
        self.assertTrue(made == (ROOT / "examples/sample-office.csv").read_bytes())

    def test_it_can_be_imported(self):
        file = ROOT / "examples/sample-office.csv"
        self.assertEqual(b"rows 212\n", run("check", file).out)
        with Folder(in_memory=True) as folder:
            book = [folder / "office.db", "staff"]
            run("init", book[0])
            run("book", *book)
            self.assertEqual(b"new 212 edited 0 same 0 number 212\n",
                             run("import", *book, "sample", file).out)
            with open(file, encoding="utf-8", newline="") as opened:
                rows = list(csv.reader(opened))
            exported = run("export", *book).out.decode()
            self.assertEqual(sorted(rows), sorted(csv.reader(io.StringIO(exported, newline=""))))
            groups = [uid for uid, card in rows if "\r\nKIND:group\r\n" in card]
            self.assertEqual(12, len(groups))
            people = run("expand", *book, groups[-1]).out.splitlines()
            self.assertEqual(200, len({it for it in people if it.startswith(b"person ")}))
            self.assertEqual(7, sum("\r\nPHOTO:data:image/png;base64," in card for _, card in rows))


if __name__ == "__main__":
    unittest.main()
