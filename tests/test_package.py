"""`tools/package`: the archives octet for octet and file by file.

It packs the program under test twice: from this tree, and from a copy with another umask, time
zone, language and home. The archives are read by Python alone, and by dpkg-deb and make where these
are.
"""

import hashlib
import io
import os
import re
import shutil
import subprocess
import sys
import tarfile
import unittest
from importlib.machinery import SourceFileLoader
from importlib.util import module_from_spec, spec_from_loader
from pathlib import Path

from packed import EPOCH, Packed, members, pack, wait_for
from program import PROGRAM, ROOT, Folder, run

# What a copy of the tree has: all that goes into the package, and what packs it.
PARTS = ["tools", "packaging", "examples", "clients", "docs", "dist"]
FILES = ["crates.txt", "README.md", "SECURITY.md", "CHANGELOG.md"]
UNITS = ["carddav.service", "contacts-backup.service", "contacts-backup.timer",
         "contacts-follow.service", "contacts.service", "ldap.service"]
# Those of one of several offices, each with that of a single office.
TEMPLATES = {"contacts@.service": "contacts.service",
             "contacts-backup@.service": "contacts-backup.service",
             "contacts-backup@.timer": "contacts-backup.timer"}
# The most points of `systemd-analyze security` that a service has, of 10.
EXPOSED = {"contacts.service": 0.5, "contacts@.service": 0.5, "contacts-backup.service": 1.0,
           "contacts-backup@.service": 1.0, "carddav.service": 1.0, "ldap.service": 1.1,
           "contacts-follow.service": 1.1}
WRAPPERS = ["tosculai", "tosculai-carddav", "tosculai-follow", "tosculai-ldap"]
# The fields of a control file that are tested one by one.
FIELDS = {"Package": "tosculai", "Architecture": "amd64", "Priority": "optional",
          "Depends": "adduser, libc6 (>= 2.34), python3 (>= 3.8)"}


def setUpModule():
    """Packs in both places at once."""
    global FOLDER, FIRST, SECOND
    FOLDER = Folder(in_memory=True)
    path = FOLDER.__enter__()
    unittest.addModuleCleanup(FOLDER.__exit__)
    copy = path / "another tree"
    for part in PARTS:
        shutil.copytree(ROOT / part, copy / part, ignore=shutil.ignore_patterns("*.png", "trial"))
    shutil.copytree(ROOT / "clients/desk/site", copy / "clients/desk/site", dirs_exist_ok=True)
    for name in FILES:
        shutil.copy(ROOT / name, copy)
    for file in copy.rglob("*"):
        # As a checkout under that umask has them.
        file.chmod(file.stat().st_mode & 0o700)
    FIRST, SECOND = Packed(path / "first"), Packed(path / "second out")
    both = [pack(ROOT, FIRST.folder, 0o022, TZ="UTC"),
            pack(copy, SECOND.folder, 0o077, TZ="Pacific/Kiritimati", LC_ALL="C", HOME="/nowhere",
                 USER="ann")]
    for process in both:
        wait_for(process)


def only(pattern):
    """The one file of the first packing that has such a name."""
    return FIRST.only(pattern)


def deb():
    return FIRST.deb()


def installed():
    return FIRST.installed()


def load_tool():
    """tools/package as a module."""
    loader = SourceFileLoader("package", str(ROOT / "tools/package"))
    module = module_from_spec(spec_from_loader("package", loader))
    loader.exec_module(module)
    return module


class Octets(unittest.TestCase):
    def test_two_packings_are_the_same(self):
        names = sorted(it.name for it in FIRST.folder.iterdir())
        self.assertEqual(names, sorted(it.name for it in SECOND.folder.iterdir()))
        self.assertEqual(4, len(names))
        for name in names:
            with self.subTest(file=name):
                both = [(it.folder / name).read_bytes() for it in (FIRST, SECOND)]
                self.assertTrue(both[0] == both[1])

    def test_the_digests_are_those_of_the_files(self):
        lines = (FIRST.folder / "SHA256SUMS").read_text().splitlines()
        self.assertEqual(3, len(lines))
        for line in lines:
            digest, name = line.split("  ")
            self.assertEqual(digest, hashlib.sha256((FIRST.folder / name).read_bytes()).hexdigest())

    def test_a_program_that_has_not_the_digest_of_dist_is_not_packed(self):
        tree = FOLDER.path / "another tree"
        sources = tree / "dist/SOURCES"
        sources.write_text(re.sub(r"(?m)^program .*$", "program " + "0" * 64, sources.read_text()))
        done = subprocess.run([sys.executable, str(tree / "tools/package"), "--out", "none"],
                              cwd=tree, stdout=subprocess.PIPE, stderr=subprocess.PIPE)
        self.assertEqual(1, done.returncode)
        self.assertIn(b"is not the program that dist/SOURCES names", done.stderr)
        self.assertFalse((tree / "none").exists())

    def test_without_xz_and_python_the_program_is_not_unpacked(self):
        commands = FOLDER.path / "few commands"
        commands.mkdir()
        for name in "sh", "dirname", "readlink", "rm":
            (commands / name).symlink_to(shutil.which(name))
        done = subprocess.run([ROOT / "tools/unpack", FOLDER.path / "unpacked"],
                              env={"PATH": str(commands)}, stderr=subprocess.PIPE)
        self.assertEqual(1, done.returncode)
        self.assertIn(b"xz and python3 are missing", done.stderr)
        self.assertFalse((FOLDER.path / "unpacked").exists())

    def test_the_list_names_each_file_and_crate(self):
        text = only("*.txt").read_text()
        listed = re.findall(r"^(\d+) +(\d+) ([0-9a-f]{64}) /(.*)$", text, re.M)
        files = installed()
        self.assertEqual(sorted(files), [path for *_, path in listed])
        for _, size, digest, path in listed:
            self.assertEqual((int(size), digest),
                             (len(files[path]), hashlib.sha256(files[path]).hexdigest()), path)
        for line in (ROOT / "crates.txt").read_text().splitlines():
            if re.match(r"(contacts|book_model|store_tables):", line):
                self.assertIn(f"\n{line.strip()}\n", text)
        self.assertIn("\nkit " + re.search(r"(?m)^kit (.*)$", run("--version").out.decode())[1],
                      text)

    def test_the_list_names_the_tools_that_made_the_program(self):
        text = only("*.txt").read_text()
        named = re.search(r"(?m)^Compilers: .*\n((?:.+\n)+)\n", text)[1].splitlines()
        # The section by another reader, where there is one.
        if shutil.which("readelf"):
            said = subprocess.run(["readelf", "-p", ".comment", PROGRAM], check=True,
                                  stdout=subprocess.PIPE, universal_newlines=True).stdout
            self.assertEqual(re.findall(r"(?m)^ +\[ *[0-9a-f]+\]  (.*)$", said), named)
        logic = re.search(r"logic (\w+)", run("--version").out.decode())[1]
        self.assertTrue(any(f"logic={logic}" in it for it in named), named)
        self.assertEqual([], load_tool().elf.tools_of(b"#!/bin/sh\n"))

    def test_the_version_is_the_programs(self):
        own = re.match(r"contacts (\S+)\n", run("--version").out.decode())[1]
        stem = f"tosculai-{own}-x86_64-linux"
        self.assertEqual(["SHA256SUMS", f"{stem}.tar.xz", f"{stem}.txt",
                          f"tosculai_{own}_amd64.deb"],
                         sorted(it.name for it in FIRST.folder.iterdir()))
        tool = load_tool()
        for said in "0.9.0", "1.10.2":
            self.assertEqual(said, tool.version_of(f"contacts {said}\nschema 2\nkit k\n"))
        for wrong in "contacts", "contacts \n", "contacts 1-2\n", "contacts unreleased\n", \
                "other 1.0\n":
            self.assertRaises(ValueError, tool.version_of, wrong)

    def test_a_version_without_its_date_in_the_changelog_is_not_packed(self):
        tool = load_tool()
        tool.is_in_changelog("0.9.0", "# Changelog\n\n## 0.9.0 - 2026-11-28\n\nThe first.\n")
        for wrong in "", "## Unreleased\n", "## 0.9.0\n", "## 0.9.1 - 2026-11-28\n", \
                "see ## 0.9.0 - 2026-11-28\n", "## 0x9.0 - 2026-11-28\n":
            self.assertRaises(ValueError, tool.is_in_changelog, "0.9.0", wrong)

    def test_paths_of_any_length_that_a_tar_has(self):
        tar = load_tool().tar
        for count in 99, 100, 101, 102, 103, 150, 200, 254, 255:
            path = ("ab/" * 90 + "f" * 3)[-count:].lstrip("/")
            with tarfile.open(fileobj=io.BytesIO(tar({path: (b"x", 0o644)}, 0))) as archive:
                files = [it for it in archive if it.isfile()]
                self.assertEqual([path], [it.name for it in files])
                self.assertEqual(b"x", archive.extractfile(files[0]).read())
        self.assertRaises(ValueError, tar, {"f" * 101: (b"", 0o644)}, 0)
        self.assertRaises(ValueError, tar, {"ab/" * 90 + "f": (b"", 0o644)}, 0)


class Deb(unittest.TestCase):
    def test_members(self):
        found = deb()
        self.assertEqual(["debian-binary", "control.tar.xz", "data.tar.xz"], list(found))
        self.assertEqual(b"2.0\n", found["debian-binary"])

    def test_each_file_is_roots_and_has_its_mode(self):
        programs = {f"./usr/bin/{it}" for it in ["contacts", *WRAPPERS]}
        programs.add("./usr/sbin/contacts-backup")
        for path, (it, octets) in members(deb()["data.tar.xz"]).items():
            with self.subTest(path=path):
                self.assertEqual((0, 0, "root", "root"), (it.uid, it.gid, it.uname, it.gname))
                self.assertEqual(int(EPOCH), it.mtime)
                self.assertTrue(it.isdir() or it.isfile())
                is_program = it.isdir() or path in programs or octets.startswith(b"#!")
                self.assertEqual(0o755 if is_program else 0o644, it.mode)

    def test_each_folder_comes_before_what_is_in_it(self):
        seen = set()
        for path in members(deb()["data.tar.xz"]):
            above = path.rstrip("/").rpartition("/")[0]
            self.assertTrue(not above or above in seen, path)
            seen.add(path.rstrip("/"))

    def test_what_is_where(self):
        files = installed()
        units = [f"usr/lib/systemd/system/{it}" for it in [*UNITS, *TEMPLATES]]
        scripts = ["python/tosculai.py", "carddav/carddav", "ldap/ldap", "desk/index.html",
                   "desk/sw.js", "python/tosculai_tools/follow.py", "carddav/gateway/cli.py"]
        examples = ["nginx.conf", "office.sh", "sample-office.csv"]
        for path in [*units, *(f"usr/share/tosculai/{it}" for it in scripts),
                     *(f"usr/share/doc/tosculai/examples/{it}" for it in examples),
                     "usr/share/doc/tosculai/copyright", "usr/lib/sysusers.d/tosculai.conf",
                     "etc/default/tosculai", *(f"usr/bin/{it}" for it in WRAPPERS)]:
            self.assertIn(path, files)
        self.assertEqual(Path(PROGRAM).read_bytes(), files["usr/bin/contacts"])
        wrong = re.compile(r"__pycache__|\.pyc$|/trial/|/packaging/|wheels|pyproject")
        self.assertEqual([], [it for it in files if wrong.search(it)])

    def test_no_installed_program_names_usr_local(self):
        for path, octets in installed().items():
            if not re.search(r"\.(md|json|gz)$", path) and path != "usr/bin/contacts":
                self.assertNotIn(b"/usr/local", octets, path)
            self.assertNotIn(b"@PREFIX@", octets, path)

    def test_what_a_unit_or_a_wrapper_starts_is_there(self):
        files = installed()
        for path, octets in files.items():
            if path.startswith(("usr/lib/systemd", "usr/bin/tosculai")):
                named = re.findall(rb"(?<![\w/])/(usr/(?:s?bin|share)/\S+)", octets)
                system = {b"usr/bin/systemctl", b"usr/bin/python3"}
                for it in set(named) - system:
                    self.assertIn(it.decode(), files, path)

    def test_the_users_of_the_units_are_made(self):
        files = installed()
        users = set(re.findall(rb"(?m)^u (\S+) ", files["usr/lib/sysusers.d/tosculai.conf"]))
        units = b"".join(octets for path, octets in files.items() if "/systemd/" in path)
        self.assertEqual(users, set(re.findall(rb"(?m)^User=(.*)$", units)))
        postinst = members(deb()["control.tar.xz"])["./postinst"][1]
        self.assertEqual(users, set(re.findall(rb"(?m)^    account (\S+) ", postinst)))
        folders = set(re.findall(rb"(?m)^StateDirectory=([\w-]+)", units))
        self.assertEqual({b"/var/lib/" + it for it in folders},
                         set(re.findall(rb"(?m)^    account \S+ (\S+) ", postinst)))

    def test_the_options_of_the_server(self):
        files = installed()
        text = files["etc/default/tosculai"].decode()
        # So that an upgrade to a program with other options asks nobody about a changed file.
        self.assertEqual({"--socket", "--host"}, set(re.findall(r"--[\w-]+", text)))
        read = subprocess.run(["sh"], input=f"{text}\necho $CONTACTS_OPTIONS".encode(), check=True,
                              stdout=subprocess.PIPE).stdout
        self.assertEqual(b"--socket /run/tosculai/office.sock\n", read)
        unit = files["usr/lib/systemd/system/contacts.service"].decode()
        self.assertIn("\nEnvironmentFile=-/etc/default/tosculai\nExecStart=/usr/bin/contacts run "
                      "/var/lib/tosculai/office.db --create $CONTACTS_OPTIONS\n", unit)
        self.assertIn("\nExecStartPost=/usr/share/tosculai/listening $MAINPID $CONTACTS_OPTIONS\n",
                      unit)

    def settings(self, unit):
        """The lines of an installed unit that set something."""
        text = installed()[f"usr/lib/systemd/system/{unit}"].decode()
        return re.findall(r"(?m)^(\w+)=(.*)$", text)

    def test_the_units_of_several_offices_are_as_those_of_one(self):
        own = {"Description", "ExecStart", "ExecStopPost", "Environment", "EnvironmentFile",
               "ExecStartPost", "StateDirectory", "RuntimeDirectory", "TemporaryFileSystem",
               "BindPaths"}
        for template, single in TEMPLATES.items():
            self.assertEqual([it for it in self.settings(single) if it[0] not in own],
                             [it for it in self.settings(template) if it[0] not in own])
            changed = [value for name, value in self.settings(template) if name in own]
            self.assertTrue(all("%i" in it for it in changed if "tosculai/" in it), changed)

    def test_a_service_that_fails_is_started_again_for_ever(self):
        for unit in EXPOSED:
            settings = dict(self.settings(unit))
            if settings.get("Type") != "oneshot":
                wanted = ("0", "always", "1")
                names = "StartLimitIntervalSec", "Restart", "RestartSec"
                self.assertEqual(wanted, tuple(settings.get(it) for it in names), unit)
                self.assertRegex(settings["MemoryMax"], r"^\d+[MG]$")

    def test_what_a_service_could_still_do(self):
        if not shutil.which("systemd-analyze"):
            self.skipTest("no systemd-analyze on this machine")
        with Folder(in_memory=True) as folder:
            for unit, most in EXPOSED.items():
                file = folder / unit
                file.write_bytes(installed()[f"usr/lib/systemd/system/{unit}"])
                done = subprocess.run(
                    ["systemd-analyze", "security", "--offline=true", "--no-pager", str(file)],
                    stdout=subprocess.PIPE, stderr=subprocess.PIPE, universal_newlines=True)
                if "unrecognized option" in done.stderr:
                    self.skipTest("systemd-analyze is older than 250")
                points = re.search(r"exposure level for .*: ([\d.]+) ", done.stdout)
                self.assertIsNotNone(points, done.stdout + done.stderr)
                self.assertLessEqual(float(points[1]), most, unit)

    def test_the_control_files(self):
        found = {path[2:]: (it, octets) for path, (it, octets)
                 in members(deb()["control.tar.xz"]).items()}
        control = found["control"][1].decode()
        fields = dict(re.findall(r"(?m)^([\w-]+): (.*)$", control))
        version = re.fullmatch(r"tosculai_(.*)_amd64\.deb", only("*.deb").name)[1]
        wanted = {**FIELDS, "Version": version}
        self.assertEqual(wanted, {it: fields[it] for it in wanted})
        self.assertEqual(b"/etc/default/tosculai\n", found["conffiles"][1])
        sums = dict(reversed(it.split("  ")) for it in found["md5sums"][1].decode().splitlines())
        files = {path: octets for path, octets in installed().items() if path[:4] != "etc/"}
        self.assertEqual({it: hashlib.md5(files[it]).hexdigest() for it in files}, sums)
        for script in "postinst", "prerm", "postrm":
            it, octets = found[script]
            self.assertEqual(0o755, it.mode)
            self.assertNotRegex(octets, rb"@[A-Z]+@")
            checked = subprocess.run(["sh", "-n"], input=octets, stderr=subprocess.PIPE)
            self.assertEqual((0, b""), (checked.returncode, checked.stderr))

    def test_no_script_removes_what_an_office_has_entered(self):
        for path, (_, octets) in members(deb()["control.tar.xz"]).items():
            if path in ("./postinst", "./prerm", "./postrm"):
                self.assertNotRegex(octets, rb"\b(rm|rmdir|unlink|deluser|userdel|mv)\b *[-/$\"]")

    def test_dpkg_deb_reads_it(self):
        if not shutil.which("dpkg-deb"):
            self.skipTest("no dpkg-deb on this machine")
        said = subprocess.run(["dpkg-deb", "--contents", only("*.deb")], check=True,
                              stdout=subprocess.PIPE, universal_newlines=True).stdout
        listed = [it.split(None, 5)[5] for it in said.splitlines()]
        self.assertEqual({f"./{it}" for it in installed()},
                         {it for it in listed if not it.endswith("/")})
        said = subprocess.run(["dpkg-deb", "--field", only("*.deb"), "Package"], check=True,
                              stdout=subprocess.PIPE).stdout
        self.assertEqual(b"tosculai\n", said)


class Archive(unittest.TestCase):
    def test_make_install_installs_the_same_files(self):
        if not shutil.which("make"):
            self.skipTest("no make on this machine")
        packed = members(only("*.tar.xz").read_bytes())
        with Folder(in_memory=True) as folder:
            with tarfile.open(only("*.tar.xz")) as archive:
                archive.extractall(folder)
            stem, = folder.iterdir()
            place = folder / "root of it"
            command = ["make", "-s", "-C", stem, "install", f"DESTDIR={place}", "PREFIX=/opt/t"]
            subprocess.run(command, check=True, stdout=subprocess.PIPE,
                           preexec_fn=lambda: os.umask(0o077))
            self.compare(place, {path.partition("/")[2]: it for path, it in packed.items()})
            program = place / "opt/t/bin/contacts"
            said = subprocess.run([program, "--version"], stdout=subprocess.PIPE, check=True).stdout
            self.assertEqual(run("--version").out, said)
            unit = (place / "opt/t/lib/systemd/system/contacts.service").read_text()
            self.assertIn("\nExecStart=/opt/t/bin/contacts run /var/lib/tosculai/office.db ", unit)

    def compare(self, place, packed):
        """Each file that the .deb has is there with its octets, its mode, and the other prefix."""
        found = {str(it.relative_to(place)): it for it in place.rglob("*") if it.is_file()}
        wanted = installed()
        moved = {re.sub("^usr/", "opt/t/", path): path for path in wanted}
        self.assertEqual(sorted(moved), sorted(found))
        for path, file in found.items():
            it, octets = packed[f"tree/{moved[path]}"]
            if b"@PREFIX@" in octets and path != "opt/t/bin/contacts":
                self.assertEqual(wanted[moved[path]], octets.replace(b"@PREFIX@", b"/usr"))
                octets = octets.replace(b"@PREFIX@", b"/opt/t")
            self.assertTrue(octets == file.read_bytes(), path)
            self.assertEqual(it.mode, file.stat().st_mode & 0o7777, path)
        self.assertEqual(0o755, (place / "opt/t/bin").stat().st_mode & 0o7777)


if __name__ == "__main__":
    unittest.main()
