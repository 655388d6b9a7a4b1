"""The files that the package installs, from the tree of the project. Each has one source there."""

import re
from pathlib import Path
from typing import Dict, List, NamedTuple

import completion
from archives import Entry, gzipped
from helps import Help
from manuals import Manuals

HERE = Path(__file__).resolve().parent
SHARE = "usr/share/tosculai"
DOC = "usr/share/doc/tosculai"
UNITS = ["contacts.service", "carddav.service", "ldap.service", "contacts-follow.service",
         "contacts-backup.service", "contacts-backup.timer"]
# Of several offices on a machine, each with a name.
TEMPLATES = ["contacts@.service", "contacts-backup@.service", "contacts-backup@.timer"]
# The scripts of units.
SCRIPTS = {"backup.sh": "usr/sbin/contacts-backup", "listening.sh": f"{SHARE}/listening"}
# Commands of the clients, with their scripts below share/tosculai.
WRAPPERS = {"tosculai": "python/tosculai.py", "tosculai-follow": "python/follow.py",
            "tosculai-carddav": "carddav/carddav", "tosculai-ldap": "ldap/ldap"}
PAGES = ["README.md", "SECURITY.md", "CHANGELOG.md", "docs/API.md", "docs/CLIENTS.md",
         "docs/INSTALL.md", "docs/OPERATING.md", "docs/GLOSSARY.md", "docs/openapi.json",
         "clients/carddav/README.md", "clients/desk/README.md", "clients/ldap/README.md"]


class User(NamedTuple):
    """A system user of the units, and its folder."""

    name: str
    folder: str
    said: str


USERS = [User("tosculai", "/var/lib/tosculai", "Tosculai contact server"),
         User("tosculai-carddav", "/var/lib/tosculai-carddav", "Tosculai gateway for phones"),
         User("tosculai-follow", "/var/lib/tosculai-follow", "Tosculai live backup")]


def adapted(text: str) -> bytes:
    """A text of the repository with the paths of the package."""
    text = text.replace("#!/usr/bin/env python3\n", "#!/usr/bin/python3\n", 1)
    text = text.replace("$here/../contacts", "@PREFIX@/bin/contacts")
    text = text.replace("$here/../clients/desk/site", "@PREFIX@/share/tosculai/desk")
    text = text.replace("$here/../clients/", "@PREFIX@/share/tosculai/")
    return text.replace("/usr/local/", "@PREFIX@/").encode()


def copied(source: Path, path: str) -> Entry:
    """A file of the repository. Its mode is that of a program or not, whatever the umask was."""
    mode = 0o755 if source.stat().st_mode & 0o100 else 0o644
    octets = source.read_bytes()
    try:
        text = octets.decode()
    except UnicodeDecodeError:
        return Entry(path, octets, mode)
    made = adapted(text)
    return Entry(path, made, mode, b"@PREFIX@" in made)


def below(source: Path, path: str, names: str = "*") -> List[Entry]:
    """All files of a folder whose names are as this pattern, without what Python has compiled."""
    return [copied(it, f"{path}/{it.relative_to(source)}") for it in sorted(source.rglob(names))
            if it.is_file() and "__pycache__" not in it.parts]


class Tree:
    """All entries, for one program and its help."""

    def __init__(self, root: Path, program: bytes, helps: Dict[str, Help],
                 manuals: Manuals) -> None:
        self.root, self.program, self.helps, self.manuals = root, program, helps, manuals
        self.operating = (root / "docs/OPERATING.md").read_text("utf-8")

    def entries(self, built_from: str, changelog: str, overrides: str, legal: str) -> List[Entry]:
        """All files, sorted by their paths."""
        found = [Entry("usr/bin/contacts", self.program, 0o755), *self.units(), *self.clients(),
                 *self.wrappers(), *self.documents(), *self.man_pages()]
        made = completion.made(self.helps).encode()
        found += [
            Entry("usr/share/bash-completion/completions/contacts", made),
            Entry("usr/lib/sysusers.d/tosculai.conf", sysusers().encode()),
            Entry("etc/default/tosculai", self.defaults().encode()),
            Entry(f"{DOC}/BUILT-FROM", built_from.encode()),
            Entry(f"{DOC}/changelog.gz", gzipped(changelog.encode())),
            Entry(f"{DOC}/copyright", legal.encode()),
            Entry("usr/share/lintian/overrides/tosculai", overrides.encode()),
        ]
        paths = [it.path for it in found]
        if len(set(paths)) < len(paths):
            raise ValueError("two files have one path")
        return sorted(found)

    def units(self) -> List[Entry]:
        found = []
        for name in UNITS + TEMPLATES:
            text = (self.root / "examples" / name).read_text("utf-8")
            if name == "contacts.service":
                text = configured(text)
            text = re.sub(r"^Description=.*\n", r"\g<0>Documentation=man:tosculai(7)\n", text,
                          flags=re.M)
            found.append(Entry(f"usr/lib/systemd/system/{name}", adapted(text), 0o644, True))
        scripts = [copied(self.root / "examples" / name, path) for name, path in SCRIPTS.items()]
        return found + scripts

    def clients(self) -> List[Entry]:
        clients = self.root / "clients"
        found = below(clients / "desk/site", f"{SHARE}/desk")
        found += below(clients / "python", f"{SHARE}/python", "*.py")
        for name in "carddav", "ldap":
            found += below(clients / name, f"{SHARE}/{name}")
        left_out = f"{SHARE}/python/packaging/"
        return [it for it in found if not it.path.endswith(".md")
                and not it.path.startswith(left_out)]

    def wrappers(self) -> List[Entry]:
        text = (HERE / "wrapper.sh").read_text("utf-8")
        return [Entry(f"usr/bin/{name}", text.replace("@SAID@", f"{name}: see {name}(1).")
                      .replace("@SCRIPT@", script).encode(), 0o755, True)
                for name, script in WRAPPERS.items()]

    def documents(self) -> List[Entry]:
        """Pages, which stay as they are, and examples beside them, which run where they are."""
        found = [Entry(f"{DOC}/{it}", (self.root / it).read_bytes()) for it in PAGES]
        units = {f"{DOC}/examples/{it}" for it in [*UNITS, *TEMPLATES, *SCRIPTS]}
        return found + [it for it in below(self.root / "examples", f"{DOC}/examples")
                        if it.path not in units]

    def man_pages(self) -> List[Entry]:
        pages = self.manuals.every(self.helps, self.operating)
        return [Entry(f"usr/share/man/{path}.gz", gzipped(text.encode()))
                for path, text in pages.items()]

    def defaults(self) -> str:
        """The options of `run` that the unit gives.

        The file doesn't list those of the program: dpkg asks whoever has changed it about each new
        text, and every office writes its name there.
        """
        unit = (self.root / "examples/contacts.service").read_text("utf-8")
        given = re.search(r"^ExecStart=.*(--socket \S+)", unit, re.M)
        text = (HERE / "defaults").read_text("utf-8")
        return text.replace("@GIVEN@", given[1] if given else "")


def configured(unit: str) -> str:
    """The server's unit with the options of /etc/default/tosculai."""
    made, count = re.subn(
        r"^(?:#.*\n)*ExecStart=(\S+ run \S+).*$",
        "# --create makes the file if it isn't there. Other options are in the file of defaults.\n"
        "EnvironmentFile=-/etc/default/tosculai\n"
        r"ExecStart=\1 --create $CONTACTS_OPTIONS", unit, flags=re.M)
    made, more = re.subn(r"^(ExecStartPost=\S+ \$MAINPID) .*$", r"\1 $CONTACTS_OPTIONS", made,
                         flags=re.M)
    if (count, more) != (1, 1):
        raise ValueError("examples/contacts.service doesn't start the order run, or wait for it")
    return made


def sysusers() -> str:
    lines = ["# The users of Tosculai's units. tools/package made this file."]
    lines += [f'u {it.name} - "{it.said}" {it.folder} /usr/sbin/nologin' for it in USERS]
    return "\n".join(lines) + "\n"
