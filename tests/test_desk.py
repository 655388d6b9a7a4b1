"""clients/desk: what can be seen without a browser. clients/desk/try tries it in one.

The service worker has to name the desk's files, the policy of the page has to be that of
examples/nginx.conf, no script may make markup of a string, and each text has to be there.
"""

import json
import re
import shutil
import subprocess
import unittest

from program import ROOT

SITE = ROOT / "clients/desk/site"
TRIAL = [ROOT / "clients/desk/try", ROOT / "clients/desk/office-day",
         *sorted((ROOT / "clients/desk/trial").glob("*.py"))]
SCRIPTS = sorted((SITE / "js").rglob("*.js")) + [SITE / "sw.js"]
# What would read a string as markup, as a script or as a style, or make a policy that lets it.
SINKS = (
    "innerHTML outerHTML insertAdjacentHTML setHTMLUnsafe createContextualFragment DOMParser "
    "srcdoc document.write eval( Function( importScripts setTimeout(\" javascript: style= "
    "createHTML createScript("
).split(" ")
POLICY = re.compile(r"default-src 'none';[^\"]*")
GROUNDS = ("ground", "sheet", "raised", "tint")
# By what two colours have to differ (WCAG 2.2, AA): texts, and what is around a field.
TEXTS = ("ink", "soft", "accent", "danger", "good", "mark")
EDGES = ("edge", "accent")


def text(path):
    return path.read_text(encoding="utf-8")


def code(path):
    """A script without its comments."""
    return re.sub(r"/\*[^]*?\*/|^\s*//.*$".replace("[^]", r"[\s\S]"), "", text(path), flags=re.M)


def schemes():
    """The colours by name: of the light scheme, and of the dark one."""
    source = text(SITE / "style/base.css")
    light, dark = (
        dict(re.findall(r"--(\w[\w-]*): (#[0-9a-f]{6});", part))
        for part in re.findall(r":root \{\n( +color-scheme.*?| +--ground: #1.*?)\}", source, re.S)
    )
    return {"light": light, "dark": dark}


def ratio(one, other):
    """The contrast of two colours, as WCAG 2 computes it."""

    def light(colour):
        parts = [int(colour[at:at + 2], 16) / 255 for at in (1, 3, 5)]
        r, g, b = (it / 12.92 if it <= 0.03928 else ((it + 0.055) / 1.055) ** 2.4 for it in parts)
        return 0.2126 * r + 0.7152 * g + 0.0722 * b

    low, high = sorted((light(one), light(other)))
    return (high + 0.05) / (low + 0.05)


class Desk(unittest.TestCase):
    def test_service_worker_keeps_all_files(self):
        """A file that it doesn't name would be missing without the network."""
        there = {str(it.relative_to(SITE)) for it in SITE.rglob("*") if it.is_file()}
        named = re.search(r"const FILES = \[(.*?)\];", text(SITE / "sw.js"), re.S)[1]
        self.assertEqual(
            there - {"index.html", "sw.js"} | {"./"}, set(re.findall(r'"([^"]+)"', named))
        )

    def test_page_names_its_files(self):
        page = text(SITE / "index.html")
        for name in re.findall(r'(?:href|src)="([^"#]+)"', page):
            self.assertTrue((SITE / name).is_file(), name)
        styles = {f"style/{it.name}" for it in (SITE / "style").iterdir()}
        self.assertEqual(styles, set(re.findall(r'href="(style/[^"]+)"', page)))

    def test_page_asks_for_all_scripts_at_once(self):
        named = re.findall(r'<link rel="modulepreload" href="([^"]+)">', text(SITE / "index.html"))
        there = {str(it.relative_to(SITE)) for it in (SITE / "js").rglob("*.js")}
        self.assertEqual(sorted(there - {"js/main.js"}), named)

    def test_imports(self):
        """Each name that a script imports is one that the other exports."""
        for path in SCRIPTS:
            for names, source in re.findall(
                r'^import (.*?) from "([^"]+)";', text(path), re.S | re.M
            ):
                with self.subTest(script=path.name, source=source):
                    other = (path.parent / source).resolve()
                    self.assertTrue(other.is_file())
                    exports = set(
                        re.findall(
                            r"^export (?:async )?(?:function|class|const) (\w+)", text(other), re.M
                        )
                    )
                    wanted = re.findall(r"\w+", names) if names.startswith("{") else []
                    self.assertLessEqual(set(wanted), exports)

    def test_no_string_becomes_markup(self):
        for path in SCRIPTS:
            for sink in SINKS:
                with self.subTest(script=path.name, sink=sink):
                    self.assertNotIn(sink, code(path))

    def test_no_scripts_or_styles_in_the_page(self):
        page = text(SITE / "index.html")
        self.assertEqual(1, len(re.findall("<script", page)))
        self.assertIn('<script type="module" src="js/main.js"></script>', page)
        self.assertIsNone(re.search(r"<style|\sstyle=|\son\w+=|javascript:", page))

    def test_names_and_landmarks(self):
        """What is in the page from the start has a place and gets a name, for screen readers."""
        page, frame = text(SITE / "index.html"), text(SITE / "js/frame.js")
        for element in ("h1", "header", "nav", "main"):
            self.assertEqual(1, len(re.findall(f"<{element}[ >]", page)), element)
        # The title, two links and labels by their text, the others by a name of their own.
        for name in ("title", "skip", "search-label", "new"):
            self.assertRegex(page, f'id="{name}"')
            self.assertRegex(frame, rf'by\("{name}"\)(\.textContent|;)')
        for name in ("bar", "books", "cards"):
            self.assertRegex(page, f'id="{name}"')
            self.assertIn(f'by("{name}").setAttribute("aria-label"', frame)
        self.assertIn('this.listRoot.setAttribute("aria-label"', frame)
        self.assertIn('for="search"', page)

    def test_policy(self):
        """The page's policy is that of nginx, but for what a page can't say."""
        page = POLICY.search(text(SITE / "index.html"))[0]
        front = POLICY.search(text(ROOT / "examples/nginx.conf"))[0]
        self.assertEqual(front.replace(" frame-ancestors 'none';", ""), page)
        self.assertIn("frame-ancestors 'none'", front)
        self.assertNotIn("unsafe", front)

    def test_texts(self):
        """Each text that a script asks for is there."""
        source = text(SITE / "js/texts.js") + text(SITE / "js/importtexts.js")
        known = set(re.findall(r"^  (\w+):", source, re.M))
        for path in SCRIPTS:
            for name in re.findall(r'\b(?:t|count)\(\s*"(\w+)"', code(path)):
                with self.subTest(script=path.name):
                    self.assertIn(name, known)

    def test_sizes(self):
        for path in [*SCRIPTS, *(SITE / "style").iterdir(), *TRIAL]:
            with self.subTest(file=path.name):
                lines = text(path).split("\n")
                self.assertLess(len(lines), 500)
                self.assertLessEqual(max(map(len, lines)), 100)

    def test_contrast(self):
        """Texts and edges of fields can be seen on all grounds, in both schemes."""
        for scheme, colours in schemes().items():
            pairs = [(name, ground, 4.5) for name in TEXTS for ground in GROUNDS]
            pairs += [(name, ground, 3) for name in EDGES for ground in GROUNDS]
            for name, ground, least in [*pairs, ("accent-ink", "accent", 4.5)]:
                with self.subTest(scheme=scheme, colour=name, ground=ground):
                    self.assertGreaterEqual(ratio(colours[name], colours[ground]), least)

    @unittest.skipUnless(shutil.which("node"), "there is no node")
    def test_units(self):
        """What files become on their way in, without a browser."""
        units = ROOT / "clients/desk/trial/units/intake.test.mjs"
        ran = subprocess.run(["node", "--test", units], stdout=subprocess.PIPE,
                             stderr=subprocess.STDOUT, text=True, timeout=600)
        self.assertEqual(0, ran.returncode, ran.stdout)

    def test_manifest(self):
        manifest = json.loads(text(SITE / "manifest.json"))
        for icon in manifest["icons"]:
            self.assertTrue((SITE / icon["src"]).is_file())
