"""The desk's own merge of two edits of a card, run by node, or a merge of lines where none is.

    with Merger() as merge:
        text = merge(base, mine, theirs)
"""

import json
import shutil
import subprocess
import tempfile
import threading
from pathlib import Path

from program import ROOT

from tosculai import lines_of

NODE = shutil.which("node")
SCRIPT = """
import { createInterface } from "node:readline";
const { merge3 } = await import(process.argv[1]);
for await (const line of createInterface({ input: process.stdin })) {
  console.log(JSON.stringify(merge3(...JSON.parse(line)).text()));
}
"""


class Merger:
    """What a value was changed into in two ways is what others made of it."""

    def __enter__(self):
        self.lock, self.process = threading.Lock(), None
        self.folder = tempfile.mkdtemp(prefix="contacts-test-")
        if NODE:
            js = Path(self.folder) / "js"
            shutil.copytree(ROOT / "clients/desk/site/js", js)
            (js / "package.json").write_text('{"type": "module"}')  # older versions ask for it
            module = (js / "merge.js").as_uri()
            self.process = subprocess.Popen(
                [NODE, "--input-type=module", "-e", SCRIPT, module], stdin=subprocess.PIPE,
                stdout=subprocess.PIPE, stderr=subprocess.DEVNULL)
        return self

    def __exit__(self, *_):
        if self.process:
            self.process.stdin.close()
            self.process.wait()
            self.process.stdout.close()
        shutil.rmtree(self.folder, ignore_errors=True)

    def __call__(self, base, mine, theirs):
        if not self.process:
            return merged_lines(base, mine, theirs)
        with self.lock:
            self.process.stdin.write(json.dumps([base, mine, theirs]).encode() + b"\n")
            self.process.stdin.flush()
            return json.loads(self.process.stdout.readline())


def merged_lines(base, mine, theirs):
    """Their lines without those that I removed, and with those that I added."""
    was, own, other = map(lines_of, (base, mine, theirs))
    lines = [it for it in other if it in own or it not in was]
    lines[-1:-1] = [it for it in own if it not in was and it not in lines]
    return "".join(it + "\r\n" for it in lines)
