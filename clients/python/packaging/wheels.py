"""Makes what pip installs from this folder, over Python's standard library alone (PEP 517).

So `pip install ./clients/python` needs no network, no setuptools and no wheel.
"""

import base64
import hashlib
import os
import re
import zipfile
from typing import Any, Dict, List, Optional

HERE = os.path.dirname(os.path.dirname(os.path.abspath(__file__)))
MODULES = ["tosculai.py", "tosculai_urls.py", "vcard3.py", "vcard4.py"]
PACKAGE = "tosculai_tools"
DATE = (2026, 11, 27, 0, 0, 0)  # of all members, so that the same files make the same wheel


def read(path: str) -> bytes:
    with open(os.path.join(HERE, path), "rb") as file:
        return file.read()


def fact(name: str) -> str:
    """A text of the project in pyproject.toml."""
    found = re.search(rf'^{name} = "(.*)"$', read("pyproject.toml").decode(), re.MULTILINE)
    if not found:
        raise ValueError(f"pyproject.toml has no {name}")
    return found.group(1)


def modules() -> Dict[str, bytes]:
    """The files of Python by their paths."""
    paths = MODULES + [f"{PACKAGE}/{it}" for it in sorted(os.listdir(os.path.join(HERE, PACKAGE)))
                       if it.endswith(".py")]
    return {path: read(path) for path in paths}


def facts() -> Dict[str, bytes]:
    """What a wheel says of itself."""
    scripts = re.findall(r'^[\w-]+ = "[\w.]+:\w+"$', read("pyproject.toml").decode(), re.MULTILINE)
    texts = {
        "METADATA": ["Metadata-Version: 2.1", f"Name: {fact('name')}",
                     f"Version: {fact('version')}", f"Summary: {fact('description')}",
                     f"Requires-Python: {fact('requires-python')}"],
        "WHEEL": ["Wheel-Version: 1.0", "Generator: tosculai", "Root-Is-Purelib: true",
                  "Tag: py3-none-any"],
        "entry_points.txt": ["[console_scripts]", *(it.replace('"', "") for it in scripts)],
    }
    return {f"{stem()}.dist-info/{name}": ("\n".join(lines) + "\n").encode()
            for name, lines in texts.items()}


def stem() -> str:
    return f"{fact('name').replace('-', '_')}-{fact('version')}"


def write_wheel(folder: str, files: Dict[str, bytes]) -> str:
    """Writes a wheel of these files to this folder, and returns its name."""
    name, record = f"{stem()}-py3-none-any.whl", ""
    for path, octets in files.items():
        digest = base64.urlsafe_b64encode(hashlib.sha256(octets).digest()).rstrip(b"=").decode()
        record += f"{path},sha256={digest},{len(octets)}\n"
    own = f"{stem()}.dist-info/RECORD"
    whole = {**files, own: (record + f"{own},,\n").encode()}
    with zipfile.ZipFile(os.path.join(folder, name), "w") as wheel:
        for path, octets in whole.items():
            wheel.writestr(zipfile.ZipInfo(path, DATE), octets, zipfile.ZIP_DEFLATED)
    return name


# The calls of pip.

def get_requires_for_build_wheel(config_settings: Any = None) -> List[str]:
    return []


def build_wheel(wheel_directory: str, config_settings: Any = None,
                metadata_directory: Optional[str] = None) -> str:
    return write_wheel(wheel_directory, {**modules(), **facts()})


def get_requires_for_build_editable(config_settings: Any = None) -> List[str]:
    return []


def build_editable(wheel_directory: str, config_settings: Any = None,
                   metadata_directory: Optional[str] = None) -> str:
    """For `pip install --editable`: the modules stay in this folder (PEP 660)."""
    return write_wheel(wheel_directory, {f"{stem()}.pth": (HERE + "\n").encode(), **facts()})
