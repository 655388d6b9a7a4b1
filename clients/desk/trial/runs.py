"""How a trial is run: its programs, its browser, and its steps one after another."""

import argparse
import os
import shutil
import signal
import sys
import tempfile
import time
import traceback
from pathlib import Path

from browser import Browser
from firefox import Firefox
from office import ROOT
from pages import Page


def program(name):
    found = shutil.which(name) or shutil.which(name, path="/usr/sbin:/usr/bin")
    if not found:
        sys.exit(f"there is no {name}; on Debian: apt-get install {name}")
    return found


def begin(is_firefox, office):
    if is_firefox:
        return Firefox(program("firefox-esr"))
    return Browser(program("chromium"), [f"--ignore-certificate-errors-spki-list={office.spki}"])


def take(trial, steps):
    """Takes steps by name, in order. Returns how many were wrong."""
    wrong = 0
    for name, step in steps.items():
        begun = time.monotonic()
        try:
            step(trial)
            trial.quiet()
            print(f"{name}: right, {time.monotonic() - begun:.1f} s", flush=True)
        except Exception:
            wrong += 1
            trial.failed(name)
            print(f"{name}: WRONG\n{traceback.format_exc()}", flush=True)
    return wrong


def arguments(text):
    """The arguments that all trials have; `text` is what the trial is about."""
    parser = argparse.ArgumentParser(description=text.split("\n")[0])
    parser.add_argument("--firefox", action="store_true", help="Firefox in place of Chromium")
    parser.add_argument("--slow", type=int, default=1, metavar="N",
                        help="all may take N times as long, on a machine that is busy with others")
    parser.add_argument("--pictures", help="a folder for pictures of the desk")
    return parser


def run(given, programs, kind_of_office, kind_of_trial, steps):
    """Takes the steps in an office of a kind, and says how it went. Returns the status."""
    for name in programs:
        program(name)
    Page.slow = given.slow
    # Who stops a trial leaves neither its browser nor its servers behind.
    signal.signal(signal.SIGTERM, lambda *_: sys.exit(143))
    pictures = Path(given.pictures or tempfile.mkdtemp(prefix="desk-pictures-"))
    pictures.mkdir(parents=True, exist_ok=True)
    office = kind_of_office(os.environ.get("CONTACTS", str(ROOT / "contacts")))
    browser = None
    try:
        browser = begin(given.firefox, office)
        wrong = take(kind_of_trial(office, browser, pictures), steps)
    finally:
        try:
            if browser:
                browser.close()
        finally:
            office.close()
    print(f"pictures: {pictures}")
    print(f"{wrong} steps were wrong" if wrong else "all steps were right")
    return 1 if wrong else 0
