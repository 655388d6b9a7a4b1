"""What the commands in Python say of themselves, for their man pages: their parsers, read as data.

The help that argparse prints differs between versions of Python; what a parser holds doesn't.
"""

import argparse
import importlib
import re
import sys
from pathlib import Path
from typing import List

from roff import code, escaped, inline, paragraph, tagged

# The parsers of each command: the words before its arguments, and the module and the function.
PARSERS = {"tosculai": [("", "tosculai_tools.command", "parser")],
           "tosculai-carddav": [("", "gateway.cli", "parser"),
                                ("user", "gateway.cli", "user_parser")],
           "tosculai-ldap": [("", "directory.cli", "parser")],
           "tosculai-follow": [("", "tosculai_tools.follow", "parser"),
                               ("", "tosculai_tools.memory", "parser")]}
# What they are called in their own texts, where nothing is installed.
CALLED = re.compile(
    r"(?:python3 )?(?<![\w/.-])(?:(tosculai|follow)\.py(?=[ .`])|(carddav|ldap)(?= ))")


def page_of(clients: Path, name: str) -> List[str]:
    """The sections of a command's page, in the language of man(7)."""
    for folder in "python", "carddav", "ldap":
        if str(clients / folder) not in sys.path:
            sys.path.append(str(clients / folder))
    parsers = [(words, getattr(importlib.import_module(module), function)())
               for words, module, function in PARSERS[name]]
    lines = about(parsers[0][1])
    for words, parser in parsers:
        command = f"{name} {words}".strip()
        orders = [it for it in parser._actions if isinstance(it, argparse._SubParsersAction)]
        if orders:
            lines += [f".SH COMMANDS OF {escaped(command.upper())}", *ordered(orders[0])]
        lines += options(parser)
    return lines


def installed(called: "re.Match[str]") -> str:
    """The name of a command where the package is installed."""
    name = called[1] or called[2]
    return name if name == "tosculai" else f"tosculai-{name}"


def about(parser: argparse.ArgumentParser) -> List[str]:
    """What a parser says before and after its options: a usage and indented lines are code."""
    lines: List[str] = []
    for text in [parser.description or "", parser.epilog or ""]:
        for block in CALLED.sub(installed, text.replace("%%", "%")).split("\n\n"):
            rows = block.strip("\n").splitlines()
            if rows and rows[0].startswith("Usage: ") or all(it.startswith("  ") for it in rows):
                lines += code([it.replace("Usage: ", "").strip() for it in rows]) if rows else []
            else:
                lines += paragraph(block)
    return lines


def ordered(orders: argparse._SubParsersAction) -> List[str]:
    """Each order with its arguments, what it does and its options; at last those of all orders."""
    said = {it.dest: it.help or "" for it in orders._choices_actions}
    each = [set(named(parser)) for parser in orders.choices.values()]
    common = set.intersection(*each) if len(each) > 1 else set()
    lines: List[str] = []
    for order, parser in orders.choices.items():
        words = [it.metavar or it.dest.upper() for it in arguments(parser)]
        text = said[order][:1].upper() + said[order][1:].rstrip(".") + "."
        lines += [f".SS {escaped(' '.join([order, *map(str, words)]))}", *paragraph(text)]
        lines += tags(parser, [it for it in named(parser) if it not in common])
    if common:
        shared = [it for it in named(parser) if it in common]
        lines += [".SS Of all of these", *tags(parser, shared)]
    return lines


def arguments(parser: argparse.ArgumentParser) -> List[argparse.Action]:
    return [it for it in parser._actions
            if not it.option_strings and not isinstance(it, argparse._SubParsersAction)]


def named(parser: argparse.ArgumentParser) -> List[str]:
    """The options of a parser but --help, by their first names."""
    return [it.option_strings[0] for it in parser._actions
            if it.option_strings and it.dest != "help"]


def options(parser: argparse.ArgumentParser) -> List[str]:
    return [".SH OPTIONS", *tags(parser, named(parser))] if named(parser) else []


def tags(parser: argparse.ArgumentParser, wanted: List[str]) -> List[str]:
    """These options, each with its value and what is said of it."""
    lines: List[str] = []
    for it in parser._actions:
        if it.option_strings[:1] and it.option_strings[0] in wanted:
            names = ", ".join(rf"\fB{escaped(name)}\fR" for name in it.option_strings)
            value = "" if it.nargs == 0 else rf" \fI{escaped(value_of(it))}\fR"
            said = (it.help or "") % {**vars(it), "prog": parser.prog}
            lines += tagged(names + value, [inline(said)] if said else [])
    return lines


def value_of(option: argparse.Action) -> str:
    if option.metavar:
        return str(option.metavar)
    return "|".join(map(str, option.choices)) if option.choices else option.dest.upper()


def head_of(script: Path, name: str) -> List[str]:
    """The sections of a script's page: the comment at its head, of which the usage is code."""
    text = re.match(r"#!.*\n((?:#.*\n)+)", script.read_text("utf-8"))
    comment = re.sub(r"(?m)^# ?", "", text[1] if text else "").replace(script.name, name)
    prose, _, usage = comment.partition("\nUsage: ")
    first, *rest = usage.splitlines()
    return [*paragraph(prose), ".SH USAGE", *code([first, *rest])]
