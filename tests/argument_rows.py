"""Arguments, valid and invalid, and the text that clap 4 prints for those that ask for no order.

A text is clap's: the error, perhaps a tip, the usage, and where to find more, separated by empty
lines. A tip names a similar word, whose Jaro similarity is above 0.7. The usage names the options
that were given if one of them matters to the error, and else [OPTIONS].

A row is the arguments, separated by spaces, and the text; arguments with spaces are a list.
"""

# The usage of each order.
TOP = "[COMMAND]"
TRY = "try"
INIT = "init <FILE>"
BOOK = "book <FILE> <BOOK>"
RUN = "run [OPTIONS] <FILE>"
SERVE = "serve [OPTIONS] <FILE>"
IMPORT = "import <FILE> <BOOK> <KEY> <CSV>"
EXPORT = "export [OPTIONS] <FILE> <BOOK>"
TALLY = "tally <FILE> <BOOK>"
FORGET = "forget <FILE> <BOOK> <UPTO>"
MIRROR = "mirror [OPTIONS] <FILE> <BOOK>"
EXPAND = "expand <FILE> <BOOK> <UID>"
MIGRATE = "migrate <FILE>"
COPY = "copy [OPTIONS] <FILE> <NEW>"
RESTORE = "restore [OPTIONS] <BACKUP> <FILE>"
RESYNC = "resync [OPTIONS] <FILE>"
CHECK = "check <FILE>"
CONVERT = "convert [OPTIONS] <FILE>..."
BOOKS = "books <FILE>"
VERIFY = "verify <FILE>"


def error(what, usage=None, tip=None):
    """The text that clap prints for an error."""
    parts = ["error: " + what]
    parts += ["  tip: " + tip] if tip else []
    parts += ["Usage: contacts " + usage] if usage else []
    return "\n\n".join([*parts, "For more information, try '--help'.\n"])


def missing(names, usage):
    lines = "".join(f"\n  {name}" for name in names.split())
    return error("the following required arguments were not provided:" + lines, usage)


def unexpected(argument, usage):
    return error(f"unexpected argument '{argument}' found", usage)


def unexpected_hyphen(argument, usage):
    """An argument that looks like an option, in an order that has positional arguments."""
    tip = f"to pass '{argument}' as a value, use '-- {argument}'"
    return error(f"unexpected argument '{argument}' found", usage, tip)


def near(argument, option, usage):
    tip = f"a similar argument exists: '{option}'"
    return error(f"unexpected argument '{argument}' found", usage, tip)


def no_order(name, tip=None):
    return error(f"unrecognized subcommand '{name}'", TOP, tip)


def twice(option, usage):
    return error(f"the argument '{option}' cannot be used multiple times", usage)


def no_value(option):
    return error(f"a value is required for '{option}' but none was supplied")


def invalid(value, option, why):
    return error(f"invalid value '{value}' for '{option}': {why}")


def out_of_range(value, option, least, most):
    return invalid(value, option, f"{value} is not in {least}..={most}")


def no_digits(value, option):
    return invalid(value, option, "invalid digit found in string")


def too_large(value, option):
    return invalid(value, option, "number too large to fit in target type")


def empty(option):
    return invalid("", option, "cannot parse integer from empty string")


def odd(value):
    return error(f"invalid value '{value}' for '--skip <N>': it is odd, and half of the numbers are "
                 "creations, the others removals")


def no_host(value):
    return error(f"invalid value '{value}' for '--host <NAME>': it needs the name of a host, as "
                 "office.example, and one --host for each name")


def no_form(value):
    possible = "\n  [possible values: cards, columns]"
    return error(f"invalid value '{value}' for '--form <F>'{possible}")


MISSING = [
    ("init", missing("<FILE>", INIT)),
    ("book", missing("<FILE> <BOOK>", BOOK)),
    ("book a.db", missing("<BOOK>", BOOK)),
    ("run", missing("<FILE>", "run <FILE>")),
    ("run --create", missing("<FILE>", "run --create <FILE>")),
    ("run --host office --host a.example", missing("<FILE>", "run --host <NAME> <FILE>")),
    ("run --log --max-open 2 --port=1 --idle-timeout 5",
     missing("<FILE>", "run --log --max-open <M> --port <P> --idle-timeout <S> <FILE>")),
    ("run --max-held 16", missing("<FILE>", "run --max-held <MIB> <FILE>")),
    ("run --socket s", missing("<FILE>", "run --socket <PATH> <FILE>")),
    ("serve", missing("<FILE>", "serve <FILE>")),
    ("serve --port 1", missing("<FILE>", "serve --port <P> <FILE>")),
    ("serve --connections=2 --port=1",
     missing("<FILE>", "serve --connections <N> --port <P> <FILE>")),
    ("import", missing("<FILE> <BOOK> <KEY> <CSV>", IMPORT)),
    ("import a.db staff k", missing("<CSV>", IMPORT)),
    ("export a.db", missing("<BOOK>", "export <FILE> <BOOK>")),
    ("export --form cards a.db", missing("<BOOK>", "export --form <F> <FILE> <BOOK>")),
    ("tally", missing("<FILE> <BOOK>", TALLY)),
    ("tally a.db", missing("<BOOK>", TALLY)),
    ("tally --", missing("<FILE> <BOOK>", TALLY)),
    ("forget a.db staff", missing("<UPTO>", FORGET)),
    ("mirror a.db", missing("<BOOK>", "mirror <FILE> <BOOK>")),
    ("mirror --limit 1 a.db", missing("<BOOK>", "mirror --limit <L> <FILE> <BOOK>")),
    ("expand a.db staff", missing("<UID>", EXPAND)),
    ("migrate", missing("<FILE>", MIGRATE)),
    ("copy", missing("<FILE> <NEW>", "copy <FILE> <NEW>")),
    ("copy a.db", missing("<NEW>", "copy <FILE> <NEW>")),
    ("copy a.db --without staff", missing("<NEW>", "copy --without <BOOK> <FILE> <NEW>")),
    ("restore", missing("<BACKUP> <FILE>", "restore <BACKUP> <FILE>")),
    ("restore b.db", missing("<FILE>", "restore <BACKUP> <FILE>")),
    ("resync", missing("<FILE>", "resync <FILE>")),
    ("resync --skip 2", missing("<FILE>", "resync --skip <N> <FILE>")),
    ("check", missing("<FILE>", CHECK)),
    ("convert", missing("<FILE>...", "convert <FILE>...")),
    ("books", missing("<FILE>", BOOKS)),
    ("verify", missing("<FILE>", VERIFY)),
]

TOO_MANY = [
    ("try x", unexpected("x", TRY)),
    ("try -- x", unexpected("x", TRY)),
    ("init a.db b.db", unexpected("b.db", INIT)),
    ("book a.db staff more", unexpected("more", BOOK)),
    ("run a.db 8080", unexpected("8080", RUN)),
    ("run a.db --create yes", unexpected("yes", RUN)),
    ("run --host office a.db example", unexpected("example", RUN)),
    ("serve a.db 8080", unexpected("8080", SERVE)),
    ("import a.db staff k a.csv b.csv", unexpected("b.csv", IMPORT)),
    ("export a.db staff columns", unexpected("columns", EXPORT)),
    ("tally a.db staff more", unexpected("more", TALLY)),
    ("tally a.db staff more yet --help", unexpected("more", TALLY)),
    ("tally a.db staff -- --form", unexpected("--form", TALLY)),
    (["tally", "a.db", "staff", ""], unexpected("", TALLY)),
    ("forget a.db staff 1 2", unexpected("2", FORGET)),
    ("mirror a.db staff 10", unexpected("10", MIRROR)),
    ("expand a.db staff a b", unexpected("b", EXPAND)),
    ("migrate a.db b.db", unexpected("b.db", MIGRATE)),
    ("copy a.db b.db c.db", unexpected("c.db", COPY)),
    ("restore a.db b.db c.db", unexpected("c.db", RESTORE)),
    ("resync a.db b.db", unexpected("b.db", RESYNC)),
    ("check a.csv b.csv", unexpected("b.csv", CHECK)),
    ("books a.db staff", unexpected("staff", BOOKS)),
    ("verify a.db b.db", unexpected("b.db", VERIFY)),
]

UNKNOWN_ORDERS = [
    ("delete a.db", no_order("delete")),
    ("TALLY a.db staff", no_order("TALLY")),
    ([""], no_order("")),
    ("tell a.db", no_order("tell", "a similar subcommand exists: 'tally'")),
    ("tal a.db staff", no_order("tal", "a similar subcommand exists: 'tally'")),
    ("ex a.db", no_order("ex", "some similar subcommands exist: 'export', 'expand'")),
    ("rum a.db", no_order("rum", "a similar subcommand exists: 'run'")),
    ("help nobody", no_order("nobody")),
    ("help --help", no_order("--help")),
    ("help tally more", error("unrecognized subcommand 'more'", TALLY)),
    ("-- tally", error("unexpected argument 'tally' found", TOP,
                       "subcommand 'tally' exists; to use it, remove the '--' before it")),
]

UNKNOWN_OPTIONS = [
    ("-x", unexpected("-x", TOP)),
    ("-v", unexpected("-v", TOP)),
    ("tally a.db staff --version", unexpected_hyphen("--version", TALLY)),
    ("try --version", unexpected("--version", TRY)),
    ("--port 1", unexpected("--port", TOP)),
    ("--port serve a.db", error("unexpected argument '--port' found", TOP,
                                "'serve --port' exists")),
    ("--host run a.db", error("unexpected argument '--host' found", TOP, "'run --host' exists")),
    ("try -x", unexpected("-x", TRY)),
    ("try --limit 3", unexpected("--limit", TRY)),
    ("tally -x a.db staff", unexpected_hyphen("-x", TALLY)),
    ("tally a.db staff --form cards", unexpected_hyphen("--form", TALLY)),
    ("run a.db -c", unexpected_hyphen("-c", RUN)),
    # For a long option clap's usage has what came before it, if anything did.
    ("run --connections 2 a.db", unexpected_hyphen("--connections", RUN)),
    ("run a.db --connections 2", unexpected_hyphen("--connections", "run <FILE>")),
    ("run a.db --together 2", unexpected_hyphen("--together", "run <FILE>")),
    ("run a.db --hots office", near("--hots", "--host", "run --host <NAME> <FILE>")),
    ("run a.db --max-opens 2", near("--max-opens", "--max-open", "run --max-open <M> <FILE>")),
    ("run a.db --creates", near("--creates", "--create", "run --create <FILE>")),
    ("serve -p 1 a.db", unexpected_hyphen("-p", SERVE)),
    ("serve a.db --po 1", near("--po", "--port", "serve --port <P> <FILE>")),
    ("serve a.db --connection 2",
     near("--connection", "--connections", "serve --connections <N> <FILE>")),
    # The options of `run` are none of `serve`.
    ("serve a.db --max-open 2", unexpected_hyphen("--max-open", "serve <FILE>")),
    ("serve a.db --log", unexpected_hyphen("--log", "serve <FILE>")),
    ("run a.db --sockets s", near("--sockets", "--socket", "run --socket <PATH> <FILE>")),
    ("export a.db staff --from cards",
     near("--from", "--form", "export --form <F> <FILE> <BOOK>")),
    ("export a.db staff --Form cards",
     near("--Form", "--form", "export --form <F> <FILE> <BOOK>")),
    ("mirror a.db staff --page=3",
     near("--page", "--pages", "mirror --pages <P> <FILE> <BOOK>")),
    ("tally --help=1", error("unexpected value '1' for '--help' found; no more were expected",
                             "tally --help <FILE> <BOOK>")),
]

DOUBLED = [
    ("run a.db --port 1 --port 2", twice("--port <P>", RUN)),
    ("run a.db --max-open 1 --max-open 1", twice("--max-open <M>", RUN)),
    ("run --idle-timeout=1 a.db --idle-timeout=2", twice("--idle-timeout <S>", RUN)),
    ("run a.db --max-held 16 --max-held=16", twice("--max-held <MIB>", RUN)),
    ("run --create a.db --create", twice("--create", RUN)),
    ("run a.db --log --log", twice("--log", RUN)),
    ("run a.db --site desk --site desk", twice("--site <DIR>", RUN)),
    ("serve a.db --port 1 --port 2", twice("--port <P>", SERVE)),
    ("serve --port=1 a.db --port=1", twice("--port <P>", SERVE)),
    ("serve a.db --connections 1 --connections 2", twice("--connections <N>", SERVE)),
    ("run --socket=s a.db --socket=s", twice("--socket <PATH>", RUN)),
    ("export a.db staff --form cards --form cards", twice("--form <F>", EXPORT)),
    ("restore b.db a.db --skip 2 --skip 4", twice("--skip <N>", RESTORE)),
    ("resync a.db --skip 2 --skip 4", twice("--skip <N>", RESYNC)),
    ("mirror a.db staff --limit 1 --limit 2", twice("--limit <L>", MIRROR)),
    ("mirror a.db staff --pages 1 --pages 2", twice("--pages <P>", MIRROR)),
]

NO_VALUES = [
    ("run a.db --port", no_value("--port <P>")),
    ("run a.db --host", no_value("--host <NAME>")),
    ("run --host --create a.db", no_value("--host <NAME>")),
    ("run a.db --host office --host", no_value("--host <NAME>")),
    ("run a.db --max-open", no_value("--max-open <M>")),
    ("run --idle-timeout --log a.db", no_value("--idle-timeout <S>")),
    ("run a.db --max-held", no_value("--max-held <MIB>")),
    ("run a.db --site", no_value("--site <DIR>")),
    ("copy a.db b.db --without", no_value("--without <BOOK>")),
    ("serve a.db --port", no_value("--port <P>")),
    ("serve a.db --port --", no_value("--port <P>")),
    ("serve --port --connections 1 a.db", no_value("--port <P>")),
    ("serve a.db --connections", no_value("--connections <N>")),
    ("run a.db --socket", no_value("--socket <PATH>")),
    ("run --socket --port 1 a.db", no_value("--socket <PATH>")),
    ("convert a.vcf --to", no_value("--to <DIR>")),
    ("convert a.vcf --columns", no_value("--columns <COLUMNS>")),
    ("convert a.vcf --charset", no_value("--charset <CHARSET>")),
    ("convert a.vcf --report", no_value("--report <REPORT>")),
    ("convert a.vcf --photos", no_value("--photos <PHOTOS>")),
    ("export a.db staff --form", no_value("--form <F>")),
    ("resync a.db --skip", no_value("--skip <N>")),
    ("mirror a.db staff --limit", no_value("--limit <L>")),
    ("mirror a.db staff --pages", no_value("--pages <P>")),
]

# Names that no browser sends.
NO_HOSTS = [
    *((["run", "a.db", f"--host={name}"], no_host(name)) for name in [
        "", "a b", " office", "*", "*.example", "office/", "a,b", "http://office", "ann@office",
        "a\tb"]),
    (["run", "--host", "office:8080", "a.db", "--host", "*.example", "--host", "*"],
     no_host("*.example")),
    (["run", "--create", "--host", "", "a.db"], no_host("")),
]

# Numbers outside their ranges, and texts that are no numbers.
NO_NUMBERS = [
    ("run a.db --port 65536", out_of_range(65536, "--port <P>", 0, 65535)),
    ("run a.db --port=", empty("--port <P>")),
    ("run a.db --port=http", no_digits("http", "--port <P>")),
    ("run a.db --max-open 0", out_of_range(0, "--max-open <M>", 1, 1000)),
    ("run a.db --max-open 1001", out_of_range(1001, "--max-open <M>", 1, 1000)),
    ("run a.db --max-open=all", no_digits("all", "--max-open <M>")),
    ("run a.db --idle-timeout 0", out_of_range(0, "--idle-timeout <S>", 1, 3600)),
    ("run a.db --idle-timeout 3601", out_of_range(3601, "--idle-timeout <S>", 1, 3600)),
    ("run a.db --idle-timeout=60s", no_digits("60s", "--idle-timeout <S>")),
    ("run a.db --idle-timeout=", empty("--idle-timeout <S>")),
    ("run a.db --max-held 15", out_of_range(15, "--max-held <MIB>", 16, 1024)),
    ("run a.db --max-held 1025", out_of_range(1025, "--max-held <MIB>", 16, 1024)),
    ("run a.db --max-held=64M", no_digits("64M", "--max-held <MIB>")),
    ("run a.db --max-held=", empty("--max-held <MIB>")),
    ("serve a.db --port 65536", out_of_range(65536, "--port <P>", 0, 65535)),
    ("serve a.db --port=18446744073709551615",
     out_of_range(18446744073709551615, "--port <P>", 0, 65535)),
    ("serve a.db --port=18446744073709551616", too_large(18446744073709551616, "--port <P>")),
    ("serve a.db --port=", empty("--port <P>")),
    (["serve", "a.db", "--port", ""], empty("--port <P>")),
    ("serve a.db --port=-1", no_digits("-1", "--port <P>")),
    ("serve a.db --port -1", unexpected_hyphen("-1", SERVE)),
    ("serve a.db --port=+", no_digits("+", "--port <P>")),
    ("serve a.db --port=++1", no_digits("++1", "--port <P>")),
    ("serve a.db --port=0x10", no_digits("0x10", "--port <P>")),
    ("serve a.db --port=1_000", no_digits("1_000", "--port <P>")),
    ("serve a.db --port=1.0", no_digits("1.0", "--port <P>")),
    ("serve a.db --port=8=9", no_digits("8=9", "--port <P>")),
    (["serve", "a.db", "--port", " 1"], no_digits(" 1", "--port <P>")),
    ("serve --port a.db", no_digits("a.db", "--port <P>")),
    ("serve --port 99999 --help", out_of_range(99999, "--port <P>", 0, 65535)),
    ("serve a.db --connections 0", out_of_range(0, "--connections <N>", 1, 1000000)),
    ("serve a.db --connections 1000001", out_of_range(1000001, "--connections <N>", 1, 1000000)),
    ("serve a.db --connections=-1", no_digits("-1", "--connections <N>")),
    ("convert a.vcf --rows 0", out_of_range(0, "--rows <ROWS>", 1, 10000)),
    ("convert a.vcf --rows 10001", out_of_range(10001, "--rows <ROWS>", 1, 10000)),
    ("convert a.vcf --octets 8388609", out_of_range(8388609, "--octets <OCTETS>", 1, 8388608)),
    ("run a.db --idle-timeout=0.5", no_digits("0.5", "--idle-timeout <S>")),
    ("forget a.db staff 1000000000000000",
     out_of_range(1000000000000000, "<UPTO>", 0, 999999999999999)),
    ("forget a.db staff 18446744073709551616", too_large(18446744073709551616, "<UPTO>")),
    ("forget a.db staff -1", unexpected_hyphen("-1", FORGET)),
    ("forget a.db staff -- -1", no_digits("-1", "<UPTO>")),
    ("forget a.db staff 1e3", no_digits("1e3", "<UPTO>")),
    ("forget a.db staff all", no_digits("all", "<UPTO>")),
    (["forget", "a.db", "staff", ""], empty("<UPTO>")),
    ("resync a.db --skip 0", out_of_range(0, "--skip <N>", 2, 1000000000)),
    ("resync a.db --skip 1", out_of_range(1, "--skip <N>", 2, 1000000000)),
    ("resync a.db --skip 1000000001", out_of_range(1000000001, "--skip <N>", 2, 1000000000)),
    ("resync a.db --skip=all", no_digits("all", "--skip <N>")),
    ("restore b.db a.db --skip 3", odd(3)),
    ("resync a.db --skip 3", odd(3)),
    ("resync a.db --skip=999999999", odd(999999999)),
    ("mirror a.db staff --limit 1000000000000000",
     out_of_range(1000000000000000, "--limit <L>", 0, 999999999999999)),
    ("mirror a.db staff --limit=", empty("--limit <L>")),
    ("mirror a.db staff --limit=ten", no_digits("ten", "--limit <L>")),
    ("mirror a.db staff --pages 0", out_of_range(0, "--pages <P>", 1, 1000000)),
    ("mirror a.db staff --pages 1000001", out_of_range(1000001, "--pages <P>", 1, 1000000)),
    ("mirror a.db staff --pages=-1", no_digits("-1", "--pages <P>")),
    ("run a.db --socket=", invalid("", "--socket <PATH>", "it needs the path of a socket")),
    ("run --socket= --create a.db",
     invalid("", "--socket <PATH>", "it needs the path of a socket")),
]

# A socket takes the place of a port, even of the default one.
SOCKET_AND_PORT = [
    (arguments,
     error("the argument '--socket <PATH>' cannot be used with '--port <P>'", RUN))
    for arguments in ["run a.db --socket s --port 8080", "run --port=0 --socket=s a.db --log"]
]

# The day and the month don't both come first.
BOTH_ORDERS = [
    (arguments, error("the argument '--day-first' cannot be used with '--month-first'", CONVERT))
    for arguments in ["convert a.csv --day-first --month-first",
                      "convert --month-first --rows 2 --day-first a.csv"]
]

NO_FORMS = [
    ("export a.db staff --form rows", no_form("rows")),
    ("export a.db staff --form=CARDS", no_form("CARDS")),
]

# vCards of a version that there isn't, with a form, or a version without them.
NO_VERSIONS = [
    *((f"export a.db staff --vcf --as {version}",
       error(f"invalid value '{version}' for '--as <V>'\n  [possible values: 4.0, 3.0]"))
      for version in ["2.1", "3", "4"]),
    ("export a.db staff --vcf --form cards",
     error("the argument '--vcf' cannot be used with '--form <F>'", EXPORT)),
    ("export --form=columns a.db staff --as 3.0 --vcf",
     error("the argument '--vcf' cannot be used with '--form <F>'", EXPORT)),
    ("export a.db staff --as 3.0", error("the argument '--as <V>' needs '--vcf'", EXPORT)),
    ("export a.db staff --as=4.0 --form cards",
     error("the argument '--as <V>' needs '--vcf'", EXPORT)),
    ("export a.db staff --vcf --vcf", twice("--vcf", EXPORT)),
    ("export a.db staff --vcf --as 3.0 --as 3.0", twice("--as <V>", EXPORT)),
]

# Arguments that ask for an order on a.db, whatever the values of its options.
GOOD = [
    "book a.db staff",
    "run a.db",
    "run a.db --port 0",
    "run --port=65535 a.db",
    "run a.db --max-open 1",
    "run a.db --max-open=1000",
    "run a.db --idle-timeout 1",
    "run a.db --idle-timeout=3600",
    "run a.db --max-held 16",
    "run a.db --max-held=1024",
    "run a.db --host office",
    "run --host=office a.db --host office --host a.EXAMPLE --host my_host-1.",
    "run a.db --host 192.0.2.1 --host [::1] --host [2001:DB8::192.0.2.1] --host büro",
    "run --log -- a.db",
    "run --idle-timeout 5 a.db --host office --max-open 2 --log --port 0",
    "serve a.db",
    "serve a.db --port 8 --connections 9",
    "serve --connections=9 a.db --port=8",
    "serve a.db --port 0",
    "serve a.db --port 65535",
    "serve a.db --port=0000000000000000000000008",
    "serve a.db --port=+8",
    "serve a.db --connections 1000000",
    "serve --connections 1 -- a.db",
    "run a.db --socket s",
    "run --host office --socket=s a.db --max-open 2",
    "import a.db staff k a.csv",
    "import a.db staff - -",
    "export a.db staff",
    "export a.db staff --form columns",
    "export --form=cards a.db staff",
    "export a.db staff --vcf",
    "export --as 3.0 --vcf a.db staff",
    "export a.db staff --vcf --as=4.0",
    "tally a.db staff",
    "tally -- a.db staff",
    "tally a.db -- staff",
    "tally a.db staff --",
    "forget a.db staff 0",
    "forget a.db staff 999999999999999",
    "forget a.db staff 007",
    "forget a.db staff +7",
    "mirror a.db staff",
    "mirror a.db staff --limit 0 --pages 2",
    "mirror --pages=1000000 a.db --limit=999999999999999 staff",
    "expand a.db staff a",
    "expand a.db staff -- --help",
    "expand a.db staff --  -x",
    "migrate a.db",
    "migrate -- --help",
    "copy a.db b.db",
    "copy -- --help -V",
    "copy a.db b.db --without staff",
    "copy --without=staff --without desk a.db b.db",
    "restore b.db a.db",
    "restore --skip 2 b.db a.db",
    "resync a.db",
    "resync a.db --skip 2",
    "resync --skip=1000000000 a.db",
    "books a.db",
    "verify a.db",
    "verify -- --version",
]

BAD = [*MISSING, *TOO_MANY, *UNKNOWN_ORDERS, *UNKNOWN_OPTIONS, *DOUBLED, *NO_VALUES, *NO_HOSTS,
       *NO_NUMBERS, *SOCKET_AND_PORT, *BOTH_ORDERS, *NO_FORMS, *NO_VERSIONS]
