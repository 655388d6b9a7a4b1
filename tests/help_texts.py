"""The complete help texts: the program's own under "", and each order's under its name.

The layout is clap 4's: a description, the usage, the arguments and options in two columns with
defaults in brackets, and an example. The program passes these texts to clap, which doesn't wrap
them: a backslash at the end of a line here joins it with the next.
"""

HELP = {}

FILE = ("<FILE>", "Path of the store file")
BOOK = ("<BOOK>", "Name of the book, 1 to 40 characters of a-z, 0-9 and -")
SKIP_OPTIONS = """\
Options:
      --skip <N>  Even number of changes to skip in each book, 2 to 1000000000; it must be greater \
than the number of changes that were lost [default: 1000000]
  -h, --help      Print help
"""


def plain(order, about, arguments, example, more=""):
    """The help of an order whose only option is its help."""
    width = max(len(name) for name, _ in arguments)
    rows = "".join(f"  {name:{width}}  {text}\n" for name, text in arguments)
    names = " ".join(name for name, _ in arguments)
    return f"""\
{about}

Usage: contacts {order} {names}

Arguments:
{rows}
Options:
  -h, --help  Print help

Example:
  contacts {order} {example}
""" + (f"\n{more}" if more else "")


HELP[""] = """\
Contact server that stores address books and syncs them to many devices

Usage: contacts [COMMAND]

Commands:
  try      Read a vCard from standard input, add it to an empty book in memory, and print the \
book's initial report
  init     Create a store file; an existing file must be empty
  book     Create an empty book and print its id
  run      Serve the books over HTTP on 127.0.0.1, or at a Unix socket, until it is stopped
  serve    Serve one connection after another over HTTP on 127.0.0.1
  import   Import cards from a CSV file into a book
  export   Write the cards of a book to standard output as CSV or as vCards
  tally    Print how many cards a book has, and counts of its changes by kind
  forget   Forget the removals recorded in a book up to a change number
  mirror   Sync a book to a new device page by page, and print the device's copy
  expand   List the people in a group and in its nested groups
  migrate  Convert a store file from schema 1 to schema 2, and print its number of books
  copy     Copy the books of a store file into a new file, and print their number
  restore  Put a copy back in place of a store file, and make every device start again
  resync   Make every device start again after the file was put back from a copy, and print its \
number of books
  check    Check a CSV file or a vCard, and print its number of rows or the first fault
  convert  Convert cards and contacts of other programs to vCard 4.0, as CSV for `import`
  books    List the books with their ids, cards, numbers, horizons and keeps
  verify   Test the whole store file, and list its books or print the row at fault
  help     Print this message or the help of the given subcommand(s)

Options:
  -V, --version  Print the version of the program, of its files and of its toolchain
  -h, --help     Print help

Start an office: run, init, book, serve.
Move in:         convert, check, import.
Look:            books, tally, export, mirror, expand, verify.
Keep:            copy, restore, resync, migrate, forget.

Without a command, `try` runs. `contacts help COMMAND` shows the arguments, defaults and limits of \
a command.

Example:
  contacts tally office.db staff
"""

HELP["try"] = """\
Read a vCard from standard input, add it to an empty book in memory, and print the book's initial \
report

Usage: contacts try

Options:
  -h, --help  Print help

Example:
  contacts try < ann.vcf

A card may have up to 262,144 octets, and its UID 1 to 255 octets.
"""

HELP["init"] = plain(
    "init",
    "Create a store file; an existing file must be empty",
    [FILE],
    "office.db",
    """\
A store may have up to 100 books.
""",
)

HELP["book"] = plain(
    "book",
    "Create an empty book and print its id",
    [FILE, BOOK],
    "office.db staff",
    """\
A store may have up to 100 books, and a book up to 10,000 cards.
""",
)

HELP["run"] = """\
Serve the books over HTTP on 127.0.0.1, or at a Unix socket, until it is stopped

Usage: contacts run [OPTIONS] <FILE>

Arguments:
  <FILE>  Path of the store file

Options:
      --port <P>          Port to listen on, 0 to 65535; 0 picks a free port [default: 8080]
      --socket <PATH>     Unix socket to listen at in place of a port; its owner and its group may \
connect
      --host <NAME>       A name of this server, which requests may have in their Host field; \
127.0.0.1, localhost and [::1] are always allowed. May be given more than once
      --max-open <M>      Maximum number of connections open at once, 1 to 1000 [default: 256]
      --idle-timeout <S>  Seconds after which a silent connection is closed, or one whose request \
isn't complete, 1 to 3600; a long request has one more for each 4096 octets [default: 60]
      --max-held <MIB>    Maximum memory for long requests and replies that are on their way, in \
MiB, 16 to 1024; one by itself may have more [default: 64]
      --create            Create the file if it isn't there
      --log               Print a line for each request on standard error when it is answered
      --site <DIR>        A folder whose files are served at / and below, beside the books at \
/books, as clients/desk/site; they are read once, at the start, and may have up to 16 MiB together
  -h, --help              Print help

Example:
  contacts run office.db --create

Prints where it listens before accepting connections. A request is refused if its Host is none of \
the server's names, if a page of another site sends a change, or if a change has a precondition such \
as If-Match. A request body may have up to 8,388,608 octets.
"""

HELP["serve"] = """\
Serve one connection after another over HTTP on 127.0.0.1

Usage: contacts serve [OPTIONS] <FILE>

Arguments:
  <FILE>  Path of the store file

Options:
      --port <P>         Port to listen on, 0 to 65535; 0 picks a free port [default: 0]
      --connections <N>  Number of connections to serve before exiting, 1 to 1000000 [default: 1]
  -h, --help             Print help

Example:
  contacts serve office.db --port 8080 --connections 2

For scripts and tests: it waits for each client, checks no Host, and ends after the last \
connection. To serve an office, use `run`.

Prints the address and port before accepting connections. A request body may have up to 8,388,608 \
octets.
"""

HELP["import"] = plain(
    "import",
    "Import cards from a CSV file into a book",
    [FILE, BOOK,
     ("<KEY>", "Import key, 1 to 64 characters of A-Z, a-z, 0-9, . _ -; repeating the key of a "
               "completed import changes nothing and prints its result again"),
     ("<CSV>", "CSV file with a header row, up to 8,388,608 octets")],
    'office.db staff "$(date +%F-%H%M%S)" people.csv',
    """\
Use a new key for each import: repeating a key imports nothing, and its output looks like that of \
the first import.

The header row is `uid,vcard` for a UID and a vCard per row, or \
`uid,fn,family,given,email,tel,org,note` for one property per column. Either all cards are \
imported or none. A card may have up to 262,144 octets, and a book up to 10,000 cards.
""",
)

HELP["export"] = """\
Write the cards of a book to standard output as CSV or as vCards

Usage: contacts export [OPTIONS] <FILE> <BOOK>

Arguments:
  <FILE>  Path of the store file
  <BOOK>  Name of the book, 1 to 40 characters of a-z, 0-9 and -

Options:
      --form <F>  CSV format: `cards` for a UID and a vCard per row, `columns` for one property \
per column [default: cards]
      --vcf       Write one file of vCards in place of CSV
      --as <V>    With --vcf, the version of the vCards: `4.0`, or `3.0` for phones and Outlook \
[default: 4.0]
  -h, --help      Print help

Examples:
  contacts export office.db staff --form columns > people.csv
  contacts export office.db staff --vcf --as 3.0 > people.vcf
"""

HELP["tally"] = plain(
    "tally",
    "Print how many cards a book has, and counts of its changes by kind",
    [FILE, BOOK],
    "office.db staff",
)

HELP["forget"] = plain(
    "forget",
    "Forget the removals recorded in a book up to a change number",
    [FILE, BOOK,
     ("<UPTO>", "Number of the last change to forget, 0 to 999999999999999")],
    "office.db staff 100",
    """\
UPTO must be from the book's horizon to its number; `contacts tally` prints both. Devices with an \
older sync token must start over with a full sync.
""",
)

HELP["mirror"] = """\
Sync a book to a new device page by page, and print the device's copy

Usage: contacts mirror [OPTIONS] <FILE> <BOOK>

Arguments:
  <FILE>  Path of the store file
  <BOOK>  Name of the book, 1 to 40 characters of a-z, 0-9 and -

Options:
      --limit <L>  Maximum entries per page, 0 to 999999999999999; a page never has more than 100, \
and 0 is refused [default: 100]
      --pages <P>  Maximum number of pages to request, 1 to 1000000 [default: 1000]
  -h, --help       Print help

Example:
  contacts mirror office.db staff --limit 10 --pages 100
"""

HELP["expand"] = plain(
    "expand",
    "List the people in a group and in its nested groups",
    [FILE, BOOK,
     ("<UID>", "UID of the group, 1 to 255 octets")],
    "office.db staff choir",
)

HELP["migrate"] = plain(
    "migrate",
    "Convert a store file from schema 1 to schema 2, and print its number of books",
    [FILE],
    "office.db",
)

HELP["copy"] = """\
Copy the books of a store file into a new file, and print their number

Usage: contacts copy [OPTIONS] <FILE> <NEW>

Arguments:
  <FILE>  Path of the store file
  <NEW>   Path of the copy; nothing may be there

Options:
      --without <BOOK>  Name of a book to leave out. May be given more than once
  -h, --help            Print help

Example:
  contacts copy office.db backup.db

The copy is one file, without a log beside it. It was opened and compared before the command ends. \
It holds no text of a card that was removed or replaced, nor of a book that is left out. While a \
server has the file open, it can't be copied.

If a book is left out, those made after it keep their names and cards, but get new ids. So every \
device copies them anew, as after `resync`.
"""

HELP["restore"] = """\
Put a copy back in place of a store file, and make every device start again

Usage: contacts restore [OPTIONS] <BACKUP> <FILE>

Arguments:
  <BACKUP>  Path of a copy of the store file
  <FILE>    Path of the store file

""" + SKIP_OPTIONS + """
Example:
  contacts restore backup.db office.db

The copy is tested first, and stays as it is. What was at FILE is kept under the names that are \
printed. A book that FILE has and the copy hasn't is made again, empty. Then every device copies \
the books anew, as after `resync`. Stop the server first.
"""

HELP["resync"] = """\
Make every device start again after the file was put back from a copy, and print its number of books

Usage: contacts resync [OPTIONS] <FILE>

Arguments:
  <FILE>  Path of the store file

""" + SKIP_OPTIONS + """
Example:
  contacts resync office.db

Each book takes N change numbers and forgets all removals, so every older sync token is refused and \
every device copies the book anew. Cards stay as they are. All books change in one transaction. \
Refused if a book would pass 1,000,000,000,000 changes.
"""

HELP["check"] = plain(
    "check",
    "Check a CSV file or a vCard, and print its number of rows or the first fault",
    [("<FILE>", "CSV file with a header row, or a vCard if the name ends in `.vcf`, up to "
                "8,388,608 octets")],
    "people.csv",
    """\
Needs no store file. Row 0 is the header, and row 1 the first row after it. A file with a fault is \
refused, with status 1.
""",
)

HELP["convert"] = """\
Convert cards and contacts of other programs to vCard 4.0, as CSV for `import`

Usage: contacts convert [OPTIONS] <FILE>...

Arguments:
  <FILE>...  vCards of version 2.1, 3.0 or 4.0, a spreadsheet of contacts as CSV, or rows of \
`export`; several files become one output

Options:
      --to <DIR>           Existing folder to write files to: one `.vcf` file per card, or the CSV \
files of --rows and --octets
      --rows <ROWS>        Write several CSV files, each with at most this number of rows, 1 to 10000
      --octets <OCTETS>    Write several CSV files, each of at most this number of octets, 1 to \
8388608
      --day-first          Dates such as 05/04/1980 have the day first
      --month-first        Dates such as 05/04/1980 have the month first
      --columns <COLUMNS>  What columns of a spreadsheet become, as \
'Name=fn,Mail=email;type=work,#3=-': a column's name, or # and its number, and one of fn, n.family, \
n.given, n.additional, n.prefix, n.suffix, nickname, org, org.unit, title, role, email, tel, adr, \
adr.street, adr.city, adr.region, adr.code, adr.country, adr.box, adr.extended, url, bday, \
anniversary, note, categories, uid, gender, lang, impp, or - to leave it out. If all are numbers, the \
first row is a person, unless it is a header that is known, or the entry `header` is among them. \
With the entry `rows`, or `rows=comma;cells=2` for the form of the rows, it is a person in any case
      --charset <CHARSET>  Character set of the file: UTF-8, UTF-16, ISO-8859-1 to -16, \
windows-1250 to -1258 or -874, KOI8-R or KOI8-U
      --report <REPORT>    New file for all lines of the report, one for each line of a card that \
was changed
      --photos <PHOTOS>    Existing folder for the photos, logos and sounds of cards that have more \
than 262144 octets with them, which are carried without them
  -h, --help               Print help

Example:
  contacts convert phone.vcf > people.csv

Needs no store file. Standard error gets a line for each card whose content changed or that can't \
be carried over, how often each other change came, and the numbers of cards. The status is 1 if a \
card wasn't carried over, or a file for --photos wasn't written. With --rows or --octets the files \
are named after the first FILE, `phone-1.csv`, `phone-2.csv` and so on, beside it or in the folder. \
No file is overwritten, and nothing is written before each FILE is known to be one that is converted.
"""

HELP["books"] = plain(
    "books",
    "List the books with their ids, cards, numbers, horizons and keeps",
    [FILE],
    "office.db",
)

HELP["verify"] = plain(
    "verify",
    "Test the whole store file, and list its books or print the row at fault",
    [FILE],
    "office.db",
    """\
Tests what each command that uses the file tests first: every row of the file. A damaged file ends \
with `fault open 4`.
""",
)

# clap's own `help` command.
HELP["help"] = """\
Print this message or the help of the given subcommand(s)

Usage: contacts help [COMMAND]...

Arguments:
  [COMMAND]...  Print help for the subcommand(s)
"""
