"""`contacts convert`: files whose lines end in several ways, and the lines that are told.

What is expected is worked out by hand.
"""

import csv
import io

from order_trials import OrderTest
from program import run

# The octets that RowText reads at once.
CHUNK = 65_536


def rows_of(octets):
    """The rows of a CSV text, without the header."""
    return list(csv.reader(io.StringIO(octets.decode(), newline="")))[1:]


def lines_of(card):
    """The lines of a card, unfolded."""
    return card.replace("\r\n ", "").split("\r\n")


class ConvertLineEnds(OrderTest):
    def convert(self, octets, name="contacts.csv"):
        (self.folder / name).write_bytes(octets)
        return run("convert", name, cwd=self.folder)

    def names(self, ended):
        """The FN of each card, in order."""
        lines = [line for _uid, card in rows_of(ended.out) for line in lines_of(card)]
        return [line[3:] for line in lines if line.startswith("FN:")]

    def test_returns_after_line_feeds(self):
        """A quote takes its own row alone, if a CR ends it, though the first line ends with LF."""
        for title, row, names in [
            ("text after it", b'B,b@x,"bad" q', "ACDE"),
            ("no other quote", b'B,b@x,"bad q', "ACDE"),
            ("a quote in a later row", b'B,b@x,"bad q\rF,"f@x",n', "AFCDE"),
            ("too few cells", b'B,"bad q\rF,f@x,n"', "AFCDE"),
        ]:
            for end in b"\n", b"\r", b"\r\n":
                with self.subTest(title, end=end):
                    octets = b"Name,Email,Notes\nA,a@x,n\r" + row
                    octets += b"\rC,c@x,n\rD,d@x,n" + end + b"E,e@x,n" + end
                    ended = self.convert(octets)
                    self.assertEqual((1, list(names)), (ended.status, self.names(ended)), ended)
                    told = ended.err.decode()
                    self.assertIn("row 2, line ", told)
                    self.assertIn(": not carried: a quote isn't closed in its row\n", told)
                    self.assertTrue(told.endswith(", 1 not carried\n"), told)

    def test_returns_in_a_cell(self):
        """A quote that is closed keeps them, in any number."""
        note = "\r".join(f"line {number}" for number in range(300))
        for end in "\n", "\r\n":
            with self.subTest(end=end):
                octets = f'Name,Email,Notes{end}A,a@x,"{note}"{end}B,b@x,n{end}'.encode()
                ended = self.convert(octets)
                self.assertEqual((0, ["A", "B"]), (ended.status, self.names(ended)))
                [_, card] = rows_of(ended.out)[0]
                self.assertIn("NOTE:" + note.replace("\r", "\\n"), lines_of(card))

    def test_where_a_read_ends(self):
        """What CR CR LF and CR LF become doesn't depend on it."""
        for end in "\n", "\r", "\r\n", "\r\r\n":
            for inner in "\r\n", "\r\r\n":
                for before in range(len(inner) + 1):
                    with self.subTest(end=end, inner=inner, before=before):
                        front = f'Name,Email,Notes{end}A,a@x,"'
                        count = CHUNK - before - len(front)
                        octets = f'{front}{count * "x"}{inner}two"{end}B,b@x,n{end}'.encode()
                        ended = self.convert(octets)
                        self.assertEqual((0, ["A", "B"]), (ended.status, self.names(ended)))
                        [_, card] = rows_of(ended.out)[0]
                        self.assertIn(f"NOTE:{count * 'x'}\\ntwo", lines_of(card))

    def test_returns_where_a_read_ends(self):
        """So it is after the first line, of which it isn't known yet how it ends."""
        for end in "\n", "\r", "\r\n", "\r\r\n":
            for before in range(len(end) + 1):
                with self.subTest(end=end, before=before):
                    name = (CHUNK - before - len("Name,Email,")) * "x"
                    octets = f'Name,Email,{name}{end}A,a@x,"" q{end}B,b@x,{end}'.encode()
                    ended = self.convert(octets)
                    self.assertEqual((1, ["B"]), (ended.status, self.names(ended)))
                    self.assertIn("row 1, line 2: not carried: ", ended.err.decode())

    def test_empty_lines_above_the_header(self):
        """Each row is told with its own line, whatever is right above the header."""
        for above, count in [([""], 1), (["", ""], 2), (6 * [""], 6), (["sep=,", ""], 2),
                             (["List of May", "", ""], 3), (["\ufeff"], 1)]:
            for end in "\n", "\r\n", "\r":
                with self.subTest(above=above, end=end):
                    rows = ["Name,Email", "A,a@x,more", "", 'B,"b@x",more', "C,c@x"]
                    octets = "".join(line + end for line in above + rows).encode()
                    ended = self.convert(octets)
                    self.assertEqual((1, ["C"]), (ended.status, self.names(ended)))
                    why = "not carried: the row has 3 cells in place of 2\n"
                    told = ended.err.decode()
                    self.assertIn(f"row 1, line {count + 2}: {why}", told)
                    self.assertIn(f"row 2, line {count + 4}: {why}", told)

    def test_empty_lines_in_an_export(self):
        """Rows `uid,vcard` are told with their own lines after empty ones, too."""
        card = '"BEGIN:VCARD\nVERSION:4.0\nUID:u1\nFN:A\nEND:VCARD\n"'
        rows = ["uid,vcard", "", f"u1,{card}", "", "", "u2,hello", "u3,hi", "", "u4,x", "u5,y"]
        for end in "\n", "\r\n":
            for last in "", end, 3 * end:
                with self.subTest(end=end, last=last):
                    ended = self.convert((end.join(rows) + last).encode())
                    self.assertEqual((1, ["A"]), (ended.status, self.names(ended)))
                    told = [line for line in ended.err.decode().splitlines()
                            if line.startswith("line ")]
                    # The card's row has six lines, from line 3 on.
                    wanted = [f"line {line}: not carried: no card begins here"
                              for line in (11, 12, 14, 15)]
                    self.assertEqual(wanted, told)
