"""`contacts convert --photos`: photos, logos and sounds that cards are carried without.

A card that would have more than 262,144 octets is carried without them. The octets of each are
those that Python's `base64` has of its line.
"""

import base64
import csv
import io

from conversion_reports import digest
from converted_cards import added_uid
from order_trials import OrderTest
from program import run

JPEG = b"\xff\xd8\xff\xe0" + bytes(range(256)) * 900
PNG = b"\x89PNG\r\n" + bytes(range(255, -1, -1)) * 900
GIF = b"GIF89a" + b"\x00\x01\x02" * 80_000
WEBP = b"RIFF\x00\x00\x00\x00WEBP" + b"\x07\x00" * 120_000
BMP = b"BM" + b"\x09\x00" * 120_000
TEXT = b"<svg>" + b"\x0a\x00" * 120_000
WAVE = b"RIFF\x00\x00\x00\x00WAVE" + b"\x08\x00" * 120_000


def text_of(octets):
    return base64.b64encode(octets).decode()


def binary(name, octets):
    """The line of vCard 3.0."""
    return f"{name};ENCODING=b;TYPE=X:{text_of(octets)}"


def card(uid, *lines, version="3.0"):
    named = [f"UID:{uid}"] if uid else []
    return "\r\n".join(["BEGIN:VCARD", f"VERSION:{version}", *named, "FN:Ann", *lines,
                        "END:VCARD", ""])


def folded(line, first, others):
    """The line, folded before each `others` characters after the first ones, with a space."""
    parts = [line[:first]]
    for at in range(first, len(line), others):
        parts.append(line[at:at + others])
    return "\r\n ".join(parts)


class ConvertPhotos(OrderTest):
    def setUp(self):
        super().setUp()
        (self.folder / "p").mkdir()

    def convert(self, text, *options, name="a.vcf"):
        (self.folder / name).write_text(text, newline="")
        return run("convert", name, "--photos", "p", *options, cwd=self.folder)

    def cards(self, ended):
        """The UID and the lines of each card, unfolded."""
        rows = list(csv.reader(io.StringIO(ended.out.decode(), newline="")))[1:]
        return [(uid, text.replace("\r\n ", "").split("\r\n")) for uid, text in rows]

    def photos(self):
        """The files beside the cards."""
        return {path.name: path.read_bytes() for path in (self.folder / "p").iterdir()}

    def told(self, lines, written, media="", refused=0):
        """The report of cards of which each has one of these lines."""
        return digest(lines, written, len(lines), refused)[:-1] + media + "\n"

    def test_each_format(self):
        for octets, ending in [(JPEG, "jpg"), (PNG, "png"), (GIF, "gif"), (WEBP, "webp"),
                               (BMP, "bmp"), (WAVE, "bin"), (TEXT, "bin")]:
            with self.subTest(ending):
                ended = self.convert(card("a", binary("PHOTO", octets), "TITLE:t"))
                wanted = f"card 1, line 5: PHOTO written to p/a-photo.{ending}"
                self.assertEqual((0, self.told([wanted], 1, ", 1 picture or sound written")),
                                 (ended.status, ended.err.decode()))
                self.assertEqual({f"a-photo.{ending}": octets}, self.photos())
                [(uid, lines)] = self.cards(ended)
                self.assertEqual(("a", ["BEGIN:VCARD", "VERSION:4.0", "UID:a", "FN:Ann", "TITLE:t",
                                        "END:VCARD", ""]), (uid, lines))
                (self.folder / f"p/a-photo.{ending}").unlink()

    def test_each_version(self):
        text = text_of(JPEG)
        for title, version, line in [
            ("base64", "2.1", f"PHOTO;JPEG;ENCODING=BASE64:{text}"),
            ("folded", "2.1", folded(f"PHOTO;ENCODING=BASE64;TYPE=JPEG:{text}", 32, 72) + "\r\n"),
            ("folded", "3.0", folded(f"PHOTO;TYPE=JPEG;ENCODING=b:{text}", 75, 74)),
            ("a URI", "3.0", f"item1.PHOTO;VALUE=uri:data:image/jpeg;base64,{text}"),
            ("a URI", "4.0", folded(f"PHOTO:data:image/jpeg;base64,{text}", 75, 74)),
            ("without padding", "4.0", f"photo:DATA:image/jpeg;BASE64,{text.rstrip('=')}"),
            ("with an escaped comma", "4.0", f"PHOTO:data:image/jpeg;base64\\,{text}"),
        ]:
            with self.subTest(title, version=version):
                ended = self.convert(card("a", line, version=version))
                self.assertEqual(0, ended.status, ended.err)
                self.assertEqual({"a-photo.jpg": JPEG}, self.photos())
                self.assertTrue(ended.err.endswith(b", 1 picture or sound written\n"), ended.err)
                (self.folder / "p/a-photo.jpg").unlink()

    def test_several_of_a_card(self):
        lines = [("PHOTO", JPEG), ("LOGO", GIF), ("PHOTO", PNG), ("SOUND", WAVE), ("LOGO", GIF)]
        ended = self.convert(card("a", *(binary(*line) for line in lines)))
        names = ["a-photo.jpg", "a-logo.gif", "a-photo-2.png", "a-sound.bin", "a-logo-2.gif"]
        self.assertEqual(dict(zip(names, (line[1] for line in lines))), self.photos())
        told = [f"card 1, line {place}: {line[0]} written to p/{name}"
                for place, (line, name) in enumerate(zip(lines, names), 5)]
        report = digest(told, 1, 1, 0)[:-1] + ", 5 pictures and sounds written\n"
        self.assertEqual((0, report), (ended.status, ended.err.decode()))

    def test_names(self):
        """After the UID of the card that was written, or its number."""
        photo = binary("PHOTO", JPEG)
        bare = card("", photo)
        uids = ["a/b", "urn:uuid:x-1", "..", ""]
        texts = [card(uid, photo) for uid in uids]
        ended = self.convert("".join(texts))
        own = added_uid(bare.encode())
        names = ["card-1-photo.jpg", "x-1-photo.jpg", "card-3-photo.jpg",
                 f"{own[len('urn:uuid:'):]}-photo.jpg"]
        self.assertEqual(0, ended.status, ended.err)
        self.assertEqual(sorted(names), sorted(self.photos()))

    def test_another_card_with_the_same_uid(self):
        """Its photo is named after the UID of its own."""
        ended = self.convert(card("a", "TITLE:t") + card("a", binary("PHOTO", JPEG)))
        [_, (uid, _)] = self.cards(ended)
        name = uid[len("urn:uuid:"):] + "-photo.jpg"
        self.assertEqual((0, {name: JPEG}), (ended.status, self.photos()))

    def test_cards_that_differ_in_what_is_left_out(self):
        """The second one is another card under the same UID, and what it has is written, too."""
        same = [binary("PHOTO", JPEG), binary("SOUND", WAVE)]
        for other in ([binary("PHOTO", PNG), same[1]], [same[0], binary("SOUND", WAVE[:-2])],
                      same[:1], [binary("LOGO", JPEG), same[1]], same[::-1]):
            with self.subTest([line[:40] for line in other]):
                for option in [], ["--to", "d"]:
                    (self.folder / "d").mkdir(exist_ok=True)
                    ended = self.convert(card("a", *same) + card("a", *other), *option)
                    told = ended.err.decode()
                    self.assertEqual(0, ended.status, told)
                    self.assertIn("\ncard 2, line 8: an earlier card has the same UID; kept under "
                                  "urn:uuid:", "\n" + told)
                    self.assertRegex(told, "2 cards written, 2 changed, .*, "
                                     f"{2 + len(other)} pictures and sounds written\n$")
                    wanted = sorted(base64.b64decode(line.partition(":")[2])
                                    for line in same + other)
                    self.assertEqual(wanted, sorted(self.photos().values()))
                    for path in [*(self.folder / "p").iterdir(), *(self.folder / "d").iterdir()]:
                        path.unlink()

    def test_the_same_card_twice(self):
        """With the same photo it is passed, however its lines end or are folded."""
        line = binary("PHOTO", JPEG)
        first = card("a", line)
        for second in first, first.replace("\r\n", "\n"), card("a", folded(line, 75, 74)):
            with self.subTest(second[:60]):
                ended = self.convert(first + second)
                self.assertEqual(0, ended.status, ended.err)
                self.assertIn(b"1 card the same as an earlier one isn't written again\n", ended.err)
                self.assertEqual(["a"], [uid for uid, _ in self.cards(ended)])
                self.assertEqual({"a-photo.jpg": JPEG}, self.photos())
                (self.folder / "p/a-photo.jpg").unlink()

    def test_many_in_each_of_two_cards(self):
        """Of more than 1,000 none is written, but the card isn't taken for the same one."""
        lines = [binary("PHOTO", GIF[:300])] * 1_001
        first, second = card("a", *lines), card("a", *lines[1:], binary("PHOTO", GIF[:303]))
        for text, written in (first + second, 2), (first + first, 1):
            ended = self.convert(text)
            self.assertEqual((1, written), (ended.status, len(self.cards(ended))), ended.err)

    def test_a_card_that_is_too_large_all_the_same(self):
        """What isn't base64 after an ENCODING is no photo. It is told which line it is."""
        ended = self.convert(card("a", "TITLE:t", "PHOTO;ENCODING=b:" + 300_000 * "*"))
        wanted = ("card 1, line 1: not carried: the text is too long; its longest line is line 6, "
                  "PHOTO")
        self.assertEqual((1, digest([wanted], 0, 0, 1)), (ended.status, ended.err.decode()))
        self.assertEqual({}, self.photos())

    def test_a_file_that_is_there(self):
        """It stays as it is, and the status is 1. The card is carried."""
        (self.folder / "p/a-photo.jpg").write_bytes(b"mine")
        ended = self.convert(card("a", binary("PHOTO", JPEG)))
        line = "card 1, line 5: PHOTO left out: the file p/a-photo.jpg exists"
        self.assertEqual((1, self.told([line], 1, ", 1 picture or sound not written")),
                         (ended.status, ended.err.decode()))
        self.assertEqual({"a-photo.jpg": b"mine"}, self.photos())
        self.assertEqual(["a"], [uid for uid, _ in self.cards(ended)])

    def test_a_value_that_is_no_base64(self):
        for front, octet in ("image/svg+xml,", "x"), ("image/png;base64,", "*"):
            with self.subTest(front):
                value = f"data:{front}{300_000 * octet}"
                ended = self.convert(card("a", f"PHOTO:{value}", version="4.0"))
                line = "card 1, line 5: PHOTO left out: its value is no base64 that can be read"
                self.assertEqual((1, self.told([line], 1, ", 1 picture or sound not written")),
                                 (ended.status, ended.err.decode()))
                self.assertEqual({}, self.photos())

    def test_a_uri_that_only_names_base64(self):
        """RFC 2397: the word is the last one before the comma."""
        line = f"PHOTO:data:a/b;name=base64.x,{text_of(JPEG)}"
        ended = self.convert(card("a", line, version="4.0"))
        wanted = "card 1, line 5: PHOTO left out: its value is no base64 that can be read"
        self.assertEqual((1, {}), (ended.status, self.photos()))
        self.assertIn(wanted, ended.err.decode())

    def test_very_many_of_a_card(self):
        line = binary("PHOTO", GIF[:300])
        for count, written in (1_000, 1_000), (1_001, 0):
            with self.subTest(count):
                ended = self.convert(card("a", *[line] * count), name=f"{count}.vcf")
                self.assertEqual((0 if written else 1, written), (ended.status, len(self.photos())))
                too_many = b"PHOTO left out: the card has more than 1,000 of them;"
                self.assertEqual(not written, too_many in ended.err, ended.err)
                for path in (self.folder / "p").iterdir():
                    path.unlink()

    def test_what_stays(self):
        """A card that is short enough keeps its photo, and any card a photo that is elsewhere."""
        far = "PHOTO;VALUE=uri:https://x.test/a.jpg"
        texts = card("a", binary("PHOTO", JPEG[:3_000])), card("b", far, binary("PHOTO", JPEG))
        ended = self.convert("".join(texts))
        self.assertEqual({"b-photo.jpg": JPEG}, self.photos())
        [(_, first), (_, second)] = self.cards(ended)
        self.assertTrue(any(line.endswith(text_of(JPEG[:3_000])) for line in first), first)
        self.assertTrue(any(line.endswith("https://x.test/a.jpg") for line in second), second)

    def test_without_the_option(self):
        (self.folder / "a.vcf").write_text(card("a", binary("PHOTO", JPEG)), newline="")
        ended = run("convert", "a.vcf", cwd=self.folder)
        line = "card 1, line 5: PHOTO left out"
        self.assertEqual((0, self.told([line], 1)), (ended.status, ended.err.decode()))
        self.assertEqual({}, self.photos())

    def test_a_card_that_is_not_carried(self):
        """Nothing of it is written: here its file is there."""
        (self.folder / "d").mkdir()
        (self.folder / "d/a.vcf").write_bytes(b"mine")
        ended = self.convert(card("a", binary("PHOTO", JPEG)), "--to", "d")
        self.assertEqual((1, {}), (ended.status, self.photos()), ended.err)
        self.assertEqual(b"mine", (self.folder / "d/a.vcf").read_bytes())

    def test_other_options(self):
        (self.folder / "d").mkdir()
        text = card("a", binary("PHOTO", JPEG))
        for options in ["--to", "d"], ["--rows", "1"], ["--report", "r.txt"]:
            with self.subTest(options):
                ended = self.convert(text, *options)
                self.assertEqual((0, {"a-photo.jpg": JPEG}), (ended.status, self.photos()))
                (self.folder / "p/a-photo.jpg").unlink()
        self.assertIn("PHOTO written to p/a-photo.jpg", (self.folder / "r.txt").read_text())
        self.assertNotIn("PHOTO", (self.folder / "d/a.vcf").read_text())

    def test_rows_and_several_files(self):
        rows = io.StringIO(newline="")
        csv.writer(rows, lineterminator="\n").writerows(
            [["uid", "vcard"], ["a", card("a", binary("PHOTO", JPEG))]])
        (self.folder / "b.vcf").write_text(card("b", binary("LOGO", PNG)), newline="")
        ended = self.convert(rows.getvalue(), "b.vcf", name="a.csv")
        self.assertEqual((0, {"a-photo.jpg": JPEG, "b-logo.png": PNG}),
                         (ended.status, self.photos()), ended.err)
        self.assertIn(b"a.csv: card 1, line 6: PHOTO written to p/a-photo.jpg\n", ended.err)
        self.assertIn(b"b.vcf: card 2, line 5: LOGO written to p/b-logo.png\n", ended.err)

    def test_a_large_photo(self):
        octets = JPEG * 25
        ended = self.convert(card("a", binary("PHOTO", octets)))
        self.assertEqual((0, {"a-photo.jpg": octets}), (ended.status, self.photos()), ended.err)

    def test_folders_that_cannot_be_used(self):
        (self.folder / "a.vcf").write_text(card("a", binary("PHOTO", JPEG)), newline="")
        for folder, why in [("q", "q is no folder"), ("a.vcf", "a.vcf is no folder"),
                            ("/proc", "/proc/a-photo.jpg can't be written")]:
            with self.subTest(folder):
                ended = run("convert", "a.vcf", "--photos", folder, cwd=self.folder)
                self.assertEqual(3, ended.status)
                self.assertEqual(f"fault device 1: {why}", ended.err.decode().splitlines()[-1])
