"""Photos, and other files that no card can hold: kept beside, and given back in full."""

import base64
import hashlib
import os
import random
import shutil
import time
import unittest

from carddav_client import D, STAFF, Client, GatewayTest, Stack, card3
from http_requests import card
from program import PATIENCE, Folder

import vcard3
from gateway import files
from tosculai import lines_of

LARGE = bytes(random.Random(1).getrandbits(8) for _ in range(400_000))
# What may come before a file.
HEADS = ["PHOTO;ENCODING=b;TYPE=JPEG:", 'item1.photo;encoding=B;X-P="a:b":',
         "PHOTO;X=é;ENCODING=b:", "LOGO:data:image/png;base64,", "KEY;PREF=1:DATA:a/b;c=d;BASE64,"]


class Photos(GatewayTest):
    """A photo that no card can hold is kept beside, and given back in full."""

    def photo(self, octets):
        return "PHOTO;ENCODING=b;TYPE=JPEG:" + base64.b64encode(octets).decode()

    def test_a_large_photo(self):
        path, digest = STAFF + "p.vcf", hashlib.sha256(LARGE).hexdigest()
        text = card3("p", "Pat", "TEL;TYPE=CELL:1", self.photo(LARGE))
        self.assertEqual(201, self.dav.ask("PUT", path, text, If_None_Match="*").status)
        address = f"http://127.0.0.1:{self.stack.place[1]}/dav/photos/{digest}/image/jpeg"
        self.assertIn("PHOTO:" + address, lines_of(self.staff.get("p").text))
        self.stack.restart()
        self.dav.close()
        got = self.dav.ask("GET", path)
        self.assertIn(self.photo(LARGE), lines_of(got.text))
        four = self.dav.multiget(STAFF, [path], '<C:address-data content-type="text/vcard" '
                                 'version="4.0"/>').cards()[path]
        self.assertIn("PHOTO:data:image/jpeg;base64," + base64.b64encode(LARGE).decode(),
                      lines_of(four))
        shown = self.dav.ask("GET", address[address.index("/dav"):])
        self.assertEqual((200, "image/jpeg", LARGE),
                         (shown.status, shown.fields["Content-Type"], shown.body))
        self.edit(path, got, address)

    def edit(self, path, got, address):
        """An edit of a number leaves the photo, also under another name of the front server."""
        edited = got.text.replace("TEL;TYPE=cell:1", "TEL;TYPE=cell:2")
        reply = self.dav.ask("PUT", path, edited, If_Match=got.etag, Host="other.example")
        self.assertEqual(204, reply.status)
        lines = lines_of(self.staff.get("p").text)
        self.assertIn("PHOTO:" + address, lines)
        self.assertIn("TEL;TYPE=cell:2", lines)
        small = self.dav.ask("GET", path).text.replace("\r\n ", "").replace(
            self.photo(LARGE), self.photo(b"small"))
        self.assertEqual(204, self.dav.ask("PUT", path, small).status)
        self.assertIn("PHOTO:data:image/jpeg;base64,c21hbGw=", lines_of(self.staff.get("p").text))

    def test_it_is_found_under_any_name_of_the_office(self):
        """The card on the server is folded, wherever that is within the photo's address."""
        for size in range(40, 62):
            path, host = f"{STAFF}n{size}.vcf", "x" * (size - 5) + ".test"
            text = card3(f"n{size}", "Pat", self.photo(LARGE))
            self.assertEqual(201, self.dav.ask("PUT", path, text, Host=host).status)
            with self.subTest(size):
                self.assertIn(self.photo(LARGE), lines_of(self.dav.ask("GET", path).text))

    def test_the_same_photo_in_other_spellings(self):
        """Folds, spaces and the form are no edit of a photo, and make no second file."""
        path, stored = STAFF + "p.vcf", None
        shutil.rmtree(self.stack.state / "photos", ignore_errors=True)
        for octets in LARGE, LARGE[:100_000], LARGE[:70_000]:
            text = base64.b64encode(octets).decode()
            wide = "\r\n  ".join(text[at:at + 60] for at in range(0, len(text), 60))
            tabs = "\n\t".join(text[at:at + 9_000] for at in range(0, len(text), 9_000))
            self.dav.ask("DELETE", path)
            for line in (f"PHOTO;ENCODING=b;TYPE=JPEG:{text}", f"PHOTO;ENCODING=b;TYPE=JPEG:{wide}",
                         f"photo;type=jpeg;encoding=B:\r\n {tabs}",
                         f"PHOTO;ENC\r\n ODING=BASE64;TYPE=JPEG:{text}"):
                reply = self.dav.ask("PUT", path, card3("p", "Pat", line))
                self.assertIn(reply.status, (201, 204))
                now = self.staff.get("p")
                stored = now if reply.status == 201 else stored
                self.assertEqual(stored, now, line[:40])
            four = card("p", "Pat", "N:Pat;;;;", f"PHOTO:data:image/jpeg;base64,{text}")
            self.assertEqual(204, self.dav.ask("PUT", path, four).status)
            self.assertEqual(stored, self.staff.get("p"))
        self.assertEqual(1, len(os.listdir(self.stack.state / "photos")))

    def test_several_large_files(self):
        """Each is given back in its own line, and a number may be edited meanwhile."""
        path, files = STAFF + "s.vcf", [LARGE, LARGE[1:], LARGE[:150_000], LARGE[:80_000]]
        heads = [f"{name};ENCODING=b;TYPE={kind}:" for name, kind in
                 [("PHOTO", "JPEG"), ("LOGO", "PNG"), ("SOUND", "OGG"), ("KEY", "PGP")]]
        lines = [head + base64.b64encode(it).decode() for head, it in zip(heads, files)]
        text = card3("s", "Sue", "TEL:+1", *lines)
        self.assertEqual(201, self.dav.ask("PUT", path, text).status)
        for number in 2, 3:
            got = self.dav.ask("GET", path)
            self.assertEqual(lines, [it for it in lines_of(got.text) if len(it) > 1000])
            edited = got.text.replace(f"TEL:+{number - 1}", f"TEL:+{number}")
            self.assertEqual(204, self.dav.ask("PUT", path, edited, If_Match=got.etag).status)
        self.assertLess(len(self.staff.get("s").text), 262_144)
        # One of them goes, and another one takes its place.
        got = self.dav.ask("GET", path)
        rest = [it for it in lines_of(got.text) if not it.startswith("LOGO")]
        lines[0] = lines[0].replace(lines[0][-4000:], lines[0][-4000:].lower())
        text = "".join(it + "\r\n" for it in rest).replace(
            next(it for it in rest if it.startswith("PHOTO")), lines[0])
        self.assertEqual(204, self.dav.ask("PUT", path, text, If_Match=got.etag).status)
        found = [it for it in lines_of(self.dav.ask("GET", path).text) if len(it) > 1000]
        self.assertEqual(sorted([lines[0], *lines[2:]]), sorted(found))

    def test_several_small_files(self):
        """Each fits into a card, and all of them don't. An edit leaves the lines of all."""
        path = STAFF + "s.vcf"
        lines = [self.photo(LARGE[it:60_000 + it]).replace("PHOTO", name)
                 for it, name in enumerate(["PHOTO", "LOGO", "item1.PHOTO", "item2.LOGO", "SOUND"])]
        self.dav.ask("PUT", path, card3("s", "Sue", "TEL:+1", *lines))
        before = lines_of(self.staff.get("s").text)
        self.assertTrue(any("/photos/" in it for it in before))
        got = self.dav.ask("GET", path)
        self.assertEqual(sorted(lines), sorted(it for it in lines_of(got.text) if len(it) > 1000))
        edited = got.text.replace("TEL:+1", "TEL:+2")
        reply = self.dav.ask("PUT", path, edited, If_Match=got.etag, Host="other.example")
        self.assertEqual(204, reply.status)
        self.assertEqual([it.replace("TEL:+1", "TEL:+2") for it in before],
                         lines_of(self.staff.get("s").text))

    def test_lengths(self):
        """A program that asks for the length gets that of the text with its photo."""
        path = STAFF + "p.vcf"
        self.dav.ask("PUT", path, card3("p", "Pat", self.photo(LARGE)))
        size = self.dav.propfind(path, "<D:getcontentlength/>").prop(path, D + "getcontentlength")
        got = self.dav.ask("GET", path)
        self.assertEqual(str(len(got.body)), size.text)
        self.assertTrue(all(len(it) <= 75 for it in got.body.split(b"\r\n")))

    def test_what_is_no_photo(self):
        """Large lines that hold no file are handled as any other line, and refused if too large."""
        for line in ["PHOTO;ENCODING=b;TYPE=JPEG:" + "!" * 300_000, "NOTE:" + "A" * 300_000,
                     "PHOTO;ENCODING=b:" + "A" * 300_000 + "=A", "PHOTO:" + "A" * 300_000,
                     "PHOTO;ENCODING=b:" + "AA==" * 100_000, 'PHOTO;P=a"b;ENCODING=b:' +
                     "AAAA" * 100_000, "PHOTO;ENCODING=b:" + "A" * 300_001]:
            with self.subTest(line[:30]):
                reply = self.dav.ask("PUT", STAFF + "no.vcf", card3("no", "No", line))
                self.assertEqual((403, ("max-resource-size", True)), (reply.status, reply.reason))
        for line in ["PHOTO;ENCODING=b;TYPE=JPEG:" + "!" * 100_000, 'PHOTO;P=a"b;ENCODING=b:' +
                     base64.b64encode(LARGE[:90_000]).decode()]:
            self.dav.ask("DELETE", STAFF + "no.vcf")
            reply = self.dav.ask("PUT", STAFF + "no.vcf", card3("no", "No", line))
            self.assertEqual(201, reply.status)
            stored = self.staff.get("no").text.replace("\r\n ", "")
            self.assertIn(line.rpartition(":")[2], stored)

    def test_memory(self):
        """A photo of ten megabytes is in memory once while it is sent, and not while it is read."""
        octets = LARGE * 25
        path, text = STAFF + "m.vcf", card3("m", "Max", "TEL:+1", self.photo(octets))
        reading = self.stack.client()
        self.addCleanup(reading.close)
        self.dav.sync(STAFF)
        before = self.stack.memory()
        self.assertEqual(201, self.dav.ask("PUT", path, text).status)
        sent = self.stack.memory()
        for _ in range(3):
            got = reading.ask("GET", path)
            self.assertEqual(204, self.dav.ask("PUT", path, got.text.replace("+1", "+2")).status)
            self.assertEqual(1, len(reading.multiget(STAFF, [path]).cards()))
        self.assertIn(self.photo(octets), lines_of(got.text))
        self.assertLess(sent - before, 45_000_000)
        self.assertLess(self.stack.memory() - before, 60_000_000)

    def test_what_is_within_the_limit_stays_within(self):
        octets = LARGE[:150_000]
        self.dav.ask("PUT", STAFF + "q.vcf", card3("q", "Q", self.photo(octets)))
        self.assertIn("PHOTO:data:image/jpeg;base64," + base64.b64encode(octets).decode(),
                      lines_of(self.staff.get("q").text))

    def test_a_photo_is_no_page(self):
        """Octets of a client are never shown by a browser as anything but a picture."""
        text = card3("s", "S", "PHOTO;ENCODING=b;TYPE=SVG+XML:" + base64.b64encode(
            b"<script>" + LARGE).decode())
        self.assertEqual(201, self.dav.ask("PUT", STAFF + "s.vcf", text).status)
        line = next(it for it in lines_of(self.staff.get("s").text) if it.startswith("PHOTO"))
        path = line[line.index("/dav"):]
        for kind in path, path.replace("image/svg+xml", "text/html"):
            shown = self.dav.ask("GET", kind)
            self.assertEqual(("application/octet-stream", "attachment", "nosniff"), tuple(
                shown.fields[it] for it in ("Content-Type", "Content-Disposition",
                                            "X-Content-Type-Options")))
        self.assertEqual(404, self.dav.ask("GET", "/dav/photos/" + "0" * 64 + "/image/png").status)
        self.assertEqual(404, self.dav.ask("GET", "/dav/photos/../users/x").status)
        stranger = Client(self.stack.place, "ann", "no")
        self.addCleanup(stranger.close)
        self.assertEqual(401, stranger.ask("GET", path).status)


class Marks(unittest.TestCase):
    """Large files are taken out of texts, and put back: nothing else of a text changes."""

    def test_random_texts(self):
        chance = random.Random("marks")
        for drawn in range(150):
            size = chance.choice([0, 10, 60_000, 65_535, 65_536, 65_537, 65_540, 196_608, 200_001])
            octets = LARGE[drawn:drawn + size]
            end, space = chance.choice(["\r\n", "\n"]), chance.choice([" ", "\t", "  "])
            head = chance.choice(HEADS)
            # Of two spaces one is a part of the line, which no head may have.
            width = chance.choice([1000, 10**7] if space == "  " else [20, 74, 75, 1000, 10**7])
            whole = head + base64.b64encode(octets).decode()
            folds = [whole[at:at + width] for at in range(0, len(whole), width)]
            text = end.join(["BEGIN:VCARD", "NOTE:a", (end + space).join(folds), "FN:x",
                             "END:VCARD"])
            with self.subTest(drawn=drawn, size=size, head=head):
                made, found = files.taken_out(text.encode())
                is_large = size > 65_536
                self.assertEqual([hashlib.sha256(octets).hexdigest()] * is_large, list(found))
                self.assertEqual(text.encode() == made, not is_large)
                for it in found.values():
                    self.assertEqual((size, octets), (it.size, b"".join(it.pieces())))
                back = [files.with_octets(it, found) for it in lines_of(made.decode())]
                self.assertEqual([it.replace(" ", "") for it in lines_of(text)],
                                 [it.replace(" ", "") for it in back])

    def test_sizes(self):
        """The octets of a line with a mark are those of the folded line with its file."""
        for size in range(65_537, 65_620):
            line = "PHOTO:data:image/jpeg;base64," + base64.b64encode(LARGE[:size]).decode()
            made, found = files.taken_out(line.encode())
            self.assertEqual(len(vcard3.folded(line)), files.octets_of(made.decode(), found))


class Space(unittest.TestCase):
    """What one user may store beside cards."""

    def put(self, dav, uid, octets):
        photo = "PHOTO;ENCODING=b;TYPE=JPEG:" + base64.b64encode(octets).decode()
        return dav.ask("PUT", f"{STAFF}{uid}.vcf", card3(uid, uid, photo))

    def test_a_limit(self):
        with Folder(in_memory=True) as folder:
            stack = Stack(folder, more=["--photo-space", "1"])
            try:
                self.fill(stack)
            finally:
                stack.stop()

    def fill(self, stack):
        ann, bob, staff = stack.client(), stack.client("bob"), stack.books[0]
        for number in range(2):
            self.assertEqual(201, self.put(ann, f"a{number}", LARGE[number:]).status)
        reply = self.put(ann, "a2", LARGE[2:])
        self.assertEqual((507, ("quota-not-exceeded", True)), (reply.status, reply.reason))
        self.assertIsNone(staff.find("a2"))
        self.assertEqual(2, len(os.listdir(stack.state / "photos")))
        # What is there already costs nothing, nor does what a card holds; others have their own.
        self.assertEqual(201, self.put(ann, "a3", LARGE).status)
        self.assertEqual(201, self.put(ann, "a4", LARGE[:100_000]).status)
        self.assertEqual(201, self.put(bob, "b", LARGE[2:]).status)
        self.assertEqual(201, self.put(ann, "a5", LARGE[2:]).status)
        # After a start it is counted as before, and what is tidied away is free again.
        stack.restart()
        ann.close()
        self.assertEqual(507, self.put(ann, "a6", LARGE[3:]).status)
        for uid in "a0", "a3":
            staff.remove(uid)
        os.utime(stack.state / "photos" / hashlib.sha256(LARGE).hexdigest(), (0, 0))
        stack.restart()  # it tidies at its start
        ann.close()
        end = time.monotonic() + PATIENCE
        while len(os.listdir(stack.state / "photos")) > 2:
            self.assertLess(time.monotonic(), end)
            time.sleep(0.02)
        self.assertEqual(201, self.put(ann, "a6", LARGE[3:]).status)
        for one in ann, bob:
            one.close()

    def test_a_full_disk(self):
        """No card names a photo that isn't there, and the program is told why."""
        with Folder(in_memory=True) as folder:
            stack = Stack(folder)
            try:
                (stack.state / "photos").write_text("no folder")
                dav = stack.client()
                reply = self.put(dav, "a", LARGE)
                self.assertEqual((507, ("quota-not-exceeded", True)), (reply.status, reply.reason))
                self.assertIsNone(stack.books[0].find("a"))
                dav.close()
            finally:
                stack.stop()


if __name__ == "__main__":
    unittest.main()
