"""`contacts convert`: columns whose names mean something only beside others, and files none of whose
people would have a name or an address.

The expected cards and reports are worked out by hand: by RFC 6350, and by what the programs mean
that write such columns.
"""

import unittest

from conversion_reports import digest
from csv_texts import rows_of
from order_trials import OrderTest
from program import run

# A title, a header and one row, all lines of the card but the UID, and the report.
CELLS = [
    (
        "common words that mean a property in another language or program alone",
        "Name,Partner,Service,User Name,Email,Photo\nAnn,Yes,Plumbing,ann,a@x.test,ann.jpg\n",
        ["EMAIL:a@x.test", "FN:Ann", "X-PARTNER:Yes", "X-PHOTO:ann.jpg", "X-SERVICE:Plumbing",
         "X-USER-NAME:ann"],
        ["Partner kept as X-PARTNER", "Service kept as X-SERVICE",
         "User Name kept as X-USER-NAME", "Photo kept as X-PHOTO"],
    ),
    (
        "a cell without an @ is no address of electronic mail",
        "Name,Email,Secondary Email\nAnn,none,a@x.test\n",
        ["EMAIL:a@x.test", "FN:Ann", "X-EMAIL:none"],
        ["Email kept as X-EMAIL"],
    ),
    (
        "a path is no URI of a picture",
        "Name,Email,Photo\nAnn,a@x.test,C:\\ann.jpg\n",
        ["EMAIL:a@x.test", "FN:Ann", "X-PHOTO:C:\\\\ann.jpg"],
        ["Photo kept as X-PHOTO"],
    ),
    (
        "a salutation without a family name or a given name",
        "Name,Anrede,E-Mail\nAnn Lee,Frau,a@x.test\n",
        ["EMAIL:a@x.test", "FN:Ann Lee", "X-ANREDE:Frau"],
        ["Anrede kept as X-ANREDE"],
    ),
    (
        "several telephone numbers in a cell",
        "Name,E-Mail,Phone,Mobile Phone,Home Phone\n"
        'Ann,a@x.test,"030 11111; +49 30 22222","0171 33333\n0172 44444",030 55555 / 030 66666\n',
        ["EMAIL:a@x.test", "FN:Ann", "TEL:+49 30 22222", "TEL:030 11111",
         "TEL;TYPE=cell:0171 33333", "TEL;TYPE=cell:0172 44444", "TEL;TYPE=home:030 55555",
         "TEL;TYPE=home:030 66666", "X-HOME-PHONE:030 55555 / 030 66666",
         "X-MOBILE-PHONE:0171 33333\\n0172 44444", "X-PHONE:030 11111\\; +49 30 22222"],
        ["Phone kept as X-PHONE", "Mobile Phone kept as X-MOBILE-PHONE",
         "Home Phone kept as X-HOME-PHONE"],
    ),
    (
        "one telephone number with signs in it",
        "Name,E-Mail,Phone,Mobile Phone,Home Phone\n"
        "Ann,a@x.test,030/11111,+1 800 5551234;12,030 55555 / 66666\n",
        ["EMAIL:a@x.test", "FN:Ann", "TEL:030/11111", "TEL;TYPE=cell:+1 800 5551234\\;12",
         "TEL;TYPE=home:030 55555 / 66666"],
        [],
    ),
    (
        "three columns of a birthday",
        "Name,Primary Email,Birth Year,Birth Month,Birth Day\nAnn,a@x.test,1980,4,5\n",
        ["BDAY:19800405", "EMAIL:a@x.test", "FN:Ann"],
        ["Birth Year rewritten", "Birth Month rewritten", "Birth Day rewritten"],
    ),
    (
        "three columns of no birthday",
        "Name,Primary Email,Birth Year,Birth Month,Birth Day\nAnn,a@x.test,1980,4,31\n",
        ["EMAIL:a@x.test", "FN:Ann", "X-BIRTH-DAY:31", "X-BIRTH-MONTH:4", "X-BIRTH-YEAR:1980"],
        ["Birth Year kept as X-BIRTH-YEAR", "Birth Month kept as X-BIRTH-MONTH",
         "Birth Day kept as X-BIRTH-DAY"],
    ),
    (
        "a whole name beside a given name",
        "Name,First Name,Email\nAnn Lee,Ann,a@x.test\n",
        ["EMAIL:a@x.test", "FN:Ann Lee", "N:;Ann;;;", "X-NAME:Ann Lee"],
        ["Name kept as X-NAME"],
    ),
    (
        "a whole name beside a family name",
        "Name,Surname,Email\n\"Lee, Ann\",Lee,a@x.test\n",
        ["EMAIL:a@x.test", "FN:Lee\\, Ann", "N:Lee;;;;", "X-NAME:Lee\\, Ann"],
        ["Name kept as X-NAME"],
    ),
    (
        "several postal addresses in Google's cells, of which the first has no region",
        "First Name,Email,Address 1 - Label,Address 1 - Formatted,Address 1 - Street,"
        "Address 1 - City,Address 1 - Region,Address 1 - Postal Code,Address 1 - Country\n"
        'Ann,a@x.test,Home,"1 Main St\nBerlin ::: 2 Side St\nParis",1 Main St ::: 2 Side St,'
        "Berlin ::: Paris, ::: IDF,10115 ::: 75001,\n",
        ["ADR;TYPE=home;LABEL=1 Main St^nBerlin:;;1 Main St;Berlin;;10115;",
         "ADR;TYPE=home;LABEL=2 Side St^nParis:;;2 Side St;Paris;IDF;75001;",
         "EMAIL:a@x.test", "FN:Ann", "N:;Ann;;;"],
        [],
    ),
    (
        "several postal addresses with a label that is no type, and one more under another number",
        "First Name,Email,Address 1 - Label,Address 1 - Formatted,Address 1 - Street,"
        "Address 1 - City,Address 2 - Street\n"
        "Ann,a@x.test,Summer,A ::: B ::: C,a ::: b ::: c,x ::: y ::: z,d\n",
        ["ADR:;;d;;;;", "EMAIL:a@x.test", "FN:Ann", "N:;Ann;;;", "item1.ADR;LABEL=A:;;a;x;;;",
         "item1.ADR;LABEL=B:;;b;y;;;", "item1.ADR;LABEL=C:;;c;z;;;", "item1.X-ABLABEL:Summer"],
        [],
    ),
    (
        "several postal addresses of which one has no label, and several labels without components",
        "First Name,Email,Address 1 - Formatted,Address 1 - Street,Address 2 - Formatted\n"
        "Ann,a@x.test,A :::  ::: C,a ::: b ::: c,D ::: E\n",
        ["ADR:;;b;;;;", "ADR;LABEL=A:;;a;;;;", "ADR;LABEL=C:;;c;;;;", "ADR;LABEL=D:;;;;;;",
         "ADR;LABEL=E:;;;;;;", "EMAIL:a@x.test", "FN:Ann", "N:;Ann;;;"],
        [],
    ),
    (
        "postal addresses of which it isn't clear what belongs together",
        "First Name,Email,Address 1 - Formatted,Address 1 - Street,Address 1 - City,"
        "Address 1 - Country\n"
        "Ann,a@x.test,A ::: B,a ::: b,x,u ::: v ::: w\n",
        ['ADR;LABEL="A ::: B":;;a ::: b;x;;;u ::: v ::: w',
         "EMAIL:a@x.test", "FN:Ann", "N:;Ann;;;", "X-ADDRESS-1---COUNTRY:u ::: v ::: w",
         "X-ADDRESS-1---FORMATTED:A ::: B", "X-ADDRESS-1---STREET:a ::: b"],
        ["Address 1 - Formatted kept as X-ADDRESS-1---FORMATTED",
         "Address 1 - Street kept as X-ADDRESS-1---STREET",
         "Address 1 - Country kept as X-ADDRESS-1---COUNTRY"],
    ),
    (
        "several addresses in a cell",
        "Name,Email\nAnn,a@x.test; b@x.test\n",
        ["EMAIL:a@x.test", "EMAIL:b@x.test", "FN:Ann", "X-EMAIL:a@x.test\\; b@x.test"],
        ["Email kept as X-EMAIL"],
    ),
    (
        "several addresses in a cell of two lines",
        "Name,Email\nAnn,\"a@x.test\nb@x.test\"\n",
        ["EMAIL:a@x.test", "EMAIL:b@x.test", "FN:Ann", "X-EMAIL:a@x.test\\nb@x.test"],
        ["Email kept as X-EMAIL"],
    ),
    (
        "what is neither an address nor a number",
        "Name,Email,Phone\nAnn,NULL,#N/A\n",
        ["FN:Ann", "X-EMAIL:NULL", "X-PHONE:#N/A"],
        ["Email kept as X-EMAIL", "Phone kept as X-PHONE"],
    ),
    (
        "names that are written together or apart otherwise than in the tables",
        "first_name,Last-Name,E-Mail Adresse,Mobile.Phone,Web-Site,Job_Title\n"
        "Ann,Lee,a@x.test,1,https://a.test/,Clerk\n",
        ["EMAIL:a@x.test", "FN:Ann Lee", "N:Lee;Ann;;;", "TEL;TYPE=cell:1", "TITLE:Clerk",
         "URL:https://a.test/"],
        [],
    ),
    (
        "users of Azure",
        "userPrincipalName,displayName,surname,mail,givenName,jobTitle,streetAddress,city,"
        "postalCode,telephoneNumber,mobile\n"
        "ann,Ann Lee,Lee,a@x.test,Ann,Clerk,Park Lane 1,Town,1,2,3\n",
        ["ADR:;;Park Lane 1;Town;;1;", "EMAIL:a@x.test", "FN:Ann Lee", "N:Lee;Ann;;;",
         "TEL:2", "TEL;TYPE=cell:3", "TITLE:Clerk", "X-USERPRINCIPALNAME:ann"],
        ["userPrincipalName kept as X-USERPRINCIPALNAME"],
    ),
    (
        "a name that two names are without spaces: it is a date for the one, a day for the other",
        "Name,E Mail,birth_day\nAnn,a@x.test,15\n",
        ["EMAIL:a@x.test", "FN:Ann", "X-BIRTH-DAY:15"],
        ["birth_day kept as X-BIRTH-DAY"],
    ),
    (
        "a year alone",
        "Name,Primary Email,Birth Year,Birth Month,Birth Day\nAnn,a@x.test,1980,,\n",
        ["EMAIL:a@x.test", "FN:Ann", "X-BIRTH-YEAR:1980"],
        ["Birth Year kept as X-BIRTH-YEAR"],
    ),
]

# Columns of Outlook in Dutch and in Danish.
DUTCH = ("Titel,Voornaam,Tweede voornaam,Achternaam,Bedrijf,Telefoon op werk,Mobiele telefoon,"
         "E-mailadres,Pager,Telex,ISDN\nDhr.,Jan,de,Vries,Acme,1,2,j@x.test,,,\n")
DANISH = ("Titel,Fornavn,Efternavn,Firma,Telefon (arbejde),Mobiltelefon,E-mail-adresse,ISDN\n"
          "Dr.,Ann,Lee,Acme,1,2,a@x.test,\n")


class ConvertColumns(OrderTest):
    def convert(self, text, *options):
        """Converts a file with this text."""
        (self.folder / "a.csv").write_bytes(text.encode())
        return run("convert", "a.csv", *options, cwd=self.folder)

    def lines(self, ended):
        """The lines of the only card, but its UID, in order."""
        [[_uid, card]] = rows_of(ended.out)
        lines = card.replace("\r\n ", "").split("\r\n")[2:-2]
        return sorted(line for line in lines if not line.startswith("UID:"))

    def test_cells(self):
        for title, text, lines, told in CELLS:
            with self.subTest(title):
                ended = self.convert(text)
                changes = [f"row 1, line 2: the cell of {words}" for words in told]
                self.assertEqual(lines, self.lines(ended))
                self.assertEqual((0, digest(changes, 1, bool(changes), 0)),
                                 (ended.status, ended.err.decode()))

    def refused(self, text, unread, columns):
        """The file isn't converted. The names that aren't known are told, and what to say."""
        ended = self.convert(text)
        words = f"fault device 1: a.csv has a header whose columns aren't known: {unread}; say "
        words += f"what its columns are, beginning with --columns '{columns}'\n"
        self.assertEqual((3, b"", words), (ended.status, ended.out, ended.err.decode()))

    def test_names_of_another_language(self):
        """A file isn't converted if no name of a person in it would be one, or no address."""
        dutch = ("Voornaam=n.given,Tweede voornaam=n.additional,Achternaam=n.family,Bedrijf=org,"
                 "Telefoon op werk=tel,Mobiele telefoon=tel;type=cell,E-mailadres=email")
        self.refused(DUTCH, "Voornaam, Tweede voornaam, Achternaam, Telefoon op werk, "
                     "Mobiele telefoon, E-mailadres", dutch)
        ended = self.convert(DUTCH, "--columns", dutch)
        self.assertEqual(
            ["EMAIL:j@x.test", "FN:Dhr. Jan de Vries", "N:Vries;Jan;de;Dhr.;", "ORG:Acme",
             "TEL:1", "TEL;TYPE=cell:2"], self.lines(ended))
        self.assertEqual(0, ended.status)
        self.refused(DANISH, "Fornavn, Efternavn, Telefon (arbejde)",
                     "Fornavn=n.given,Efternavn=n.family,Telefon (arbejde)=tel")

    def test_an_address_that_would_go_aside(self):
        """A file isn't converted if its addresses of electronic mail would all be kept aside, though
        numbers are known."""
        self.refused("Name,Phone,Mail (work)\nAnn,1,a@x.test\n", "Mail (work)",
                     "Mail (work)=email")
        self.refused("Name,Phonetic First Name,E-mail privat\nAnn,An,a@x.test\n", "E-mail privat",
                     "E-mail privat=email")
        ended = self.convert("Name,Phone,Mailing City\nAnn,1,Town\n")
        self.assertEqual((0, ["ADR:;;;Town;;;", "FN:Ann", "TEL:1"]),
                         (ended.status, self.lines(ended)))

    def test_properties_in_any_case(self):
        ended = self.convert("A,B,C\nAnn,a@x.test,Town\n", "--columns", "a=FN,B=Email,C=ADR.City")
        self.assertEqual((0, ["ADR:;;;Town;;;", "EMAIL:a@x.test", "FN:Ann"]),
                         (ended.status, self.lines(ended)))

    def test_what_the_user_says_counts_for_other_columns(self):
        """An address is the street beside a city, and a title the job, also if the user says so."""
        ended = self.convert("Name,Email,Address,Town\nAnn,a@x.test,1 Main St,Town\n",
                             "--columns", "Town=adr.city")
        self.assertEqual((0, ["ADR:;;1 Main St;Town;;;", "EMAIL:a@x.test", "FN:Ann"]),
                         (ended.status, self.lines(ended)))
        ended = self.convert("First Name,Last Name,Title,Email,Job\nAnn,Lee,Dr.,a@x.test,Boss\n",
                             "--columns", "Job=title")
        self.assertEqual((0, ["EMAIL:a@x.test", "FN:Dr. Ann Lee", "N:Lee;Ann;;Dr.;",
                              "TITLE:Boss"]), (ended.status, self.lines(ended)))


if __name__ == "__main__":
    unittest.main()
