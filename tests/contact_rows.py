"""Exports of contacts, and the whole card of each first row, worked out by hand from the table in
the README of crates/contact_csv; the UIDs by Python's csv, hashlib and uuid.
"""

from collections import namedtuple

# What is shown, the octets of the file, the lines of the card once unfolded, and its changes.
Export = namedtuple("Export", "title octets card changes")

GOOGLE_TODAY = """\
First Name,Middle Name,Last Name,Phonetic First Name,Phonetic Middle Name,Phonetic Last Name,\
Name Prefix,Name Suffix,Nickname,File As,Organization Name,Organization Title,\
Organization Department,Birthday,Notes,Photo,Labels,E-mail 1 - Label,E-mail 1 - Value,\
E-mail 2 - Label,E-mail 2 - Value,Phone 1 - Label,Phone 1 - Value,Address 1 - Label,\
Address 1 - Formatted,Address 1 - Street,Address 1 - City,Address 1 - PO Box,Address 1 - Region,\
Address 1 - Postal Code,Address 1 - Country,Address 1 - Extended Address,Relation 1 - Label,\
Relation 1 - Value,Website 1 - Label,Website 1 - Value,Event 1 - Label,Event 1 - Value,\
Custom Field 1 - Label,Custom Field 1 - Value
Ann,,Lee,,,,Dr.,,,,Acme,Boss,Sales,1990-04-15,"Line one
Line two",https://x.test/p.jpg,Friends ::: * myContacts,* Home,ann@x.test,Sister's,\
a2@x.test ::: a3@x.test,Mobile,+1 555,Work,"1 Main St
Springfield",1 Main St,Springfield,,IL,62701,US,,Spouse,Bob,Blog,https://ann.test/?a=b;c,\
Anniversary,2010-06-01,Shoe size,42
"""

EXPORTS = [
    Export(
        "Google's columns of today; a label that is no type of RFC 6350 goes to X-ABLABEL",
        GOOGLE_TODAY.encode(),
        [
            "UID:urn:uuid:a041bd3b-39d0-54c2-85a0-a3215c9418f1",
            "N:Lee;Ann;;Dr.;",
            "ORG:Acme;Sales",
            "TITLE:Boss",
            "BDAY:19900415",
            "NOTE:Line one\\nLine two",
            "PHOTO:https://x.test/p.jpg",
            "CATEGORIES:Friends",
            "CATEGORIES:myContacts",
            "EMAIL;TYPE=home;PREF=1:ann@x.test",
            "item1.EMAIL:a2@x.test",
            "item1.EMAIL:a3@x.test",
            "item1.X-ABLABEL:Sister's",
            "TEL;TYPE=cell:+1 555",
            "ADR;TYPE=work;LABEL=1 Main St^nSpringfield:;;1 Main St;Springfield;IL;62701;US",
            "RELATED;TYPE=spouse;VALUE=text:Bob",
            "item2.URL:https://ann.test/?a=b;c",
            "item2.X-ABLABEL:Blog",
            "ANNIVERSARY:20100601",
            "item3.X-CUSTOM-FIELD:42",
            "item3.X-ABLABEL:Shoe size",
            "FN:Dr. Ann Lee",
        ],
        ["row 1, line 2: the cell of Birthday rewritten",
         "row 1, line 2: the cell of Event 1 - Value rewritten"],
    ),
    Export(
        "Outlook's, with semicolons; columns without a property, and a row without a value",
        (
            "First Name;Middle Name;Last Name;Title;Suffix;Company;Department;Job Title;"
            "Business Street;Business City;E-mail Address;E-mail Type;Mobile Phone;Business Fax;"
            "Birthday;Notes;Categories;Gender\r\n"
            "J\u00fcrgen;;M\u00fcller;;;Acme;;;Hauptstr. 1;Berlin;j@x.test;SMTP;0171;030;"
            "4/15/1990;;"
            '"Business;Personal";Unspecified\r\n'
            ";;;;;;;;;;;;;;0/0/00;;;\r\n"
        ).encode(),
        [
            "UID:urn:uuid:3d7cbb15-385f-52bf-a8e6-dfa8a85ca155",
            "N:M\u00fcller;J\u00fcrgen;;;",
            "ORG:Acme",
            "ADR;TYPE=work:;;Hauptstr. 1;Berlin;;;",
            "EMAIL:j@x.test",
            "TEL;TYPE=cell:0171",
            "TEL;TYPE=work,fax:030",
            "BDAY:19900415",
            "CATEGORIES:Business",
            "CATEGORIES:Personal",
            "FN:J\u00fcrgen M\u00fcller",
            "X-E-MAIL-TYPE:SMTP",
            "X-GENDER:Unspecified",
        ],
        ["row 1, line 2: the cell of E-mail Type kept as X-E-MAIL-TYPE",
         "row 1, line 2: the cell of Birthday rewritten",
         "row 1, line 2: the cell of Gender kept as X-GENDER"],
    ),
    Export(
        "Google's older columns after a byte order mark; a date without a year",
        (
            "\ufeffName,Given Name,Additional Name,Family Name,Yomi Name,Birthday,Group Membership,"
            "E-mail 1 - Type,E-mail 1 - Value,Organization 1 - Type,Organization 1 - Name,"
            "Organization 1 - Title,Organization 1 - Department,Phone 1 - Type,Phone 1 - Value\n"
            '"Lee, Ann; jr.",Ann,,"Lee, jr.",, --04-15,* myContacts,* ,ann@x.test,,Acme,Boss,,'
            "Home Fax,+1 555\n"
        ).encode(),
        [
            "UID:urn:uuid:3565c13b-dd66-5f7e-9f1a-8a5450db56e0",
            "FN:Lee\\, Ann\\; jr.",
            "N:Lee\\, jr.;Ann;;;",
            "BDAY:--0415",
            "CATEGORIES:myContacts",
            "EMAIL;PREF=1:ann@x.test",
            "ORG:Acme",
            "TITLE:Boss",
            "TEL;TYPE=home,fax:+1 555",
        ],
        ["row 1, line 2: the cell of Birthday rewritten"],
    ),
    Export(
        "tabs; no name but a telephone; a date that is none; a line end and a control character",
        b"First Name\tLast Name\tE-mail Address\tOther Phone\tBirthday\tNotes\tNotes\r\n"
        b'\t\t\t555\tin spring\t"a\r\nb\x0bc"\tagain\r\n',
        [
            "UID:urn:uuid:06ddb8a6-dfb4-56e1-b291-6680c76f9e07",
            "TEL:555",
            "BDAY;VALUE=text:in spring",
            "NOTE:a\\nb c",
            "FN:555",
            "X-NOTES:again",
        ],
        ["row 1, line 2: the cell of Birthday kept as text: its day, month or year isn't certain",
         "row 1, line 2: the cell of Notes kept as X-NOTES",
         "row 1, line 2: the cell of Notes rewritten"],
    ),
    Export(
        "an octet that isn't UTF-8 is a character of Latin-1",
        b"First Name,E-mail Address\nA\xff,a@x.test\n",
        [
            "UID:urn:uuid:69498a95-d946-55f3-a8ab-b11af0feb3d6",
            "N:;A\u00ff;;;",
            "EMAIL:a@x.test",
            "FN:A\u00ff",
        ],
        ["row 1, line 2: read as Windows-1252: 1 cell that isn't UTF-8"],
    ),
]

# Lines that many of these cards have.
ANN = ["EMAIL:a@x.test", "FN:Ann Lee", "N:Lee;Ann;;;"]
# A title, a header and one row, and the lines of the card but UID and those that begin with X-, in
# any order.
KNOWN_HEADERS = [
    (
        "a small one",
        "Name,Email,Phone,Company\nAnn Lee,a@x.test,+1 555,Acme\n",
        ["EMAIL:a@x.test", "FN:Ann Lee", "ORG:Acme", "TEL:+1 555"],
    ),
    (
        "a small one with names",
        "First Name,Last Name,Email,Mobile Phone,Company\nAnn,Lee,a@x.test,555,Acme\n",
        [*ANN, "ORG:Acme", "TEL;TYPE=cell:555"],
    ),
    (
        "Thunderbird in English",
        "First Name,Last Name,Display Name,Nickname,Primary Email,Secondary Email,Screen Name,"
        "Work Phone,Home Phone,Fax Number,Pager Number,Mobile Number,Home Address,Home Address 2,"
        "Home City,Home State,Home ZipCode,Home Country,Work Address,Work Address 2,Work City,"
        "Work State,Work ZipCode,Work Country,Job Title,Department,Organization,Web Page 1,"
        "Web Page 2,Birth Year,Birth Month,Birth Day,Custom 1,Notes\n"
        "Ann,Lee,Ann Lee,Annie,a@x.test,a2@x.test,,1,2,3,4,5,1 Main St,2nd floor,Town,IL,627,US,"
        "2 Main St,,City,IL,628,US,Boss,Sales,Acme,https://a.test,https://b.test,1980,4,15,,hi\n",
        [*ANN, "ADR;TYPE=home:;2nd floor;1 Main St;Town;IL;627;US",
         "ADR;TYPE=work:;;2 Main St;City;IL;628;US", "BDAY:19800415", "EMAIL:a2@x.test",
         "NICKNAME:Annie", "NOTE:hi", "ORG:Acme;Sales", "TEL;TYPE=cell:5", "TEL;TYPE=fax:3",
         "TEL;TYPE=home:2", "TEL;TYPE=pager:4", "TEL;TYPE=work:1", "TITLE:Boss",
         "URL:https://a.test", "URL;TYPE=home:https://b.test"],
    ),
    (
        "Thunderbird in German",
        "Vorname,Nachname,Anzeigename,Spitzname,Prim\u00e4re E-Mail-Adresse,"
        "Sekund\u00e4re E-Mail-Adresse,Messenger-Name,Tel. dienstlich,Tel. privat,Fax-Nummer,"
        "Pager-Nummer,Mobil-Tel.-Nr.,Privat: Adresse,Privat: Adresse 2,Privat: Ort,"
        "Privat: Bundesland,Privat: PLZ,Privat: Land,Dienstlich: Adresse,Dienstlich: Ort,"
        "Dienstlich: PLZ,Arbeitstitel,Abteilung,Organisation,Webseite 1,Geburtsjahr,Geburtsmonat,"
        "Geburtstag,Notizen\n"
        "Ann,Lee,Ann Lee,,a@x.test,,,1,2,3,,5,Weg 1,,Ort,,10115,DE,Platz 2,Stadt,10117,Leiterin,"
        "Einkauf,Acme,,1980,4,15,\n",
        [*ANN, "ADR;TYPE=home:;;Weg 1;Ort;;10115;DE", "ADR;TYPE=work:;;Platz 2;Stadt;;10117;",
         "BDAY:19800415", "ORG:Acme;Einkauf", "TEL;TYPE=cell:5", "TEL;TYPE=fax:3",
         "TEL;TYPE=home:2", "TEL;TYPE=work:1", "TITLE:Leiterin"],
    ),
    (
        "the users of Office 365",
        "Block credential,City,Country,Department,Display name,Fax,First name,Last name,"
        "Mobile Phone,Object Id,Office,Phone number,Postal code,Proxy addresses,State,"
        "Street address,Title,User principal name\n"
        "FALSE,Town,US,Sales,Ann Lee,3,Ann,Lee,5,1-2-3,B12,1,627,SMTP:a@x.test,IL,1 Main St,Boss,"
        "a@x.test\n",
        [*ANN, "ADR;TYPE=work:;;1 Main St;Town;IL;627;US", "ORG:;Sales", "TEL;TYPE=cell:5",
         "TEL;TYPE=work,fax:3", "TEL;TYPE=work:1", "TITLE:Boss"],
    ),
    (
        "Outlook in German",
        "Anrede,Vorname,Weitere Vornamen,Nachname,Suffix,Firma,Abteilung,Position,"
        "Stra\u00dfe gesch\u00e4ftlich,Ort gesch\u00e4ftlich,Postleitzahl gesch\u00e4ftlich,"
        "Land/Region gesch\u00e4ftlich,Stra\u00dfe privat,Ort privat,Fax gesch\u00e4ftlich,"
        "Telefon gesch\u00e4ftlich,Telefon (privat),Mobiltelefon,E-Mail-Adresse,"
        "E-Mail 2: Adresse,Geburtstag,Kategorien,Notizen,Webseite\n"
        "Dr.,Ann,Ruth,Lee,,Acme,Einkauf,Leiterin,Weg 1,Ort,10115,DE,Gasse 3,Dorf,3,1,2,5,a@x.test,"
        "a2@x.test,15.04.1980,Kunden,hallo,https://a.test\n",
        [
            "ADR;TYPE=home:;;Gasse 3;Dorf;;;",
            "ADR;TYPE=work:;;Weg 1;Ort;;10115;DE",
            "BDAY:19800415",
            "CATEGORIES:Kunden",
            "EMAIL:a2@x.test",
            "EMAIL:a@x.test",
            "FN:Dr. Ann Ruth Lee",
            "N:Lee;Ann;Ruth;Dr.;",
            "NOTE:hallo",
            "ORG:Acme;Einkauf",
            "TEL;TYPE=cell:5",
            "TEL;TYPE=home:2",
            "TEL;TYPE=work,fax:3",
            "TEL;TYPE=work:1",
            "TITLE:Leiterin",
            "URL:https://a.test",
        ],
    ),
    (
        "Outlook in French",
        "Titre,Pr\u00e9nom,Nom,Soci\u00e9t\u00e9,Service,Rue (bureau),Ville (bureau),"
        "Code postal (bureau),T\u00e9l\u00e9phone (bureau),T\u00e9l\u00e9phone (domicile),"
        "T\u00e9l. mobile,T\u00e9l\u00e9copie (bureau),Adresse de messagerie,Cat\u00e9gories,"
        "Notes,Page Web\n"
        "Mme,Ann,Lee,Acme,Achats,1 rue,Paris,75001,1,2,5,3,a@x.test,Clients,note,https://a.test\n",
        [
            "ADR;TYPE=work:;;1 rue;Paris;;75001;",
            "CATEGORIES:Clients",
            "EMAIL:a@x.test",
            "FN:Mme Ann Lee",
            "N:Lee;Ann;;Mme;",
            "NOTE:note",
            "ORG:Acme;Achats",
            "TEL;TYPE=cell:5",
            "TEL;TYPE=home:2",
            "TEL;TYPE=work,fax:3",
            "TEL;TYPE=work:1",
            "URL:https://a.test",
        ],
    ),
    (
        "LinkedIn",
        "First Name,Last Name,URL,Email Address,Company,Position,Connected On\n"
        "Ann,Lee,https://a.test,a@x.test,Acme,Boss,15 Apr 2020\n",
        [*ANN, "ORG:Acme", "TITLE:Boss", "URL:https://a.test"],
    ),
    (
        "HubSpot",
        "Record ID,First Name,Last Name,Email,Phone Number,Company name,Lead Status\n"
        "12,Ann,Lee,a@x.test,1,Acme,New\n",
        [*ANN, "ORG:Acme", "TEL:1"],
    ),
    (
        "Google in German",
        "Vorname,Nachname,E-Mail 1 - Label,E-Mail 1 - Wert,Telefon 1 - Label,Telefon 1 - Wert,"
        "Adresse 1 - Label,Adresse 1 - Stra\u00dfe,Adresse 1 - Ort,Adresse 1 - Postleitzahl\n"
        "Ann,Lee,* Work,a@x.test,Mobile,5,Home,Weg 1,Ort,10115\n",
        [
            "ADR;TYPE=home:;;Weg 1;Ort;;10115;",
            "EMAIL;TYPE=work;PREF=1:a@x.test",
            "FN:Ann Lee",
            "N:Lee;Ann;;;",
            "TEL;TYPE=cell:5",
        ],
    ),
    (
        "given names beside names",
        "Name,Vorname,Telefon,E-Mail\nLee,Ann,1,a@x.test\n",
        [*ANN, "TEL:1"],
    ),
    (
        "the users of Office 365 in the centre of today",
        "Block credential,City,Country/Region,Department,Display name,Fax,First name,Last name,"
        "Mobile Phone,Object Id,Office,Phone number,Postal code,State,Street address,Title,"
        "User principal name\n"
        "FALSE,Town,US,Sales,Ann Lee,3,Ann,Lee,5,1-2-3,B12,1,627,IL,1 Main St,Boss,a@x.test\n",
        [*ANN, "ADR;TYPE=work:;;1 Main St;Town;IL;627;US", "ORG:;Sales", "TEL;TYPE=cell:5",
         "TEL;TYPE=work,fax:3", "TEL;TYPE=work:1", "TITLE:Boss"],
    ),
    (
        "the template for users of Office 365",
        "User Name,First Name,Last Name,Display Name,Job Title,Department,Office Number,"
        "Office Phone,Mobile Phone,Fax,Alternate email address,Address,City,State or Province,"
        "ZIP or Postal Code,Country or Region\n"
        "a@x.test,Ann,Lee,Ann Lee,Boss,Sales,B12,1,5,3,a2@x.test,1 Main St,Town,IL,627,US\n",
        [*ANN, "ADR:;;1 Main St;Town;IL;627;US", "EMAIL:a2@x.test", "ORG:;Sales",
         "TEL;TYPE=cell:5", "TEL;TYPE=fax:3", "TEL;TYPE=work:1", "TITLE:Boss"],
    ),
    (
        "a job beside a name",
        "Name,Title,Email\nAnn Lee,CEO,a@x.test\n",
        ["EMAIL:a@x.test", "FN:Ann Lee", "TITLE:CEO"],
    ),
    (
        "a job beside a company, as Apollo, Yahoo and ZoomInfo have it",
        "First Name,Last Name,Title,Company,Email\nAnn,Lee,CEO,Acme,a@x.test\n",
        [*ANN, "ORG:Acme", "TITLE:CEO"],
    ),
    (
        "Salesforce: the salutation is another column",
        "Salutation,First Name,Last Name,Suffix,Title,Company,Mailing City,Phone\n"
        "Ms.,Ann,Lee,Jr.,CEO,Acme,Town,1\n",
        ["ADR:;;;Town;;;", "FN:Ann Lee Jr.", "N:Lee;Ann;;;Jr.", "ORG:Acme", "TEL:1", "TITLE:CEO"],
    ),
    (
        "Outlook: a prefix beside a suffix",
        "First Name,Middle Name,Last Name,Title,Suffix,E-mail Address\n"
        "Ann,,Lee,Dr.,Jr.,a@x.test\n",
        ["EMAIL:a@x.test", "FN:Dr. Ann Lee Jr.", "N:Lee;Ann;;Dr.;Jr."],
    ),
    (
        "a prefix beside a job",
        "Title,First Name,Last Name,Position,Email\nDr.,Ann,Lee,Boss,a@x.test\n",
        ["EMAIL:a@x.test", "FN:Dr. Ann Lee", "N:Lee;Ann;;Dr.;", "TITLE:Boss"],
    ),
    (
        "a prefix in German",
        "Titel,Vorname,Nachname,E-Mail\nDr.,Ann,Lee,a@x.test\n",
        ["EMAIL:a@x.test", "FN:Dr. Ann Lee", "N:Lee;Ann;;Dr.;"],
    ),
    (
        "a title in German beside a whole name",
        "Name,Titel,E-Mail\nAnn Lee,Dr.,a@x.test\n",
        ["EMAIL:a@x.test", "FN:Ann Lee", "TITLE:Dr."],
    ),
    (
        "an address is the street beside its city",
        "Full Name,Email,Address,City,State,Zip,Country\nAnn Lee,a@x.test,1 Main St,Town,IL,9,US\n",
        ["ADR:;;1 Main St;Town;IL;9;US", "EMAIL:a@x.test", "FN:Ann Lee"],
    ),
    (
        "an address beside its street and its city",
        "Name,Email,Address,Street,City\nAnn Lee,a@x.test,1 Main St Town,1 Main St,Town\n",
        [
            "ADR;LABEL=1 Main St Town:;;1 Main St;Town;;;",
            "EMAIL:a@x.test",
            "FN:Ann Lee",
        ],
    ),
    (
        "an address alone",
        "Name,Email,Address\nAnn Lee,a@x.test,1 Main St Town\n",
        ["ADR;LABEL=1 Main St Town:;;;;;;", "EMAIL:a@x.test", "FN:Ann Lee"],
    ),
    (
        "an address in German beside its postal code",
        "Name,E-Mail,Adresse,PLZ,Ort\nAnn Lee,a@x.test,Weg 1,10115,Dorf\n",
        ["ADR:;;Weg 1;Dorf;;10115;", "EMAIL:a@x.test", "FN:Ann Lee"],
    ),
    (
        "Yahoo: two addresses",
        "First,Last,Email,Title,Company,Home Address,Home City,Home State,Home ZIP,Home Country,"
        "Work Address,Work City,Work State,Work ZIP,Work Country\n"
        "Ann,Lee,a@x.test,Boss,Acme,1 Main St,Town,IL,627,US,2 Main St,City,IL,628,US\n",
        [*ANN, "ADR;TYPE=home:;;1 Main St;Town;IL;627;US",
         "ADR;TYPE=work:;;2 Main St;City;IL;628;US", "ORG:Acme", "TITLE:Boss"],
    ),
    (
        "labels that are types, in English and German",
        "First Name,Phone 1 - Label,Phone 1 - Value,Phone 2 - Label,Phone 2 - Value,"
        "Phone 3 - Label,Phone 3 - Value,Phone 4 - Label,Phone 4 - Value,Phone 5 - Label,"
        "Phone 5 - Value,E-mail 1 - Label,E-mail 1 - Value\n"
        "Ann,Fax,1,Other Fax,2,Cell,3,Mobil,4,Privat,5,* Arbeit,a@x.test\n",
        [
            "EMAIL;TYPE=work;PREF=1:a@x.test",
            "FN:Ann",
            "N:;Ann;;;",
            "TEL;TYPE=cell:3",
            "TEL;TYPE=cell:4",
            "TEL;TYPE=fax:1",
            "TEL;TYPE=fax:2",
            "TEL;TYPE=home:5",
        ],
    ),
    (
        "Outlook's main and primary numbers",
        "First Name,Last Name,E-mail Address,Business Phone,Company Main Phone,Primary Phone,"
        "Other Phone\nAnn,Lee,a@x.test,1,2,3,4\n",
        [*ANN, "TEL:4", "TEL;TYPE=work,x-main:2", "TEL;TYPE=work:1", "TEL;TYPE=x-primary:3"],
    ),
    (
        "a year of zeros",
        "First Name,Last Name,Birthday,Anniversary,E-mail Address\n"
        "Ann,Lee,0000-04-15,15.04.0000,a@x.test\n",
        [*ANN, "ANNIVERSARY:--0415", "BDAY:--0415"],
    ),
    (
        "a birthday without its year in three columns",
        "First Name,Last Name,Primary Email,Birth Year,Birth Month,Birth Day\n"
        "Ann,Lee,a@x.test,,4,15\n",
        [*ANN, "BDAY:--0415"],
    ),
    (
        "a partner in German",
        "Vorname,Nachname,E-Mail-Adresse,Partner,Kinder\nAnn,Lee,a@x.test,Bo,Cy\n",
        [*ANN, "RELATED;TYPE=child;VALUE=text:Cy", "RELATED;TYPE=spouse;VALUE=text:Bo"],
    ),
    (
        "a whole name beside its parts, in German",
        "Name;Vorname;Nachname;E-Mail\nJ\u00f6rg M\u00fcller;J\u00f6rg;M\u00fcller;a@x.test\n",
        ["EMAIL:a@x.test", "FN:J\u00f6rg M\u00fcller", "N:M\u00fcller;J\u00f6rg;;;"],
    ),
    (
        "family names that are called names",
        "Name,First Name,Email\nLee,Ann,a@x.test\n",
        ANN,
    ),
    (
        "given names that are called names",
        "Surname,Name,Email\nLee,Ann,a@x.test\n",
        ANN,
    ),
    (
        "a place beside cities, in the German of Outlook",
        "Vorname,Nachname,Stra\u00dfe gesch\u00e4ftlich,Ort gesch\u00e4ftlich,Ort,"
        "Telefon gesch\u00e4ftlich\nAnn,Lee,Weg 1,Stadt,Raum 3,1\n",
        ["ADR;TYPE=work:;;Weg 1;Stadt;;;", "FN:Ann Lee", "N:Lee;Ann;;;", "TEL;TYPE=work:1"],
    ),
    (
        "Google in German, with dashes",
        "Vorname,Nachname,E-Mail 1 \u2013 Label,E-Mail 1 \u2013 Wert,Telefon 1 \u2013 Label,"
        "Telefon 1 \u2013 Wert\nAnn,Lee,* Work,a@x.test,Mobile,5\n",
        ["EMAIL;TYPE=work;PREF=1:a@x.test", "FN:Ann Lee", "N:Lee;Ann;;;", "TEL;TYPE=cell:5"],
    ),
    (
        "columns that many tables have",
        "Prefix,First Name,Last Name,Email 1,E-Mail 2,Work Email,Phone (mobile),Telefon 2,Telefax,"
        "Homepage,Comments,Mailing Street,Mailing City,Mailing State/Province,"
        "Mailing Zip/Postal Code,Mailing Country\n"
        "Dr.,Ann,Lee,a@x.test,b@x.test,c@x.test,1,2,3,https://x.test,n,Weg 1,Ort,BB,10115,DE\n",
        ["ADR:;;Weg 1;Ort;BB;10115;DE", "EMAIL:a@x.test", "EMAIL:b@x.test", "EMAIL:c@x.test",
         "FN:Dr. Ann Lee", "N:Lee;Ann;;Dr.;", "NOTE:n", "TEL:2", "TEL;TYPE=cell:1",
         "TEL;TYPE=fax:3", "URL:https://x.test"],
    ),
    (
        "columns of other languages that many tables have",
        "Name,Vorname,PrimarySmtpAddress,T\u00e9l\u00e9phone mobile,Bemerkung\nLee,Ann,a@x.test,1,n\n",
        [*ANN, "NOTE:n", "TEL;TYPE=cell:1"],
    ),
    (
        "two names that are the same, of which one is called a name",
        "Name;Vorname;E-Mail\nMartin;Martin;a@x.test\n",
        ["EMAIL:a@x.test", "FN:Martin Martin", "N:Martin;Martin;;;"],
    ),
    (
        "family names that begin as given names, and are called names",
        "Name;Vorname;E-Mail\nPaul-Meyer;Paul;a@x.test\n",
        ["EMAIL:a@x.test", "FN:Paul Paul-Meyer", "N:Paul-Meyer;Paul;;;"],
    ),
    (
        "years of two digits, of which none is one to come",
        "Name,Email,Birthday,Anniversary\nAnn Lee,a@x.test,15-Apr-27,15.04.26\n",
        ["ANNIVERSARY:20260415", "BDAY:19270415", "EMAIL:a@x.test", "FN:Ann Lee"],
    ),
]
