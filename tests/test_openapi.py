"""docs/openapi.json: it is valid OpenAPI 3.0, and has every reply of the run of docs/API.md.

The rules are written from the OpenAPI Specification 3.0.3 (openapi_rules.py). The run is that
of documented.py: the page's session and each refusal that a request can have.
"""

import copy
import json
import unittest

from documented import record
from openapi import Document, read_reply
from openapi_rules import Check
from program import ROOT

TEXT = (ROOT / "docs/openapi.json").read_text(encoding="utf-8")
DOCUMENT = Document(json.loads(TEXT))
# Faults that no request of the run can bring about.
NOT_TRIED = {"busy", "changes-spent", "store-fault", "no-memory"}

BOOK = ["paths", "/books/{book}", "put"]
SCHEMAS = ["components", "schemas"]
# Damage, each with the way to a node and what is put there; None removes it.
DAMAGE = [
    ("another version", ["openapi"], "3.1.0"),
    ("no title", ["info", "title"], None),
    ("a field that is unknown", ["info", "colour"], "blue"),
    ("a server without a scheme", ["servers", 0, "url"], "127.0.0.1"),
    ("no responses", [*BOOK, "responses"], None),
    ("a status that is none", [*BOOK, "responses", "2000"], {"description": ""}),
    ("a response without a description", [*BOOK, "responses", "201", "description"], None),
    ("no parameter for a part in braces", [*BOOK, "parameters"], None),
    ("a name of another operation", [*BOOK, "operationId"], "tally"),
    ("a reference to nothing", [*BOOK, "parameters", 0, "$ref"], "#/components/parameters/b"),
    ("a reference to another kind", [*BOOK, "parameters", 0, "$ref"], "#/components/schemas/Book"),
    ("more than a reference", [*BOOK, "parameters", 0, "name"], "book"),
    ("a part that isn't required", ["components", "parameters", "book", "required"], False),
    ("a type that is none", [*SCHEMAS, "Card", "type"], "card"),
    ("a schema without a type", [*SCHEMAS, "Card", "type"], None),
    ("a property that is required, but missing", [*SCHEMAS, "Card", "properties", "uid"], None),
    ("a schema that nothing refers to", [*SCHEMAS, "Other"], {"type": "string"}),
    ("a list without items", [*SCHEMAS, "Books", "properties", "books", "items"], None),
    ("a pattern that is none", ["components", "parameters", "key", "schema", "pattern"], "("),
    ("a maximum below the minimum", ["components", "parameters", "limit", "schema", "maximum"], -1),
    ("an example of another shape", ["components", "examples", "bad-card", "value", "x"], 1),
    ("an example of another type", ["components", "examples", "bad-card", "value", "number"], "5"),
]

# Replies that the document doesn't have.
FOREIGN = [
    ("another status", "GET", "/books", 202, "application/json", "{}"),
    ("another media type", "GET", "/books", 200, "text/plain", '{"books":[]}'),
    ("another body", "GET", "/books", 200, "application/json", '{"book":[]}'),
    ("a body with more", "GET", "/books", 200, "application/json", '{"books":[],"more":1}'),
    ("a fault of another route", "GET", "/books", 400, "application/json",
     '{"fault":"bad-path","number":29}'),
    ("a method that is missing", "POST", "/books", 200, "application/json", '{"books":[]}'),
    ("a path that is missing", "GET", "/none", 200, "application/json", '{"books":[]}'),
    ("405 without Allow", "POST", "/books", 405, "application/json",
     '{"fault":"bad-method","number":28}'),
]


def met():
    """Each reply of the run, with its request."""
    return [read_reply(request, octets) for request, octets in record().all]


def damaged(way, part):
    """The document with a part put at the end of a way, or removed from there."""
    value = copy.deepcopy(DOCUMENT.value)
    node = value
    for name in way[:-1]:
        node = node[name]
    if part is None:
        del node[way[-1]]
    else:
        node[way[-1]] = part
    return Document(value)


class Validity(unittest.TestCase):
    def test_the_document_is_valid(self):
        self.assertEqual([], Check(DOCUMENT).wrong)

    def test_damage_is_found(self):
        for title, way, part in DAMAGE:
            with self.subTest(title):
                self.assertNotEqual([], Check(damaged(way, part)).wrong)

    def test_a_server_has_a_port(self):
        for server in DOCUMENT.value["servers"]:
            self.assertRegex(server["url"], r":\d+$")


class Replies(unittest.TestCase):
    def test_each_reply_is_one_of_the_document(self):
        for reply in met():
            with self.subTest(reply=str(reply)[:200]):
                self.assertEqual([], DOCUMENT.complaints(reply))

    def test_foreign_replies_are_found(self):
        for title, method, target, status, content, body in FOREIGN:
            octets = f"HTTP/1.1 {status} -\r\nContent-Type: {content}\r\n\r\n{body}".encode()
            reply = read_reply(f"{method} {target} HTTP/1.1\r\n".encode(), octets)
            with self.subTest(title):
                self.assertNotEqual([], DOCUMENT.complaints(reply))

    def test_each_response_of_an_operation_that_is_done_was_met(self):
        done = {(DOCUMENT.path_of(it.target), it.method.lower(), str(it.status)) for it in met()}
        for path, method, status, _ in DOCUMENT.responses():
            if status.startswith("2"):
                with self.subTest(path=path, method=method, status=status):
                    self.assertIn((path, method, status), done)

    def test_each_example_of_a_reply_was_met(self):
        bodies = {it.body.decode() for it in met()}
        for path, method, status, response in DOCUMENT.responses():
            for kind, media in response["content"].items():
                for name, value in DOCUMENT.examples(media).items():
                    text = value
                    if kind == "application/json":
                        text = json.dumps(
                            value, sort_keys=True, separators=(",", ":"), ensure_ascii=False
                        )
                    if name not in NOT_TRIED:
                        with self.subTest(path=path, method=method, status=status, name=name):
                            self.assertIn(text, bodies)

    def test_each_operation_has_the_common_responses(self):
        common = {"405", "413", "421", "431", "501", "503", "default"}
        for path, method, operation in DOCUMENT.operations():
            with self.subTest(path=path, method=method):
                self.assertLessEqual(common, set(operation["responses"]))


if __name__ == "__main__":
    unittest.main()
