"""The rules for OpenAPI 3.0 documents, as far as docs/openapi.json uses them.

RULES are written from the OpenAPI Specification 3.0.3, section 4.7: for each kind of object the
fields that it must have, and all that it may have. A field that isn't in them is wrong, also where
the specification has it: add it here.
"""

import re

from openapi import METHODS, TYPES

ANY = object

# The kind of a field: a type, the name of a kind of object, a list of one, or a map to one.
TEXTS = {"summary": str, "description": str}
CONTENT = {"content": {"media type"}}
RULES = {
    "document": (
        "openapi info paths",
        {
            "openapi": str,
            "info": "info",
            "servers": ["server"],
            "paths": {"path"},
            "components": "components",
        },
    ),
    "info": ("title version", {"title": str, "version": str, "description": str}),
    "server": ("url", {"url": str, "description": str}),
    "path": ("", {method: "operation" for method in METHODS}),
    "operation": (
        "responses",
        {
            **TEXTS,
            "operationId": str,
            "parameters": ["parameter"],
            "requestBody": "body",
            "responses": {"response"},
        },
    ),
    "parameter": (
        "name in schema",
        {
            "name": str,
            "in": str,
            "required": bool,
            "allowEmptyValue": bool,
            "description": str,
            "schema": "schema",
        },
    ),
    "body": ("content", {**CONTENT, "required": bool, "description": str}),
    "response": ("description", {**CONTENT, "description": str, "headers": {"header"}}),
    "header": (
        "schema",
        {"schema": "schema", "required": bool, "description": str, "example": ANY},
    ),
    "media type": ("schema", {"schema": "schema", "example": ANY, "examples": {"example"}}),
    "example": ("value", {**TEXTS, "value": ANY}),
    "components": (
        "",
        {
            "parameters": {"parameter"},
            "responses": {"response"},
            "examples": {"example"},
            "schemas": {"schema"},
        },
    ),
    "schema": (
        "",
        {
            "type": str,
            "format": str,
            "description": str,
            "default": ANY,
            "enum": [ANY],
            "oneOf": ["schema"],
            "required": [str],
            "properties": {"schema"},
            "additionalProperties": bool,
            "items": "schema",
            "maxItems": int,
            "pattern": str,
            "minLength": int,
            "maxLength": int,
            "minimum": int,
            "maximum": int,
        },
    ),
}

# Where in the components an object of a kind is that may be referred to.
PLACES = {
    "parameter": "parameters",
    "response": "responses",
    "example": "examples",
    "schema": "schemas",
}


class Check:
    """All that is wrong with a document, as texts."""

    def __init__(self, document):
        self.document = document
        self.wrong = []
        self.used = set()
        self._walk(document.value, "document", "document")
        # If the shape is wrong, the rest may be missing, and isn't checked.
        if not self.wrong:
            self._check_operations()
            self._check_examples()
            self._check_use()

    def _say(self, condition, text):
        if not condition:
            self.wrong.append(text)

    def _walk(self, node, kind, where):
        if isinstance(kind, list):
            self._say(isinstance(node, list) and node, f"{where} is no list, or an empty one")
            for index, part in enumerate(node if isinstance(node, list) else []):
                self._walk(part, kind[0], f"{where}[{index}]")
        elif isinstance(kind, set):
            self._say(isinstance(node, dict), f"{where} is no map")
            for name, part in node.items() if isinstance(node, dict) else []:
                self._walk(part, next(iter(kind)), f"{where}.{name}")
        elif isinstance(kind, type):
            self._say(isinstance(node, kind), f"{where} is no {kind.__name__}")
            self._say(kind is not int or not isinstance(node, bool), f"{where} is no number")
        else:
            self._walk_object(node, kind, where)

    def _walk_object(self, node, kind, where):
        if not isinstance(node, dict):
            self.wrong.append(f"{where} is no object")
        elif "$ref" in node:
            self._check_reference(node, kind, where)
        else:
            required, fields = RULES[kind]
            for name in required.split():
                self._say(name in node, f"{where} has no {name}")
            for name, part in node.items():
                if name in fields:
                    self._walk(part, fields[name], f"{where}.{name}")
                else:
                    self.wrong.append(f"{where} has {name}, which a {kind} has not")
            if kind == "schema":
                self._check_schema(node, where)

    def _check_reference(self, node, kind, where):
        self._say(len(node) == 1, f"{where} has more than its reference")
        place = f"#/components/{PLACES.get(kind)}/"
        path = node["$ref"]
        self.used.add(path)
        parts = self.document.value.get("components", {}).get(PLACES.get(kind), {})
        self._say(path.startswith(place) and path[len(place):] in parts, f"{where}: no {path}")

    def _check_schema(self, node, where):
        self._say(("type" in node) != ("oneOf" in node), f"{where}: one of type and oneOf")
        self._say(node.get("type", "object") in TYPES, f"{where} has another type")
        for name in node.get("required", []):
            self._say(name in node.get("properties", {}), f"{where} requires {name}")
        self._say(node.get("type") != "array" or "items" in node, f"{where} has no items")
        for one in node.get("enum", []):
            self._say(isinstance(one, TYPES[node["type"]]), f"{where}: {one} is of another type")
        try:
            re.compile(node.get("pattern", ""))
        except re.error:
            self.wrong.append(f"{where}: no pattern {node['pattern']}")
        for least, most in [("minimum", "maximum"), ("minLength", "maxLength")]:
            if least in node and most in node:
                self._say(node[least] <= node[most], f"{where}: {least} is above {most}")

    def _check_operations(self):
        value = self.document.value
        self._say(re.fullmatch(r"3\.0\.\d+", value["openapi"]), "it is no OpenAPI 3.0")
        for server in value.get("servers", []):
            self._say(re.match(r"https?://[\w.]+(:\d+)?$", server["url"]), f"{server} has no host")
        names = [it.get("operationId") for _, _, it in self.document.operations()]
        self._say(len(names) == len(set(names)), "two operations have one name")
        for path, method, operation in self.document.operations():
            self._check_parameters(operation, path, f"{method} {path}")
            for status in operation["responses"]:
                well = re.fullmatch(r"[1-5]\d\d|default", status)
                self._say(well, f"{method} {path} has the status {status}")

    def _check_parameters(self, operation, path, where):
        self._say(path.startswith("/"), f"{where} doesn't begin with a slash")
        found = [self.document.resolve(it) for it in operation.get("parameters", [])]
        kinds = {(it["name"], it["in"]) for it in found}
        self._say(len(kinds) == len(found), f"{where} has one parameter twice")
        self._say({it for _, it in kinds} <= {"path", "query"}, f"{where}: a parameter elsewhere")
        in_path = [it for it in found if it["in"] == "path"]
        templates = set(re.findall(r"\{(\w+)\}", path))
        self._say({it["name"] for it in in_path} == templates, f"{where} has other parts in braces")
        self._say(all(it.get("required") for it in in_path), f"{where}: a part is not required")

    def _check_examples(self):
        """Each example is of its schema, and a body has one example or named ones."""
        for path, method, operation in self.document.operations():
            contents = [operation.get("requestBody", {}).get("content", {})]
            for status, response in operation["responses"].items():
                response = self.document.resolve(response)
                contents.append(response.get("content", {}))
                for name, header in response.get("headers", {}).items():
                    self._check_example(header, f"{method} {path} {status} {name}")
            for content in contents:
                for media in content.values():
                    self._check_example(media, f"{method} {path}")

    def _check_example(self, node, where):
        self._say(not {"example", "examples"} <= set(node), f"{where} has example and examples")
        for name, value in self.document.examples(node).items():
            wrong = self.document.misfits(value, node["schema"], f"example {name}")
            self.wrong += [f"{where}: {it}" for it in wrong]

    def _check_use(self):
        for place, parts in self.document.value.get("components", {}).items():
            for name in parts:
                path = f"#/components/{place}/{name}"
                self._say(path in self.used, f"nothing refers to {path}")
