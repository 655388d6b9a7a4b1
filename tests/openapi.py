"""An OpenAPI 3.0 document: its references, its schemas, and the response that it has for a reply.

It knows the parts of OpenAPI that docs/openapi.json uses; openapi_rules finds any other part.
"""

import json
import re
from collections import namedtuple

TYPES = {"object": dict, "array": list, "string": str, "integer": int, "boolean": bool}
METHODS = ["get", "put", "post", "delete"]

# What came over a connection: the request's method and target, and the reply's parts.
Reply = namedtuple("Reply", "method target status fields body")


def read_reply(request, octets):
    """The parts of a request and of its reply. A request that isn't HTTP has empty parts."""
    line = request.split(b"\r\n")[0].decode("utf-8", "replace").split(" ")
    method, target = line[:2] if len(line) == 3 else ("", "")
    head, _, body = octets.partition(b"\r\n\r\n")
    first, *lines = head.decode("ascii").split("\r\n")
    fields = dict(line.split(": ", 1) for line in lines)
    return Reply(method, target, int(first.split(" ")[1]), fields, body)


class Document:
    """A document, and what it says of replies."""

    def __init__(self, value):
        self.value = value

    def resolve(self, node):
        """The node, or the one that it refers to. A reference to nothing is a KeyError."""
        while isinstance(node, dict) and "$ref" in node:
            node, path = self.value, node["$ref"]
            for part in path.lstrip("#/").split("/"):
                node = node[part]
        return node

    def operations(self):
        """Each operation with its path and method."""
        for path, item in self.value["paths"].items():
            for method, operation in item.items():
                yield path, method, operation

    def responses(self):
        """Each response with the path, the method and the status that it is for."""
        for path, method, operation in self.operations():
            for status, response in operation["responses"].items():
                yield path, method, status, self.resolve(response)

    def examples(self, media):
        """The examples of a media type by name; an only example has the name None."""
        lone = {None: media["example"]} if "example" in media else {}
        named = media.get("examples", {})
        return {**lone, **{name: self.resolve(it)["value"] for name, it in named.items()}}

    def path_of(self, target):
        """The path of the document that a request's target is of, or None."""
        wanted = target.partition("?")[0]
        for path in self.value["paths"]:
            if re.fullmatch(re.sub(r"\{\w+\}", "[^/]+", path), wanted):
                return path
        return None

    def misfits(self, value, schema, where="value"):
        """What is wrong with a value of this schema, as texts."""
        schema = self.resolve(schema)
        if "oneOf" in schema:
            fits = [it for it in schema["oneOf"] if not self.misfits(value, it, where)]
            return [] if len(fits) == 1 else [f"{where} fits {len(fits)} schemas, not one"]
        wanted = schema["type"]
        if not isinstance(value, TYPES[wanted]) or isinstance(value, bool) != (wanted == "boolean"):
            return [f"{where} is no {wanted}"]
        if "enum" in schema and value not in schema["enum"]:
            return [f"{where} is none of {schema['enum']}"]
        parts = {"object": self._in_object, "array": self._in_array}.get(wanted, self._in_plain)
        return parts(value, schema, where)

    def _in_object(self, value, schema, where):
        properties = schema.get("properties", {})
        wrong = [f"{where} has no {it}" for it in schema.get("required", []) if it not in value]
        for name, part in value.items():
            if name in properties:
                wrong += self.misfits(part, properties[name], f"{where}.{name}")
            elif schema.get("additionalProperties") is False:
                wrong.append(f"{where} has {name}")
        return wrong

    def _in_array(self, value, schema, where):
        wrong = [f"{where} is too long"] if len(value) > schema.get("maxItems", len(value)) else []
        for index, part in enumerate(value):
            wrong += self.misfits(part, schema["items"], f"{where}[{index}]")
        return wrong

    def _in_plain(self, value, schema, where):
        size = len(value) if isinstance(value, str) else value
        least = schema.get("minLength", schema.get("minimum", size))
        most = schema.get("maxLength", schema.get("maximum", size))
        wrong = [] if least <= size <= most else [f"{where} is not from {least} to {most}"]
        if "pattern" in schema and not re.search(schema["pattern"], value):
            wrong.append(f"{where} is not like {schema['pattern']}")
        return wrong

    def complaints(self, reply):
        """What a reply has and the document doesn't, as texts."""
        path = self.path_of(reply.target)
        if path is None:
            return self._complaints_elsewhere(reply)
        item = self.value["paths"][path]
        # A method that the path doesn't have is refused as each of its operations says.
        operation = item.get(reply.method.lower()) or next(iter(item.values()))
        response = self.resolve(operation["responses"].get(str(reply.status)))
        if response is None:
            return [f"{path} has no {reply.status}"]
        wrong = [] if reply.status == 405 or reply.method.lower() in item else self._of_heads(reply)
        wrong += self._complaints_on_fields(reply, response, item)
        media = response["content"].get(reply.fields["Content-Type"])
        if media is None:
            return [*wrong, f"{path} has no {reply.fields['Content-Type']}"]
        return wrong + self._complaints_on_body(reply, media)

    def _complaints_elsewhere(self, reply):
        """The same for a path that the document doesn't list: the reply may be any fault."""
        fault = {"$ref": "#/components/schemas/Fault"}
        return self.misfits(json.loads(reply.body), fault, "body")

    def _of_heads(self, reply):
        return [] if reply.status in (400, 403, 413, 421, 431, 501) else [f"no method {reply.method}"]

    def _complaints_on_fields(self, reply, response, item):
        wrong = [
            f"no field {name}"
            for name, it in response.get("headers", {}).items()
            if it.get("required") and name not in reply.fields
        ]
        allowed = ", ".join(it.upper() for it in METHODS if it in item)
        if reply.fields.get("Allow", allowed) != allowed:
            wrong.append(f"Allow is {reply.fields['Allow']} and not {allowed}")
        return wrong

    def _complaints_on_body(self, reply, media):
        text = reply.body.decode()
        value = json.loads(text) if reply.fields["Content-Type"] == "application/json" else text
        wrong = self.misfits(value, media["schema"], "body")
        # The examples of a response name the faults that it may have.
        if reply.status >= 400 and not wrong and value["fault"] not in media["examples"]:
            wrong.append(f"{reply.status} has no {value['fault']}")
        return wrong
