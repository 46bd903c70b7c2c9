"""An OpenAPI 3.0 document as tests/openapi uses it: its operations, what it says of a request and of a reply, and how much
of it exchanges showed. Values are validated by openapi_schema_validator (which stands on jsonschema)."""
import importlib.machinery
import importlib.util
import json
import os
import re
import sys

from jsonschema import FormatChecker
from jsonschema.exceptions import ValidationError
from jsonschema.validators import extend
from openapi_schema_validator import OAS30Validator

ROOT = os.path.dirname(os.path.dirname(os.path.realpath(__file__)))
sys.path[:0] = [os.path.join(ROOT, "tests"), os.path.join(ROOT, "bench")]
from references import with_check_digit  # noqa: E402

METHODS = ("get", "put", "post", "delete", "options", "head", "patch", "trace")
# Why a part of a path is none, by the keyword of its schema that says so, in the order of the desk's tests.
REASONS = {"minLength": "length", "maxLength": "length", "pattern": "form", "x-check-digit": "check-digit"}


def script(name):
    """A test without an extension, as a module."""
    loader = importlib.machinery.SourceFileLoader(name, os.path.join(ROOT, "tests", name))
    module = importlib.util.module_from_spec(importlib.util.spec_from_loader(name, loader))
    loader.exec_module(module)
    return module


FUZZ = script("fuzz")


def has_check_digit(_, __, text, ___):
    try:
        well = not isinstance(text, str) or with_check_digit(text[:-1]) == text
    except ValueError:
        well = False
    if not well:
        yield ValidationError(f"{text!r} has another check digit")


def matches(_, pattern, text, __):
    """As the keyword `pattern`, with the ends of a text where ECMA 262 has them: Python's $ is also before a last line feed."""
    if isinstance(text, str) and not re.search(re.sub(r"\$$", r"\\Z", pattern), text):
        yield ValidationError(f"{text!r} does not match {pattern!r}")


def are_distinct(_, key, items, __):
    these = [it.get(key) for it in items if isinstance(it, dict)] if isinstance(items, list) else []
    if any(it in these[:n] for n, it in enumerate(these)):
        yield ValidationError(f"two items have the same {key}")


CHECKER = FormatChecker(formats=["date"])
Validator = extend(OAS30Validator, {"pattern": matches, "x-distinct": are_distinct, "x-check-digit": has_check_digit})


class Operation:
    def __init__(self, path, item, method, node):
        self.name, self.method, self.path, self.node = node["operationId"], method.upper(), path, node
        self.parts = item.get("parameters", []) + node.get("parameters", [])
        self.responses = node["responses"]
        body = node.get("requestBody", {"content": {}})["content"].get("application/json", {})
        self.body, self.example = body.get("schema"), body.get("example")


class Document:
    def __init__(self, node):
        self.places, self.components, self.validators, self.seen, self.unread_before, self.valid_before = {}, {}, {}, set(), {}, set()
        self.root = node
        self.node = self.resolved(node, "#")
        self.patterns = [(path, re.compile(re.sub(r"\{\w+\}", "([^/]+)", path))) for path in self.node["paths"]]
        self.operations = [Operation(path, item, method, item[method])
                           for path, item in self.node["paths"].items() for method in METHODS if method in item]
        self.claims = dict(self.all_claims())

    # ---- its text

    def resolved(self, node, place):
        """The node with each reference taken by what it names, which is one object wherever it is named."""
        if isinstance(node, list):
            return [self.resolved(it, f"{place}/{n}") for n, it in enumerate(node)]
        if not isinstance(node, dict):
            return node
        if "$ref" in node:
            return self.component(node["$ref"])
        if place in self.components:
            return self.components[place]
        made = {key: self.resolved(it, f"{place}/{key}") for key, it in node.items()}
        self.places[id(made)] = place
        return made

    def component(self, name):
        if name not in self.components:
            node = self.root
            for key in name.split("/")[1:]:
                node = node[key]
            self.components[name] = self.resolved(node, name)
        return self.components[name]

    def place(self, node):
        return self.places[id(node)].replace("#/", "", 1).replace("components/", "")

    def validator(self, schema):
        if id(schema) not in self.validators:
            self.validators[id(schema)] = Validator(schema, format_checker=CHECKER)
        return self.validators[id(schema)]

    def is_valid(self, schema, value):
        return self.validator(schema).is_valid(value)

    # ---- what it says of a request

    def path_of(self, target):
        """The pattern of a target's path, and its parts; or nothing."""
        for path, pattern in self.patterns:
            if found := pattern.fullmatch(target.partition("?")[0]):
                return path, found.groups()
        return None, ()

    def operation_of(self, method, target):
        path, parts = self.path_of(target)
        return next((it for it in self.operations if it.path == path and it.method == method), None), parts

    def unread(self, method, target, body):
        """The error that the document says of a request which can't be read, and the methods of its path if it has others; or
        nothing, where it can be read. `target` has a character for each byte."""
        asked = method, target, body
        if asked not in self.unread_before:
            self.unread_before[asked] = self.first_error(*asked)
        return self.unread_before[asked]

    def first_error(self, method, target, body):
        path, parts = self.path_of(target)
        if path is None or not FUZZ.is_text(target.encode("latin-1")):
            return {"error": "no-route"}, None
        operation, _ = self.operation_of(method, target)
        if operation is None:
            return {"error": "no-method"}, ", ".join(sorted(it.method for it in self.operations if it.path == path))
        for parameter, part in zip(operation.parts, parts):
            if found := self.wrong_part(operation, parameter, part):
                return found, None
        return self.wrong_body(operation, body), None

    def wrong_part(self, operation, parameter, part):
        wrong = {error.validator for error in self.validator(parameter["schema"]).iter_errors(part)}
        if not wrong:
            return None
        told = {"error": parameter["x-error"]}
        if any("reason" in it["properties"] for it in self.branches(operation.responses["400"]) if self.names_error(it, told["error"])):
            told["reason"] = next((reason for keyword, reason in REASONS.items() if keyword in wrong), "form")
        return told

    def wrong_body(self, operation, body):
        if operation.body is None:
            return None
        try:
            value = FUZZ.object_of(body)
        except FUZZ.Bad:
            return {"error": "bad-body"}
        required = operation.body.get("required", [])
        for key in [*required, *(it for it in operation.body["properties"] if it not in required)]:
            schema = operation.body["properties"][key]
            if not self.is_valid(schema, value[key]) if key in value else key in required:
                return {"error": "bad-field", "field": key}
        return None

    # ---- what it says of a reply

    def branches(self, response):
        schema = response.get("content", {}).get("application/json", {}).get("schema", {})
        return [leaf for it in schema.get("oneOf", [schema]) for leaf in it.get("oneOf", [it]) if "properties" in leaf]

    def names_error(self, branch, name):
        return name in branch["properties"].get("error", {}).get("enum", ())

    def wrong_reply(self, operation, is_head, status, fields, body):
        """What is wrong with a reply by the document, or nothing; and it is shown then. Without an operation it is one of
        those to what is none."""
        others = self.node["x-other-replies"]
        by_status = operation.responses if operation else others["responses"]
        response = others["head"] if is_head else by_status.get(str(status))
        if response is None:
            return f"the document has no status {status} there"
        told = {key: value for key, value in fields.items() if not (body and key in ("Content-Type", "Content-Length"))}
        headers = response.get("headers", {})
        for key, header in headers.items():
            if header.get("required") and key not in told:
                return f"it has no {key}"
        for key, value in told.items():
            if key not in headers or not self.is_valid(headers[key]["schema"], value):
                return f"the document has no {key}: {value} there"
        content = response.get("content", {})
        length = str(len(body)) == fields.get("Content-Length")
        if bool(content) != bool(body) or body and not (fields.get("Content-Type") in content and length):
            return "it has another form of body"
        if body:
            schema = content[fields["Content-Type"]]["schema"]
            if wrong := self.wrong_value(schema, body):
                return f"its body isn't one of the document: {wrong.message[:200]}"
        self.seen.add((id(response), "reply"))
        for key, header in headers.items():
            self.seen.add((id(header), "there") if key in told else (id(response), "without", key))
            if key in told:
                self.show(header["schema"], told[key])
        return None

    def wrong_value(self, schema, body):
        """Why a body isn't one of a schema, or nothing; and it is shown then."""
        if (id(schema), body) not in self.valid_before:
            value = json.loads(body)
            if wrong := next(self.validator(schema).iter_errors(value), None):
                return wrong
            self.show(schema, value)
            self.valid_before.add((id(schema), body))
        return None

    def show_request(self, operation, body):
        self.seen.add((id(operation.node), "done"))
        if operation.body is not None:
            self.show(operation.body, json.loads(body))

    # ---- how much of it was shown

    def all_claims(self):
        """What has to be seen of the document, and its name."""
        for it in self.operations:
            yield (id(it.node), "done"), f"operation {it.name}"
            yield from self.claims_of(it.body or {})
        others = self.node["x-other-replies"]
        every = [it for operation in self.operations for it in operation.responses.values()]
        for response in [*every, *others["responses"].values(), others["head"]]:
            yield (id(response), "reply"), f"reply {self.place(response)}"
            for key, header in response.get("headers", {}).items():
                yield (id(header), "there"), f"{self.place(header)}: a reply with it"
                if not header.get("required"):
                    yield (id(response), "without", key), f"{self.place(response)}: without {key}"
                yield from self.claims_of(header["schema"])
            for content in response.get("content", {}).values():
                yield from self.claims_of(content["schema"])

    def claims_of(self, schema):
        for key in aspects(schema):
            yield (id(schema), *key), f"{self.place(schema)}: {' '.join(map(str, key))}"
        for it in [*schema.get("oneOf", []), *schema.get("properties", {}).values(), *([schema["items"]] if "items" in schema else [])]:
            yield from self.claims_of(it)

    def show(self, schema, value):
        """Notes what a valid value shows of its schema."""
        self.seen.update((id(schema), *key) for key in shown(schema, value))
        for n, it in enumerate(schema.get("oneOf", [])):
            if self.is_valid(it, value):
                self.seen.add((id(schema), "form", n))
                self.show(it, value)
        if isinstance(value, dict):
            for key, member in schema.get("properties", {}).items():
                if key in value:
                    self.show(member, value[key])
        if isinstance(value, list):
            for it in value:
                self.show(schema["items"], it)

    def unseen(self):
        return sorted(name for key, name in self.claims.items() if key not in self.seen)


BOUNDS = ("minimum", "maximum", "minItems", "maxItems")


def aspects(schema):
    """What values may show of a schema: its bounds, its members, its words."""
    for it in BOUNDS:
        if it in schema:
            yield it, schema[it]
    if schema.get("nullable"):
        yield from (("null",), ("no null",))
    for n in range(len(schema.get("oneOf", ()))):
        yield "form", n
    for it in [True, False] if schema.get("type") == "boolean" else schema.get("enum", ()):
        yield "value", it
    for it in schema.get("properties", ()):
        yield "member", it
        if it not in schema.get("required", ()):
            yield "without member", it
    if schema.get("type") == "object" and schema.get("additionalProperties") is not False:
        yield ("further members",)


def shown(schema, value):
    """Which of these a value shows."""
    for key in aspects(schema):
        size = len(value) if isinstance(value, list) else value
        if (key[0] in BOUNDS and size == key[1] or key[0] == "value" and value == key[1]
                or key[0] == "null" and value is None or key[0] == "no null" and value is not None
                or key[0] == "member" and key[1] in value or key[0] == "without member" and key[1] not in value
                or key[0] == "further members" and set(value) - set(schema.get("properties", ()))):
            yield key
