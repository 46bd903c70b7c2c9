"""Requests drawn at random from an OpenAPI document, for tests/openapi: valid ones, and ones with something wrong."""
import copy
import functools
import json
import os
import sys

try:
    import re._constants as ops
    import re._parser as parser
except ImportError:  # before Python 3.11
    import sre_constants as ops
    import sre_parse as parser

sys.path.insert(0, os.path.join(os.path.dirname(os.path.realpath(__file__)), "..", "bench"))
from references import with_check_digit  # noqa: E402

# Characters beside the ends of digits and letters, and those that stand in references; all of them may stand in a path.
NEAR = "@[`{:-._~!$&'()*+,;=09AZaz"
VALUES = [None, True, False, 0, 5, -1, 1.5, "", "5", [], {}, [[]], {"a": 1}]
TEXTS_OF_A_SCHEMA = 500
TEXTS = ["[]", "null", "5", '"a"', "", "{", "{}}", '{"a":}', "{'a':1}", '{"a":1,}', '{"a":01}', '{"a":NaN}', "[" * 200, "{\xff}",
         '{"\\ud800":1}']


def of_pattern(dice, pattern, way):
    """A text of a regular expression. `way` is 0 or -1 where all choices are the first or the last one."""
    return "".join(pieces(dice, parsed(pattern), way))


parsed = functools.lru_cache(parser.parse)


def pieces(dice, tree, way):
    for op, given in tree:
        if op is ops.LITERAL:
            yield chr(given)
        elif op is ops.IN:
            yield chosen(dice, given, way)
        elif op is ops.MAX_REPEAT:
            least, most, part = given
            ends = [least, most] if way is None else [[least, most][way]]
            times = dice.choice(ends) if way is not None or dice.random() < 0.4 else dice.randint(least, most)
            for _ in range(times):
                yield from pieces(dice, part, way)
        elif op is ops.SUBPATTERN:
            yield from pieces(dice, given[-1], way)
        elif op is ops.BRANCH:
            yield from pieces(dice, given[1][way] if way is not None else dice.choice(given[1]), way)
        elif op is not ops.AT:
            raise ValueError(f"no text is drawn of {op}")


def chosen(dice, members, way):
    """A character of a class: of its ends more often than of what lies between."""
    ends, every = [], []
    for op, given in members:
        first, last = (given, given) if op is ops.LITERAL else given
        ends += [first, last]
        every += range(first, last + 1)
    if way is not None:
        return chr(sorted(ends)[way])
    return chr(dice.choice(ends if dice.random() < 0.3 else every))


class Drawing:
    """Draws of a document by its schemas. `known` are values by the name of their schema, which are drawn as often as others."""

    def __init__(self, document, dice, known):
        self.document, self.dice, self.known, self.texts = document, dice, known, {}

    # ---- valid ones

    def value(self, schema, in_path=False):
        """A valid value."""
        dice, known = self.dice, self.known.get(self.document.place(schema).rpartition("/")[2])
        if known and dice.random() < 0.5:
            return dice.choice(known)
        if "enum" in schema:
            return dice.choice(schema["enum"])
        if schema["type"] == "integer":
            least, most = schema["minimum"], schema["maximum"]
            return dice.choice([least, most, dice.randint(least, most), dice.randint(least, min(most, least + 1000))])
        if schema["type"] == "array":
            return self.items(schema)
        if schema["type"] == "object":
            return self.object(schema)
        if id(schema) not in self.texts:
            self.texts[id(schema)] = [self.text(schema) for _ in range(TEXTS_OF_A_SCHEMA)]
        text = dice.choice(self.texts[id(schema)])
        return self.value(schema, in_path) if in_path and "/" in text else text

    def text(self, schema):
        """A text of a schema's pattern, which is valid by the rest of the schema as well."""
        while True:
            text = of_pattern(self.dice, schema["pattern"], self.dice.choice([None] * 8 + [0, -1]))
            if "x-check-digit" in schema:
                text = with_check_digit(text[:-1])
            if self.document.is_valid(schema, text):
                return text

    def items(self, schema):
        dice, least, most = self.dice, schema["minItems"], schema["maxItems"]
        items, count = [], dice.choice([least, least, most, dice.randint(least, most), dice.randint(least, min(most, least + 3))])
        while len(items) < count:
            it = self.value(schema["items"])
            while "x-distinct" in schema and any(it[schema["x-distinct"]] == other[schema["x-distinct"]] for other in items):
                it[schema["x-distinct"]] = self.text(schema["items"]["properties"][schema["x-distinct"]])
            items.append(it)
        return items

    def object(self, schema):
        required, members = schema.get("required", []), list(schema["properties"].items())
        self.dice.shuffle(members)
        made = {key: self.value(it) for key, it in members if key in required or self.dice.random() < 0.5}
        if schema.get("additionalProperties") is not False and self.dice.random() < 0.1:
            made["note"] = self.dice.choice(VALUES)
        return made

    def target(self, operation, parts=None):
        parts = parts or [self.value(it["schema"], True) for it in operation.parts]
        path = operation.path
        for parameter, part in zip(operation.parts, parts):
            path = path.replace("{%s}" % parameter["name"], part)
        return path + (self.dice.choice(["?", "?a=b", "?/x?"]) if self.dice.random() < 0.05 else "")

    def valid(self, operation):
        """A valid request: its method, its target and its body."""
        body = b"" if operation.body is None else json.dumps(self.object(operation.body)).encode()
        return operation.method, self.target(operation), body

    # ---- values at the ends

    def edges(self, schema):
        """Valid and wrong values at the ends of a schema: of a text's classes and lengths, of bounds, of words."""
        if schema["type"] == "integer":
            ends = schema.get("enum") or [schema["minimum"], schema["maximum"]]
            return sorted({it + step for it in ends for step in (-1, 0, 1)} | {-it for it in ends})
        if schema["type"] == "array":
            counts = [schema["minItems"], schema["maxItems"], schema["maxItems"] + 1, max(schema["minItems"] - 1, 0)]
            return [self.items(schema | {"minItems": it, "maxItems": it}) for it in counts]
        if "enum" in schema:
            return [other for it in schema["enum"] for other in (it, it[:-1], it + it[-1], it.swapcase(), chr(ord(it[0]) + 1) + it[1:],
                                                                 it[:-1] + chr(ord(it[-1]) + 1))]
        shortest, longest = (of_pattern(self.dice, schema["pattern"], way) for way in (0, -1))
        texts = [schema["example"], longest]
        every = [text[:at] + it + text[at + 1:] for text in texts for at in range(len(text)) for it in NEAR]
        return texts + every + [shortest, shortest[:-1], longest + longest[-1], longest[:-1], longest[1:] + longest[-2:]]

    # ---- wrong ones

    def near(self, text):
        """A text that differs in a character or two."""
        dice = self.dice
        at = dice.randrange(len(text)) if text else 0
        other = dice.choice(NEAR)
        return dice.choice([
            text[:at] + other + text[at + 1:], text[:at] + text[at + 1:], text[:at] + other + text[at:], text + text[-1:], other + text,
            text.lower(), text.swapcase(), text[::-1], text[:-1] + str(dice.randrange(10)), text + other])

    def spoiled(self, schema):
        """A value that isn't valid, most often by little."""
        while True:
            it = self.changed(schema) if self.dice.random() < 0.8 else self.dice.choice(VALUES)
            if not self.document.is_valid(schema, it):
                return it

    def changed(self, schema):
        dice, kind = self.dice, schema["type"]
        if kind == "integer":
            ends = schema.get("enum") or [schema["minimum"], schema["maximum"]]
            it = dice.choice(ends)
            return dice.choice([it - 1, it + 1, min(ends) - 1, max(ends) + 1, max(ends) * 10, -it, float(it), str(it), it + 2**64, [it]])
        if kind == "string":
            it = self.near(self.value(schema))
            return dice.choice([it, it, it, it, it + "\n", " " + it, [it]])
        if kind == "array":
            return self.changed_items(schema)
        made = self.object(schema)
        return self.spoil_member(schema, made, dice.choice(list(schema["properties"])))

    def changed_items(self, schema):
        dice, items, more = self.dice, self.items(schema), schema["maxItems"] + 1
        at = dice.randrange(len(items))
        way = dice.randrange(4)
        if way == 0:
            return self.items(schema | {"minItems": more, "maxItems": more})
        if way == 1:
            items = items[: schema["maxItems"] - 1]
            return items + [copy.deepcopy(items[at % len(items)])]
        if way == 2:
            return []
        items[at] = self.changed(schema["items"]) if dice.random() < 0.8 else dice.choice(VALUES)
        return items

    def spoil_member(self, schema, made, key):
        if key in made and self.dice.random() < 0.3:
            del made[key]
        else:
            made[key] = self.spoiled(schema["properties"][key])
        return made

    def wrong_parts(self, operation):
        parts = [self.value(it["schema"], True) for it in operation.parts]
        at = self.dice.randrange(len(parts))
        parts[at] = self.near(parts[at])
        return parts if all(parts) and not any(set(it) & set("/?#% \n") for it in parts) else self.wrong_parts(operation)

    def wrong(self, operation):
        """A request that can't be read."""
        method, target, body = self.valid(operation)
        way = self.dice.choice(["part", "method", "path"] + (["member"] * 4 + ["members", "body"] if operation.body else []))
        if way == "part":
            target = self.target(operation, self.wrong_parts(operation))
        elif way == "method":
            method = self.dice.choice(["GET", "POST", "PUT", "DELETE", "PATCH", "OPTIONS", "get", "X"])
        elif way == "path":
            path = target.partition("?")[0]
            target = self.dice.choice([path + "/", path + "//", "/" + path, path.upper(), path.replace("/", "//", 2), path + "/x",
                                       "/x" + path])
        elif way == "body":
            body = self.dice.choice(TEXTS).encode("latin-1")
        else:
            made = json.loads(body)
            keys = list(operation.body["properties"])
            for key in self.dice.sample(keys, min(len(keys), 1 if way == "member" else 2)):
                self.spoil_member(operation.body, made, key)
            body = json.dumps(made).encode()
        return (method, target, body) if self.document.unread(method, target, body)[0] else self.wrong(operation)
