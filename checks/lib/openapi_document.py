# SPDX-License-Identifier: Apache-2.0 OR MIT
"""docs/openapi.json as checks/openapi.py reads it: its operations, its schemas, its layout, and whether it is valid.

checks/openapi_3.1.schema.json is OpenAPI's own schema of a document, except the schemas in it, as it was published:
https://spec.openapis.org/oas/3.1/schema/2022-10-07, by the OpenAPI Initiative under the Apache License 2.0. It was
taken from the package openapi-spec-validator 0.9.0. The schemas in the document are JSON Schema 2020-12, whose own
schema python3-jsonschema has.
"""
import csv
import functools
import io
import json
import re

from jsonschema import Draft202012Validator

from .places import TOP

FILE = TOP / "docs/openapi.json"
OPENAPI = TOP / "checks/openapi_3.1.schema.json"
METHODS = {"GET": "get", "PUT": "put", "POST": "post", "DELETE": "delete", "HEAD": "head"}
COLUMNS, HEADER = 110, ["paper", "action", "user", "tag"]
csv.field_size_limit(1 << 23)


# ---- the layout: what fits into a line stands on one; else each member has lines of its own, two spaces further in,
# but for lists of texts and numbers, which fill theirs

def filled(parts, pad):
    """Lines of parts with commas, as long as they may be."""
    lines = [pad + parts[0]]
    for part in parts[1:]:
        lines[-1] += ","
        if len(lines[-1]) + len(part) + 2 > COLUMNS:
            lines.append(pad + part)
        else:
            lines[-1] += " " + part
    return "\n".join(lines)


def laid(value, room=COLUMNS, depth=0):
    """The text of a value that begins where so many columns are left."""
    line = json.dumps(value, ensure_ascii=False)
    if len(line) <= room or not value or not isinstance(value, (dict, list)):
        return line
    pad, back = "  " * (depth + 1), "\n" + "  " * depth
    if isinstance(value, list) and not any(isinstance(part, (dict, list)) for part in value):
        return "[\n" + filled([json.dumps(part, ensure_ascii=False) for part in value], pad) + back + "]"
    keyed = value.items() if isinstance(value, dict) else ((None, part) for part in value)
    parts = []
    for key, part in keyed:
        front = pad + (json.dumps(key) + ": " if key is not None else "")
        parts.append(front + laid(part, COLUMNS - len(front) - 1, depth + 1))
    begin, end = "{}" if isinstance(value, dict) else "[]"
    return begin + "\n" + ",\n".join(parts) + back + end


# ---- schemas: python3-jsonschema reads the document and its examples by them. What cases have, which is far more, is
# read here, with two keywords of ours; the examples are read by both.

KINDS = {"object": dict, "array": list, "string": str, "integer": int, "boolean": bool, "null": type(None)}
NOTES = {"description", "format"}


def is_of(value, kinds):
    kinds = kinds if isinstance(kinds, list) else [kinds]
    return any(isinstance(value, KINDS[kind]) and (kind != "integer" or not isinstance(value, bool)) for kind in kinds)


def are_rows(text, most):
    """A bulk: the header, rows of as many fields, and no more of them than that."""
    rows = [row for row in csv.reader(io.StringIO(text.removeprefix("\ufeff"), newline="")) if row]
    return rows[:1] == [HEADER] and all(len(row) == len(HEADER) for row in rows) and len(rows) <= most + 1


@functools.cache
def compiled(pattern):
    """As in ECMA-262, where `$` is the end alone."""
    return re.compile(re.sub(r"\$$", r"\\Z", pattern))


# Each keyword with the kind of value of which it speaks, and whether a value holds by it.
HOLDS = {
    "type": (object, is_of),
    "enum": (object, lambda value, told: value in told),
    "const": (object, lambda value, told: value == told),
    "required": (dict, lambda value, told: all(key in value for key in told)),
    "dependentRequired": (dict, lambda value, told: all(set(told[key]) <= set(value) for key in told if key in value)),
    "minimum": (int, lambda value, told: value >= told),
    "maximum": (int, lambda value, told: value <= told),
    "minLength": (str, lambda value, told: len(value) >= told),
    "maxLength": (str, lambda value, told: len(value) <= told),
    "pattern": (str, lambda value, told: compiled(told).search(value) is not None),
    "minItems": (list, lambda value, told: len(value) >= told),
    "maxItems": (list, lambda value, told: len(value) <= told),
    "uniqueItems": (list, lambda value, told: len(set(value)) == len(value)),
    "x-maxBytes": (str, lambda value, told: len(value.encode()) <= told),
    "x-maxRows": (str, are_rows),
}


class Document:
    """The document, and what is looked up in it often."""

    def __init__(self, text):
        self.whole = json.loads(text)
        self.paths = self.whole["paths"]
        self.components = self.whole["components"]
        self.routes = [(re.compile(re.sub(r"\{(\w+)\}", r"(?P<\1>[^/]+)", path)), path) for path in self.paths]
        self.followed = {}

    def at(self, value):
        """What a reference leads to; any other value is itself."""
        while "$ref" in value:
            value = self.follow(value["$ref"])
        return value

    def follow(self, reference):
        if reference not in self.followed:
            value = self.whole
            for key in reference.removeprefix("#/").split("/"):
                value = value[key]
            self.followed[reference] = value
        return self.followed[reference]

    def route(self, path):
        """The path of the document that a request's is, and what stands for its names; none where there is none."""
        for route, told in self.routes:
            found = route.fullmatch(path)
            if found:
                return told, found.groupdict()
        return None, {}

    def operation(self, method, path):
        """The operation of a method, as a request writes it, and of a path; none where the document hasn't one."""
        return self.paths.get(path, {}).get(METHODS.get(method))

    def operations(self):
        """Each operation with its method and path, and with its path."""
        for path, item in self.paths.items():
            for method, key in METHODS.items():
                if key in item:
                    yield f"{method} {path}", path, item[key]

    def parameters(self, path, operation):
        own = self.paths[path].get("parameters", []) + operation.get("parameters", [])
        return [self.at(parameter) for parameter in own]

    def misfit(self, schema, value, place="it"):
        """Why a value doesn't fit a schema of the document; none where it does."""
        for key, told in schema.items():
            if key in HOLDS:
                kind, holds = HOLDS[key]
                is_well = not isinstance(value, kind) or holds(value, told)
                why = None if is_well else f"{place} isn't by {key} {str(told)[:60]}"
            else:
                why = None if key in NOTES else self.part_misfit(key, told, schema, value, place)
            if why:
                return why
        return None

    def part_misfit(self, key, told, schema, value, place):
        """The same of a keyword that tells schemas."""
        if key == "$ref":
            return self.misfit(self.follow(told), value, place)
        if key == "allOf":
            return next(filter(None, (self.misfit(one, value, place) for one in told)), None)
        if key in ("anyOf", "not"):
            whys = [self.misfit(one, value, place) for one in (told if key == "anyOf" else [told])]
            is_well = (None in whys) == (key == "anyOf")
            return None if is_well else f"{place} isn't by {key}: {'; '.join(filter(None, whys))}"
        if key == "properties":
            found = (name for name in told if isinstance(value, dict) and name in value)
            return next(filter(None, (self.misfit(told[name], value[name], name) for name in found)), None)
        if key == "additionalProperties" and told is False:
            more = [name for name in value if name not in schema["properties"]] if isinstance(value, dict) else []
            return f"{place} has {more}" if more else None
        if key == "items":
            parts = enumerate(value) if isinstance(value, list) else ()
            return next(filter(None, (self.misfit(told, part, f"{place}[{at}]") for at, part in parts)), None)
        raise ValueError(f"the keyword {key} isn't read here")

    def names(self, schema):
        """The names of errors that a schema of errors tells, in order."""
        schema = {**self.at(schema), **schema}
        told = [name for part in schema.get("anyOf", []) for name in self.names(part)]
        error = schema.get("properties", {}).get("error", {})
        return told + error.get("enum", []) + ([error["const"]] if "const" in error else [])

    def refusals(self, operation):
        """The names of errors of an operation by status, each list in order."""
        told = {}
        for status, response in operation["responses"].items():
            media = self.at(response).get("content", {}).get("application/json")
            if media and status >= "400":
                told[status] = self.names(media["schema"])
        return told


# ---- whether it is valid

def parts(value, place="#"):
    """Each object in a value, with its place."""
    if isinstance(value, dict):
        yield place, value
    members = value.items() if isinstance(value, dict) else enumerate(value) if isinstance(value, list) else ()
    for key, part in members:
        if key not in ("example", "examples"):
            yield from parts(part, f"{place}/{key}")


def wrong_references(document):
    """References that lead nowhere, and components to which none leads."""
    used = set()
    for place, part in parts(document.whole):
        if "$ref" in part:
            used.add(part["$ref"])
            try:
                document.follow(part["$ref"])
            except KeyError:
                yield f"{place}: no {part['$ref']}"
    for kind, named in document.components.items():
        for name in named:
            if kind != "securitySchemes" and f"#/components/{kind}/{name}" not in used:
                yield f"#/components/{kind}/{name}: nothing refers to it"


def with_schemas(document):
    """Each object of the document that has a schema, with its place."""
    return [(place, part) for place, part in parts(document.whole) if isinstance(part.get("schema"), dict)]


def wrong_schemas(document):
    """Schemas that are none."""
    of_schemas = Draft202012Validator(Draft202012Validator.META_SCHEMA)
    told = list(document.components["schemas"].items()) + [(at, part["schema"]) for at, part in with_schemas(document)]
    for place, schema in told:
        yield from (f"the schema of {place}: {error.message}" for error in of_schemas.iter_errors(schema))


def wrong_examples(document):
    """Examples that don't fit their schemas, as either reader has it."""
    for place, part in with_schemas(document):
        whole = {"allOf": [part["schema"]], "components": document.components}
        for example in examples(part):
            told = [error.message for error in Draft202012Validator(whole).iter_errors(example)]
            why = document.misfit(part["schema"], example)
            if told or why:
                yield f"{place}: its example doesn't fit: {told} {why}"


def examples(part):
    """The examples that stand beside a schema."""
    told = [part["example"]] if "example" in part else []
    return told + [example["value"] for example in part.get("examples", {}).values()]


def wrong_operations(document):
    """Operations with another's name, with a tag or a login that isn't told, or without a name of their path."""
    tags = {tag["name"] for tag in document.whole["tags"]}
    names = set()
    for where, path, operation in document.operations():
        if operation["operationId"] in names:
            yield f"{where}: the name {operation['operationId']} is another's"
        names.add(operation["operationId"])
        told = {parameter["name"] for parameter in document.parameters(path, operation) if parameter["in"] == "path"}
        if told != set(re.findall(r"\{(\w+)\}", path)):
            yield f"{where}: the names of its path are other ones"
        if not set(operation["tags"]) <= tags:
            yield f"{where}: a tag that isn't told"
        logins = {name for one in operation.get("security", []) for name in one}
        if not logins <= set(document.components["securitySchemes"]):
            yield f"{where}: a login that isn't told"


def wrong_orders(document):
    """Operations whose `x-errors` aren't the names by status, in their order."""
    ahead = document.whole["x-errors-of-all"] + ["no_memory"]
    statuses = {}
    for where, _, operation in document.operations():
        if where.startswith("HEAD "):
            continue
        order = operation["x-errors"]
        told = {status: [n for n in names if n not in ahead] for status, names in document.refusals(operation).items()}
        if sorted(order) != sorted(name for names in told.values() for name in names):
            yield f"{where}: x-errors has other names than its answers"
        for status, names in told.items():
            if names != [name for name in order if name in names]:
                yield f"{where}: the errors of {status} stand in another order than in x-errors"
            for name in names:
                if statuses.setdefault(name, status) != status:
                    yield f"{where}: {name} has the status {status} here and {statuses[name]} elsewhere"
        for case, names in operation.get("x-errors-by-case", {}).items():
            if names != [name for name in order if name in names]:
                yield f"{where}: the errors of '{case}' stand in another order than in x-errors"


def wrong_names(document):
    """Names of errors that docs/API.md hasn't in its table, or the other way round."""
    rules = document.components["schemas"]["BulkRow"]["properties"]["rule"]["enum"]
    told = set(rules) | set(document.whole["x-errors-of-all"])
    for _, _, operation in document.operations():
        told.update(name for names in document.refusals(operation).values() for name in names)
    table = set(re.findall(r"^\|`([a-z_]+)`\|\d{3}\|", (TOP / "docs/API.md").read_text(), re.M))
    for name in sorted(told ^ table):
        yield f"the error {name} is here and not in docs/API.md, or the other way round"


def wrong_form(document, text):
    """What isn't laid out, is no OpenAPI, or leads nowhere."""
    if text != laid(document.whole) + "\n":
        yield "its layout is another: --lay lays it out"
    for error in Draft202012Validator(json.loads(OPENAPI.read_text())).iter_errors(document.whole):
        yield f"no OpenAPI at {'/'.join(map(str, error.absolute_path))}: {error.message[:200]}"
    yield from wrong_references(document)


def wrong_in_itself(document, text):
    """What is wrong of the document in itself, a line each: what it says is looked at where its form is well."""
    wrong = list(wrong_form(document, text)) or list(wrong_schemas(document))
    finds = (wrong_examples, wrong_operations, wrong_orders, wrong_names)
    return wrong or [why for find in finds for why in find(document)]
