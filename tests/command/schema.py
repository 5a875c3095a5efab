"""Holds a document to a JSON Schema, by those of its words that hunk.schema.json has; another word is an error."""

import re

TYPES = {"object": dict, "array": list, "string": str, "integer": int}
TOLD = ("$schema", "$defs", "title", "description", "additionalProperties", "items", "minimum", "maximum")


def faults(value, schema, top, where="document"):
    """What is wrong with the value, each in a line."""
    for word, wanted in schema.items():
        if word == "$ref":
            yield from faults(value, top["$defs"][wanted.split("/")[-1]], top, where)
        elif word == "type":
            if not isinstance(value, TYPES[wanted]) or isinstance(value, bool):
                yield f"{where}: {value!r} is no {wanted}"
                return
        elif word == "enum":
            if value not in wanted:
                yield f"{where}: {value!r} is none of {wanted}"
        elif word == "pattern":
            if not re.search(wanted, value):
                yield f"{where}: {value!r} is not {wanted}"
        elif word == "required":
            yield from (f"{where}: no {key}" for key in wanted if key not in value)
        elif word == "properties":
            yield from faults_of_object(value, schema, top, where)
        elif word not in TOLD:
            yield f"the schema has the word {word}"
    if isinstance(value, int) and not schema.get("minimum", value) <= value <= schema.get("maximum", value):
        yield f"{where}: {value} is out of range"
    for i, it in enumerate(value if "items" in schema else ()):
        yield from faults(it, schema["items"], top, f"{where}[{i}]")


def faults_of_object(value, schema, top, where):
    for key, it in value.items():
        if key in schema["properties"]:
            yield from faults(it, schema["properties"][key], top, f"{where}.{key}")
        elif schema.get("additionalProperties") is False:
            yield f"{where}: {key} is no key of it"
