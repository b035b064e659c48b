"""Checks a value against a JSON Schema, by the keywords that the schemas in docs/schema use."""
import functools
import re

KINDS = {"object": dict, "array": list, "string": str, "boolean": bool, "null": type(None)}
KEYWORDS = {"$schema", "$defs", "title", "description", "$ref", "anyOf", "const", "enum", "type", "pattern", "minimum",
            "maximum", "minItems", "maxItems", "items", "properties", "required", "additionalProperties"}


def is_kind(value, kind):
    if kind == "integer":
        return isinstance(value, int) and not isinstance(value, bool)
    return isinstance(value, KINDS[kind])


def same(value, other):
    return type(value) is type(other) and value == other


@functools.cache
def expression_of(pattern):
    """A pattern as Python has it, whose end is that of the text: Python would pass over a last newline."""
    return re.compile(re.sub(r"\$$", r"\\Z", pattern))


def faults(schema, value, whole, at="the document"):
    """Where a value doesn't fit a schema. `whole` is the schema that has the definitions."""
    if not KEYWORDS.issuperset(schema):
        yield f"the schema has keywords that aren't checked: {set(schema) - KEYWORDS}"
    if "$ref" in schema:
        yield from faults(whole["$defs"][schema["$ref"].removeprefix("#/$defs/")], value, whole, at)
    if "anyOf" in schema and all(any(faults(one, value, whole, at)) for one in schema["anyOf"]):
        yield f"{at} fits none of its kinds: {value!r:.80}"
    if "const" in schema and not same(value, schema["const"]):
        yield f"{at} isn't {schema['const']!r}: {value!r:.80}"
    if "enum" in schema and not any(same(value, one) for one in schema["enum"]):
        yield f"{at} is none of {schema['enum']}: {value!r:.80}"
    if "type" in schema and not is_kind(value, schema["type"]):
        yield f"{at} is no {schema['type']}: {value!r:.80}"
        return
    if "pattern" in schema and isinstance(value, str) and not expression_of(schema["pattern"]).search(value):
        yield f"{at} doesn't fit {schema['pattern']}: {value!r:.80}"
    if is_kind(value, "integer") and not schema.get("minimum", value) <= value <= schema.get("maximum", value):
        yield f"{at} is out of its range: {value}"
    if isinstance(value, list):
        if not schema.get("minItems", 0) <= len(value) <= schema.get("maxItems", len(value)):
            yield f"{at} has {len(value)} items"
        for place, item in enumerate(value):
            yield from faults(schema.get("items", {}), item, whole, f"{at}[{place}]")
    if isinstance(value, dict):
        yield from faults_of_members(schema, value, whole, at)


def faults_of_members(schema, value, whole, at):
    """Where the members of an object don't fit."""
    known = schema.get("properties", {})
    for key in schema.get("required", ()):
        if key not in value:
            yield f"{at} lacks {key}"
    for key, member in value.items():
        if key in known:
            yield from faults(known[key], member, whole, f"{at}.{key}")
        elif schema.get("additionalProperties", True) is False:
            yield f"{at} has an unknown member {key!r:.80}"
