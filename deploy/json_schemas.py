"""Says what is wrong with a JSON value by a schema: those keywords of JSON Schema (2020-12) that docs/openapi.yaml uses, and no others."""

import re
from collections.abc import Iterator

TYPES = {"object": dict, "array": list, "string": str, "boolean": bool, "integer": int}
# These say nothing of a value that is checked here.
NOTES = {"description", "format", "default"}
KEYWORDS = NOTES | {
    "$ref", "additionalProperties", "anyOf", "const", "contains", "enum", "items", "maxItems", "maxLength", "maximum", "minItems", "minLength",
    "minimum", "oneOf", "pattern", "properties", "required", "type", "uniqueItems",
}


def has_type(value: object, name: str) -> bool:
    """In Python a boolean is an integer; in JSON it isn't."""
    return isinstance(value, TYPES[name]) and (name == "boolean" or not isinstance(value, bool))


def same(one: object, other: object) -> bool:
    """Equality of JSON values: `true` isn't 1."""
    return one == other and isinstance(one, bool) == isinstance(other, bool)


class Schemas:
    """The schemas of one document."""

    def __init__(self, document: dict):
        self._document = document

    def resolve(self, part: dict) -> dict:
        """What a reference refers to, for a part that is one; else the part."""
        return self._at(part["$ref"]) if "$ref" in part else part

    def _at(self, place: str) -> dict:
        found = self._document
        for name in place.removeprefix("#/").split("/"):
            found = found[name]
        return found

    def faults(self, schema: dict, value: object, place: str = "") -> Iterator[str]:
        """What is wrong with the value, each with its place."""
        if unknown := schema.keys() - KEYWORDS:
            raise ValueError(f"keywords that aren't checked: {unknown}")
        if "$ref" in schema:
            yield from self.faults(self._at(schema["$ref"]), value, place)
        if "type" in schema and not has_type(value, schema["type"]):
            yield f"{place or 'it'} is no {schema['type']}"
            return
        if "const" in schema and not same(value, schema["const"]):
            yield f"{place or 'it'} isn't {schema['const']!r}"
        if "enum" in schema and not any(same(value, item) for item in schema["enum"]):
            yield f"{place or 'it'}, {value!r}, is none of {schema['enum']}"
        for keyword, counts in (("oneOf", lambda n: n == 1), ("anyOf", lambda n: n > 0)):
            if keyword in schema:
                fitting = sum(self.fits(choice, value) for choice in schema[keyword])
                if not counts(fitting):
                    yield f"{place or 'it'} fits {fitting} of {keyword}"
        if isinstance(value, dict):
            yield from self._object_faults(schema, value, place)
        elif isinstance(value, list):
            yield from self._array_faults(schema, value, place)
        elif isinstance(value, str):
            yield from self._range_faults(schema, len(value), "Length", place)
            if "pattern" in schema and not re.search(schema["pattern"], value):
                yield f"{place} isn't of the form {schema['pattern']}"
        elif has_type(value, "integer"):
            yield from self._range_faults(schema, value, "imum", place)

    def fits(self, schema: dict, value: object) -> bool:
        """Nothing is wrong with the value."""
        return next(self.faults(schema, value), None) is None

    def _object_faults(self, schema: dict, value: dict, place: str) -> Iterator[str]:
        known = schema.get("properties", {})
        for name in schema.get("required", []):
            if name not in value:
                yield f"{place}/{name} is missing"
        for name, item in value.items():
            if name in known:
                yield from self.faults(known[name], item, f"{place}/{name}")
            elif schema.get("additionalProperties", True) is False:
                yield f"{place}/{name} isn't described"

    def _array_faults(self, schema: dict, value: list, place: str) -> Iterator[str]:
        yield from self._range_faults(schema, len(value), "Items", place)
        for at, item in enumerate(value):
            yield from self.faults(schema.get("items", {}), item, f"{place}/{at}")
        if schema.get("uniqueItems") and any(same(a, b) for at, a in enumerate(value) for b in value[:at]):
            yield f"{place} has an item twice"
        if "contains" in schema and not any(self.fits(schema["contains"], item) for item in value):
            yield f"{place} has no item of its form"

    def _range_faults(self, schema: dict, size: int, what: str, place: str) -> Iterator[str]:
        if size < schema.get(f"min{what}", size):
            yield f"{place} is less than {schema[f'min{what}']}"
        if size > schema.get(f"max{what}", size):
            yield f"{place} is more than {schema[f'max{what}']}"
