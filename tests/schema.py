"""Checks values against docs/reports.schema.json. Only the parts of JSON Schema that this file uses are implemented."""

import json
import os
import re

from support import TOP, text_of

SCHEMA = json.loads(text_of(os.path.join(TOP, "docs", "reports.schema.json")))
KINDS = {"object": dict, "array": list, "string": str, "integer": int, "boolean": bool, "null": type(None)}


def fits(value, schema, place="$"):
    """The reason why a value doesn't fit a schema, or None if it fits."""
    if "$ref" in schema:
        return fits(value, SCHEMA["$defs"][schema["$ref"].rpartition("/")[2]], place)
    if "anyOf" in schema:
        whys = [fits(value, one, place) for one in schema["anyOf"]]
        return None if None in whys else whys[0]
    if "type" in schema and (not isinstance(value, KINDS[schema["type"]]) or isinstance(value, bool) and schema["type"] == "integer"):
        return f"{place}: {value!r} is no {schema['type']}"
    if value not in schema.get("enum", [value]) or value != schema.get("const", value) or (
            "pattern" in schema and not re.search(schema["pattern"], value)) or "minimum" in schema and value < schema["minimum"]:
        return f"{place}: {value!r}"
    if isinstance(value, list) and not schema.get("minItems", 0) <= len(value) <= schema.get("maxItems", len(value)):
        return f"{place}: {len(value)} items"
    if isinstance(value, dict):
        known = schema["properties"]
        if set(value) - set(known) or set(schema.get("required", [])) - set(value):
            return f"{place}: the members {', '.join(value)}"
    parts = [(one, schema["items"]) for one in value] if isinstance(value, list) else (
        [(one, schema["properties"][name]) for name, one in value.items()] if isinstance(value, dict) else [])
    return next((why for number, (one, own) in enumerate(parts) for why in [fits(one, own, f"{place}.{number}")] if why), None)
