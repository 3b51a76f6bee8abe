"""JSON schemas, as far as those of docs/ use them."""

import re

KNOWN = {"$schema", "title", "description", "type", "additionalProperties", "required", "properties", "items",
         "minimum", "maximum", "minItems", "maxItems", "pattern", "anyOf"}
TYPES = {"object": dict, "array": list, "string": str, "integer": int, "number": float, "null": type(None)}


def is_valid(schema, value):
    """Whether the schema takes the value."""
    if not KNOWN.issuperset(schema):
        raise ValueError(f"{set(schema) - KNOWN} of the schema isn't known here")
    if "anyOf" in schema:
        return any(is_valid(each, value) for each in schema["anyOf"])
    types = schema["type"] if isinstance(schema["type"], list) else [schema["type"]]
    # a whole number is a number as well
    known = [TYPES[name] for name in types] + ([int] if "number" in types else [])
    if type(value) not in known:
        return False
    if isinstance(value, dict):
        parts = schema.get("properties", {})
        return (all(name in value for name in schema.get("required", []))
                and (schema.get("additionalProperties", True) or all(name in parts for name in value))
                and all(is_valid(parts[name], part) for name, part in value.items() if name in parts))
    if isinstance(value, list):
        return (schema.get("minItems", 0) <= len(value) <= schema.get("maxItems", len(value))
                and all(is_valid(schema["items"], part) for part in value))
    if isinstance(value, (int, float)) and not isinstance(value, bool):
        return schema["minimum"] <= value <= schema["maximum"]
    return not isinstance(value, str) or re.search(schema.get("pattern", ""), value) is not None
