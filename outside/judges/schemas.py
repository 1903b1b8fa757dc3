"""What a schema says of an object of JSON, as far as docs/timetable.schema.json has words for it."""
import re

from judges.running import demand

TYPES = {"object": dict, "array": list, "string": str, "integer": int, "number": (int, float), "boolean": bool,
         "null": type(None)}
# What a schema may say; other words would be passed over.
KNOWN = {"$schema", "$defs", "$ref", "title", "description", "type", "enum", "pattern", "required", "properties",
         "additionalProperties", "items"}


def is_of(told, kind):
    """Whether a value is of a type; a flag is no number."""
    return isinstance(told, TYPES[kind]) and (kind == "boolean" or not isinstance(told, bool))


def judge_object(told, schema, whole, at):
    """The names that an object has, and what they name."""
    lacks = [name for name in schema.get("required", ()) if name not in told]
    demand(not lacks, "%s lacks %s" % (at, lacks))
    for name, value in told.items():
        further = schema.get("properties", {}).get(name, schema.get("additionalProperties", {}))
        demand(further is not False, "%s has %s" % (at, name))
        judge_schema(value, further, whole, "%s.%s" % (at, name))


def judge_schema(told, schema, whole, at="it"):
    """A value is as its schema says; parts are looked up in the whole schema."""
    if "$ref" in schema:
        schema = whole["$defs"][schema["$ref"].rpartition("/")[2]]
    demand(set(schema) <= KNOWN, "the schema has %s" % (set(schema) - KNOWN))
    kinds = schema.get("type", [])
    kinds = kinds if isinstance(kinds, list) else [kinds]
    demand(not kinds or any(is_of(told, kind) for kind in kinds), "%s is %r, wanted %s" % (at, told, kinds))
    demand(told in schema.get("enum", [told]), "%s is %r" % (at, told))
    demand("pattern" not in schema or re.search(schema["pattern"], told), "%s is %r" % (at, told))
    if isinstance(told, dict):
        judge_object(told, schema, whole, at)
    elif isinstance(told, list):
        for place, one in enumerate(told):
            judge_schema(one, schema.get("items", {}), whole, "%s[%d]" % (at, place))
