"""Reads values of JSON by a schema, and says in which entry one is wrong.

A schema is a type, a dataclass, a TypedDict, a list, dict or tuple of schemas, `SCHEMA | None` or
Any. `Annotated` bounds one: a range bounds a number or a length, and a pattern has to match a text.
Entries that a schema does not name are ignored, and kept in the dict of a TypedDict.
"""
import dataclasses, json, math, re, types, typing
from typing import Annotated

NAMES = {int: "a whole number", str: "a text", bool: "true or false", dict: "an object",
         list: "a list", types.NoneType: "null"}
Sha256 = Annotated[str, re.compile("[0-9a-f]{64}")]


class Malformed(ValueError):
    """What is wrong with a value, and in which entry."""


class NotJson(Malformed):
    """Why a text is not JSON at all, as one that was cut."""


def from_json(schema, text):
    try:
        value = json.loads(text)
    except RecursionError:
        raise Malformed("nested too deep") from None
    except ValueError:
        raise NotJson("not JSON") from None
    return checked(schema, value)


def checked(schema, value, entry=""):
    """Returns a value as the schema has it. `entry` is where it is, for the fault."""
    origin, arguments = typing.get_origin(schema), typing.get_args(schema)
    if schema is typing.Any:
        return value
    if origin is Annotated:
        return within(arguments[1], checked(arguments[0], value, entry), entry)
    if origin in (typing.Union, types.UnionType):
        is_none = value is None and types.NoneType in arguments
        return None if is_none else checked(arguments[0], value, entry)
    if origin in CONTAINERS:
        return CONTAINERS[origin](arguments, value, entry)
    if dataclasses.is_dataclass(schema):
        return schema(**entries(schema, of_type(dict, value, entry), entry))
    if typing.is_typeddict(schema):
        return value | entries(schema, of_type(dict, value, entry), entry)
    if schema is float:
        if type(value) not in (int, float) or abs(value) > 1e300 or math.isnan(value):
            raise named(entry, "not a number")
        return value
    return of_type(schema, value, entry)


def named(entry, what):
    return Malformed(f"{entry}: {what}" if entry else what)


def of_type(kind, value, entry):
    if type(value) is not kind:
        raise named(entry, f"not {NAMES[kind]}")
    return value


def within(bound, value, entry):
    if isinstance(bound, range):
        number = value if isinstance(value, int) else len(value)
        if number not in bound:
            raise named(entry, f"not {bound[0]} to {bound[-1]}")
    elif not bound.fullmatch(value):
        raise named(entry, "not of its form")
    return value


def checked_list(schemas, value, entry):
    return [checked(schemas[0], item, f"{entry}[{index}]")
            for index, item in enumerate(of_type(list, value, entry))]


def checked_tuple(schemas, value, entry):
    if len(of_type(list, value, entry)) != len(schemas):
        raise named(entry, f"not a list of {len(schemas)}")
    return [checked(schema, item, f"{entry}[{index}]")
            for index, (schema, item) in enumerate(zip(schemas, value))]


def checked_dict(schemas, value, entry):
    return {checked(schemas[0], key, f"a name in {entry}"):
            checked(schemas[1], item, f"{entry}.{key}")
            for key, item in of_type(dict, value, entry).items()}


CONTAINERS = {list: checked_list, tuple: checked_tuple, dict: checked_dict}


def entries(schema, values, entry):
    """Returns the entries that a schema names. Refuses values that lack one without a default."""
    fields = dataclasses.fields(schema) if dataclasses.is_dataclass(schema) else ()
    optional = {field.name for field in fields if field.default is not dataclasses.MISSING}
    hints = typing.get_type_hints(schema, include_extras=True)
    if missing := [name for name in hints if name not in values and name not in optional]:
        raise named(entry, f"no entry `{missing[0]}`")
    return {name: checked(hint, values[name], f"{entry}.{name}" if entry else name)
            for name, hint in hints.items() if name in values}
