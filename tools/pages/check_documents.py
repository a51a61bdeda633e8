#!/usr/bin/env python3
"""Checks documents against docs/document.schema.json: every .json file of examples/, every JSON block of
docs/DOCUMENT.md, and the inputs below, each of which must be of the form or must not be.

usage: check_documents.py [FILE..] (the given files alone: of each that is no document it says where and why,
as `doc.json: reports[0].labels[1].start: wanted 2 items`, and the status is 1)

It knows the keywords of JSON Schema that the schema uses, and stops at any other. It needs Python alone."""
import glob
import json
import os
import re
import sys

DOCS = os.path.join(os.path.dirname(os.path.abspath(__file__)), "..", "..", "docs")
SILENT = {"$schema", "title", "description", "default", "$defs", "then", "else"}
NAMES = {"object": "an object", "array": "an array", "string": "a text", "boolean": "true or false", "integer": "a whole number"}
KINDS = {"object": dict, "array": list, "string": str, "boolean": bool, "integer": int}


def one_label(version, label):
    """A document of the version with one label of these members."""
    reports = '[{"file":0,"message":"m","labels":[{' + label + "}]}]"
    return '{"version":' + str(version) + ',"files":[{"name":"a","source":"ab"}],"reports":' + reports + "}"



# inputs, and whether they are of the form
INPUTS = [
    ('{"files":[],"reports":[]}', True),
    ('{"files":[],"reports":[],"version":3}', False),
    ('{"files":[],"reports":[],"more":0}', False),
    ('{"files":[]}', False),
    ('{"files":[{"name":"a"}],"reports":[]}', False),
    ('{"files":[],"reports":[{"file":4294967295,"message":"m"}]}', False),
    ('{"files":[],"reports":[{"file":0,"message":"m","scope":""}]}', False),
    ('{"files":[],"reports":[{"file":0,"message":"m","severity":"fatal"}]}', False),
    ('{"files":[],"reports":[{"file":0,"message":"m","help":null}]}', False),
    (one_label(1, '"start":[1,1],"end":[1,2]'), True),
    (one_label(1, '"start":[0,1],"end":[1,2]'), False),
    (one_label(1, '"start":[1,1]'), False),
    (one_label(1, '"bytes":[0,1]'), False),
    (one_label(2, '"bytes":[0,1],"primary":true'), True),
    (one_label(2, '"start":[1,1],"end":[1,2]'), True),
    (one_label(2, '"bytes":[0,1],"start":[1,1],"end":[1,2]'), False),
    (one_label(2, '"text":"t"'), False),
]


def is_kind(value, kind):
    """Whether the value is of the kind; 1.0 is no integer, and neither is a truth value."""
    return isinstance(value, KINDS[kind]) and (kind == "boolean" or not isinstance(value, bool))


def part(schema, path):
    for step in path.removeprefix("#/").split("/"):
        schema = schema[step]
    return schema


def fault(value, schema, whole, path=""):
    """Where and why the value isn't of the schema, a part of the whole one; none where it is."""
    for word, said in schema.items():
        found = fault_of_word(value, schema, whole, word, said, path)
        if found:
            return found
    return None


def fault_of_word(value, schema, whole, word, said, path):
    if word in SILENT:
        return None
    if word == "$ref":
        return fault(value, part(whole, said), whole, path)
    if word == "anyOf":
        return fault_of_any(value, said, whole, path)
    if word == "if":
        is_then = fault(value, said, whole, path) is None
        return fault(value, schema["then"] if is_then else schema["else"], whole, path)
    if word == "items" and isinstance(value, list):
        found = (fault(one, said, whole, f"{path}[{at}]") for at, one in enumerate(value))
        return next((one for one in found if one), None)
    if word == "properties" and isinstance(value, dict):
        found = (fault(value[key], one, whole, f"{path}.{key}") for key, one in said.items() if key in value)
        return next((one for one in found if one), None)
    wanted = wanted_by(value, schema, word, said)
    return (path, wanted) if wanted else None


def fault_of_any(value, choices, whole, path):
    """Of a label the fault of the way in which it is written: by bytes where it has `bytes`, else by rows."""
    found = [fault(value, one, whole, path) for one in choices]
    if None in found:
        return None
    by_bytes = isinstance(value, dict) and "bytes" in value
    return found[1 if by_bytes and len(found) > 1 else 0]


def wanted_by(value, schema, word, said):
    """What a word of the schema wants, where the value isn't so."""
    is_number = is_kind(value, "integer")
    if word == "type":
        return None if is_kind(value, said) else f"wanted {NAMES[said]}"
    if word == "enum":
        return None if value in said else "wanted " + " or ".join(json.dumps(one) for one in said)
    if word == "const":
        return None if value == said else f"wanted {json.dumps(said)}"
    if word in ("minimum", "maximum"):
        is_well = not is_number or (value >= said if word == "minimum" else value <= said)
        return None if is_well else f"wanted a number of {'at least' if word == 'minimum' else 'at most'} {said}"
    if word in ("minLength", "minItems", "maxItems"):
        of = str if word == "minLength" else list
        is_well = not isinstance(value, of) or (len(value) >= said if word.startswith("min") else len(value) <= said)
        return None if is_well else ("wanted a text that isn't empty" if of is str else f"wanted {said} items")
    if word == "required":
        lacks = [key for key in said if isinstance(value, dict) and key not in value]
        return f"has no `{lacks[0]}`" if lacks else None
    if word == "additionalProperties" and said is False:
        more = [key for key in value if key not in schema["properties"]] if isinstance(value, dict) else []
        return f"has a key `{more[0]}`, which isn't known here" if more else None
    if word in ("items", "properties"):
        return None
    raise SystemExit(f"{word}: no word that this script knows")


def why_no_document(text, schema):
    """Why a text is no document: where and what was wanted; none where it is one."""
    try:
        value = json.loads(text)
    except json.JSONDecodeError as error:
        return f"line {error.lineno}, column {error.colno}: no JSON: {error.msg}"
    found = fault(value, schema, schema)
    return f"{found[0].lstrip('.') or 'the document'}: {found[1]}" if found else None


def read(path):
    with open(path, encoding="utf-8") as file:
        return file.read()


def main(paths):
    schema = json.loads(read(os.path.join(DOCS, "document.schema.json")))
    if paths:
        faults = [(path, why_no_document(read(path), schema)) for path in paths]
        for path, why in faults:
            print(f"{path}: {why or 'a document'}")
        return 1 if any(why for _, why in faults) else 0
    examples = sorted(glob.glob(os.path.join(DOCS, "..", "examples", "*.json")))
    blocks = re.findall(r"```json\n(.*?)```", read(os.path.join(DOCS, "DOCUMENT.md")), re.S)
    cases = [(os.path.basename(path), read(path), True) for path in examples]
    cases += [(f"block {n} of DOCUMENT.md", block, True) for n, block in enumerate(blocks, 1)]
    cases += [(text, text, wanted) for text, wanted in INPUTS]
    wrong = [name for name, text, wanted in cases if (why_no_document(text, schema) is None) != wanted]
    for name in wrong:
        print(f"not as it should be: {name}")
    print(f"{len(cases) - len(wrong)} as they should be, {len(wrong)} not")
    return 1 if wrong else 0


if __name__ == "__main__":
    sys.exit(main(sys.argv[1:]))
