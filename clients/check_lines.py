#!/usr/bin/env python3
"""Checks clients/lines.schema.json against recorded lines, and the clients against the schema.

- What the programs of cases and the examples record is read: each line of the server must be a ServerLine, with the state of its game, and a
  line of a client must be a ClientLine if and only if the server did not answer that it is no message.
- The types of clients/js/sarpuntxe.d.ts must have the names, members and types of the schema.
- The words for reasons and refusals in both clients, and the lists in docs/PROTOCOL.md, must be those of the schema.

    clients/check_lines.py
"""
import json
import re
import sys
from pathlib import Path

TOP = Path(__file__).resolve().parents[1]
SCHEMA = json.loads((TOP / "clients/lines.schema.json").read_text())
DEFS = SCHEMA["$defs"]
KINDS = {"object": dict, "array": list, "string": str, "boolean": bool, "null": type(None)}
wrong = []


def found_wrong(where, why):
    wrong.append(f"{where}: {why}")


# ---- the schema


def resolve(ref):
    at = SCHEMA
    for word in ref.removeprefix("#/").split("/"):
        at = at[word]
    return at


def is_kind(value, kind):
    if kind == "integer":
        return isinstance(value, int) and not isinstance(value, bool)
    return isinstance(value, KINDS[kind])


def equal(a, b):
    return type(a) is type(b) and a == b


def fits(value, schema):
    """Whether a value is of a schema, by the words that this schema uses."""
    for word, said in schema.items():
        if word in ("description", "additionalProperties", "patternProperties", "title", "$schema", "$defs"):
            continue
        if not CHECKS[word](value, said):
            return False
    if isinstance(value, dict) and schema.get("additionalProperties") is False:
        patterns = schema.get("patternProperties", {})
        for name, inner in value.items():
            found = [said for pattern, said in patterns.items() if re.search(pattern, name)]
            if name not in schema.get("properties", {}) and not found or not all(fits(inner, said) for said in found):
                return False
    return True


CHECKS = {
    "$ref": lambda value, said: fits(value, resolve(said)),
    "type": is_kind,
    "const": equal,
    "enum": lambda value, said: any(equal(value, one) for one in said),
    "anyOf": lambda value, said: any(fits(value, one) for one in said),
    "oneOf": lambda value, said: sum(fits(value, one) for one in said) == 1,
    "properties": lambda value, said: not isinstance(value, dict) or all(fits(value[name], one) for name, one in said.items() if name in value),
    "required": lambda value, said: not isinstance(value, dict) or all(name in value for name in said),
    "items": lambda value, said: not isinstance(value, list) or all(fits(one, said) for one in value),
    "minItems": lambda value, said: not isinstance(value, list) or len(value) >= said,
    "maxItems": lambda value, said: not isinstance(value, list) or len(value) <= said,
    "minLength": lambda value, said: not isinstance(value, str) or len(value) >= said,
    "maxLength": lambda value, said: not isinstance(value, str) or len(value) <= said,
    "pattern": lambda value, said: not isinstance(value, str) or bool(re.search(said, value)),
    "minimum": lambda value, said: not is_kind(value, "integer") or value >= said,
    "maximum": lambda value, said: not is_kind(value, "integer") or value <= said,
}


# ---- lines


def whole(text):
    """A number of the protocol: whole, and of 64 bits with or without a sign."""
    value = int(text)
    if text == "-0" or not -(2**63) <= value < 2**64:
        raise ValueError(text)
    return value


def no_number(text):
    raise ValueError(text)


def parsed(text):
    """A line as JSON, or None if it is none, has a number that no line may have, or is too deep."""
    try:
        value = json.loads(text, parse_int=whole, parse_float=no_number, parse_constant=no_number)
        json.dumps(value, ensure_ascii=False).encode()
    except (ValueError, RecursionError):
        return None
    return value if depth(value) <= 127 else None


def depth(value):
    inner = value.values() if isinstance(value, dict) else value if isinstance(value, list) else None
    return 0 if inner is None else 1 + max(map(depth, inner), default=0)


def longest(value):
    """The most bytes of a text in a value: the schema counts characters."""
    inner = value.values() if isinstance(value, dict) else value if isinstance(value, list) else ()
    return len(value.encode()) if isinstance(value, str) else max(map(longest, inner), default=0)


def is_client_line(text):
    value = parsed(text)
    if not fits(value, DEFS["ClientLine"]):
        return False
    # bytes, which no schema counts
    limits = {"act": 64, "game": 32}
    return all(longest(value[name]) <= most for name, most in limits.items() if name in value)


def is_bad_message(line):
    return line.get("reason") == "bad-message"


def parts(path):
    """The cases of a program's input or output: `=== KIND`, `== NAME`, and lines."""
    kind, found = "", {}
    lines = []
    for line in path.read_text().split("\n"):
        if line.startswith("=== "):
            kind = line[4:]
        elif line.startswith("== "):
            lines = found.setdefault((kind, line[3:]), [])
        else:
            lines.append(line)
    return found


def check_script(where, given, said):
    """A script and what it printed."""
    asked, refused, count = {}, {}, 0
    games, opened, made, follows = {}, [], [], {}
    for line in given:
        at = re.fullmatch(r"open (\S+) \d+", line)
        if at:
            opened.append(at[1])
        at = re.match(r"s(\d|[12]\d|3[01]) (.*)", line)
        if at:
            asked.setdefault(at[1], []).append(at[2])
            value = parsed(at[2])
            if isinstance(value, dict) and value.get("type") == "create" and is_client_line(at[2]):
                made.append(value["game"])
    for line in said:
        if re.fullmatch(r"open (\d+-\d+|full)", line):
            games[line[5:]] = opened.pop(0)
        at = re.match(r"(\d+) (\{.*)", line)
        if not at:
            continue
        value = parsed(at[2])
        count += 1
        if not fits(value, DEFS["ServerLine"]):
            found_wrong(where, f"no line of the server: {line[:200]}")
            continue
        if value["type"] == "created":
            games[value["match"]] = made.pop(0)
        elif value["type"] == "refused" and made and value["reason"] in ("full", "bad-seats", "no-start"):
            made.pop(0)
        refused[at[1]] = refused.get(at[1], 0) + is_bad_message(value)
        if value["type"] == "sync":
            follows[at[1]] = games.get(value["match"])
        check_state(where, follows.get(at[1]), value)
    for session, lines in asked.items():
        bad = [line for line in lines if not is_client_line(line)]
        if len(bad) != refused.get(session, 0):
            found_wrong(where, f"session {session} was told {refused.get(session, 0)} times that a line is no message, and the schema refuses {bad}")
    return count + sum(map(len, asked.values()))


def check_state(where, game, line):
    schema = DEFS["Games"]["properties"].get(game)
    if schema is None or line["type"] not in ("sync", "update", "change"):
        return
    if line["type"] == "change":
        members = resolve(schema["$ref"])["properties"]
        good = all(name in members and fits(value, members[name]) for name, value in line["g"]["put"].items())
    else:
        good = fits(line["snapshot"]["g"] if line["type"] == "sync" else line["g"], schema)
    if not good:
        found_wrong(where, f"no state of {game}: {json.dumps(line)[:300]}")


def check_value_cases():
    """The part `clients` of value_cases has a line on each line, and below it, indented, what it is read as."""
    path = TOP / "checks/tests/value_cases/stdout"
    count, part, line = 0, "", None
    for text in path.read_text().split("\n"):
        if re.fullmatch(r"(== )?[a-z][a-z ]*", text):
            part, line = text.removeprefix("== "), None
        elif part == "clients" and text.startswith("  {") and line is not None:
            count += 1
            bad = is_bad_message(json.loads(text))
            if is_client_line(line) == bad:
                found_wrong(path.name, f"the server {'refuses' if bad else 'takes'} {line[:200]}")
            line = None
        elif part == "clients" and not text.startswith(("  ", "#")):
            line = text
    return count


def check_recorded():
    count = check_value_cases()
    given, said = parts(TOP / "crates/run_cases/stdin"), parts(TOP / "crates/run_cases/stdout")
    for (kind, name), lines in given.items():
        if kind in ("scripts", "kept"):
            count += check_script(f"run_cases, {name}", lines, said[kind, name])
    for path in sorted((TOP / "examples").glob("*.script")):
        count += check_script(path.name, path.read_text().split("\n"), path.with_suffix(".script.out").read_text().split("\n"))
    for line in (TOP / "crates/page_program/stdin").read_text().split("\n"):
        if line.startswith("<{"):
            value = parsed(line[1:])
            count += 1
            if value and value.get("type") in ("sync", "update", "ok", "no") and not fits(value, DEFS["ServerLine"]):
                found_wrong("page_program", f"no line of the server: {line[:200]}")
    return count


# ---- the types of the client


def as_type(schema):
    """A schema as TypeScript writes it."""
    if "$ref" in schema:
        name = schema["$ref"].rpartition("/")[2]
        target = resolve(schema["$ref"])
        return as_type(target) if name in ("Seat", "Count", "GameName", "Name", "Argument") else name
    for word in ("anyOf", "oneOf"):
        if word in schema and "type" not in schema:
            return " | ".join(dict.fromkeys(as_type(one) for one in schema[word]))
    if "const" in schema:
        return json.dumps(schema["const"])
    if "enum" in schema:
        return " | ".join(json.dumps(one) for one in schema["enum"])
    if schema["type"] == "array":
        inner = as_type(schema["items"])
        return f"({inner})[]" if "|" in inner else f"{inner}[]"
    if schema["type"] == "object":
        if "patternProperties" in schema:
            return f"Record<string, {as_type(*schema['patternProperties'].values())}>"
        return "Partial<Context>" if "properties" in schema else "G"
    return {"integer": "number"}.get(schema["type"], schema["type"])


def plain(text):
    return " ".join(text.replace("<G>", "").split())


def check_types():
    text = re.sub(r"/\*\*.*?\*/|//[^\n]*", "", (TOP / "clients/js/sarpuntxe.d.ts").read_text().partition("// ---- the client")[0], flags=re.S)
    interfaces = {
        name: {member.strip('"'): (bool(optional), plain(said)) for member, optional, said in re.findall(r'^  ("?[\w-]+"?)(\??): (.*);$', body, re.M)}
        for name, body in re.findall(r"export interface (\w+)(?:<[^>]*>)? \{\n(.*?)\n\}", text, re.S)
    }
    unions = {name: {plain(one) for one in said.split("|")} for name, said in re.findall(r"export type (\w+)(?:<[^>]*>)? =(.*?);", text, re.S)}
    for name, schema in DEFS.items():
        if "properties" in schema:
            wanted = {member: (member not in schema["required"], as_type(one)) for member, one in schema["properties"].items()}
            if name == "StateChange":
                wanted["put"] = (False, "Record<string, unknown>")
            if interfaces.get(name) != wanted:
                found_wrong("sarpuntxe.d.ts", f"{name} is {interfaces.get(name)}, and the schema has {wanted}")
        elif "enum" in schema or "oneOf" in schema:
            wanted = {plain(one) for one in as_type(schema).split("|")}
            if unions.get(name) != wanted:
                found_wrong("sarpuntxe.d.ts", f"{name} is {unions.get(name)}, and the schema has {wanted}")
    for name in interfaces.keys() - DEFS.keys():
        found_wrong("sarpuntxe.d.ts", f"the schema has no {name}")
    return len(interfaces) + len(unions)


def check_words():
    protocol = (TOP / "docs/PROTOCOL.md").read_text()
    reasons = re.findall(r"^\| `([a-z-]+)` \|", protocol.partition("\n## Reasons")[2].partition("\n## ")[0], re.M)
    refusals = re.findall(r"`([a-z-]+)`", re.search(r"W is one of (.*?)\.\n", protocol, re.S)[1])
    told = {"PROTOCOL.md": (reasons, refusals)}
    for file in ("js/sarpuntxe.mjs", "python/sarpuntxe.py"):
        text = (TOP / "clients" / file).read_text()
        told[file] = [re.findall(r'^ +"([a-z-]+)":', re.search(rf"{name} = \{{(.*?)\n\}}", text, re.S)[1], re.M) for name in ("REASONS", "REFUSALS")]
    for file, lists in told.items():
        for name, words in zip(("Reason", "Refusal"), lists):
            if list(words) != DEFS[name]["enum"]:
                found_wrong(file, f"{name} is {words}, and the schema has {DEFS[name]['enum']}")


def main():
    lines, types = check_recorded(), check_types()
    check_words()
    print("\n".join(wrong + [f"{lines} recorded lines and {types} types agree with the schema"][: not wrong]))
    return 1 if wrong else 0


if __name__ == "__main__":
    sys.exit(main())
