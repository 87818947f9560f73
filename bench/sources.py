"""The functions and types of a crate, as its files have them in the layout of `rt fmt`."""

import os
import re

import streams as s

FUNCTION = re.compile(r"( *)((?:pub )?(?:const )?fn (\w+).*)")
CLAUSE = re.compile(r" *(?:requires|ensures)\b")
BODY = re.compile(r" *\{\}?$")
TYPE = re.compile(r"pub (struct|enum|trait|type|const) (\w+).*")


class Function:
    """A function: its file, the type or trait that it belongs to, its head in one line, and the lines of its contract."""

    def __init__(self, path, owner, name, head, contract):
        self.path, self.owner, self.name, self.head, self.contract = path, owner, name, head, contract


def read_lines(path):
    with open(os.path.join(s.TOP, path), encoding="utf-8") as file:
        return file.read().splitlines()


def files(crate, folder, ending):
    """The files of a crate's folder, by their paths from the top."""
    found = []
    for place, _, names in os.walk(os.path.join(s.TOP, "crates", crate, folder)):
        found += [os.path.relpath(os.path.join(place, name), s.TOP) for name in names if name.endswith(ending)]
    return sorted(found)


def owner_of(line):
    """Whose functions stand behind this line, where it begins an `impl` or a `trait`."""
    words = re.sub(r"<[^<>]*(?:<[^<>]*(?:<[^<>]*>[^<>]*)*>[^<>]*)*>", "", line)
    begins = re.match(r"(?:pub )?(?:impl|trait)\b.*?(?:(?<= for )&?(?:mut )?)?(\w+)(?:: .*)?(?: where.*)? ?\{", words)
    return begins.group(1) if begins else None


def functions(path):
    found, owner, lines = [], None, read_lines(path)
    for number, line in enumerate(lines):
        if line == "}":
            owner = None
        owner = owner_of(line) or owner
        begins = FUNCTION.match(line)
        if begins:
            head, contract = parts(lines[number:])
            found.append(Function(path, owner, begins.group(3), head, contract))
    return found


def parts(lines):
    """A function's head and its contract. What stands behind the two is its body, or a semicolon."""
    end = next(number for number, line in enumerate(lines) if BODY.match(line) or is_end(lines[:number + 1]))
    told = lines[:end] if BODY.match(lines[end]) else lines[:end + 1]
    first = next((number for number, line in enumerate(told) if CLAUSE.match(line)), len(told))
    return in_one_line(told[:first]), told[first:]


def is_end(lines):
    """Whether the last of these lines ends a head without a contract, or a contract without a body."""
    has_clause = any(CLAUSE.match(line) for line in lines)
    text = "\n".join(lines)
    return lines[-1].endswith(";" if has_clause else (";", "{", "{}")) and text.count("(") == text.count(")")


def in_one_line(lines):
    said = " ".join(line.strip() for line in lines if not re.match(r" *(//|#\[)", line))
    without_end = re.sub(r" ?(\{\}|\{|;)$", "", said)
    return re.sub(r",? ([)}])|, (>)", r"\1\2", re.sub(r"([({]|\w<) ", r"\1", without_end))


def types(path):
    """The public types and constants of a file by their names: a line of each, with its variants or its public fields."""
    found, lines = {}, read_lines(path)
    for number, line in enumerate(lines):
        begins = TYPE.match(line)
        if begins:
            kind, name = begins.groups()
            found[name] = line.rstrip(" {;")
            if kind in ("struct", "enum") and line.endswith("{"):
                within = lines[number + 1:lines.index("}", number)]
                found[name] += shown(kind, within)
    return found


def shown(kind, lines):
    """The variants of an enum; the public fields of a struct, and two dots where there are others."""
    said = [line.strip() for line in lines if line.strip() and not re.match(r" *(//|#\[|ghost )", line)]
    if kind == "enum":
        return " {" + in_one_line(said).rstrip(",") + "}"
    fields = [line[4:].rstrip(",") for line in said if line.startswith("pub ") and not line.startswith("pub ghost ")]
    hidden = any(not line.startswith(("pub ", "}")) for line in said)
    return " {" + ", ".join(fields + [".."] * hidden) + "}"
