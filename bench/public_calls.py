"""The public calls of the libraries that a program may stand on, as `docs/calls.txt` has them."""

import re
import textwrap

import sources

CRATES = ("y4m_header", "frame_view", "row_bands", "filters", "y4m_stream", "stream_queue", "cbs_account", "edf_pool", "lease",
          "serve_core", "serve_hub", "serve_audit", "serve_client", "serve_work")
HEAD = """The public calls of the libraries, from the lowest up, without their contracts; made by `bench/documents calls`.
A `..` stands for fields that are private. Laws, which do nothing and take nothing, are in `src/laws`.
"""
PAGE = "docs/calls.txt"
WIDTH = 110


def exported(crate):
    """The names that a crate has at its top, in its order: those of its own modules, and of its first page."""
    page = f"crates/{crate}/src/lib.rt"
    text = "\n".join(sources.read_lines(page))
    modules = re.findall(r"^(?:pub )?mod (\w+);", text, re.M)
    uses = re.findall(r"^pub use (\w+)::(?:[\w:]*::)?(?:\{([^}]*)\}|(\w+));", text, re.M)
    names = [name for first, several, one in uses if first in modules and first != "laws" for name in re.findall(r"\w+", several + one)]
    return names + list(sources.types(page)) + [call.name for call in sources.functions(page) if call.owner is None and is_public(call)]


def about(crate):
    """What a crate is, by the first sentence of its page."""
    said = []
    for line in sources.read_lines(f"crates/{crate}/src/lib.rt"):
        if not line.startswith("//! "):
            break
        said.append(line[4:])
    return re.sub(r"\[?`]?", "", re.match(r".*?\.(?= |$)", " ".join(said)).group())


def of_crate(crate):
    """The lines of a crate's part."""
    types, calls = {}, []
    for path in sources.files(crate, "src", ".rt"):
        types.update(sources.types(path))
        calls += sources.functions(path)
    lines, names = [f"{crate}: {about(crate)}"], exported(crate)
    aliases = [name for name, line in types.items() if line.startswith("pub type ") and name not in names]
    for name in names + aliases:
        if name in types:
            is_trait = types[name].startswith("pub trait ")
            lines.append("    " + types[name].removeprefix("pub "))
            lines += sorted("        " + head(call) for call in calls if call.owner == name and (is_public(call) or is_trait))
        lines += ["    " + head(call) for call in calls if call.owner is None and call.name == name]
    return "\n".join(wrapped(line) for line in lines)


def is_public(call):
    return call.head.startswith("pub ")


def head(call):
    return call.head.removeprefix("pub ")


def wrapped(line):
    indent = re.match(" *", line).group() + "    "
    return "\n".join(textwrap.wrap(line, WIDTH, subsequent_indent=indent, break_long_words=False, break_on_hyphens=False))


def text():
    return HEAD + "".join(f"\n{of_crate(crate)}\n" for crate in CRATES)
