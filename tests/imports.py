#!/usr/bin/env python3
"""No import that nothing uses: a name that a `use` or `ghost use` line of a file below crates/ brings in, and the rest of the file does not say.

Comments, texts and other imports do not count as a use, but for a path that begins with the name. `◌+◌` is used where each of its parts stands. What
`pub use` passes on is for others. A name that is also a variable's counts as used: the list may be too short, and is seldom too long.
It names each such import, and fails if there is one, or if it found no file to look at.
"""
import pathlib
import re
import sys

SKIP = {".antt": r'"(?:\\.|[^"\\])*"|\{-.*?-\}|(?<![^\s(){}.;,@"«»])--[^\n]*', ".rt": r"""'(?:\\.|[^'\\])'|"(?:\\.|[^"\\])*"|/\*.*?\*/|//[^\n]*"""}
USE = re.compile(r"^[ \t]*((?:(?:pub|unfoldable|ghost)[ \t]+)*)use[ \t]+([^{};\n]+?)(?:(?:\.|::)\{([^}]*)\})?[ \t]*;?[ \t]*$", re.M)


def blank(match):
    """White space in place of what was matched, with its lines."""
    return re.sub(r"[^\n]", " ", match.group())


def said(text, code):
    """The names that a text says."""
    names = set(re.split(r"[\s(){}.;,@\"«»]+", text))
    return names | set(re.findall(r"\w+", text)) if code else names


def imported(text):
    """The names that a file's imports bring in, each with its line and its module; and what their paths begin with."""
    found, heads = [], set()
    for match in USE.finditer(text):
        marks, module, braces = match.groups()
        heads.add(re.split(r"\.|::", module)[0].strip())
        items = [] if "pub" in marks else (module if braces is None else braces).split(",")
        for item in items:
            name = re.split(r"::|\.(?=.)", re.split(r"\sas\s", item)[-1].strip())[-1].strip("«» \t\n")
            if name and name not in ("*", "self"):
                found.append((text.count("\n", 0, match.start()) + 1, name, re.split(r"\sas\s", module)[0].strip()))
    return found, heads


def unused(path):
    """What a file imports and does not use."""
    text = re.sub(SKIP[path.suffix], blank, path.read_text(encoding="utf-8"), flags=re.S)
    found, heads = imported(text)
    names = said(USE.sub(blank, text), path.suffix == ".rt")
    for line, name, module in found:
        parts = [part for part in name.split("◌") if part]
        if name not in names and name not in heads and not ("◌" in name and parts and all(part in names for part in parts)):
            yield f"{path}:{line}: {name}, of {module}"


def main():
    top = pathlib.Path(__file__).resolve().parent.parent / "crates"
    files = sorted(path for path in top.rglob("*") if path.suffix in SKIP and "out" not in path.relative_to(top).parts)
    lines = [line for path in files for line in unused(path)]
    print("\n".join(lines + [f"imports: {len(lines)} that nothing uses, in {len(files)} files"]))
    return 1 if lines or not files else 0


if __name__ == "__main__":
    sys.exit(main())
