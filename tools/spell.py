#!/usr/bin/env python3
"""Spells the repository's own definitions, laws and fields as today's Rattle does: `codeOf` and `code-holds` become `code_of` and `code_holds`.

    python3 tools/spell.py          at the top of the repository, once, right after the kit's port.py

It turns whole words alone: in definitions and proofs; in the clauses and imports of the code; and in the texts of must-fail edits. Of what documents and
comments put between backquotes it leaves each last word, and these were turned after it. A name is one that a file of specs/ or proofs/ declares. Functions, C names, types, texts between double quotes and
what the checker itself names (behind `tie.` or `c.`) keep theirs. Where a law would fall together with a definition in one file, APART says its new
name. It says how many names it turned, and fails where two names that one file says fall together.
"""
import collections
import os
import re
import sys

WORD = re.compile(r'[^\s(){}.;,@"«»]+')
QUIET = re.compile(r'"(?:[^"\\\n]|\\.)*"|(?<![^\s(){}.;,@"«»])--[^\n]*|\{-.*?-\}', re.S)
DECLARED = re.compile(
    r"^(\s*)((?:(?:pub|unfoldable|abbrev|private|opaque)\s+)*)(?:(?:data|record|inductive)\s+)?([^\s(){}.;,@\"«»]+)((?:\s+\{[^{}\n]*\}|\s+\([^()\n]*\))*)\s+:(?!=)",
    re.M,
)
RUST = re.compile(r'//[^\n]*|"(?:\\.|[^"\\])*"|\bghost use\b[^;]*;|\b(?:requires|ensures)\*?\s*(?:\w+\s*)?\{')
SPAN = re.compile(r"(`+)(?:[^`\n])+?\1")
FUNCTION = re.compile(r"crates/\w+/proofs/(?:[a-z+]\w*|[A-Z]\w*/[a-z]\w*)/")

# Laws that fall together with a definition: their new names.
APART = {
    "found_among": "found_among_law",
    "found_in": "found_in_law",
    "cell-of": "cell_of_law",
    "even-level": "even_level_law",
    "fine-level": "fine_level_law",
    "first-digits": "first_digits_law",
    "first-height": "first_height_law",
    "height-levels": "height_levels_law",
    "inmost-of": "inmost_of_law",
    "is-nan": "is_nan_law",
    "layers-read": "layers_read_law",
    "plane-read": "plane_read_law",
    "ring-node": "ring_node_law",
    "space-read": "space_read_law",
    "so-far": "so_far_here",
    "x-in": "x_inside",
    "y-in": "y_inside",
    "from-pole": "from_pole_law",
    "cell-child": "cell_child_law",
    "cell-digits": "cell_digits_law",
    "first-from": "first_from_law",
    "last-digit": "last_digit_law",
    "layers-meet": "layers_meet_law",
    "minutes-meet": "minutes_meet_law",
    "near-pole": "near_pole_law",
    "second-place": "second_place_law",
    "two-rows": "two_rows_law",
    "digit-below": "digit_below_law",
    "height-place": "height_place_law",
    "plane-place": "plane_place_law",
}

# A name that one proof gives a step of its own, and that would there fall together with a definition.
LOCAL = {"crates/ordinary_read/proofs/Steps.antt": {"goes_on": "goes_on_here"}}


def snake(name):
    return re.sub(r"(?<=[a-z0-9])[A-Z]", lambda m: "_" + m[0].lower(), name).replace("-", "_")


def files(top, endings):
    for folder, folders, names in os.walk(top):
        folders[:] = sorted(f for f in folders if f not in ("out", "target", ".git"))
        for name in sorted(names):
            if name.endswith(endings):
                yield os.path.join(folder, name)


def words(text, table, behind):
    """The text with its words turned; where behind is given, a word right behind a dot turns only if it is one of those."""

    def turn(match):
        word = match.group()
        if word not in table or (behind is not None and match.start() and text[match.start() - 1] == "." and word not in behind):
            return word
        return table[word]

    return WORD.sub(turn, text)


def spans(text, table):
    """The text of a comment or a document, with what stands between backquotes turned."""
    return SPAN.sub(lambda m: words(m.group().replace("`", "\x00;"), table, None).replace("\x00;", "`"), text)


def antt(text, table, behind):
    out, at = [], 0
    for quiet in QUIET.finditer(text):
        out.append(words(text[at : quiet.start()], table, behind))
        out.append(quiet.group() if quiet.group().startswith('"') else spans(quiet.group(), table))
        at = quiet.end()
    return "".join(out) + words(text[at:], table, behind)


def code(text, table):
    out, at = [], 0
    while match := RUST.search(text, at):
        out.append(text[at : match.start()])
        found, end = match.group(), match.end()
        if found.startswith("//"):
            out.append(spans(found, table))
        elif found.startswith('"'):
            out.append(found)
        elif found.startswith("ghost"):
            out.append(words(found, table, None))
        else:
            depth = 1
            while depth:
                depth += {"{": 1, "}": -1}.get(text[end], 0)
                end += 1
            out.append(found + words(text[match.end() : end], table, None))
        at = end
    return "".join(out) + text[at:]


def edit(text, table):
    """The text of a must-fail edit; a projection is written tight in it, as the kit's scripts wrote it in the files."""
    lines = []
    for line in text.split("\n"):
        head, mark, rest = line.partition(": ")
        if mark and head in ("old", "new"):
            lines.append(head + mark + re.sub(r"(?<=[\w)\]]) \.(?=[\w])", ".", words(rest, table, None)))
        else:
            lines.append(spans(line, table))
    return "\n".join(lines)


def read(path):
    with open(path, encoding="utf-8") as file:
        return file.read()


def main():
    if not os.path.isfile("crates.txt"):
        sys.exit("spell: run it at the top of the repository")
    texts = {path: read(path) for path in files("crates", (".antt", ".rt", ".edit"))}
    texts |= {path: read(path) for top in ("README.md", "docs", "tests") for path in ([top] if os.path.isfile(top) else files(top, ".md"))}
    declared, fields = set(), set()
    for path, text in texts.items():
        if path.endswith(".antt"):
            for indent, marks, name, _ in DECLARED.findall(QUIET.sub(" ", text)):
                declared.add(name)
                if indent:
                    fields.add(name)
    table = {name: snake(name) for name in declared if re.match("[a-z]", name) and snake(name) != name}
    said = {path: set(WORD.findall(QUIET.sub(" ", text))) for path, text in texts.items() if path.endswith(".antt")}
    both = collections.defaultdict(set)
    for old in set().union(*said.values()):
        both[table.get(old, old)].add(old)
    for old, new in APART.items():
        if old in declared:
            table[old] = new
    bad = 0
    for new, olds in sorted(both.items()):
        for old in sorted(olds - {new}):
            for other in sorted(olds - {old}):
                for path in sorted(p for p in said if old in said[p] and other in said[p] and table.get(other, other) == table.get(old, old) and not {old, other} & set(LOCAL.get(p, {}))):
                    if not re.search(rf"(?<!\.)\b{re.escape(other)}(?![\w'-])", QUIET.sub(" ", texts[path])):
                        continue
                    print(f"spell: {path}: {old} and {other} fall together as {new}")
                    bad += 1
    for path, text in texts.items():
        if path.endswith(".antt"):
            new = antt(text, table | LOCAL.get(path, {}), fields if FUNCTION.match(path) else None)
        elif path.endswith(".rt"):
            new = code(text, table)
        elif path.endswith(".edit"):
            new = edit(text, table | {word: snake(word) for word in WORD.findall(text) if word not in table and re.match("[a-z]", word) and snake(word) in declared})
        else:
            new = spans(text, table)
        if new != text:
            with open(path, "w", encoding="utf-8") as file:
                file.write(new)
    print(f"spell: {len(table)} names turned, {bad} fall together")
    return 1 if bad else 0


if __name__ == "__main__":
    sys.exit(main())
