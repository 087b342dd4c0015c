#!/usr/bin/env python3
"""Respells the repository's own names in specs/ and proofs/ for today's Rattle: words in snake case, types and modules in
camel case. It was run once, after the kit's port.py, at the top of
the repository; docs/PORT.md says when.

  python3 tools/parts/respelling.py            respells in place
  python3 tools/parts/respelling.py --list     prints the old and the new name of each, and changes nothing

Functions of src/, exported C names, strings, inputs and outputs keep their names. The crate `log`, whose name a library
of the kit has, becomes `cardlog`. Where a lemma's new name is a definition's, the lemma gets `_lem`.
"""

import pathlib
import re
import subprocess
import sys

ROOT = pathlib.Path(__file__).resolve().parent.parent.parent

# lemmas whose names a definition of another spelling takes
LEMMAS_OF_A_DEFINITION = {
    "all_hold": "all_hold_lem", "both_of": "both_of_lem", "counts_of": "counts_of_lem", "no_flow": "no_flow_lem",
    "step_words": "step_words_lem", "turn_is": "turn_is_lem", "width_is": "width_is_lem",
}

# names that stand in a telescope or a `let`, and not at the head of a line
INNER = ["tagRest", "queueRest", "raisedTags", "whenRefused", "behind-tags", "behind-share", "behind-largest", "behind-first",
         "behind-waiting", "a-waiting", "on-turn"]

ALIAS = re.compile(r"^use \S+ as ([a-z]\S*)", re.MULTILINE)
DECLARATION = re.compile(
    r"^\s*((?:(?:pub|abbrev|unfoldable|data|record)\s+)*)([^\s:(){}]+)\s*(?:\([^)]*\)\s*|\{[^}]*\}\s*)*:(?:\s|$)")
TOKEN = re.compile(r"[^\s(){}\[\];,.:`\"|]+")
STRING = re.compile(r'"(?:[^"\\]|\\.)*"')


def proof_texts():
    """The files of specs/ and proofs/, but for the proofs of single functions."""
    for path in sorted((ROOT / "crates").glob("*/*/**/*.antt")):
        if path.name != "Proof.antt" and path.parts[len(ROOT.parts) + 2] in ("specs", "proofs"):
            yield path


def snake(word):
    return word if word[:1].isupper() else re.sub(r"(?<=[a-z0-9])([A-Z])", r"_\1", word).lower()


def declared():
    """Each declared name that is not a type's, and whether it is a definition's."""
    names = dict.fromkeys(INNER, False)
    for path in proof_texts():
        names.update((name, False) for name in ALIAS.findall(path.read_text()) if name not in names)
        for line in path.read_text().splitlines():
            found = DECLARATION.match(line)
            if not found or line.lstrip().startswith(("--", "use ")) or found[2][:1].isupper():
                continue
            is_definition = "abbrev" in found[1] or "unfoldable" in found[1]
            names[found[2]] = names.get(found[2], False) or is_definition
    return names


def respelled(name):
    return "_".join(snake(part) for part in name.split("-"))


def renamings():
    names = declared()
    renamed = {name: respelled(name) for name in names}
    renamed.update((old, new) for old, new in LEMMAS_OF_A_DEFINITION.items() if old in names)
    taken = {}
    for name in sorted(names, key=lambda name: (not names[name], "-" in name, name)):
        new = renamed[name]
        if new in taken and "-" in name:
            new = renamed[name] = f"{new}_lem"
        taken.setdefault(new, []).append(name)
    for new, olds in taken.items():
        if len(olds) > 1:
            print(f"these fall together as {new}: {' '.join(olds)}", file=sys.stderr)
    return {old: new for old, new in renamed.items() if old != new}


def replaced(text, names):
    return TOKEN.sub(lambda token: names.get(token[0], token[0]), text)


def outside_strings(text, names):
    pieces, end = [], 0
    for string in STRING.finditer(text):
        pieces += [replaced(text[end:string.start()], names), string[0]]
        end = string.end()
    return "".join([*pieces, replaced(text[end:], names)])


def in_comments_and_clauses(text, names):
    """A source file: strings and characters keep their text, and the code has no name in the map."""
    return "\n".join(outside_strings(line, names) for line in text.split("\n"))


def in_backquotes(text, names):
    return re.sub(r"`[^`\n]+`", lambda quoted: replaced(quoted[0], names), text)


def crate_renamed(path, text):
    """The crate `log` by its new name."""
    text = text.replace("Rattle.log.", "Rattle.cardlog.").replace("crates/log/", "crates/cardlog/")
    if path.suffix in (".rt", ".edit"):
        text = re.sub(r"\blog::", "cardlog::", text)
    if path.name == "crates.txt":
        text = re.sub(r"\blog\b", "cardlog", text)
    return text.replace("`log`", "`cardlog`")


def main():
    names = renamings()
    if sys.argv[1:] == ["--list"]:
        for old, new in sorted(names.items()):
            print(old, new)
        return
    ways = {".antt": replaced, ".edit": replaced, ".rt": in_comments_and_clauses, ".md": in_backquotes, ".txt": None}
    places = [*(ROOT / "crates").glob("*/*/**/*"), *ROOT.glob("*.md"), *ROOT.glob("docs/**/*.md"), ROOT / "crates.txt"]
    for path in sorted(places):
        if not path.is_file() or path.suffix not in ways or "out" in path.parts or path.name == "PORT.md":
            continue
        text = path.read_text()
        way = ways[path.suffix]
        new = crate_renamed(path, way(text, names) if way else text)
        if path.name == "Proof.antt":
            new = re.sub(r"\b[a-z0-9_]+(?:-[a-z0-9_]+)*-spec\b", lambda name: name[0].replace("-", "_"), new)
        if new != text:
            path.write_text(new)
    if (ROOT / "crates/log").is_dir():
        subprocess.run(["git", "mv", "crates/log", "crates/cardlog"], cwd=ROOT, check=True)


if __name__ == "__main__":
    main()
