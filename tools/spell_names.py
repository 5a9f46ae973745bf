#!/usr/bin/env python3
"""Spells the repository's own definitions and laws as the library spells its own: words in snake case.

    tools/spell_names.py    at the top, once, over a tree that port.py has turned

Definitions of specs/ and laws of proofs/ that are named like `readItems` or `put-made` become `read_items` and `put_made`.
Where a law and a definition would fall together, the law gets `_law` after its name. Types, cases and the names of goals
stay, and so does all of src/ but what clauses cite.
"""

import glob
import re
import sys

NAME = r"[^\s(){}\[\]:;,.|λ←⌜⌝]+"
DECLARED = re.compile(rf"^\s*(?:(?:pub|abbrev|unfoldable) )*(data |record |ruleset )?({NAME})\s*(:|\(|\{{|=|$)")
# Names that would fall together with a definition in the same file.
APART = {"keysIn": "keys_in_tree", "of-reading": "is_of_reading", "records-over": "records_are_over", "target_ok": "target_is_ok"}
SKIPPED = ("--", "use ", "module", "where", "let ", "unfolding", "|", "elim", "infix", "pub mod", "mod ")


def snake(name):
    if not name[0].isupper():
        name = re.sub(r"(?<=[a-z0-9])([A-Z])", lambda m: "_" + m.group(1).lower(), name)
    return name.replace("-", "_")


def declared(text):
    """The names that a file declares, its fields and cases among them."""
    for line in text.split("\n"):
        found = DECLARED.match(line)
        if found and not line.strip().startswith(SKIPPED) and (found.group(1) or found.group(3) == ":"):
            yield found.group(2)


def answers(path):
    """Whether a file holds a function's answers: its names are those of goals."""
    return path.endswith("/Proof.antt")


def renamed():
    """Old names to new ones."""
    words, laws, foreign = set(), set(), set()
    for path in sorted(glob.glob("crates/*/specs/**/*.antt", recursive=True) + glob.glob("crates/*/proofs/**/*.antt", recursive=True)):
        text = open(path, encoding="utf-8").read()
        for module, names in re.findall(r"^use (\S+)\.\{([^}]*)\}", text, re.M):
            if not module.startswith("Rattle.") or module.startswith("Rattle.std"):
                foreign |= {name.strip().split(" as ")[-1] for name in names.split(",")}
        if not answers(path):
            (words if "/specs/" in path else laws).update(declared(text))
    # a definition that proofs/ declares is a word too
    words |= {name for name in laws if re.match(r"[a-z]+[a-zA-Z0-9]*[A-Z]", name)}
    laws -= words
    new = {name: snake(name) for name in words - foreign if snake(name) != name}
    new.update(APART)
    taken = {new.get(name, name) for name in words}
    for name in laws - foreign:
        if snake(name) in taken:
            new[name] = snake(name) + "_law"
        elif snake(name) != name:
            new[name] = snake(name)
    # fields are named through their record, so two that are spelt alike do not fall together
    clash = [name for name in new if new[name] in foreign]
    clash += [name for name in new if new[name] in words | laws and new[name] not in new]
    if clash:
        sys.exit("fall together: " + " ".join(sorted(clash)))
    return new


def turned(text, new, is_code):
    """A text with new names; in code only names that code cannot have, and paths of modules stay."""

    def swap(found):
        before, name = found.group(1), found.group(2)
        if name not in new or (is_code and not re.search(r"[a-z0-9][A-Z]|-", name)):
            return found.group(0)
        return before + new[name]

    lines = []
    for line in text.split("\n"):
        module = re.match(r"^(?:ghost )?use [^{]*(?:\.\{)?", line)
        head = module.group(0) if module else ""
        lines.append(head + re.sub(rf"(^|[\s(){{}}\[\]:;,.|λ←⌜⌝])({NAME})", swap, line[len(head):]))
    return "\n".join(lines)


def main():
    new = renamed()
    paths = glob.glob("crates/*/specs/**/*.antt", recursive=True) + glob.glob("crates/*/proofs/**/*.antt", recursive=True)
    paths += glob.glob("crates/*/src/**/*.rt", recursive=True) + glob.glob("crates/*/must-fail/*.edit") + glob.glob("tests/edits/*/*.edit")
    for path in paths:
        old = open(path, encoding="utf-8").read()
        text = turned(old, new, not path.endswith(".antt"))
        if text != old:
            with open(path, "w", encoding="utf-8") as file:
                file.write(text)
    print(f"{len(new)} names")
    for name in sorted(new):
        print(name, new[name])


if __name__ == "__main__":
    main()
