#!/usr/bin/env python3
"""Spells the definitions and laws that the documents cite as the crates now spell them.

    tools/spell_documents.py TABLE    at the top, once

TABLE has a line `old new` for each name, as tools/spell_names.py prints them. In README.md and docs/*.md, docs/PORT.md
aside, each such name between backticks is spelled anew. So is a name that stands in no file of the crates any more where
its spelling in snake case does. Paths, functions (`a::b`) and types stay, and so does a plain word with no module before
it: that is a function.
"""

import glob
import re
import sys

from spell_names import snake

WORD = re.compile(r"(?<![\w/:.-])([A-Za-z]\w*\.)?([a-z][\w′']*(?:-[\w′']+)*)(?![\w/:-]|\.(?:antt|rt|rs|md|edit|h|c|py)\b)")


def table(path):
    with open(path, encoding="utf-8") as file:
        return dict(line.split() for line in file if len(line.split()) == 2 and not line[0].isdigit())


def words():
    """The words of the crates today."""
    paths = [path for kind in ("rt", "antt", "edit") for path in glob.glob(f"crates/**/*.{kind}", recursive=True)]
    return {word for path in paths for word in re.findall(r"[\w'-]+", open(path, encoding="utf-8").read())}


def main():
    new, there = table(sys.argv[1]), words()

    def spelled(found):
        module, name = found.group(1) or "", found.group(2)
        if name in new and (module or re.search(r"[a-z0-9][A-Z]|-", name)):
            name = new[name]
        elif name not in there and snake(name.replace("′", "'")) in there:
            name = snake(name.replace("′", "'"))
        return module + name

    for path in ["README.md", *sorted(glob.glob("docs/*.md"))]:
        if path == "docs/PORT.md":
            continue
        with open(path, encoding="utf-8") as file:
            text = file.read()
        with open(path, "w", encoding="utf-8") as file:
            file.write(re.sub(r"`[^`\n]+`", lambda span: WORD.sub(spelled, span.group()), text))


if __name__ == "__main__":
    main()
