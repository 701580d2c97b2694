"""Which definitions of specs/ the contract of `run` reaches, by their names and imports.

    python3 docs/reach.py                at the top of the repository: how many, in how many lines

It reads no types, so a field that has a definition's name counts as a use of it.
"""

import glob
import os
import re
import sys

HEAD = re.compile(r"^((?:unfoldable|abbrev|pub|record|data|opaque|transparent)\s+)+([^\s:({]+)")
WORD = re.compile(r"[^\s(){},;⟦⟧]+")


def read(path):
    """The imports of a file, each on one line, and the lines of its definitions by name."""
    imports, items, pending, current = [], {}, None, None
    with open(path, encoding="utf-8") as handle:
        for line in handle.read().split("\n"):
            if pending is not None:
                pending += " " + line.strip()
            elif re.match(r"(pub )?use ", line):
                pending, current = line, None
            if pending is not None:
                if "{" not in pending or "}" in pending:
                    imports.append(pending)
                    pending = None
            elif line.strip() and not line.lstrip().startswith("--"):
                head = HEAD.match(line)
                if head:
                    current = items.setdefault(head.group(2), [])
                if current is not None:
                    current.append(line)
    return imports, items


def names_of(imports):
    """What a file's imports name: definitions by their names, and files by the names that they are given."""
    names, modules = {}, {}
    for line in imports:
        some = re.match(r"(?:ghost )?(?:pub )?use Rattle\.(\w+)\.specs\.([\w.]+?)\.\{(.*)\}", line)
        whole = re.match(r"(?:ghost )?(?:pub )?use Rattle\.(\w+)\.specs\.([\w.]+) as (\w+)", line)
        if some:
            for name in filter(None, map(str.strip, some.group(3).split(","))):
                parts = name.split(" as ")
                names[parts[-1].strip()] = (some.group(1), some.group(2), parts[0].strip())
        elif whole:
            modules[whole.group(3)] = (whole.group(1), whole.group(2))
    return names, modules


class Definitions:
    """All definitions, by crate, file and name, and what each file imports."""

    def __init__(self, top):
        self.lines, self.names, self.here = {}, {}, {}
        for path in glob.glob(top + "/crates/*/specs/**/*.antt", recursive=True):
            parts = os.path.relpath(path, top).split("/")
            room = (parts[1], ".".join(parts[3:])[: -len(".antt")])
            imports, items = read(path)
            self.names[room], self.here[room] = names_of(imports), set(items)
            for name, lines in items.items():
                self.lines[room + (name,)] = lines

    def uses(self, key):
        """The definitions that a definition names."""
        room = key[:2]
        names, modules = self.names[room]
        body = " ".join(re.sub(r"--.*", "", line) for line in self.lines[key])
        found = set()
        for word in WORD.findall(body):
            first, _, rest = word.partition(".")
            if first in modules and modules[first] + (rest.split(".")[0],) in self.lines:
                found.add(modules[first] + (rest.split(".")[0],))
            for name in (word, first):
                if name in self.here[room]:
                    found.add(room + (name,))
                elif names.get(name) in self.lines:
                    found.add(names[name])
        for name in [name for name in list(names) + list(self.here[room]) if "◌" in name]:
            target = names.get(name, room + (name,))
            if name.replace("◌", "") in body and target in self.lines:
                found.add(target)
        return found

    def closure(self, start):
        """All that these definitions reach, themselves among it."""
        seen, left = set(start), list(start)
        while left:
            for key in self.uses(left.pop()) - seen:
                seen.add(key)
                left.append(key)
        return seen

    def of_run(self, top):
        """What the clauses of `run` name."""
        for path in glob.glob(top + "/crates/*/src/*.rt"):
            with open(path, encoding="utf-8") as handle:
                text = handle.read()
            found = re.search(r"pub fn run<.*?^\{", text, re.M | re.S)
            if found:
                imports = [re.sub(r"\s+", " ", one) for one in re.findall(r"ghost use [^;]*", text)]
                names, _ = names_of(imports)
                return {names[word] for word in WORD.findall(found.group(0)) if names.get(word) in self.lines}
        sys.exit("no `pub fn run<` in crates/*/src")


def reached_by_run(top):
    """The crate, file and name of each definition that the contract of `run` reaches."""
    definitions = Definitions(top)
    return definitions.closure(definitions.of_run(top))


if __name__ == "__main__":
    every = Definitions(".")
    keys = every.closure(every.of_run("."))
    print("run: %d definitions, %d lines" % (len(keys), sum(len(every.lines[key]) for key in keys)))
