"""The definitions of specs/ as they are read: each with its comment, its text, and the definitions that its words mean.

A definition with a case for each command or for each kind of input may be read for one command: its other cases, and what only
they mention, are left out then. A public type of src/ that a definition imports as `declared` is a definition too.
"""
import glob
import os
import re

TOP = os.path.dirname(os.path.dirname(os.path.realpath(__file__)))
CRATES = os.path.join(TOP, "crates")
IMPORT = re.compile(r"use (Rattle\.m88_\w+(?:\.\w+)*)(?:\.\{([^}]*)\})?(?: as (\w+))?;?$")
HEAD = re.compile(r"^(?:abbrev |unfoldable )?pub (?:data |record )?([^\s:({]+)|^(?:abbrev |unfoldable |data |record )([^\s:({]+)")
WORD = re.compile(r"[\w◌'≡≢⊎×∷⟦⟧+*/%<>=&|≤^-]+")


def words_of(text):
    """The words of a text, with the parts of those that points join."""
    return {word for part in WORD.findall(text) for word in [part, *part.split(".")]}


def is_code(line):
    return bool(line.strip()) and not line.lstrip().startswith(("--", "//", "#["))


class Definition:
    """A definition of a file: its comment and its text, as lines."""

    def __init__(self, file, name, comment):
        self.file, self.name, self.comment, self.text = file, name, comment, []

    def cases(self):
        """Its text in parts: what stands before its first case, and each case with the lines that go on with it."""
        parts = [[]]
        for line in self.text:
            begins = line.startswith(self.name + " ") and "=" in line or self.is_data() and re.match(r"  (--|\w+ :)", line)
            if begins and not (parts[-1] and parts[-1][-1].startswith("  --")):
                parts.append([])
            parts[-1].append(line)
        return parts

    def is_data(self):
        return any(line.startswith(("data ", "pub data ")) for line in self.text)

    def case_of(self, part):
        """The constructor that a case is of, or None where it isn't of one alone."""
        line = next((line for line in part if is_code(line)), "")
        found = re.match(r"  (\w+) :" if self.is_data() else re.escape(self.name) + r" \(?(\w+)", line)
        return found and found.group(1)

    def lines_for(self, choice):
        """Its lines; where it has a case for each of many, those of the chosen ones alone."""
        parts = self.cases()
        kinds = choice.kinds_of({self.case_of(part) for part in parts[1:]}) if choice else None
        if kinds is None:
            return self.text
        everyone, chosen = kinds
        own = [part for part in parts[1:] if self.case_of(part) in chosen]
        others = [part for part in parts[1:] if self.case_of(part) not in everyone]
        return parts[0] + [line for part in (own or others) for line in part]


class Choice:
    """A command, the kind of its input, and all commands and kinds."""

    def __init__(self, name):
        file = File.of("Rattle.m88_commands.specs.Command")
        commands, kinds = (re.findall(r"^  (\w+) :", "\n".join(file.definitions[data].text), re.M) for data in ("Command", "InputKind"))
        if name not in commands:
            raise KeyError(name)
        text = "\n".join(file.definitions["kind_of"].text)
        kind = re.search(rf"^kind_of \(?{name}\b.*= (\w+)", text, re.M).group(1)
        self.sets = [(set(commands), {name}), (set(kinds), {kind})]

    def kinds_of(self, cases):
        return next(((all_of, own) for all_of, own in self.sets if len(cases & all_of) > 1), None)


class File:
    """The definitions of a file of specs/ by name, and what its other names are imported from."""

    files = {}

    def __init__(self, path):
        self.path, self.imports, self.definitions = path, {}, {}
        with open(path, encoding="utf-8") as file:
            text = re.sub(r"^(use [^}\n]*\{)\n([^}]*)\}", lambda m: m[1] + " ".join(m[2].split()) + "}", file.read(), flags=re.M)
        definition, comment = None, []
        for line in text.split("\n"):
            if line.startswith(("use ", "pub use ", "pub mod ", "syntax ", "unfolding ")):
                self.take_import(line.removeprefix("pub "))
                comment = []
            elif line.startswith("--"):
                comment.append(line)
            elif not line.strip():
                comment = []
            else:
                name = None if line.startswith(" ") else self.name_in(line)
                if name and (definition is None or name != definition.name):
                    definition = self.definitions.setdefault(name, Definition(self, name, comment))
                if definition:
                    definition.text.append(line)
                comment = []

    def name_in(self, line):
        """The name that a line at the margin begins or goes on with."""
        head, first = HEAD.match(line), line.split()[0]
        return head.group(1) or head.group(2) if head else first if first in self.definitions else None

    def take_import(self, line):
        found = IMPORT.match(line)
        if found and found.group(2) is not None:
            for item in found.group(2).split(","):
                name, _, other = item.strip().partition(" as ")
                self.imports[other or name] = (found.group(1), name)
        elif found:
            self.imports[found.group(3) or found.group(1).split(".")[-1]] = (found.group(1), None)

    @classmethod
    def of(cls, module):
        """The file of a module of specs, as Rattle.m88_base.specs.Image; None where the code declares it, or std has it."""
        parts = module.split(".")
        if len(parts) < 4 or parts[2] != "specs" or parts[3] == "declared":
            return None
        path = os.path.join(CRATES, parts[1], *parts[2:]) + ".antt"
        return cls.at(path) if os.path.exists(path) else None

    @classmethod
    def at(cls, path):
        if path not in cls.files:
            cls.files[path] = cls(path)
        return cls.files[path]

    def meant(self, word):
        """The definition that a word of the file means, or None."""
        if word in self.definitions:
            return self.definitions[word]
        module, name = self.imports.get(word, (None, None))
        if module is None:
            return None
        if ".declared." in module:
            return Type.of(module)
        other = File.of(module)
        if other is None or name is None:
            return None
        holder = next((own for own in other.definitions.values() if name in words_of("\n".join(own.text))), None)
        return other.definitions.get(name) or other.meant(name) or holder

    def shown(self):
        return os.path.relpath(self.path, CRATES)

    def subject(self):
        """The lines at its head that say what it is about."""
        with open(self.path, encoding="utf-8") as file:
            text = file.read()
        return re.match(r"(?:(?:--|//!).*\n)*", text).group(0).rstrip("\n").split("\n")


class Source(File):
    """A file of src/, of which public types and constants are read."""

    files = {}

    def __init__(self, path):
        self.path, self.imports, self.definitions = path, {}, {}
        with open(path, encoding="utf-8") as file:
            lines = file.read().split("\n")
        self.uses = dict(self.uses_in("\n".join(lines)))
        for k, line in enumerate(lines):
            found = re.match(r"pub (?:struct|enum|const) (\w+)", line)
            if found:
                first = k
                while lines[first - 1].startswith(("///", "#[")):
                    first -= 1
                last = k if line.endswith((";", "}")) else next(n for n in range(k, len(lines)) if lines[n].startswith(("}", "]")))
                item = Type(self, found.group(1), [part for part in lines[first:k] if part.startswith("///")])
                item.text = lines[k:last + 1]
                self.definitions[item.name] = item

    @staticmethod
    def uses_in(text):
        """The crate of each name that the file uses of a crate of this repository, its own as `crate`."""
        for crate, many, one in re.findall(r"^use (crate|m88_\w+)(?:::\w+)*::(?:\{([^}]*)\}|(\w+));", text, re.M):
            for name in (many or one).split(","):
                yield name.strip(), crate

    def used(self, name):
        """The public type of that name in the crate that the file uses it of, or None."""
        own = os.path.relpath(self.path, CRATES).split(os.sep)[0]
        crate = self.uses.get(name, "").replace("crate", own)
        paths = sorted(glob.glob(os.path.join(CRATES, crate, "src", "**", "*.rt"), recursive=True)) if crate else []
        return next((found for path in paths if (found := Source.at(path).definitions.get(name))), None)


class Type(Definition):
    """A public type of src/."""

    def cases(self):
        return [self.text]

    @staticmethod
    def of(module):
        parts = module.split(".")[4:]
        parts = parts[:-1] if parts[-1].startswith("The") else parts
        path = os.path.join(CRATES, module.split(".")[1], "src", *parts[:-1]) + ".rt"
        return Source.at(path).definitions.get(parts[-1]) if os.path.exists(path) else None

    def meant(self, word):
        """The public type that a word of its text means, where a field or a variant has it: of its file, or one that it uses."""
        if word == self.name or word not in self.types():
            return None
        return self.file.definitions.get(word) or self.file.used(word)

    def types(self):
        """The words of its text that stand where a type does: after a colon, or in brackets."""
        text = "\n".join(line for line in self.text if is_code(line))
        return set(re.findall(r"\w+", " ".join(after + within for after, within in re.findall(r": ([^{}\n]*)|\(([^()]*)\)", text))))


class Call:
    """A function of src/: the text of each of its clauses, and the file that its ghost imports stand in."""

    def __init__(self, path, function, owner=None):
        with open(path, encoding="utf-8") as file:
            text = file.read()
        self.path, self.imports, self.definitions = path, {}, {}
        for line in text.split("\n"):
            if line.startswith("ghost use "):
                File.take_import(self, line.removeprefix("ghost ").rstrip(";"))
        within = re.search(rf"^(?:impl\b.*|(?:pub )?trait ){owner}\b", text, re.M).start() if owner else 0
        start = within + re.search(rf"fn {function}\b", text[within:]).start()
        body = re.search(r"\n *\{\n|;\n", text[start:])
        self.clauses = dict(clauses_in(text[start:start + body.start() if body else len(text)]))

    meant = File.meant


def clauses_in(text):
    """The name and the text of each clause of a function."""
    for found in re.finditer(r"(?:ensures|requires)\s*(\w*)\s*\{", text):
        at, depth = found.end(), 1
        while depth:
            depth += {"{": 1, "}": -1}.get(text[at], 0)
            at += 1
        yield found.group(1) or "the clause", text[found.end():at - 1]


def under(roots, choice=None):
    """The definitions that others rest on, with these, each before those that it is the first to mention."""
    found, open_ = {}, list(reversed(roots))
    while open_:
        definition = open_.pop()
        if id(definition) in found:
            continue
        found[id(definition)] = definition
        text = "\n".join(line for line in definition.lines_for(choice) if is_code(line))
        scope = definition if isinstance(definition, Type) else definition.file
        mentioned = dict.fromkeys(word for part in WORD.findall(text) for word in [part, *part.split(".")])
        open_ += reversed([other for word in mentioned if (other := scope.meant(word))])
    return list(found.values())


def mentioned_by(call, text):
    """The definitions that a text among the clauses of a call names."""
    words = dict.fromkeys(word for part in WORD.findall(text) for word in [part, *part.split(".")])
    return [found for word in words if (found := call.meant(word))]
