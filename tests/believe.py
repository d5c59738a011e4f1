"""Follows the exported contracts through the definitions of specs/: believe.py CRATE [--list]

CRATE is the crate that exports. Its contracts are the `ensures` clauses of its `pub extern "C"`
functions. From the names in them it goes, by the `use` lines, to the definitions of all crates that
these are made of. What is not reached is of no concern to a reader and stands in specs/Inner/; what
is reached stands outside it, and the table of docs/SPECIFICATION.md names it. Samples and figures,
in the crates of programs, are left aside.

A comment counts where it stands directly above a definition or within it. An `unfolding` line does
not count: it tells the prover what to open, and means nothing.
"""

import re
import sys
from pathlib import Path

CRATES = Path("crates")
README = Path("README.md")
SPECIFICATION = Path("docs/SPECIFICATION.md")

# A line that begins a definition: `unfoldable pub NAME : ..`, `pub record NAME ..`, `NAME : ..`
START = re.compile(r"((?:abbrev |unfoldable )?(?:pub )?)(record )?(?!use |mod )(\S+)(?= :|$| )")
TOKEN = re.compile(r"[^\s(){};,\[\]|.]+|[(){};,\[\]|.]")
WORD = re.compile(r"[^\s(){};,\[\]|.]+$")
OPEN, CLOSED = ("(", "{", "["), (")", "}", "]")
CONTRACT = re.compile(r'^pub extern "C" fn .*?(?=^\{)', re.MULTILINE | re.DOTALL)
# A struct that contracts see as a value of its own: in specs/ its name stands for that value.
MODEL = re.compile(r"^impl (?:\w+::)*Model for (\w+) \{\n(.*?)^\}", re.MULTILINE | re.DOTALL)
USE = re.compile(r"^(?:pub )?use (\w+)::(?:\w+::)*(?:(\w+)|\{([^}]*)\});", re.MULTILINE)
IMPORT = re.compile(r"(?:pub |ghost )?use (\S+?)(?:\.\{([^}]*)\}| as (\S+?))?;?$")


class Definition:
    """A definition, with the comment directly above it. `text` is the definition alone."""

    def __init__(self, file, first, lines):
        self.file, self.first = file, first
        self.comments, self.text = 0, []
        unfolding = False
        for line in lines:
            unfolding = line.startswith("unfolding") or unfolding and line.startswith(" ")
            if line.lstrip().startswith("--"):
                self.comments += 1
            elif line.strip() and not unfolding:
                self.text.append(line)
        _, record, self.name = START.match(self.text[0]).groups()
        self.is_record = record is not None


class File:
    """A file of specs/: its names by what they stand for, and its definitions."""

    def __init__(self, path):
        self.path = path
        self.crate = path.parts[1]
        self.module = ".".join(path.with_suffix("").parts[3:])
        self.imports, self.definitions = {}, {}
        lines = path.read_text().splitlines()
        starts = [i for i, line in enumerate(lines) if self.starts(line)]
        for i in [i for i, line in enumerate(lines) if IMPORT.match(line)]:
            whole = lines[i]
            while "{" in whole and "}" not in whole:
                i += 1
                whole += " " + lines[i].strip()
            read_import(self.imports, whole)
        for i, end in zip(starts, starts[1:] + [len(lines)]):
            while i > 0 and lines[i - 1].startswith("--"):
                i -= 1
            while not lines[end - 1].strip() or lines[end - 1].startswith("--"):
                end -= 1
            one = Definition(self, i + 1, lines[i:end])
            self.definitions[one.name] = one

    @staticmethod
    def starts(line):
        found = START.match(line)
        if not found or line.startswith(("--", "use ", "unfolding ")):
            return False
        before, record, _ = found.groups()
        return bool(before or record) or line[found.end() :].startswith(" :")


def read_import(names, line):
    """`use A.{x, y as z}` gives x and z, `use A as x` gives x: each by A and its name there."""
    place, listed, alias = IMPORT.match(line).groups()
    if alias:
        names[alias] = (place, None)
    for words in map(str.split, (listed or "").split(",")):
        if words:
            names[words[-1]] = (place, words[0])


def used_types(path, text):
    """The names that a file of src/ uses of other modules, each by its crate."""
    used = {}
    for of, one, listed in re.findall(USE, text):
        for name in [one] if one else re.findall(r"\w+", listed):
            used[name] = path.parts[1] if of in ("crate", "super") else of
    return used


class Types:
    """The structs and enums of src/, by crate and name: file, lines and the types inside."""

    def __init__(self):
        self.all = {}
        for path in sorted(CRATES.glob("*/src/**/*.rt")):
            self.read(path, path.read_text())

    def read(self, path, text):
        used = used_types(path, text)
        lines = text.splitlines()
        for i, line in enumerate(lines):
            if found := re.match(r"(?:pub )?(?:struct|enum) (\w+)", line):
                end = next(k for k in range(i, len(lines)) if lines[k].startswith("}"))
                body = [text for text in lines[i : end + 1] if not text.strip().startswith("//")]
                while i > 0 and lines[i - 1].startswith(("//", "#[")):
                    i -= 1
                names = set(re.findall(r"\b[A-Z]\w*", " ".join(body[1:])))
                crate, name = path.parts[1], found.group(1)
                inner = {(used.get(inside, crate), inside) for inside in names}
                self.all[crate, name] = (path, end + 1 - i, inner)

    def reached(self, roots):
        seen, left = set(), list(roots)
        while left:
            one = left.pop()
            if one in self.all and one not in seen:
                seen.add(one)
                left.extend(self.all[one][2])
        return seen


def values_of_models():
    """By crate and struct: the imported names in the `Value` of its `impl Model`."""
    values = {}
    for path in sorted(CRATES.glob("*/src/**/*.rt")):
        for struct, block in re.findall(MODEL, path.read_text()):
            names = {}
            for line in re.findall(r"^ *(ghost use [^;]*;)", block, re.MULTILINE):
                read_import(names, " ".join(line.split()))
            value = re.search(r"ghost Value = \{(.*?)\};", block, re.DOTALL).group(1)
            values[path.parts[1], struct] = [names[n] for n in free_names(value, names) if n in names]
    return values


class Reach:
    """What is reached, going from name to name."""

    def __init__(self, files):
        self.files = {(file.crate, file.module): file for file in files}
        self.definitions, self.types = set(), set()
        self.values = values_of_models()

    def follow(self, place, name):
        """A name of an imported module: a definition, or a type that src/ declares."""
        found = re.match(r"Rattle\.(\w+)\.specs\.(.*)", place)
        if not found:
            return
        crate, module = found.groups()
        if module.startswith("declared."):
            parts = [part for part in module.split(".")[1:] if part != "TheVariants"]
            self.types.add((crate, parts[-1]))
            for value in self.values.get((crate, parts[-1]), []):
                self.follow(*value)
        elif (crate, module) in self.files:
            self.name(self.files[crate, module], name)

    def name(self, file, name):
        if name in file.definitions:
            self.definition(file.definitions[name])
        elif name in file.imports:
            self.follow(*file.imports[name])

    def definition(self, one):
        if one in self.definitions:
            return
        self.definitions.add(one)
        for part in parts_of(one):
            for name in free_names(part, one.file.imports, one.is_record):
                self.name(one.file, name)


def parts_of(one):
    """A record is one part. Of a function the signature is one, and so is each equation."""
    if one.is_record:
        return ["\n".join(one.text)]
    parts = []
    for line in one.text:
        if not line.startswith(" "):
            parts.append([])
        parts[-1].append(line)
    return ["\n".join(part) for part in parts]


def free_names(text, imports, is_record=False):
    """The names of a text, but for those that it binds itself and for fields."""
    tokens = [found.group() for found in TOKEN.finditer(text)]
    # What is bound within each bracket that is open, the outermost first; and a record's fields.
    scopes, brackets, fields, names = [set()], [""], None, []
    i = 0
    is_clause = tokens[0] in OPEN
    if not is_record and not is_clause and "=" in tokens and ":" not in tokens[: tokens.index("=")]:
        # An equation: before its = stand the function, constructors and variables.
        i = tokens.index("=") + 1
        scopes[0] = variables(tokens[:i], imports)
        names += [word for word in tokens[:i] if is_constructor(word, imports)]
    while i < len(tokens):
        word, before = tokens[i], tokens[i - 1] if i else ""
        after = tokens[i + 1] if i + 1 < len(tokens) else ""
        if word == "λ":
            end = tokens.index(".", i)
            in_type = False
            for token in tokens[i + 1 : end]:
                if token == ":" or token in CLOSED:
                    in_type = token == ":"
                elif not in_type:
                    scopes[-1].add(token)
                elif WORD.match(token) and not any(token in scope for scope in scopes):
                    names.append(token)
            i = end
        elif word == "let":
            scopes[-1].add(after)
        elif word == "pub" and is_record and i > 0:
            # A field: what the type of the one before bound is bound no more.
            fields = (scopes[0] if fields is None else fields) | {after}
            scopes[0] = set(fields)
        elif word in OPEN:
            scopes[-1] |= binder(tokens, i + 1)
            scopes.append(set())
            brackets.append(word)
        elif word in CLOSED:
            scopes.pop()
            brackets.pop()
        if word in ("[", "|") and brackets[-1] == "[":
            scopes[-1] = alternative(tokens, i + 1, imports)
        elif word == ".":
            # A field, `x .y`, or a constructor, `alias.y`.
            i += 1
        elif WORD.match(word) and not (after == "=" and before in ("{", ";")):
            if not any(word in scope for scope in scopes):
                names.append(word)
        i += 1
    return names


def is_constructor(word, imports):
    return "TheVariants" in imports.get(word, ("", None))[0]


def variables(tokens, imports):
    return {word for word in tokens if WORD.match(word) and not is_constructor(word, imports)}


def binder(tokens, i):
    """The names of `(x y : T)`, whose bracket is before i; none where it is no binder."""
    end = i
    while end < len(tokens) and WORD.match(tokens[end]) and tokens[end] != ":":
        end += 1
    return set(tokens[i:end]) if end < len(tokens) and tokens[end] == ":" else set()


def alternative(tokens, i, imports):
    """The variables of `pattern ↦ ..`, which begins at i."""
    end = next((k for k in range(i, len(tokens)) if tokens[k] in ("↦", "|", "]")), i)
    return variables(tokens[i:end], imports) if end > i and tokens[end] == "↦" else set()


def exported(crate, reach):
    """Follows the contracts of the exported functions; returns how many, and of how many lines."""
    functions = lines_of_contracts = 0
    for path in sorted((CRATES / crate / "src").glob("**/*.rt")):
        text = path.read_text()
        names = {}
        for line in re.findall(r"^ghost use [^;]*;", text, re.MULTILINE):
            read_import(names, " ".join(line.split()))
        used = used_types(path, text)
        for contract in re.findall(CONTRACT, text):
            functions += 1
            lines_of_contracts += contract.count("\n")
            signature, *clauses = re.split(r"\bensures\b", contract)
            for name in re.findall(r"\b[A-Z]\w*", signature):
                reach.types.add((used.get(name, crate), name))
            for clause in clauses:
                # Before its bracket stands its label.
                for name in free_names(clause[clause.index("{") :], names):
                    if name in names:
                        reach.follow(*names[name])
    return functions, lines_of_contracts


def misplaced(files, reach):
    """Of each file what is not reached though it stands outside Inner, or the reverse."""
    for file in files:
        inner = file.module.startswith("Inner")
        ones = [d for d in file.definitions.values() if (d in reach.definitions) == inner]
        if ones:
            whole = len(ones) == len(file.definitions) and not inner
            told = "reached, though in Inner" if inner else "not reached"
            names = ", ".join(d.name for d in ones)
            yield f"{file.path}: {told}: {'the whole file: ' if whole else ''}{names}"


def unnamed(reach):
    """What the last table of the specification, file by file, does not name."""
    named, file = set(), None
    for line in SPECIFICATION.read_text().partition("## Rules and definitions")[2].splitlines():
        if cells := re.match(r"\| *(?:`([^`]*)`)? *\|(.*)", line):
            file = cells.group(1) or file
            named |= {(file, name) for name in re.findall(r"`([^`]*)`", cells.group(2))}
    left = {}
    for one in sorted(reach.definitions, key=lambda one: (one.file.path, one.first)):
        place = f"{one.file.crate}/{one.file.module}"
        if (place, one.name) not in named:
            left.setdefault(place, []).append(one.name)
    for place, names in left.items():
        yield f"{SPECIFICATION}: its table does not name, of {place}: {', '.join(names)}"


def main(crate, only_list):
    programs = {path.parts[1] for path in CRATES.glob("*/src/main.rt")}
    files = [File(path) for path in sorted(CRATES.glob("*/specs/**/*.antt"))]
    files = [file for file in files if file.crate not in programs]
    reach, types = Reach(files), Types()
    functions, contract_lines = exported(crate, reach)
    if functions == 0:
        print(f"crates/{crate}/src exports no function")
        return 1
    declared = sorted(types.reached(reach.types))

    believed = lines = comments = 0
    for file in files:
        ones = [d for d in file.definitions.values() if d in reach.definitions]
        if not ones:
            continue
        count = sum(len(d.text) for d in ones)
        believed += 1
        lines += count
        comments += sum(d.comments for d in ones)
        print(f"{file.path}: {len(ones)} definitions, {count} lines")
        if only_list:
            for d in ones:
                print(f"    line {d.first}: {d.name}, {len(d.text)} lines")
    if only_list:
        for one in declared:
            path, count, _ = types.all[one]
            print(f"{path}: {one[1]}, {count} lines")
    type_lines = sum(types.all[one][1] for one in declared)
    sentence = f"{lines:,} lines of definitions in {believed} files"
    print(f"To believe: {sentence} ({len(reach.definitions)} definitions, {comments} lines of")
    print(f"comments), the {functions} contracts in crates/{crate}/src ({contract_lines} lines),")
    print(f"and the declarations of {len(declared)} types in src/ ({type_lines} lines).")

    wrong = [*misplaced(files, reach), *unnamed(reach)]
    if sentence not in " ".join(README.read_text().split()):
        wrong.append(f"{README} does not say: {sentence}")
    for line in wrong:
        print(line)
    return 1 if wrong and not only_list else 0


if __name__ == "__main__":
    sys.exit(main(sys.argv[1], "--list" in sys.argv[2:]))
