"""Reads the sources of the crates for the scripts beside it, once in a run: crates.txt; specs/ and proofs/, item by item, with
their lines, remarks and imports; code, with its functions, their comments and the clauses of their contracts; the items that a
text cites; and the edits that have to fail. It has what the scripts allow. A script ends by `run`, so that tools/check can call
it too.
"""
import functools
import pathlib
import re
import sys

TOP = pathlib.Path(__file__).resolve().parent.parent
CRATES = TOP / "crates"
NAME = r"[^\s(){}.;,@\"«»\[\]|]+"
WORDS = re.compile(rf"{NAME}(?:\.{NAME})*")
MARKS = r"(?:(?:pattern|unfoldable|abbrev|pub|axiom) )*"
SIGNATURE = re.compile(rf"\s*({MARKS})(?:(record|data|ruleset) ({NAME})|({NAME}) (?:\{{[^}}]*\}} )?:(?= |$))")
OPERATOR = re.compile(r"\s*infix[lr]? .* (\S+)$")
USES = re.compile(rf"(?:pub |unfoldable )*use ([^\s{{]+?)(?:\.\{{([^}}]*)\}}|(?: as ({NAME}))?)$")
GHOST_USES = re.compile(r"ghost use ([\w.\-]+?)(?:\.\{([^}]*)\}|(?: as (\w+))?);")
GHOST_PATHS = re.compile(r"\b(\w+)::((?:specs|proofs)::[\w:]+)")
FUNCTION = re.compile(r"( *)(pub(?:\([^)]*\))? )?(?:(?:const|final|unsafe|extern \"C\") )*fn (\w+)")
CLAUSE = re.compile(r"\s*(requires|ensures)\b")
LABELLED = re.compile(r"\s*(?:requires|ensures)\b[ \t]*(\w*)\s*\{[\s(]*([^\s(){}\[\],;|]+)?")
MEMBER = re.compile(r"    ghost (\w+: |Value = )\{")
DECLARED = re.compile(r"(?m)^pub (?:const )?(?:fn|struct|enum|trait) (\w+)")
TOGETHER = "must-fail-together"
BLOCK = re.compile(r"(pub trait|impl [\w:]+\s+for|impl)\s+(?:&\s*)?(?:mut )?(\w+)")

# What scripts allow, each a tenth above what was there when it was set: one thing more breaks no script, and a habit does.
CAPS = {
    "edits of a crate": 16,
    "edits": 153,
    "definitions by cases on the codec": 16,
    "arms for all other codecs": 22,
    "wide clauses": 68,
    "words of one clause": 166,
    "definitions below a clause": 738,
    "words of README": 1300,
    "words of pages": 48000,
}

# -- The crates and their files --------------------------------------------------------------------------------------


@functools.cache
def crates():
    """The names of all crates, lowest first."""
    return re.findall(r"(?m)^(\w+)(?: \w+)*:", text_of(TOP / "crates.txt"))


def libraries():
    """The crates that have definitions, lowest first."""
    return [crate for crate in crates() if (CRATES / crate / "specs").is_dir()]


@functools.cache
def paths(crate, *folders):
    """The sources in these folders of a crate, `src`, `specs` and `proofs`, in order."""
    return [path for folder in folders for path in sorted((CRATES / crate / folder).rglob("*.rt" if folder == "src" else "*.antt"))]


@functools.cache
def text_of(path):
    return path.read_text()


def lines_of(path):
    return text_of(path).splitlines()


def crate_of(path):
    return path.relative_to(CRATES).parts[0]


def told(path):
    """A path as the scripts print it, from the top of the repository."""
    return str(path).removeprefix(f"{TOP}/")


def depth(line):
    return len(line) - len(line.lstrip())


# -- Definitions and lemmas ------------------------------------------------------------------------------------------


class Item:
    """A definition or a lemma: its lines with the remark above, and the head of the block that it stands in."""

    def __init__(self, name, file, number, said, head):
        self.name, self.file, self.number, self.head, self.lines = name, file, number, head, []
        self.marks, self.kind = "", None
        if said:
            self.read_signature(said)

    def read_signature(self, said):
        self.marks, self.kind = said.groups()[:2]

    @functools.cached_property
    def text(self):
        """What it says, without its remarks."""
        return "\n".join([self.head, *(line.split(" -- ")[0] for line in self.lines if not line.lstrip().startswith("--"))])

    @functools.cached_property
    def statement(self):
        """What stands before the first clause."""
        rows = [line for line in self.lines if not line.lstrip().startswith("--") and not OPERATOR.match(line)] or [""]
        ends = next((row for row in range(1, len(rows)) if depth(rows[row]) <= depth(rows[0])), len(rows))
        return "\n".join([self.head, re.split(" :(?= |$)", rows[0], maxsplit=1)[-1], *rows[1:ends]])

    @functools.cached_property
    def cites(self):
        """The items of this repository that it names."""
        return self.file.cited(self.text)

    def is_goal(self):
        """The checker asks for it: an answer to a goal, or a proof by hand, of a function or that a type goes to other threads."""
        path = self.file.path
        if path.name == "Proof.antt" and self.name == f"{path.parent.name}_spec" or path.parent.name == "TheSendSync":
            return "pub" in self.marks
        return path.name in ("Answers.antt", "Invariants.antt", "Proof.antt") and self.statement.strip().startswith("goal.")

    @functools.cached_property
    def is_lemma(self):
        """Its type is what it says, since it ends in a relation of values and not in a type of values."""
        last = re.sub(r"λ[^.]*\.", "", self.statement).split(" → ")[-1]
        relates = re.search(r"[≡≤<≢⊥]|(?<![^\s(])[a-z]", last) and "Type" not in last
        return bool(relates) and not self.kind and not re.search("abbrev|unfoldable", self.marks)

    def is_of_specs(self):
        return "specs" in self.file.path.parts

    @functools.cached_property
    def meaning(self):
        """What it states or means, with its own variables by number, and the words of this repository by where they stand."""
        text = self.statement if self.is_lemma else self.text.split(self.name, 1)[1]
        text, bound = re.sub(r"\s+", " ", text.replace("{", "(").replace("}", ")")), {self.name: "$self"}
        for names in re.findall(rf"\(((?:{NAME} )+): ", text) + re.findall(r"λ ([^.:()]*)\.", text):
            for name in names.split():
                bound.setdefault(name, f"${len(bound)}")

        def placed(match):
            head, _, rest = match.group(0).partition(".")
            there, name = (None, head) if head in bound else self.file.named(head)
            return (f"{there.file.path}:{name}" if there else bound.get(head, head)) + "." * bool(rest) + rest

        return WORDS.sub(placed, text).strip()

    def where(self):
        return f"{told(self.file.path)}:{self.number}: {self.name}"


class Named:
    """A file that names items: its own, what it imports, and modules."""

    def __init__(self, path):
        self.path, self.items, self.imports, self.modules = path, {}, {}, {}

    def named(self, name):
        """The item of this repository that a name means here, and its own name."""
        return (self.items[name], name) if name in self.items else item_of(*self.imports.get(name, ("", "")))

    @functools.cached_property
    def operators(self):
        """The names that are written around their arguments, with the signs of each."""
        return {name: set(filter(None, name.split("◌"))) for name in [*self.items, *self.imports] if "◌" in name}

    def cited(self, text):
        """The items that a text in this file names."""
        found, words = set(), {"◌>>=◌"} if re.search(r"\bdo\b", text) else set()
        for word in set(WORDS.findall(text)):
            parts = word.split(".")
            words.add(parts[0])
            for cut in range(1, len(parts)):
                path = ".".join(parts[:cut])
                found.add(item_of(self.modules.get(path, path), parts[cut])[0])
        words |= {name for name, signs in self.operators.items() if signs & words}
        return (found | {self.named(word)[0] for word in words}) - {None}


class File(Named):
    """A file of specs/ or proofs/: its items by name and in order, its imports, and the modules that it names or passes on."""

    def __init__(self, path):
        super().__init__(path)
        self.order, self.passed = [], []
        item, blocks, remark = None, [""], []
        for number, line in enumerate(text_of(path).split("\n"), 1):
            said = USES.match(line)
            blocks = blocks[:depth(line) // 2 + 1] if line.strip() else blocks
            if said:
                self.read_use(*said.groups())
            if re.match(rf"\s{{{2 * len(blocks) - 2}}}(module _|(unfoldable |abbrev )*mutual$)", line):
                blocks, item, remark = [*blocks, blocks[-1] + re.sub(r"^\s*module _|where$", "", line)], None, []
            elif said or not line.strip() or re.match(r"(pub )?mod ", line):
                remark = []
            elif line.lstrip().startswith("--") and depth(line) < 2 * len(blocks):
                remark.append(line)
            elif depth(line) >= 2 * len(blocks):
                self.add(item, [line])
            else:
                item = self.head_of(item, number, line, blocks[-1])
                self.add(item, [*remark, line])
                remark = []

    def read_use(self, path, names, other):
        if names is None:
            self.modules[other or path.split(".")[-1]] = path
            self.passed.append(path)
        for name in filter(None, re.split(r",\s*", names or "")):
            self.imports[name.split(" as ")[-1]] = (path, name.split(" as ")[0])

    def head_of(self, item, number, line, block):
        """The item that a line begins, or goes on with by another equation; the one before it where it names none."""
        signs, operator = SIGNATURE.match(line), OPERATOR.match(line)
        name = operator.group(1) if operator else signs and (signs.group(3) or signs.group(4))
        if not name:
            return self.items.get(line.split()[0], item)
        if name not in self.items:
            item = self.items[name] = Item(name, self, number, signs, block)
            self.order.append(item)
        elif signs:
            self.items[name].read_signature(signs)
        return item

    def add(self, item, rows):
        if item:
            item.lines += rows
            for made in re.findall(rf"^\s+(?:pub )?({NAME}) :(?= )", rows[-1]) if item.kind == "data" else []:
                self.items.setdefault(made, item)


file_of = functools.cache(File)


def items(crate, *folders):
    """The items in these folders of a crate, in order."""
    return [item for path in paths(crate, *folders) for item in file_of(path).order]


@functools.cache
def module(name):
    """The file of a module of this repository, also of one that a Lib.antt passes on."""
    parts = name.split(".")
    if len(parts) < 4 or not (CRATES / parts[1]).is_dir():
        return None
    path, library = ((CRATES / parts[1] / rest) for rest in ("/".join(parts[2:]) + ".antt", parts[2] + "/Lib.antt"))
    passed = file_of(library).passed if library.is_file() and not path.is_file() else []
    return file_of(path) if path.is_file() else next((module(other) for other in passed if other.endswith("." + parts[-1])), None)


@functools.cache
def item_of(path, name):
    """The item that a name of a module means, and its own name."""
    file = module(path)
    return file.named(name) if file else (None, name)


# -- Code ------------------------------------------------------------------------------------------------------------


class Clause:
    """A `requires` or an `ensures` of a function, or a ghost member: its line, its rows as they stand, and the comment above."""

    def __init__(self, lines, number):
        self.number, self.rows = number, [lines[number - 1]]
        while self.text.count("{") > self.text.count("}"):
            self.rows.append(lines[number - 1 + len(self.rows)])
        self.remark = above(lines, number)

    @property
    def text(self):
        return " ".join(self.rows)

    @property
    def label(self):
        """Its name, which may be empty."""
        return LABELLED.match(self.text)[1]

    @property
    def first_word(self):
        return LABELLED.match(self.text)[2]


class Function:
    """A function: its line, its comment, its clauses, whether it is `pub`, and the trait or the type that it stands in."""

    def __init__(self, lines, number, head, block):
        self.number, self.name, self.indent, self.is_pub, self.block = number, head[3], head[1], head[2] == "pub ", block
        self.doc, self.clauses = above(lines, number), []


class Block:
    """What functions stand in: whether it is a trait or an impl of one, and the name of the trait or of the impl's type."""

    def __init__(self, head=""):
        while re.search(r"<[^<>]*>", head):
            head = re.sub(r"<[^<>]*>", "", head)
        said = BLOCK.match(head)
        self.is_of_trait, self.about = (said[1] != "impl", said[2]) if said else (False, None)


def above(lines, number):
    """The comment that stands above a line, and above its attributes."""
    first = number - 1
    while first and lines[first - 1].strip().startswith(("//", "#[")):
        first -= 1
    return [line.strip() for line in lines[first:number - 1] if line.strip().startswith("//")]


class Code(Named):
    """A file of code, or an edit of one: what it imports for its contracts, and its functions with their clauses."""

    def __init__(self, path):
        super().__init__(path)
        self.text = text_of(path)
        self.crate = crate_of(path)
        self.uses = []
        for module_path, names, other in GHOST_USES.findall(self.text):
            self.modules[other or module_path.split(".")[-1]] = module_path
            for name in filter(None, map(str.strip, names.split(","))):
                self.uses.append((name.split(" as ")[-1], module_path, name.split(" as ")[0]))
        self.imports = {here: (module_path, name) for here, module_path, name in self.uses}

    @functools.cached_property
    def body(self):
        """What it says besides its imports."""
        return re.sub(r"ghost use [^;]*;", "", self.text)

    def by_path(self):
        """The items that it names by their whole paths, each time that it does."""
        for crate, rest in GHOST_PATHS.findall(self.text):
            parts = [self.crate if crate == "crate" else crate, *rest.split("::")]
            yield item_of(".".join(["Rattle", *parts[:-1]]), parts[-1])[0]

    @functools.cached_property
    def functions(self):
        return self.read[0]

    @property
    def clauses(self):
        return [clause for function in self.functions for clause in function.clauses]

    @property
    def members(self):
        """The ghost members of traits, each with the block that it stands in."""
        return self.read[1]

    @functools.cached_property
    def read(self):
        lines, block, functions, members = self.text.split("\n"), Block(), [], []
        for number, line in enumerate(lines, 1):
            if line.startswith(("impl", "pub trait")):
                block = Block(" ".join(lines[number - 1:number + 3]).split("{")[0])
            elif line.startswith("}"):
                block = Block()
            elif head := FUNCTION.match(line):
                functions.append(Function(lines, number, head, block))
            elif CLAUSE.match(line):
                functions[-1].clauses.append(Clause(lines, number))
            elif block.is_of_trait and MEMBER.match(line):
                members.append((block, Clause(lines, number)))
        return functions, members


code_of = functools.cache(Code)


def code(crate):
    """The files of code of a crate, in order."""
    return [code_of(path) for path in paths(crate, "src")]


# -- What a library shows --------------------------------------------------------------------------------------------


def exported(crate):
    """The names that a crate shows."""
    whole = "\n".join(file.text for file in code(crate))
    shown = {"lib"} | set(re.findall(r"(?m)^pub mod (\w+);", whole))
    names = set(re.findall(r"\w+", " ".join(re.findall(r"(?m)^pub use ([^;]*);", whole))))
    for file in code(crate):
        if shown.issuperset(file.path.relative_to(CRATES / crate / "src").with_suffix("").parts):
            names.update(DECLARED.findall(file.text))
    return names


def public_clauses(crate):
    """Each clause of what a library shows, with its file: of functions that are `pub`, of traits and of impls of these."""
    names = exported(crate)
    for file in code(crate):
        public = [it for it in file.functions if (it.block.about or it.name) in names and (it.block.is_of_trait or it.is_pub)]
        yield from ((file, clause) for function in public for clause in function.clauses)
        yield from ((file, member) for block, member in file.members if block.about in names)


@functools.cache
def rests_on(item):
    """The definitions that one rests on, itself among them: what it cites, what that cites, and so on, but for lemmas."""
    found, waiting = set(), {item}
    while waiting:
        one = waiting.pop()
        if one not in found and one.is_of_specs() and not one.is_lemma:
            found.add(one)
            waiting |= one.cites
    return found


# -- Edits that have to fail -----------------------------------------------------------------------------------------


class Edit:
    """An edit of a crate: pairs of an old and a new text, each for a file; and, where it is tried together with others, the goal
    that the prover has to leave open."""

    def __init__(self, path):
        self.path, self.name, self.folder = path, path.stem, path.parent.parent
        self.is_together, self.pairs, self.goal = path.parent.name == TOGETHER, [], None
        file, old = "", ""
        for line in path.read_text().split("\n"):
            word, _, rest = line.partition(":")
            rest = rest.removeprefix(" ")
            if word == "file":
                file = rest.strip()
            elif word == "old":
                old = rest
            elif word == "new":
                self.pairs.append((file, old, rest))
            elif word == "goal":
                self.goal = rest.strip()

    def applied(self, texts):
        """The files' texts with this edit, over those of others, and the first old text that doesn't stand once there."""
        texts = dict(texts)
        for file, old, new in self.pairs:
            path = self.folder / file
            text = texts.get(file) or (text_of(path) if path.is_file() else "")
            if not old or text.count(old) != 1:
                return texts, f"{text.count(old) if old else 0} times in {file or 'no file'}: {old}"
            texts[file] = text.replace(old, new)
        return texts, None


@functools.cache
def edits(crate):
    """The edits of a crate: those that rt ci tries one by one, and those that are tried together."""
    return [Edit(path) for folder in ("must-fail", TOGETHER) for path in sorted((CRATES / crate / folder).glob("*.edit"))]


# -- The run of a script ---------------------------------------------------------------------------------------------


def tell(lines):
    """Prints what a script found; its status is 1 where that is anything."""
    text = "".join(f"{line}\n" for line in lines)
    print(text, end="")
    return 1 if text else 0


def run(main, page):
    """Ends a script with the status that its main answers, by the words behind its name; `--help` prints its page."""
    words = sys.argv[1:]
    sys.exit(page if "--help" in words else main(words))
