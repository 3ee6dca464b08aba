"""The sources as text: which words of specs/ the clauses of public functions cite, and which names there are."""

import functools
import os
import re

ROOT = os.path.dirname(os.path.dirname(os.path.realpath(__file__)))
TOKEN = re.compile(r"[^\W\d][\w']*|[{}()\[\];:,=#.]|->")
CLAUSES = {"ensures", "requires", "where"}


@functools.lru_cache(maxsize=None)
def text_of(path):
    with open(f"{ROOT}/{path}", encoding="utf-8") as file:
        return file.read()


def files(folder, ending):
    """The files of the folder and those below it, but for what was built, by their names within it."""
    found = {}
    for place, below, names in os.walk(f"{ROOT}/{folder}"):
        below[:] = sorted(name for name in below if name != "out")
        for name in sorted(names):
            if name.endswith(ending):
                path = os.path.relpath(f"{place}/{name}", ROOT)
                found[os.path.relpath(path, folder)[: -len(ending)]] = path
    return found


CRATES = sorted(name for name in os.listdir(f"{ROOT}/crates") if os.path.isdir(f"{ROOT}/crates/{name}/src"))


# ---- which words of specs/ the clauses of public functions cite


def tokens_of(source):
    """The words and brackets of a source, without comments and texts."""
    bare = re.sub(r"//[^\n]*|b?\"(?:\\.|[^\"\\])*\"|b?'(?:\\.|[^'\\])'", " ", source)
    # the dot behind what a `λ` binds is none before a member
    return TOKEN.findall(re.sub(r"\.(?=\s)", " ", bare))


def imports_of(words):
    """What a `ghost use` brings: each name with its crate, its module of specs/ and its word there."""
    path, names = words, []
    if "{" in words:
        place = words.index("{")
        path, names = words[:place], " ".join(words[place + 1 : words.index("}")]).split(",")
    path = [word for word in path if word not in (".", "as")]
    if len(path) < 4 or not path[1] in CRATES or path[2] != "specs" or path[3] in ("contracts", "declared"):
        return {}
    found = {}
    for name in names:
        parts = name.replace(" as ", " ").split()
        if parts:
            found[parts[-1]] = (path[1], "/".join(path[3:]), parts[0])
    return found


class Source:
    """A walk over one source: it gathers what the clauses of its public functions cite."""

    def __init__(self, path, exported):
        self.tokens = tokens_of(text_of(path))
        self.exported = exported
        self.at = 0
        self.cited = set()

    def group(self):
        """The tokens between the bracket here and the one that closes it."""
        depth, start = 0, self.at
        while self.at < len(self.tokens):
            depth += (self.tokens[self.at] in "{([") - (self.tokens[self.at] in "})]")
            self.at += 1
            if depth == 0:
                break
        return self.tokens[start + 1 : self.at - 1]

    def cite(self, words, known):
        before = ""
        for word in words:
            if before != "." and word in known:
                self.cited.add(known[word])
            before = word

    def to(self, *ends):
        """The tokens up to one of these, groups left out."""
        found = []
        while self.at < len(self.tokens) and self.tokens[self.at] not in ends:
            if self.tokens[self.at] in ("(", "["):
                self.group()
                continue
            found.append(self.tokens[self.at])
            self.at += 1
        return found

    def function(self, is_public, known):
        """A function from its name on, up to its end."""
        while self.at < len(self.tokens):
            self.to("{", ";", *CLAUSES)
            if self.at >= len(self.tokens) or self.tokens[self.at] == ";":
                self.at += 1
                return
            if self.tokens[self.at] == "{":
                self.group()
                return
            self.to("{")
            clause = self.group()
            if is_public:
                self.cite(clause, known)

    def ghost(self, is_public, kind, known):
        """A ghost member, or an import, which is added to what is known. Of a model its callers see the value, of a
        trait each member; the other members of an `impl` are proofs."""
        if self.tokens[self.at] == "use":
            start = self.at + 1
            while self.tokens[self.at] != ";":
                self.at += 1
            known.update(imports_of(self.tokens[start : self.at]))
            return
        name = self.tokens[self.at]
        self.to("{", ";")
        if self.at < len(self.tokens) and self.tokens[self.at] == "{":
            member = self.group()
            if is_public and (kind == "trait" or (kind == "model" and name == "Value")):
                self.cite(member, known)

    def block(self, head):
        """An `impl` or a trait."""
        names = [word for word in head if re.match(r"\w", word)]
        if "for" in names:
            # a tuple of types has no name
            owner = next(iter(names[names.index("for") + 1 :]), "")
        else:
            # behind the parameters, as in `impl<S: CkptStore> World<S>`
            owner = next((word for word in names[1:] if word in self.exported), "")
        kind = "trait" if names[0] == "trait" else "model" if "Model" in names else "for" if "for" in names else ""
        return owner in self.exported, kind

    def items(self, known, is_public, kind):
        """The items of a source (where the kind is None), of an `impl` or of a trait."""
        known = dict(known)
        seen_pub = False
        while self.at < len(self.tokens) and self.tokens[self.at] != "}":
            word = self.tokens[self.at]
            self.at += 1
            if word == "ghost":
                self.ghost(is_public, kind, known)
            elif word == "pub":
                seen_pub = self.tokens[self.at] != "("
                continue
            elif word == "fn":
                # A free function is public where the crate hands it on, one of a trait as the trait is.
                seen_pub = self.tokens[self.at] in self.exported if kind is None else seen_pub or kind
                self.function(is_public and seen_pub, known)
            elif word in ("impl", "trait"):
                self.at -= 1
                head = self.to("{")
                self.at += 1
                self.items(known, *self.block(head))
                self.at += 1
            elif word in ("{", "(", "["):
                self.at -= 1
                self.group()
                continue
            elif word not in (";", ","):
                continue
            seen_pub = False

    def read(self):
        self.items({}, True, None)
        return self.cited


def exported_of(crate):
    """The names that a library hands on; of a program, whose users are its tests, those of all its items."""
    sources = files(f"crates/{crate}/src", ".rt")
    if "lib" not in sources:
        whole = "".join(text_of(path) for name, path in sources.items() if not name.startswith("tests"))
        return set(re.findall(r"pub (?:fn|struct|enum|trait) (\w+)", whole))
    found = set()
    for words in re.findall(r"pub use ([^;]+);", text_of(sources["lib"])):
        found |= set(re.findall(r"\w+", words.split("::", 1)[1]))
    for module in re.findall(r"pub mod (\w+);", text_of(sources["lib"])):
        found |= set(re.findall(r"\bpub (?:fn|struct|enum|trait) (\w+)", text_of(sources[module])))
    return found


def cited_words():
    """Each word that a public clause cites, with the sources that do."""
    found = {}
    for crate in CRATES:
        if crate.endswith("_tests"):
            continue
        exported = exported_of(crate)
        for name, path in files(f"crates/{crate}/src", ".rt").items():
            if not name.startswith("tests"):
                for word in Source(path, exported).read():
                    found.setdefault(word, []).append(path)
    return found


# ---- what a word of specs/ stands on

USE = re.compile(r"^\s*(?:pub )?use Rattle\.(\w+)\.specs\.([\w.]+)\.\{([^}]*)\}", re.MULTILINE)
HEAD = re.compile(r" *((?:(?:pub|abbrev|unfoldable|record|data) )+)([^\W\d][\w']*)")
WORD = re.compile(r"[^\W\d][\w']*")


@functools.lru_cache(maxsize=None)
def specs_of(crate, module):
    """A file's imports, the lines of its definitions, and the type of each constructor."""
    path = f"crates/{crate}/specs/{module}.antt"
    if not is_there(path):
        return {}, {}, {}
    imports, lines_of, types = {}, {}, {}
    for other, place, names in USE.findall(text_of(path)):
        for name in names.split(","):
            word, _, alias = name.strip().partition(" as ")
            imports[alias or word] = (other, place.replace(".", "/"), word)
    current = None
    for line in text_of(path).splitlines():
        if not line.strip() or line.lstrip().startswith("--"):
            continue
        head = HEAD.match(line)
        # a line within a record begins so too, and has no word before its name but `pub`
        is_field = line.startswith(" ") and head and head[1] == "pub "
        if head and not is_field:
            current = head[2]
        elif not line.startswith(" "):
            # an equation of the definition above it, or an import
            first = WORD.match(line)
            current = first[0] if first and first[0] in lines_of else None
        if current:
            lines_of.setdefault(current, []).append(line)
            constructor = re.match(r"  (\w+) :", line)
            if constructor and " data " in f" {lines_of[current][0]}":
                types[constructor[1]] = current
    return imports, lines_of, types


def stands_on(*starts):
    """The definitions that these words stand on, themselves included: each with its number of lines."""
    found, left = {}, list(starts)
    while left:
        crate, module, word = left.pop()
        imports, lines_of, types = specs_of(crate, module)
        word = types.get(word, word)
        if word not in lines_of or (crate, module, word) in found:
            continue
        found[crate, module, word] = len(lines_of[word])
        for cited in set(WORD.findall(" ".join(lines_of[word]))):
            left.append(imports.get(cited, (crate, module, cited)))
    return found


# ---- which names there are


def is_there(path):
    return os.path.exists(f"{ROOT}/{path}".rstrip("/"))


def is_defined(word, crate, place):
    """Whether the word is defined in this file of specs/, or is an item or a ghost member of this file of src/."""
    path = f"crates/{crate}/{place}" if place.endswith(".rt") else f"crates/{crate}/specs/{place}.antt"
    if not os.path.exists(f"{ROOT}/{path}"):
        return False
    if place.endswith(".rt"):
        return re.search(rf"\b(struct|enum|trait|ghost) {word}\b", text_of(path)) is not None
    return re.search(rf"^[a-z ]*\bpub ([a-z]+ )?{word}(?![\w'])", text_of(path), re.MULTILINE) is not None


def type_of(crate, module, word):
    """The type of which the word is a constructor, or else the word itself."""
    whole = text_of(f"crates/{crate}/specs/{module}.antt")
    types = re.findall(r"^pub data (\w+)[^\n]*((?:\n  [^\n]*)*)", whole, re.MULTILINE)
    return next((name for name, body in types if re.search(rf"^  {word} :", body, re.MULTILINE)), word)


def edits():
    """The wrong bodies and rules, each with its crate: its file."""
    folders = [(crate, folder) for crate in CRATES for folder in (f"crates/{crate}/must-fail", f"tests/edits/{crate}")]
    return {(crate, name): path for crate, folder in folders for name, path in files(folder, ".edit").items()}


def is_applicable(crate, edit):
    """Whether each text that the edit replaces, one after the other, stands once in the file that it names."""
    path, old, texts = "", "", {}
    for line in text_of(edit).splitlines():
        kind, _, text = line.partition(": ")
        if kind == "file":
            path = f"crates/{crate}/{text.strip()}"
        elif kind == "old":
            old = text
        elif kind == "new" or line == "new:":
            whole = texts.get(path) or (text_of(path) if is_there(path) else "")
            if whole.count(old) != 1:
                return False
            texts[path] = whole.replace(old, text)
    return True


def names_of(crate):
    """The names of a crate's functions, types, clauses, definitions and modules of proofs."""
    found = set()
    for path in files(f"crates/{crate}/src", ".rt").values():
        found |= set(re.findall(r"\b(?:fn|struct|enum|trait|ensures|ghost|const) (\w+)", text_of(path)))
    for path in files(f"crates/{crate}/specs", ".antt").values():
        found |= set(re.findall(r"\bpub (?:record |data )?(\w+)", text_of(path)))
    for folder in ("specs", "proofs"):
        found |= {name.split("/")[-1] for name in files(f"crates/{crate}/{folder}", ".antt")}
    return found


@functools.lru_cache(maxsize=None)
def clauses_of(crate):
    """The names of the clauses of each function."""
    found = {}
    for path in files(f"crates/{crate}/src", ".rt").values():
        called = ""
        for name, clause in re.findall(r"\bfn (\w+)|\bensures (\w+) \{", text_of(path)):
            called = name or called
            found.setdefault(called, set()).add(clause)
    return found


def words_there():
    """All words of the sources, and the names of their files."""
    found = {*CRATES, *os.listdir(f"{ROOT}/tests/crates")}
    for folder in ("crates", "scenarios", "tests/crates", "tests/inside", "tests/edits", "tests/turned"):
        for ending in (".rt", ".rs", ".antt", ".edit", ".scn"):
            for name, path in files(folder, ending).items():
                found.add(name.split("/")[-1])
                found |= set(re.findall(r"[^\W\d]\w*", text_of(path)))
    return found


def functions_of(crate):
    sources = files(f"crates/{crate}/src", ".rt").values()
    return {name for path in sources for name in re.findall(r"fn (\w+)", text_of(path))}
