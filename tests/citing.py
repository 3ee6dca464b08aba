"""Who relies on a file: the line `Cited by ..` in the head of each source, specification and file of lemmas.

A file of specs/ or proofs/ is cited by who imports a word of it, also where another file passes the word on. A source
is cited by who imports an item of it, or calls a method that it defines and may know it by crates.txt: of a type which
the caller names, or of a name that no other type has a method of, in std neither. Named are files of the same crate,
the functions whose proofs cite it, and other crates. Roots, answers and invariants have no such line: the heads of
roots name crates, and an answer is for the function that its path names. Where that function stands in another source
than the path says, the answers begin with a line of their own, `Of ..`.
"""

import collections
import functools
import os
import re
import textwrap

from sources import CRATES, ROOT, files, text_of

# Names of one crate in a line; of more the rest is counted.
MOST = 24
WIDTH = {".rt": 120, ".antt": 120}
ROOTS = ("lib", "main")
BESIDE = ("Lib", "Shared")
OF_A_FUNCTION = ("Answers", "Invariants")
IMPORT = re.compile(r"\b(pub )?use (Rattle\.[\w.+-]+?)(?:\.\{([^}]*)\}| as \w+)")
INLINE = re.compile(r"\bRattle\.(\w+\.(?:specs|proofs)(?:\.\w+)*)\.([\w-]+)")
USING = re.compile(r"\bcrate::proofs::((?:\w+::)*\w+)::([\w'-]+)")
CODE = re.compile(r"^(pub )?use ([\w:]+?)(?:::\{([^}]*)\}|::(\w+))?;", re.MULTILINE)
# Names of methods that types of std or of the kit have too.
COMMON = set(
    "act add again allocator append as_bytes as_slice ask begin bind change check close confirm connect copy count "
    "discard drop empty end eq first flush fmt from from_parts front get group hash index into_inner into_parts "
    "into_store is_empty keep kind left len lines load mark matches mode new next of open over parent parse place "
    "place_of pop prepare print push push_reserved put put_both read read_line refuse refused remove repeat reserve "
    "settle short sleep step take then to_vec update values wait write".split()
)
OF_LINE = re.compile(r"^-- Of `.*\n", re.MULTILINE)
CITED_LINE = re.compile(r"^(?://!|--) Cited by .*\n(?:(?://!|--)   .*\n)*", re.MULTILINE)


def names_in(text):
    return [name.split(" as ")[0].strip() for name in text.split(",") if name.strip()]


@functools.lru_cache(maxsize=None)
def all_files():
    """Each .rt and .antt file of the crates: path -> (crate, folder, module)."""
    found = {}
    for crate in CRATES:
        for folder, ending in (("src", ".rt"), ("specs", ".antt"), ("proofs", ".antt")):
            for name, path in files(f"crates/{crate}/{folder}", ending).items():
                found[path] = (crate, folder, name.replace("/", "."))
    return found


def label(path, crate):
    """How a file is named to another one of this crate; for a file of another crate, that crate."""
    other, folder, module = all_files()[path]
    if other != crate:
        return other
    parts = module.split(".")
    if folder == "proofs" and len(parts) > 1 and parts[-1] in OF_A_FUNCTION:
        # a method by its type, another function by its source
        *above, of, function = [part.lstrip("+") for part in ["", *parts[:-1]]]
        return f"`{of}::{function}`" if of else f"`{function}`"
    if folder == "src":
        return f"{'/'.join(parts)}.rt"
    return ("specs/" if folder == "specs" else "") + "/".join(parts)


# ---- words of specs/ and proofs/


def imports_of(path):
    """The words that a file imports, each as (passed on, module, word)."""
    text = text_of(path)
    crate = all_files()[path][0]
    for passed, module, names in IMPORT.findall(text):
        if names:
            yield from ((bool(passed), module[7:], name) for name in names_in(names))
        else:
            yield bool(passed), module[7:], ""
    bare = IMPORT.sub("", text)
    yield from ((False, module, name) for module, name in INLINE.findall(bare))
    yield from ((False, f"{crate}.proofs.{module.replace('::', '.')}", name) for module, name in USING.findall(text))


@functools.lru_cache(maxsize=None)
def cited_modules():
    """Each module of specs/ and proofs/ with the files that cite it."""
    of_file = {path: list(imports_of(path)) for path in all_files()}
    module_of = {path: ".".join(place) for path, place in all_files().items()}
    passed = {}
    for path, words in of_file.items():
        passed.update({(module_of[path], name): (module, name) for on, module, name in words if on})
    found = collections.defaultdict(set)
    for path, words in of_file.items():
        for on, module, name in words:
            while (module, name) in passed:
                module, name = passed[module, name]
            if not on and module != module_of[path]:
                found[module].add(path)
    return found


# ---- items of sources


@functools.lru_cache(maxsize=None)
def handed_on():
    """What the root of each crate hands on: (crate, item) -> (crate, module)."""
    found = {}
    for crate in CRATES:
        roots = files(f"crates/{crate}/src", ".rt")
        for public, place, names, name in CODE.findall(text_of(roots.get("lib", roots.get("main")))):
            if public:
                first = place.split("::")[0]
                for item in names_in(names or name):
                    found[crate, item] = (first, None) if first in CRATES else (crate, place.replace("::", "."))
    return found


def origin(crate, item):
    while (crate, item) in handed_on():
        home, module = handed_on()[crate, item]
        if module:
            return home, module
        crate = home
    return crate, None


IMPL = re.compile(r"^(?:pub )?(?:impl|trait)\b(?:<.*?>)?\s*(?:(\w+)(?:<.*?>)? for )?(\w+)")
# traits of std and of the kit, whose calls say nothing of who relies on a file
FOREIGN = {"Model", "From", "Display", "Drop", "Error", "Clone", "Copy", "Debug", "PartialEq", "Eq", "Hash", "Write"}


@functools.lru_cache(maxsize=None)
def methods_of(path):
    """The functions of a source, each with the type that it belongs to, or "", and the traits of this repository that
    the source meets."""
    owner, found, traits = "", set(), set()
    private = set(re.findall(r"^trait (\w+)", text_of(path), re.MULTILINE))
    for line in text_of(path).splitlines():
        if head := IMPL.match(line):
            owner = head[2]
            if head[1] and head[1] not in FOREIGN | private:
                traits.add(head[1])
                owner = ""
                continue
        elif line.startswith("}"):
            owner = ""
        if function := re.match(r"\s*(?:pub(?:\(crate\))? )?(?:const )?fn (\w+)", line):
            found.add((owner if line.startswith(" ") else "", function[1]))
    return found, traits


@functools.lru_cache(maxsize=None)
def types_with(name):
    """How many types have a method of this name."""
    sources = [path for path, place in all_files().items() if place[1] == "src"]
    return sum(1 for path in sources for owner, other in methods_of(path)[0] if owner and other == name)


@functools.lru_cache(maxsize=None)
def below(crate):
    """The crates that may be known in this one: itself, and those that it stands on."""
    with open(f"{ROOT}/crates.txt", encoding="ascii") as listed:
        return {crate, *(name for line in listed if line.startswith(f"{crate}:") for name in line.split()[1:])}


def calls(text, owner, name):
    """Whether a text calls the method of this type: by both names, or by the method's where the type is named too or no
    other type has a method of that name, those of std among them."""
    if f"{owner}::{name}(" in text or f"{owner}::{name}," in text:
        return True
    if not re.search(rf"\.{name}\(", text):
        return False
    is_alone = types_with(name) == 1 and name not in COMMON
    return is_alone or bool(re.search(rf"\b{owner}\b", text))


@functools.lru_cache(maxsize=None)
def cited_sources():
    """Each source with the sources that use it."""
    sources = [path for path, (_, folder, module) in all_files().items() if folder == "src" and module not in ROOTS]
    path_of = {all_files()[path][::2]: path for path in sources}
    bare = {path: re.sub(r"//.*", "", text_of(path)) for path in sources}
    found = collections.defaultdict(set)
    for path in sources:
        crate = all_files()[path][0]
        for _, place, names, name in CODE.findall(text_of(path)):
            first, *rest = place.split("::")
            for item in names_in(names or name):
                home = (crate if first == "crate" else first, ".".join(rest)) if rest else origin(first, item)
                if home in path_of and path_of[home] != path:
                    found[path_of[home]].add(path)
    for path in sources:
        crate = all_files()[path][0]
        others = [other for other in sources if other != path and crate in below(all_files()[other][0])]
        for owner, name in methods_of(path)[0]:
            if owner:
                found[path] |= {other for other in others if calls(bare[other], owner, name)}
    return found


# ---- answers under another source than their function's


def place_of(path):
    """The source that the path of an answer names, and the type and name of its function."""
    crate, folder, module = all_files()[path]
    *parts, last = module.split(".")
    if folder != "proofs" or last not in OF_A_FUNCTION or not parts:
        return None
    name = parts.pop().lstrip("+")
    owner = parts.pop() if parts and parts[-1].lstrip("+")[:1].isupper() else ""
    return f"crates/{crate}/src/{'/'.join(part.lstrip('+') for part in parts)}.rt", owner.lstrip("+"), name


@functools.lru_cache(maxsize=None)
def homes(crate):
    """The sources of each function of the crate, by its type and name."""
    found = collections.defaultdict(list)
    for path, (of, folder, module) in all_files().items():
        if of == crate and folder == "src":
            for function in methods_of(path)[0]:
                found[function].append(path)
    return found


def of_line(path):
    """The line for answers whose function does not stand where their path says; else nothing."""
    place = place_of(path)
    if not place:
        return ""
    source, owner, name = place
    found = homes(all_files()[path][0])[owner, name]
    if len(found) != 1 or found[0] == source:
        return ""
    called = f"{owner}::{name}" if owner else name
    return f"-- Of `{called}` in src/{os.path.basename(found[0])}.\n"


# ---- the line


def has_line(path):
    crate, folder, module = all_files()[path]
    *above, last = module.split(".")
    if folder == "src":
        return module not in ROOTS and not module.startswith("tests")
    return last not in BESIDE and last[0].isupper() and not (above and last in OF_A_FUNCTION)


def users_of(path):
    """Who relies on the file: files and functions of its crate, other crates, and the traits by which it is called."""
    crate, folder, module = all_files()[path]
    users = cited_sources()[path] if folder == "src" else cited_modules()[f"{crate}.{folder}.{module}"]
    labels = {label(user, crate) for user in users}
    others = [name for name in CRATES if name in labels and name != crate]
    own = sorted(labels - set(others), key=lambda name: (name.startswith("`"), name))
    traits = sorted(methods_of(path)[1]) if folder == "src" else []
    return own, others, traits


def line_of(path, is_named=False):
    """The line that belongs into the head of the file, with its line feed. It does not name other crates, so that a
    crate that comes changes no file below it."""
    own, others, traits = users_of(path)
    named = ", ".join(own[:MOST]) + (f" and {len(own) - MOST} more" if len(own) > MOST else "")
    outside = (", ".join(others) if is_named else "other crates") if others else ""
    by_trait = f"whoever calls the trait {' or '.join(f'`{name}`' for name in traits)}" if traits else ""
    who = "; ".join(part for part in (named, outside, by_trait) if part) or "no other file of crates/"
    mark = "//!" if path.endswith(".rt") else "--"
    ending = "." + path.rsplit(".", 1)[1]
    width = WIDTH[ending] - len(mark) - 3
    lines = textwrap.wrap(f"Cited by {who}.", width, break_long_words=False, break_on_hyphens=False)
    return "".join(f"{mark} {'  ' if k else ''}{text}\n" for k, text in enumerate(lines))


def with_line(path):
    """The file's text with this line at the end of its head."""
    if not has_line(path):
        return of_line(path) + OF_LINE.sub("", text_of(path), count=1)
    text = CITED_LINE.sub("", text_of(path), count=1)
    mark = "//!" if path.endswith(".rt") else "--"
    head = re.match(rf"(?:{re.escape(mark)}.*\n)*", text)[0]
    return head + line_of(path) + text[len(head) :]


def wrong_lines():
    """The files whose line is not as it must be."""
    lost = [path for path in all_files() if with_line(path) != text_of(path)]
    wrong = "its line `Cited by` or `Of` is not as `tests/cited` prints it: `tests/cited --write`"
    return [f"{path}: {wrong}" for path in lost]


def write():
    """Puts the line into each file that has none or another."""
    for path in all_files():
        new = with_line(path)
        if new != text_of(path):
            with open(f"{ROOT}/{path}", "w", encoding="utf-8") as file:
                file.write(new)
