"""How long sentences are, and how many words a page has: what makes a text slow to read, as far as it can be counted.

A text in backquotes counts as one word of a sentence, a link as the words that it shows. Code, headings, pictures and
quotations (`> `, as the theorem's one sentence) are left out. A table's cell, an item of a list and a paragraph each
end a sentence.
"""

import re

from pages import cells_of

# Words of a sentence at most, and fewer than so many of a page's sentences in the mean.
LONGEST = 40
MEAN = 18
# a cell or an item of so few words is no sentence
SHORT = 4
# what a page shows as a picture, or does not show
UNSEEN = re.compile(r"<!--.*?-->|<svg\b.*?</svg>|!\[[^\]]*\]\([^)]*\)", re.DOTALL)
ITEM = re.compile(r"\s*([-*]|\d+\.) ")


def without_unseen(text):
    """The page without its pictures and the comments of HTML, with as many lines."""
    return UNSEEN.sub(lambda found: "\n" * found[0].count("\n"), text)


def texts_of_page(text):
    """The paragraphs, items and cells of a page, each as one text."""
    part, is_fenced = [], False
    for line in [*without_unseen(text).splitlines(), ""]:
        bare = line.lstrip()
        is_fence = bare.startswith("```")
        is_fenced ^= is_fence
        is_row = bare.startswith("|")
        is_apart = is_fenced or is_fence or is_row or not bare or line.startswith(("#", "    ", "<", ">"))
        if (is_apart or ITEM.match(line)) and part:
            yield " ".join(part)
            part = []
        if is_row and not is_fenced:
            yield from ([] if bare.startswith("|--") else cells_of(line))
        elif not is_apart:
            part.append(re.sub(r"^\s*([-*]|\d+\.) ", "", line).strip())


def texts_of_source(text, mark):
    """The comments of a source: lines one below the other are one text; an empty one, or an item, begins another."""
    part = []
    for line in [*text.splitlines(), ""]:
        found = re.match(rf"\s*{mark}( ?)(.*)$", line)
        said = found[2] if found else ""
        is_said = bool(said.strip()) and not said.startswith(("    ", "|", "#", "--"))
        if part and (not is_said or ITEM.match(said)):
            yield " ".join(part)
            part = []
        if is_said:
            part.append(re.sub(r"^([-*]|\d+\.) ", "", said.strip()))


def texts_of(path, text):
    """The texts of a page, of a source, or of the first comment of a file of definitions."""
    if path.endswith(".antt"):
        lines = text.splitlines()
        first = next((at for at, line in enumerate(lines) if not line.startswith("--")), len(lines))
        return texts_of_source("\n".join(lines[:first]), "--")
    return texts_of_source(text, "//[/!]?") if path.endswith((".rt", ".rs")) else texts_of_page(text)


def sentences_of(text):
    """The sentences of a text, each as its words."""
    bare = re.sub(r"`[^`]*`", "CODE", text)
    bare = re.sub(r"\[([^\]]*)\]\([^)]*\)", r"\1", bare)
    for sentence in re.split(r"(?<=[.?!:])[*_)\"]*\s+(?=[A-Z\"(*])", bare):
        words = [word for word in sentence.split() if re.search(r"\w", word)]
        if words:
            yield words


def judged(path, text):
    """How many sentences a file has, their mean length, and what is wrong with them."""
    lengths, wrongs = [], []
    for part in texts_of(path, text):
        for words in sentences_of(part):
            if len(words) > SHORT:
                lengths.append(len(words))
            if len(words) > LONGEST:
                wrongs.append(f"{len(words)} words: {' '.join(words[:14])} ..")
    mean = sum(lengths) / len(lengths) if lengths else 0
    if path.endswith(".md") and mean >= MEAN:
        wrongs.append(f"{mean:.1f} words a sentence in the mean")
    return len(lengths), mean, wrongs


def words_of_page(text):
    """How many words a page shows: those of headings, paragraphs, items and cells; code in lines of its own, pictures,
    comments and the targets of links are left out."""
    found, is_fenced = 0, False
    for line in without_unseen(text).splitlines():
        is_fence = line.lstrip().startswith("```")
        is_fenced ^= is_fence
        if is_fenced or is_fence or line.startswith("    "):
            continue
        bare = re.sub(r"\[([^\]]*)\]\([^)]*\)", r"\1", re.sub(r"</?\w+[^>]*>", " ", line))
        found += sum(bool(re.search(r"\w", word)) for word in bare.replace("|", " ").split())
    return found
