"""The pages as text: their tables, their headings, their code, and what stands in quotation marks."""

import os
import re

from sources import ROOT, text_of

QUOTED = re.compile(r"`([^`]+)`")
# between two cells of a table, not within a quotation
BAR = re.compile(r"\|(?=(?:[^`]*`[^`]*`)*[^`]*$)")
FENCED = re.compile(r"^[ ]*```[^\n]*\n(.*?)^[ ]*```$", re.MULTILINE | re.DOTALL)


def pages():
    return ["README.md", *(f"docs/{name}" for name in sorted(os.listdir(f"{ROOT}/docs")) if name.endswith(".md"))]


def cells_of(line):
    """The cells of a line of a table."""
    return [cell.strip() for cell in BAR.split(line.strip()[1:-1])]


def rows_of(page):
    """The rows of a page's tables, each with the heading above it and its cells."""
    heading = ""
    for line in text_of(page).splitlines():
        if line.startswith("#"):
            heading = line
        if line.startswith("|") and not line.startswith("|--"):
            yield heading, cells_of(line)


def fenced_of(page):
    """The fenced blocks of a page, each as one text."""
    return FENCED.findall(text_of(page))


def prose_of(page):
    """The page without its fenced blocks."""
    return FENCED.sub("", text_of(page))


def code_of(page):
    """The lines of a page's code: fenced, or behind four spaces."""
    is_fenced = False
    for line in text_of(page).splitlines():
        if line.lstrip().startswith("```"):
            is_fenced = not is_fenced
        elif is_fenced or line.startswith("    "):
            yield line.strip()


def anchors_of(page):
    """What a link can name within a page."""
    heads = re.findall(r"^#+ (.*)$", prose_of(page), re.MULTILINE)
    return {re.sub(r"[^\w\- ]", "", head.lower()).replace(" ", "-") for head in heads}


def quoted_in(page):
    """What stands in quotation marks, fenced blocks left out."""
    return sorted(set(QUOTED.findall(prose_of(page))))
