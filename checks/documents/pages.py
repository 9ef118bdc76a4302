"""The texts of documents and of comments: paragraphs, items of lists, cells of tables."""
import re
from typing import NamedTuple

ITEM = re.compile(r"^ *(?:[-*]|\d+\.) ")
# The comments of sources that are read.
MARKS = {".rt": r"///|//!", ".antt": "--"}


class Text(NamedTuple):
    """A paragraph, an item or a cell: its first line, its words, and whether it has sentences."""

    line: int
    words: str
    is_prose: bool


def without_code(text):
    """A document without its blocks of code, which leave empty lines."""
    return re.sub(r"^```.*?^```|<!--.*?-->", lambda it: "\n" * it[0].count("\n"), text, flags=re.S | re.M)


def rows(text):
    """The rows of a document's tables: the number of the line, the cells, and those of the table's head."""
    lines, head = without_code(text).split("\n"), []
    for number, line in enumerate(lines, 1):
        cells = [cell.strip() for cell in line.strip().strip("|").split(" | ")]
        if lines[number:] and lines[number].startswith("|---"):
            head = cells
        yield number, line, cells, head


def texts(text):
    """The paragraphs, items and cells of a document, without blocks of code."""
    block, first = [], 0
    for number, line in enumerate([*without_code(text).split("\n"), ""], 1):
        is_text = line.strip() and not line.startswith(("    ", "#", "|", "<"))
        if block and (not is_text or ITEM.match(line)):
            yield Text(first, " ".join(block), True)
            block = []
        if is_text:
            first = first if block else number
            block.append(ITEM.sub("", line).strip())
        elif line.startswith("|"):
            yield from (Text(number, it.strip(), False) for it in line.strip("|").split(" | ") if it.strip(" -|"))


def comments(text, marks):
    """The comments of a source that begin with one of these marks, each paragraph by itself."""
    block, first = [], 0
    for number, line in enumerate([*text.split("\n"), ""], 1):
        found = re.match(rf" *(?:{marks})(?: (.*))?$", line)
        said = (found[1] or "").strip() if found else ""
        # (a row of a file's table begins with names, behind which are blanks)
        if block and (not said or "   " in said or said.startswith(("- ", "|", "#"))):
            yield Text(first, " ".join(block), True)
            block = []
        if said and "   " not in said and not said.startswith("----"):
            first = first if block else number
            block.append(said.removeprefix("- "))


def plain(words):
    """A text without its code, addresses of links and marks of emphasis."""
    words = re.sub(r"!?\[([^\]]*)\]\([^)]*\)", r"\1", re.sub(r"`[^`]*`", "`code`", words))
    return re.sub(r"(?<![\w*])\*(\S+?)\*(?![\w*])", "`code`", words).replace("**", "")


def sentences(words):
    """The sentences of a paragraph. A list after a colon counts as one sentence with the text before it."""
    return [it for it in re.split(r"(?<=[.!?])[\")]?\s+(?=[A-Z0-9`(\"])", words) if re.search(r"\w", it)]
