"""How documents and comments read: terms and lengths (docs/WORDS.md), the path from page to page, the glossary."""
import functools
import re

from clones import documents
from pages import MARKS, comments, plain, sentences, texts
from sources import CRATES, ROOT

SHEET, GLOSSARY = ROOT / "docs" / "WORDS.md", ROOT / "docs" / "GLOSSARY.md"
MOST_WORDS, MOST_IN_SENTENCE, MEAN = 120, 35, 20
# The entries of the sheet that only a reader can find, and the texts in which a term is allowed.
FOR_READERS = ("Not", "wrong body, edit", "with it, of it, there", "a front, a beginning", "behind, behind one another")
ALLOWED = ("at a written answer", "Not tried")


@functools.cache
def terms():
    """A pattern of the phrases in the sheet's left columns, without those that have a place for a word."""
    rows = re.findall(r"^\| (.+?) \| .+? \| (.+?) \| .+? \|$", SHEET.read_text(encoding="utf-8"), re.M)
    entries = [it for row in rows for it in row if it not in FOR_READERS and not re.search(r"\(|\b[A-Z]\b|\d|^-", it)]
    return re.compile(rf"(?<![\w.-])(?:{'|'.join(entries).replace(', ', '|')})(?![\w-])", re.I)


def length(words):
    return len([it for it in words.split() if re.search(r"[\w`]", it)])


def unlike_sheet(name, found, is_document):
    """The terms that the sheet replaces, and sentences and paragraphs that are too long."""
    lengths = []
    for text in found:
        words = plain(text.words)
        for hit in terms().finditer(words):
            around = words[max(0, hit.start() - 30) : hit.end() + 30]
            if not any(it.lower() in around.lower() for it in ALLOWED):
                yield f"{name}:{text.line}: not '{hit[0]}': {around}"
        counted = [(length(it), it) for it in sentences(words) if text.is_prose]
        lengths += [number for number, _ in counted]
        for number, said in counted:
            if number > MOST_IN_SENTENCE:
                yield f"{name}:{text.line}: a sentence of {number} words: {said[:60]}"
        if is_document and len(text.words.split()) > MOST_WORDS:
            yield f"{name}:{text.line}: {len(text.words.split())} words, and {MOST_WORDS} are the most"
    if is_document and sum(lengths) > MEAN * len(lengths):
        yield f"{name}: {sum(lengths) / len(lengths):.1f} words a sentence on average"


def all_texts():
    """Each document with its texts, and each source and file of definitions with its comments."""
    for path in documents(ROOT):
        if path != SHEET:
            yield path, texts(path.read_text(encoding="utf-8"))
    for part, suffix in (("src", ".rt"), ("specs", ".antt")):
        for path in sorted(CRATES.glob(f"*/{part}/**/*{suffix}")):
            yield path, comments(path.read_text(encoding="utf-8"), MARKS[suffix])


def broken_path():
    """The pages of README's path that don't end with the link of the next."""
    part = (ROOT / "README.md").read_text(encoding="utf-8").partition("## The path")[2].partition("\n## ")[0]
    links = {int(number): target for number, target in re.findall(r"(?:^|\s)(\d+)\. \[[^\]]*\]\(([^)]+)\)", part)}
    pages = {1: ROOT / "README.md", **{number: ROOT / target for number, target in links.items()}}
    if sorted(pages) != list(range(1, len(pages) + 1)) or len(pages) < 2:
        yield "README.md: the path's numbers are not 1, 2 and so on"
    for number, path in sorted(pages.items()):
        last = path.read_text(encoding="utf-8").rstrip().rsplit("\n", 1)[-1]
        found = re.fullmatch(r"Next: (\d+)\. \[[^\]]*\]\(([^)]+)\)", last)
        named = found and (int(found[1]), (path.parent / found[2]).resolve())
        if named != ((number + 1, pages[number + 1]) if number + 1 in pages else None):
            yield f"{path.relative_to(ROOT)}: its last line is not the next page of the path"


def unlinked():
    """The words of the glossary that no page links."""
    linked = {it for path in documents(ROOT) for it in re.findall(r"GLOSSARY\.md#([\w-]+)", path.read_text())}
    words = re.findall(r'<a id="([^"]+)">', GLOSSARY.read_text(encoding="utf-8"))
    yield from (f"docs/GLOSSARY.md: no page links {word}" for word in words if word not in linked)


def hidden():
    """The commands of documents that send what `rt` says while it waits or proves to a file."""
    for path in documents(ROOT):
        for number, line in enumerate(path.read_text(encoding="utf-8").split("\n"), 1):
            if re.search(r"^(?:    )?\$ .*\brt \w+[^|;]*(?:2|&)>(?!&1)", line):
                yield f"{path.relative_to(ROOT)}:{number}: the command hides that rt waits, or what it proves"


def faults():
    for path, found in all_texts():
        yield from unlike_sheet(path.relative_to(ROOT), found, path.suffix == ".md")
    yield from (*broken_path(), *unlinked(), *hidden())
