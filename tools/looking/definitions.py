"""Which definitions the public contracts reach: computes it, and compares docs/DEFINITIONS.md with it.

    tools/look definitions              what differs
    tools/look definitions --write      writes the page's counts and tables anew first, in the order and with the
                                        sentences that stand there
    tools/look definitions NAME ..      shows what the contracts of these functions or types reach (`audit`,
                                        `Book::commit`, `sf_book::Book`)

The page says what is counted. A contract is what a public function requires and ensures. With it go how the types of its
signature are seen (`ghost Value`, `ghost view`), how the types of the fields are seen that such a view reads, private
ones too, and the clauses of the traits there.

The contracts of the first two lists are those that docs/PROOF.md names: in its section on the headline, and for the
program in its table of what is proved, in the rows of the crates below. The third list has what the page leaves out of
both, and what the product as a library says. Of the rest the page only says how many definitions the other contracts
reach, and how many only what types keep (`ghost invariant`).
"""
import re
import sys
import textwrap
from collections import namedtuple

from building.kit import text_of, write
from looking.reach import House

PAGE = "docs/DEFINITIONS.md"
PROVED = "docs/PROOF.md"
HEADLINE, PROGRAM, BESIDE = "The headline", "The program", "Exactness and refusals"
REST = "The rest"
LIBRARY, COMMAND = ("sf_names", "sf_stack", "sf_policy", "sf_audit"), ("sf_evaluate", "sf_command")
LEFT = "The first two lists leave to the third: "
HEAD = ["| what it says | file | definitions | lines |", "|---|---|---|---|"]
TYPES = "Types of the code that these speak of: "

# What the paragraphs of the page begin with that are computed, and how wide they are.
COMPUTED = re.compile(rf"\*\*\d|{TYPES}")
WIDTH = 120

# A list of the page: its title, the line over its rows, these by their files, the line under them, and what
# docs/PROOF.md misnames.
List = namedtuple("List", "title told rows types lost")


def wrapped(text):
    """A paragraph in lines of the page's width."""
    return textwrap.fill(text, WIDTH, break_long_words=False, break_on_hyphens=False)


def is_law(file):
    return file.endswith("Laws.antt")


class Lists(House):
    """The lists of the page."""

    def headline(self):
        """The contracts that PROOF.md's section on the headline names, and the words there that stand for nothing."""
        section = re.search(r"(?ms)^## The headline\n(.*?)^## ", text_of(PROVED))[1]
        words = [word for word in re.findall(r"`([\w:]+)`", section) if "::" in word or word[0].isupper()]
        known = {name for named in self.definitions.files.values() for name in named}
        lost = [word for word in words if not self.found(word) and word not in known]
        return [place for word in words for place in self.found(word)], lost

    def product(self, crates):
        """The contracts that PROOF.md's table of what is proved names for crates, and the words that stand for nothing."""
        table = text_of(PROVED).split("## What is proved, crate by crate")[1]
        rows = {crate: re.search(rf"(?m)^\| `{crate}` \|.*\|(.*)\|$", table)[1] for crate in crates}
        places = [(crate, word) for crate, row in rows.items() for word in re.findall(r"`([^`]+)`", row)]
        there = [(crate, word) for crate, word in places if word in self.crates[crate].contracts]
        return there, [word for crate, word in places if (crate, word) not in there]

    def left(self):
        """The promises that the first two lists leave to the third, and the words there that stand for nothing."""
        paragraph = next((one for one in text_of(PAGE).split("\n\n") if one.startswith(LEFT)), "")
        words = re.findall(r"`([^`]+)`", paragraph)
        known = {name for named in self.definitions.files.values() for name in named}
        return words, [word for word in words if word not in known]

    def lists(self):
        """The lists in their order."""
        every = [(crate, name) for crate in self.crates for name in self.crates[crate].contracts]
        kept = [clause for crate in self.crates.values() for clauses in crate.kept.values() for clause in clauses]
        (headline, lost), (program, also_lost), (library, lost_too), (left, unknown) = (
            self.headline(), self.product(COMMAND), self.product(LIBRARY), self.left())
        order = [(HEADLINE, headline, left, lost), (PROGRAM, program, left, also_lost),
                 (BESIDE, [*headline, *program, *library], [], lost_too + unknown)]
        before = set()
        for title, places, without, lost in order:
            reached = self.definitions.reached(self.clauses(places), without) - before
            told = self.told(reached, before, places if title in (HEADLINE, PROGRAM) else [])
            yield List(title, told, self.definitions.rows(reached, before), self.types(reached, before), lost)
            before |= reached
        calls = self.definitions.reached(self.clauses(every)) - before
        types = self.definitions.reached(kept) - before - calls
        told = f"{self.counted(calls)} are reached by the other public calls, and {self.counted(types)} only by what types keep"
        yield List(REST, wrapped(f"{told}."), {}, "", [])

    @staticmethod
    def counted(reached):
        """How many definitions, and where."""
        lines, files = sum(one.lines for one in reached), len({one.file for one in reached})
        return f"**{len(reached)} definitions, {lines:,} lines in {files} files**"

    @staticmethod
    def told(reached, before, places):
        """The line over a table."""
        comments = sum(one.comments for one in reached)
        besides = f", besides the {sum(one.lines for one in before):,} lines above" if before else ""
        sources = f". Reached from {', '.join(f'`{crate}::{name}`' for crate, name in places)}" if places else ""
        return wrapped(f"{Lists.counted(reached)}, {comments:,} of them comments{besides}{sources}.")

    def types(self, reached, before):
        """The line under a table: the types of the code that come in."""
        new = self.definitions.types(reached) - self.definitions.types(before)
        crates = {crate: sorted(name for other, name in new if other == crate) for crate in self.crates}
        parts = [f"{', '.join(f'`{name}`' for name in names)} of `{crate}`" for crate, names in crates.items() if names]
        return wrapped(f"{TYPES}{'; '.join(parts)}.") if parts else ""


def section_of(page, title):
    """Where a section of the page begins and ends, by lines."""
    at = page.index(f"## {title}")
    return at, next((end for end in range(at + 1, len(page)) if page[end].startswith("## ")), len(page))


def rows_of(lines):
    """The rows of a section by their files: the sentence, and the whole row."""
    rows = (re.fullmatch(r"\| (.*?) ?\| `([\w/]+\.antt)` \|.*\|", line) for line in lines)
    return {row[2]: (row[1], row[0]) for row in rows if row}


def row_of(file, row, sentence):
    return f"| {sentence} | `{file}` | {row.told} | {row.lines} |"


def without_computed(lines):
    """The lines of a section but for its tables and the paragraphs that are computed."""
    paragraphs = "\n".join(lines).split("\n\n")
    return "\n\n".join(one for one in paragraphs if not COMPUTED.match(one) and not one.startswith("|")).split("\n")


def written(page, parts):
    """The page with all counts and tables anew."""
    for part in parts:
        at, end = section_of(page, part.title)
        known = rows_of(page[at:end])
        order = [file for file in known if file in part.rows] + [file for file in part.rows if file not in known]
        rows = [row_of(file, part.rows[file], known.get(file, ("",))[0]) for file in order]
        table = [*(HEAD if rows else []), *rows]
        section = [*without_computed(page[at:end]), "", part.told, "", *table, "", part.types, ""]
        page = [*page[:at], *section, *page[end:]]
    return re.sub(r"\n{3,}", "\n\n", "\n".join(page)).rstrip() + "\n"


def differences(page, part):
    """What there is to say of each thing that is compared in a section: nothing where it is right."""
    at, end = section_of(page, part.title)
    known = rows_of(page[at:end])
    for file in known.keys() - part.rows.keys():
        yield f"{file} is listed, and nothing reaches it first here"
    for file, row in part.rows.items():
        sentence, line = known.get(file, ("", ""))
        if not line:
            yield f"lacks {file}: {row.told}, {row.lines} lines"
        elif line != row_of(file, row, sentence):
            yield f"{file} has {row.lines} lines, {row.told}, where the page says: {line}"
        else:
            yield f"{file} has no sentence" if not sentence else ""
        if is_law(file):
            yield f"{file} is one of laws, and a contract reaches what it defines"
    paragraphs = "\n".join(page[at:end]).split("\n\n")
    for paragraph in filter(None, (part.told, part.types)):
        yield "" if paragraph in map(str.strip, paragraphs) else f"lacks this paragraph: {' '.join(paragraph.splitlines())}"
    for word in part.lost:
        yield f"`{word}` is named there or in {PROVED}, and no crate has it"


def show(house, words):
    """Shows what contracts reach."""
    places = [place for word in words for place in house.found(word)]
    if not all(house.found(word) for word in words):
        sys.exit(f"no crate hands out {', '.join(word for word in words if not house.found(word))}")
    reached = house.definitions.reached(house.clauses(places))
    print(house.told(reached, set(), places))
    for file, row in house.definitions.rows(reached, set()).items():
        print(f"{file}: {row.told}, {row.lines} lines")


def look(words):
    """What differs, and how much doesn't. With --write the page is written first; NAME .. are only shown."""
    house = Lists()
    if words not in ([], ["--write"]):
        show(house, words)
        return None
    lines, parts = text_of(PAGE).splitlines(), list(house.lists())
    if words:
        write(PAGE, written(lines, parts))
        lines = text_of(PAGE).splitlines()
    found = [f"{PAGE}: {part.title}: {one}" if one else "" for part in parts for one in differences(lines, part)]
    failed = [one for one in found if one]
    if not failed and written(lines, parts) != text_of(PAGE):
        failed.append(f"{PAGE}: a row or a count stands there twice, or out of its place: see what --write makes of it")
    return failed, len(found) - len(failed)
