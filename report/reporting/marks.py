"""Texts in Markdown in which nothing of a stranger's works: no mark, no HTML, no link."""
import re

from showing import visible

# The most characters that are shown of a name, and of a longer text.
LONGEST_NAME = 80
LONGEST_TEXT = 200

# What has no meaning in Markdown, and makes no link of itself.
HARMLESS = re.compile(r"[A-Za-z](?:[A-Za-z ,'()-]*[A-Za-z)])?")


def cut(text, longest):
    """The beginning of a text, where it is too long."""
    return text if len(text) <= longest else f"{text[:longest]}..."


def code(text, longest=LONGEST_NAME):
    """A text as code: between more backticks than there are in it, so that it is shown as it is."""
    shown = cut(visible(text), longest) or "(empty)"
    ticks = "`" * (max((len(run) for run in re.findall("`+", shown)), default=0) + 1)
    space = " " if shown[0] in "` " or shown[-1] in "` " else ""
    return f"{ticks}{space}{shown}{space}{ticks}"


def in_table(text):
    """A text in Markdown for a cell of a table, in which a bar would begin the next cell."""
    return text.replace("|", "\\|")


def plain_or_code(text):
    """A title as it is, where it is of words only, and else as code."""
    return text if len(text) <= LONGEST_NAME and HARMLESS.fullmatch(text) else code(text)


def listed(texts, most):
    """The first of some texts as code, and how many more there are."""
    shown = ", ".join(code(text) for text in texts[:most])
    return shown if len(texts) <= most else f"{shown} and {len(texts) - most} more"
