"""Texts of strangers, as the tools for users show them: fit for a terminal."""
import argparse

SHORT = {"\n": "\\n", "\r": "\\r", "\t": "\\t"}


def visible(text):
    """A text in which each character that can't be seen is written as its number: so all are on one line, and none has
    a meaning for a terminal."""
    text = str(text)
    if text.isprintable():
        return text
    return "".join(it if it.isprintable() else SHORT.get(it) or numbered(it) for it in text)


def numbered(character):
    return f"\\u{ord(character):04x}" if ord(character) <= 0xFFFF else f"\\U{ord(character):08x}"


def say(text, file=None):
    """Prints a line, to standard output if no other file is given."""
    print(visible(text), file=file)


class Parser(argparse.ArgumentParser):
    """Reads a command line. What it says of a word that doesn't fit is fit for a terminal."""

    def error(self, message):
        super().error(visible(message))
