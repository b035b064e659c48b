"""Reads Rattle, as far as the looks need it: the items of a source file with their clauses, and what a crate hands out;
the definitions and lemmas of a file of proofs, and what it imports; and what an edit replaces."""
import re
from collections import namedtuple

# A word of a contract, and the name of a definition or a lemma.
WORD = r"[A-Za-z_][\w-]*"
NAME = r"[A-Za-z_][\w'≡≤<-]*"

ITEM = re.compile(r"(?m)^ *(pub(?:\([a-z]+\))? )?(?:const |unsafe )*\b(fn|struct|enum|trait|impl)\b")
PART = re.compile(r"[({\[;]|\brequires\b|\bensures\b")
HEAD = re.compile(rf"( *)((?:(?:abbrev|unfoldable|pub|record|data) )*)({NAME})( :)?")
USE_OR_COMMENT = re.compile(r"\s*(ghost )?use |\s*--|\s*//")

# An item of a source file: where it stands, whether it is public, what it is, its text up to the first clause, its
# clauses, its body and where that begins.
Item = namedtuple("Item", "start end is_public kind header clauses body inside")

# A function: its name with its type, where it stands, whether it is public, its type, and of what trait it is.
Function = namedtuple("Function", "name start end is_public owner trait", defaults=[""])

# The head of a definition: how far it is indented, the words before its name, and the name.
Head = namedtuple("Head", "indent words name")

# A definition: where it stands, its lines that count, how many of them are comments, and the text that names others.
Definition = namedtuple("Definition", "file name lines comments text")


def bare(text):
    """The text with blanks for comments, strings, and the characters that would open or close something."""
    return re.sub(r"""'[](){}["]'|"[^"\n]*"|--.*|//.*""", lambda found: " " * len(found[0]), text)


# ---- source files

def closing(text, at):
    """Where the bracket that opens at a place is closed."""
    depth = 0
    for place in range(at, len(text)):
        depth += (text[place] in "({[") - (text[place] in ")}]")
        if depth == 0:
            return place
    raise ValueError(f"nothing closes {text[at : at + 60]}")


def item_of(text, head):
    """The item that begins with this head."""
    header, clauses, body, at, inside, is_clause = None, [], "", head.end(), 0, False
    while not body and (part := PART.search(text, at)):
        at = closing(text, part.start()) + 1 if part[0] in "({[" else part.end()
        if part[0] in "([":
            continue
        header = text[head.end() : part.start()].strip() if header is None else header
        if part[0] == ";":
            break
        if part[0] == "{" and is_clause:
            clauses.append(text[part.start() : at])
        elif part[0] == "{":
            body, inside = text[part.start() : at], part.start()
        is_clause = part[0] != "{"
    return Item(head.start(), at, head[1] == "pub ", head[2], header, clauses, body, inside)


def items_of(text):
    """The functions, types, traits and impls of a bare text, but for those within others."""
    items, at = [], 0
    while head := ITEM.search(text, at):
        items.append(item_of(text, head))
        at = items[-1].end
    return items


def name_of(item):
    return re.match(r"\w*", item.header)[0]


def owner_of(header):
    """The trait and the type of an impl."""
    depth = 0
    for at, letter in enumerate(header):
        depth += (letter == "<") - (letter == ">")
        if depth == 0:
            break
    trait, _, owner = (header[at + 1 :] if header.startswith("<") else header).rpartition(" for ")
    return trait, re.search(r"\w+", owner)[0]


def functions_of(text):
    """The functions of a source file, with the methods of its types. Those of traits aren't public: the trait is."""
    for item in items_of(bare(text)):
        trait, owner = owner_of(item.header) if item.kind == "impl" else ("", name_of(item))
        if item.kind == "fn":
            yield Function(owner, item.start, item.end, item.is_public, None)
        for method in items_of(item.body) if item.kind in ("impl", "trait") else []:
            if method.kind == "fn":
                places = method.start + item.inside, method.end + item.inside
                is_public = method.is_public and not trait
                yield Function(f"{owner}::{name_of(method)}", *places, is_public, owner, re.sub(r"\W", "", trait))


def fields_of(item, origins):
    """The fields of a type: the name of each, and the words of its type with the crates that they come from."""
    texts = re.findall(r"(\w+)\s*:(?!:)([^:{}]*?)(?=,\s*(?:pub(?:\([a-z]+\))? |ghost )?\w+\s*:|,?\s*\})", item.body)
    if not item.body:
        inner = item.header.partition("(")[2].rstrip(")")
        texts = [(str(at), part) for at, part in enumerate(inner.split(","))]
    for field, text in texts if item.kind == "struct" else [("", item.body)]:
        yield field, {(origins.get(word), word) for word in re.findall(r"\w+", text)}


def types_of(text):
    """The types that a source file declares."""
    return {name_of(item) for item in items_of(bare(text)) if item.kind in ("struct", "enum")}


def handed_out(library):
    """What a crate's `lib.rt` hands out: the names of functions and types, and its public modules."""
    listed = re.findall(r"(?m)^pub use [\w:]+::(?:\{([^}]*)\}|(\w+));", library)
    return {word.strip() for many, one in listed for word in (many or one).split(",")}, modules_in(library)


def modules_in(library):
    """The public modules of a crate's `lib.rt`, or of a `Lib.antt`."""
    return re.findall(r"(?m)^pub mod (\w+)", library)


# ---- definitions and lemmas

def head_of(line):
    """The head of the definition, lemma or field that a line begins, or None."""
    found = HEAD.match(line)
    if not found or not (found[4] or {"record", "data"}.intersection(found[2].split())):
        return None
    return Head(len(found[1]), found[2].split(), found[3])


def heads_in(lines):
    """Where the definitions of a file begin, and what ends them: line, head (None: of no definition) and module."""
    depth, module = 0, ""
    for at, line in enumerate(lines):
        if re.match(r"\S", line) and not line.startswith("--"):
            depth, module = (2, line) if line.startswith("module ") else (0, "")
        head = head_of(line)
        if head and head.indent == depth and re.fullmatch(WORD, head.name):
            yield at, head, module
        elif re.match(r"(module|pub mod|use) ", line):
            yield at, None, ""


def definitions_in(text, file):
    """The definitions of a file by their names, and those of `data` also by their constructors."""
    lines, found = text.splitlines(), {}
    heads = list(heads_in(lines))
    for (at, head, module), (end, *_) in zip(heads, [*heads[1:], (len(lines), None)]):
        while not lines[end - 1].strip() or lines[end - 1].lstrip().startswith("--"):
            end -= 1
        first = at
        while first and lines[first - 1].lstrip().startswith("--"):
            first -= 1
        if head:
            counted = [line.strip() for line in lines[first:end] if line.strip()]
            comments = sum(1 for line in counted if line.startswith("--"))
            definition = Definition(file, head.name, len(counted), comments, "\n".join([module, *lines[at:end]]))
            constructors = re.findall(rf"(?m)^ +({WORD}) :", definition.text) if "data" in head.words else []
            found.update((one, definition) for one in [head.name, *constructors])
    return found


def words_of(text):
    """The words that may name a definition, each with its field; no declared fields, and no keys of record literals."""
    text = re.sub(rf"(?m)([{{;]|^ +)\s*{WORD}(\s*=(?!=))", r"\1 \2", bare(text))
    text = re.sub(rf"(?m)^( +pub ){WORD} :", r"\1:", text)
    return re.findall(rf"(?<![\w.])({WORD})(?:\.({WORD}))?", text)


def imports_in(text, indent=""):
    """What `use` lines bring in: the path, and by the words that stand for it here its names (None: the whole file)."""
    use = rf"(?m)^{indent}(?:ghost )?use Rattle\.([\w.]+?)(?:\.\{{([^}}]*)\}}| as (\w+))"
    for path, listed, alias in re.findall(use, text):
        pairs = (word.strip().partition(" as ") for word in listed.split(","))
        yield path, {alias: None} if alias else {other or name: name for name, _, other in pairs}


def types_imported(text):
    """What `use` lines bring in of types of the code: words, with the crate and the type."""
    names = {}
    use = r"(?m)^use Rattle\.(\w+)\.specs\.declared\.[\w.]*?(\w+)(?:\.TheVariants)?(?:\.\{([^}]*)\}| as (\w+))$"
    for crate, name, listed, alias in re.findall(use, text):
        words = [alias] if alias else [word.split(" as ")[-1].strip() for word in listed.split(",")]
        names.update((word, (crate, name)) for word in words)
    return names


def lines_of(text):
    """The lines of a file without its imports and comments."""
    return [line for line in text.splitlines() if not USE_OR_COMMENT.match(line)]


def lemma_of(line):
    """The name of the lemma or definition that a line begins, or None."""
    head = head_of(line)
    return head.name if head and head.indent == 0 else None


def lemmas_in(text):
    """The names that a file of lemmas gives."""
    return [name for name in map(lemma_of, lines_of(text)) if name]


def has_public_definition(text):
    """Whether a file has a record or an abbreviation that others may cite."""
    heads = [head_of(line) for line in text.splitlines()]
    return any(head and head.indent == 0 and "pub" in head.words and len(head.words) > 1 for head in heads)


def names_used(text):
    """The names that stand in a file, beside imports and comments. The first word of a clause defines it, and isn't a use."""
    found = set()
    for line in (re.sub(r" (--|//) .*", "", line) for line in lines_of(text)):
        own = lemma_of(line) or (line.split(" ", 1)[0] if line[:1].strip() else None)
        found.update(name for name in re.findall(r"[A-Za-z+][\w'≡≤<+-]*", line) if name != own)
    return found


def proofs_imported(text):
    """The crates from whose `proofs/` a file imports, or whose lemmas it cites for a tactic."""
    return set(re.findall(r"\b(\w+)(?:\.|::)proofs\b", text))


# ---- edits

def replacements(text):
    """What an edit replaces: the file, the old text and the new one, in turn."""
    file, old = None, None
    for line in text.split("\n"):
        if line.startswith("file: "):
            file = line[6:].strip()
        elif line.startswith("old: "):
            old = line[5:]
        elif line.startswith("new:"):
            yield file, old, line[4:].removeprefix(" ")
