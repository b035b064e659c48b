"""The groups of the questions of the ready policies, the heaviest first, as policies/groups.toml has them."""
import pathlib
import tomllib
from collections import Counter, namedtuple

from .documents import Refused

KEYS = {"name", "title", "why", "questions"}

# name       a short key
# title      what stands over the group, in the policies too
# why        what an attacker gains, in one sentence
# questions  the names of the questions
Group = namedtuple("Group", "name title why questions")


def text_of(path):
    """The text of a file. Refused where it can't be read or isn't UTF-8."""
    try:
        return pathlib.Path(path).read_bytes().decode()
    except OSError as error:
        raise Refused(f"{path}: {error.strerror}") from None
    except UnicodeDecodeError:
        raise Refused(f"{path}: this isn't UTF-8") from None


def is_text(value):
    return isinstance(value, str) and value != ""


def group_of(table, path, number):
    """A group. Refused where its table lacks a key, has another one, or has something else than texts there."""
    if not isinstance(table, dict) or set(table) != KEYS:
        raise Refused(f"{path}: group {number} hasn't just the keys {', '.join(sorted(KEYS))}")
    if not all(is_text(table[key]) for key in ("name", "title", "why")):
        raise Refused(f"{path}: group {number}: name, title and why must be texts")
    if not isinstance(table["questions"], list) or not all(map(is_text, table["questions"])):
        raise Refused(f"{path}: group {number}: questions must be a list of names")
    return Group(table["name"], table["title"], table["why"], tuple(table["questions"]))


def twice(items):
    """The first of some texts that comes twice, or None."""
    return next((item for item, count in Counter(items).items() if count > 1), None)


def load(path):
    """The groups in a file. Refused where it can't be read, isn't TOML or has another form, and where two groups have
    the same name or the same question."""
    try:
        value = tomllib.loads(text_of(path))
    except (ValueError, RecursionError) as error:
        raise Refused(f"{path}: no TOML ({error!s:.80})") from None
    tables = value.get("group")
    if set(value) != {"group"} or not isinstance(tables, list):
        raise Refused(f"{path}: a file of groups has tables [[group]], and nothing else")
    groups = [group_of(table, path, number) for number, table in enumerate(tables, 1)]
    double = twice([group.name for group in groups]) or twice([name for group in groups for name in group.questions])
    if double:
        raise Refused(f"{path}: {double!r:.80} comes twice")
    return groups


def arranged(questions, groups):
    """The questions of an audit's document by their groups, in the order of the groups: pairs of a group and its
    questions, where it has any. Last come those that no group has, with None ("Other questions")."""
    found = {group.name: [] for group in groups}
    group_named = {name: group.name for group in groups for name in group.questions}
    others = []
    for question in questions:
        found.get(group_named.get(question["name"]), others).append(question)
    pairs = [(group, found[group.name]) for group in groups] + [(None, others)]
    return [(group, members) for group, members in pairs if members]
