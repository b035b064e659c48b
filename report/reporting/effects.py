"""How far a call gets by an answer, and what a change of answers is."""

# How far a call gets, in the words of the pages, with the letter that stands for it in a map.
EFFECTS = {
    "let": ("let through", "+"),
    "partly": ("let through under conditions", "±"),
    "handed": ("handed to another process", "→"),
    "at_times": ("handed to another process under conditions", "⇢"),
    "refused": ("refused", "−"),
    "killed": ("killed", "×"),
    "stopped": ("refused or killed", "∓"),
    "unknown": ("not told", "?"),
}
CHANGES = {
    "looser": ("looser", "▲"),
    "tighter": ("tighter", "▼"),
    "different": ("another answer that gets as far", "≠"),
    "same": ("unchanged", "="),
}

# What the kernel does at an action. It takes one without a name for KILL_PROCESS.
OF_ACTION = {
    "ALLOW": "let", "LOG": "let", "TRACE": "handed", "USER_NOTIF": "handed", "ERRNO": "refused", "TRAP": "refused",
    "KILL_THREAD": "killed", "KILL_PROCESS": "killed",
}
REACH = {"let": 2, "handed": 1, "refused": 0, "killed": 0}


def effect_of(answer):
    return OF_ACTION.get(answer["action"], "killed")


def joined(effects):
    """One effect for all of these: of a call that some inputs get further with than others."""
    found = set(effects)
    if len(found) < 2:
        return found.pop() if found else "unknown"
    if found & {"let", "partly"}:
        return "partly"
    return "at_times" if found & {"handed", "at_times"} else "stopped"


def change_of(told):
    """What kind of change a row shows, by its two answers."""
    if told["old"] == told["new"]:
        return "same"
    old, new = REACH[effect_of(told["old"])], REACH[effect_of(told["new"])]
    return "looser" if new > old else "tighter" if new < old else "different"


def joined_changes(changes):
    """The change that comes first: one that lets more through."""
    found = set(changes)
    return next((it for it in CHANGES if it in found), "same")


def answer_in_words(answer):
    """An answer as `eval` shows it."""
    return f"{answer['action']} {answer['data']}"


def told_in_words(told):
    """What a row says: an answer, or those of both stacks."""
    if "old" not in told:
        return answer_in_words(told)
    return f"{answer_in_words(told['old'])} → {answer_in_words(told['new'])}"
