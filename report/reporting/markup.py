"""Text as HTML. What comes from a document or a file is a stranger's: it shows as text, whatever it says."""
import html

from showing import visible


def escaped(text):
    """A text for HTML, inside an element or between double quotes."""
    return html.escape(visible(text), quote=True)


def breakable(text):
    """A text for HTML that may be broken behind its commas."""
    return escaped(text).replace(",", ",<wbr>")


def element(name, inside, **attributes):
    """An element. `inside` is HTML already; attributes are escaped, and left out where they are None."""
    given = {key.rstrip("_").replace("_", "-"): value for key, value in attributes.items() if value is not None}
    marks = "".join(f' {key}="{escaped(value)}"' for key, value in given.items())
    return f"<{name}{marks}>{inside}</{name}>"


def section(heading, *parts):
    """A section with its heading. `parts` are HTML."""
    return element("section", element("h2", escaped(heading)) + "".join(parts))


def paragraph(text, kind=None):
    return element("p", escaped(text), class_=kind)


def banner(text):
    """What must be read first."""
    return element("p", escaped(text), class_="banner", role="alert")


def bullets(lines):
    """A list. `lines` are HTML."""
    return element("ul", "".join(element("li", line) for line in lines))


def badge(kind, words):
    return element("span", escaped(words), class_=f"badge {kind}")


def table(identity, heads, rows):
    """A table with a head. `rows` are HTML."""
    head = "".join(element("th", escaped(one), scope="col") for one in heads)
    body = f"<thead><tr>{head}</tr></thead><tbody>{''.join(rows)}</tbody>"
    return element("div", element("table", body, id=identity), class_="scroll")


def listed(words):
    """Words with commas, and `and` before the last."""
    words = list(words)
    return words[0] if len(words) == 1 else f"{', '.join(words[:-1])} and {words[-1]}" if words else ""
