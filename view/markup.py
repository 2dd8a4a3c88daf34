"""Pieces of HTML: texts that are safe to look at, and statements that carry the line that they were made from."""

import html
import unicodedata

from lines import choices, name_in

UNSEEN = ("Cc", "Cf", "Cs", "Co", "Cn", "Zl", "Zp")


def seen(text):
    """A text in which no character hides, and none turns the order of others: such stand as `\\u202e`."""
    text = str(text)
    if text.isprintable():
        return text
    return "".join(f"\\u{ord(sign):04x}" if unicodedata.category(sign) in UNSEEN else sign for sign in text)


def words(text):
    """A text for the page."""
    return html.escape(seen(text), quote=True)


def name(text):
    """A name that somebody chose, set apart from the page's own words in either direction of writing."""
    return f"<bdi>{words(text)}</bdi>"


def attribute(text):
    """A text in an attribute, to the letter."""
    return html.escape(text, quote=True).replace("\n", "&#10;").replace("\t", "&#9;")


def of_scene(text):
    """Words that were made of the scene or of the page's own counting, and of no line: `text` is HTML."""
    return f"<span data-scene>{text}</span>"


def statement(line, text, tag="span", look="", source="line"):
    """A piece of HTML that says what this line says. The line shows where a pointer rests on it."""
    kind = f' class="{look}"' if look else ""
    return f'<{tag}{kind} data-{source}="{attribute(line)}" title="{words(line[:200])}">{text}</{tag}>'


def choice_words(label):
    """A way's choices, as HTML."""
    if label == "-":
        return "the only way"
    return " / ".join(one_choice(choice) for choice in choices(label))


def one_choice(choice):
    if choice == "@*":
        return "an approved policy that is not here"
    called = f"“{name(name_in(choice))}”" if name_in(choice) else "a branch without a name"
    return f"the approved {called}" if choice.startswith("@") else called


def way_words(number, label):
    """A way with its number and choices, as HTML; what it is called is the scene's."""
    return f"way {number}" + (of_scene(f", {choice_words(label)}") if label != "-" else "")


def listed(numbers):
    return ", ".join(map(str, numbers))


def table(heads, rows, look=""):
    """A table that scrolls where it is too wide. Heads and rows are HTML."""
    kind = f' class="{look}"' if look else ""
    head = "".join(f'<th scope="col">{text}</th>' for text in heads)
    return f'<div class="wide"><table{kind}><thead><tr>{head}</tr></thead><tbody>{"".join(rows)}</tbody></table></div>'


def folded(items, shown, what, join="".join):
    """The first items, and the rest behind a fold. `join` puts items together."""
    if len(items) <= shown:
        return join(items)
    rest = items[shown:]
    return f"{join(items[:shown])}<details><summary>{len(rest)} more {what}</summary>{join(rest)}</details>"


def branch_name(text):
    return name(text) if text else "(without a name)"
