"""What changed the machine, whose sessions were used by whom, the tickets, and what was refused: a table for each."""

from markup import folded, name, of_scene, statement, table, words
from verdicts import answer_words, event_statement, event_words
from words import plural

SHOWN_ROWS = 30


def happening_words(event):
    """Time, presence or a reset; HTML."""
    words_of = {"presence on": "a person came", "presence off": "the person went", "reset": "TPM Reset"}
    return f"event {event.number}: " + words_of.get(event.happening, f"{event.happening.split()[-1]} ms passed")


def part(title, called, heads, rows, empty):
    """A section with a table, or one line where it has no row."""
    if not rows:
        return f"<p><b>{title}</b>: {empty}</p>"
    drawn = folded(rows, SHOWN_ROWS, "rows", lambda some: table(heads, some))
    return f'<section data-part="{called}"><h2>{title}</h2>{drawn}</section>'


def changes_section(story):
    rows = []
    for change in story.journal.changes:
        if change.event.happening:
            rows.append(f"<tr><td>{statement(change.event.line, happening_words(change.event))}</td><td></td></tr>")
        else:
            what = of_scene(f"{name(change.where)} was {change.what}")
            rows.append(f"<tr><td>{event_statement(change.event)}</td><td>{what}</td></tr>")
    return part("What changed the machine", "changes", ["event", "what"], rows, "nothing.")


def foreign_section(story):
    rows = []
    for event in story.explained.events:
        if event.is_foreign():
            whose = of_scene(f"made by {story.client(event.maker.client)} at event {event.maker.number}")
            rows.append(f"<tr><td>{event_statement(event)}</td><td>{whose}</td></tr>")
    empty = "none." if story.journal.is_matched else "not known, since the script does not fit the lines."
    return part("Sessions used by another client than their maker", "foreign", ["event", "the session"], rows, empty)


def tickets_section(story):
    rows = []
    for ticket in story.journal.tickets:
        used = "<br>".join(event_statement(event) for event in ticket.uses) or "never used"
        until = of_scene(f"{plural(ticket.deadline, 'millisecond')} of the clock")
        rows.append(f"<tr><td>{event_statement(ticket.event)}</td><td>{until}</td><td>{used}</td></tr>")
    rows += [f"<tr><td>another ticket</td><td></td><td>{event_statement(event)}</td></tr>"
             for event in story.journal.stray_tickets]
    return part("Tickets", "tickets", ["given at", "holds until", "used at"], rows, "none.")


def refused_section(story):
    rows = [f"<tr><td>{statement(event.line, f'{event_words(event)}, locality {event.locality}: {answer_words(event)}')}"
            f"</td></tr>" for event in story.explained.events if event.is_stopped()]
    return part("Refused and denied", "refused", ["event, client, command, and why"], rows, "nothing.")


def others_section(story):
    """Lines that this page has no words for, to the letter."""
    rows = [f"<li>{statement(line, words(line), 'code')}</li>" for line in story.explained.others]
    return f'<section data-part="others"><h2>Further lines</h2><ul>{"".join(rows)}</ul></section>' if rows else ""
