"""The events as pictures: a lane for each client, rows of a few events, and the commands of an opening joined."""

from markup import attribute, folded, listed, words
from words import command_name, short_name, why_stopped

EVENTS = 8
ROWS = 12
LEFT, STEP, TOP, LANE, RADIUS = 96, 68, 52, 88, 9


class Picture:
    """One row of events, and where they stand in it."""

    def __init__(self, story, events):
        self.story = story
        self.events = events
        clients = sorted({event.client for event in events if event.client is not None})
        self.lanes = {client: lane for lane, client in enumerate(clients)}
        if any(event.happening for event in events):
            self.lanes[None] = len(clients)
        self.first, self.last = events[0].number, events[-1].number
        self.width = LEFT + STEP * EVENTS
        self.height = TOP + LANE * (len(self.lanes) - 1) + 64

    def x(self, number):
        return LEFT + STEP * (number - self.first) + STEP // 2

    def y(self, client):
        return TOP + LANE * self.lanes[client] + 10

    def has(self, number):
        return self.first <= number <= self.last

    def drawn(self):
        parts = [self.lane(client) for client in self.lanes]
        openings = [opening for opening in self.story.explained.openings
                    if any(self.has(number) for number in [*opening.by, opening.event])]
        parts += [self.joined(opening) for opening in openings]
        parts += [self.event(event) for event in self.events]
        label = f"events {self.first} to {self.last}, a lane for each client"
        return f'<svg role="img" aria-label="{label}" viewBox="0 0 {self.width} {self.height}">{"".join(parts)}</svg>'

    def lane(self, client):
        y = self.y(client)
        called = "the machine" if client is None else f"client {client}"
        known = self.story.journal.entities.names.get(client) if client is not None else None
        below = f'<text class="soft" x="4" y="{y + 19}">{words(known[:14])}</text>' if known else ""
        return (f'<line class="lane" x1="{LEFT - 8}" x2="{self.width - 4}" y1="{y}" y2="{y}"/>'
                f'<text x="4" y="{y + 4}">{called}</text>{below}')

    def joined(self, opening):
        """The line from an opening's commands to its event, and the sign above it."""
        numbers = [*opening.by, opening.event]
        points = [(self.x(number), self.y(self.story.journal.by_number[number].client))
                  for number in numbers if self.has(number)]
        if min(numbers) < self.first:
            points.insert(0, (LEFT - 8, points[0][1]))
        if max(numbers) > self.last:
            points.append((self.width - 4, points[-1][1]))
        look = self.story.look(opening)
        path = " L".join(f"{x} {y}" for x, y in points)
        said = (f"<title>event {opening.event} opened by way {opening.way}, with the commands at events "
                f"{listed(opening.by)}</title>")
        sign = self.sign(opening, look) if self.has(opening.event) else ""
        return f'<g data-line="{attribute(opening.line)}">{said}<path class="joined {look}" d="M{path}"/>{sign}</g>'

    def sign(self, opening, look):
        label = "opens" if opening.label == "-" else f"opens by way {opening.way}"
        width = 7 * len(label) + 12
        left = min(self.x(opening.event) - width // 2, self.width - width - 4)
        top = self.y(self.story.journal.by_number[opening.event].client) - 48
        return (f'<rect class="sign {look}" x="{left}" y="{top}" width="{width}" height="18" rx="9"/>'
                f'<text class="small" x="{left + width // 2}" y="{top + 13}" text-anchor="middle">{label}</text>')

    def event(self, event):
        x, y = self.x(event.number), self.y(event.client)
        apart = 6 if event.is_foreign() else 0
        parts = [f"<title>{title(event)}</title>", self.foreign(event, x, y), shape(self.story, event, x, y),
                 text(x, y - 14 - apart, event.number, "soft"), below(self.story, event, x, y + 24 + apart)]
        if event.is_stopped():
            parts.append(text(x, y + 38 + apart, event.check or f"{event.answer:03x}", "bad"))
        return f'<g data-line="{attribute(event.line)}">{"".join(parts)}</g>'

    def foreign(self, event, x, y):
        """The mark of a session that another client made, with a line to that client's lane where it is here."""
        if not event.is_foreign():
            return ""
        lane = self.lanes.get(event.maker.client)
        up = lane is not None and lane < self.lanes[event.client]
        line = "" if lane is None else (f'<line class="foreign" x1="{x}" x2="{x}" y1="{y - 36 if up else y + 44}" '
                                        f'y2="{TOP + LANE * lane + 10}"/>')
        return f'{line}<circle class="foreign" data-foreign cx="{x}" cy="{y}" r="{RADIUS + 5}"/>'


def text(x, y, content, look, source=""):
    return f'<text{source} class="{look}" x="{x}" y="{y}" text-anchor="middle">{words(content)}</text>'


def shape(story, event, x, y):
    """Round where a session or an entity was used, a diamond where the machine changed, a cross where it was not done."""
    if event.number in story.journal.change_at:
        return f'<path class="change" d="M{x} {y - 10} l10 10 l-10 10 l-10 -10z"/>'
    circle = f'<circle class="{event.result}" cx="{x}" cy="{y}" r="{RADIUS}"/>'
    cross = f'<path class="cross" d="M{x - 4} {y - 4}l8 8m0 -8l-8 8"/>' if event.is_stopped() else ""
    return circle + cross


def below(story, event, x, y):
    """The word below an event; which PCR was extended is the scene's."""
    if event.happening:
        return text(x, y, {"presence on": "person", "presence off": "nobody"}.get(event.happening, event.happening), "soft")
    change = story.journal.change_at.get(event.number)
    if change and change.what == "extended":
        return text(x, y, change.where, "soft", " data-scene")
    return text(x, y, short_name(event.code), "soft")


def title(event):
    """What a pointer on an event shows."""
    if event.happening:
        return f"event {event.number}: {event.happening}"
    said = (f"event {event.number}: client {event.client} at locality {event.locality} sent "
            f"{command_name(event.code)}: {event.result}")
    if event.is_stopped():
        check = f" {event.check}" if event.check else ""
        said += f"{check}, {event.answer:03x}, {why_stopped(event)}"
    if event.is_foreign():
        said += "; on a session of another client"
    return words(said)


def lanes_section(story):
    events = story.explained.events
    rows = [Picture(story, events[place:place + EVENTS]).drawn() for place in range(0, len(events), EVENTS)]
    drawn = folded(rows, ROWS, f"rows of {EVENTS} events", lambda part: f'<div class="rows">{"".join(part)}</div>')
    return f'<section data-part="events"><h2>What happened, event after event</h2>{drawn or "<p>Nothing.</p>"}{KEY}</section>'


KEY = """<ul class="key">
<li><i class="dot accepted"></i>a command was accepted</li><li><i class="dot served"></i>served</li>
<li><i class="dot refused"></i>refused or denied</li><li><i class="dot change"></i>the machine changed</li>
<li><i class="dot joined"></i>the commands of an opening</li><li><i class="dot foreign"></i>on a session that another
client made</li></ul>"""
