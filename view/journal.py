"""The scene's script beside the events that it made: which run sent a command, on whose session, and what it changed.

The lines tell no session and no bytes of a command. A raw command's bytes stand in the script, a run's session in the
reply to its StartAuthSession; both are read here as TPM 2.0 Part 3 lays them out.
"""

from dataclasses import dataclass

from lines import Run

START, FLUSH, LOAD, EXTEND = 0x176, 0x165, 0x161, 0x182
SECRET, SIGNED, TICKET = 0x151, 0x160, 0x172
WRITES = {0x137: "written", 0x134: "incremented"}

# How many handles stand behind a command's head; which of them is a policy command's session.
HANDLES = {START: 2, SECRET: 2, SIGNED: 2, TICKET: 1, EXTEND: 1, 0x177: 1, 0x15e: 1, 0x155: 1, 0x14b: 2, 0x14e: 2,
           0x137: 2, 0x134: 2, 0x149: 3, 0x192: 3, 0x180: 1, 0x189: 1, 0x162: 1, 0x16a: 1, 0x16b: 1, 0x16c: 1,
           0x16d: 1, 0x16e: 1, 0x16f: 1, 0x170: 1, 0x171: 1, 0x17f: 1, 0x187: 1, 0x188: 1, 0x18c: 1, 0x18f: 1}
SESSION_PLACE = {SECRET: 1, SIGNED: 1, 0x149: 2, 0x192: 2, TICKET: 0, 0x180: 0, 0x189: 0, 0x162: 0, 0x16a: 0, 0x16b: 0,
                 0x16c: 0, 0x16d: 0, 0x16e: 0, 0x16f: 0, 0x170: 0, 0x171: 0, 0x17f: 0, 0x187: 0, 0x188: 0, 0x18c: 0,
                 0x18f: 0}


def number_at(data, place, size):
    return int.from_bytes(data[place:place + size], "big") if len(data) >= place + size else None


def sized_at(data, place):
    """A TPM2B at this place, and the place behind it."""
    size = number_at(data, place, 2) or 0
    return data[place + 2:place + 2 + size], place + 2 + size


def is_session(handle):
    return handle is not None and handle >> 24 in (2, 3)


def handle_at(event, place):
    return number_at(event.buffer, 10 + 4 * place, 4)


@dataclass
class Change:
    """An event that changed the machine: a PCR, an index, the time, who is there, or a reset."""

    event: object
    what: str
    where: str


@dataclass
class Ticket:
    """A ticket that a PolicySecret or PolicySigned answered, with its deadline and its uses."""

    event: object
    deadline: int
    digest: bytes
    uses: list


def match_script(explained, script):
    """Tells each event its run, or its bytes. False where the script does not give these events."""
    beats = list(explained.beats)
    for item in script:
        if item.get("event") == "begin":
            continue
        taken = turn_taken(explained, item, beats) if item.get("event") == "turn" else 1
        if taken is None or taken > len(beats):
            return False
        for beat in beats[:taken]:
            if not take(beat, item):
                return False
        del beats[:taken]
    return not beats


def turn_taken(explained, item, beats):
    """How many of these beats a turn made."""
    run = explained.runs.get(number_of(item["run"]))
    if run is None:
        return None
    if "times" in item:
        return number_of(item["times"])
    if not beats or beats[0] is run:
        return len(beats[:1])
    return sum(1 for beat in beats if not isinstance(beat, Run) and beat.number <= (run.ended_at or 0))


def take(beat, item):
    if isinstance(beat, Run):
        return item.get("event") == "turn" and number_of(item["run"]) == beat.number
    if item.get("event") == "turn":
        beat.run = number_of(item["run"])
        return beat.client is not None
    if item.get("event") == "command":
        beat.buffer = bytes_of(item.get("bytes", ""))
        return beat.client == number_of(item["client"])
    return bool(beat.happening)


def number_of(value):
    """A number of a scene: a JSON number, or a text of `0x` and digits."""
    return int(value, 16) if isinstance(value, str) else value


def bytes_of(value):
    """Bytes of a scene: a text of hexadecimal digits, or a list of numbers."""
    if isinstance(value, str):
        return bytes.fromhex(value.removeprefix("0x"))
    return bytes(number_of(item) for item in value)


def find_sessions(events):
    """Tells each command its session, and the event that made the session."""
    makers, of_runs = {}, {}
    for event in events:
        if event.happening == "reset":
            makers.clear()
        if event.client is None:
            continue
        event.session = session_of(event, of_runs)
        if event.code == START and event.is_done():
            makers[event.session] = event
            if event.run is not None:
                of_runs[event.run] = event.session
        event.maker = makers.get(event.session)


def session_of(event, of_runs):
    if event.code in (START, LOAD) and event.is_done():
        return number_at(event.reply, 10, 4)
    if event.run is not None:
        return of_runs.get(event.run) if event.code != 0x177 else None
    if event.code == FLUSH:
        handle = number_at(event.buffer, 10, 4)
    elif event.code in SESSION_PLACE:
        handle = handle_at(event, SESSION_PLACE[event.code])
    else:
        handle = number_at(event.buffer, 14 + 4 * HANDLES.get(event.code, 0), 4)
    return handle if is_session(handle) else None


class Entities:
    """The scene's entities by handle and by path, and its clients' names."""

    def __init__(self, scene):
        self.paths = {}
        for entity in scene.get("entities", []):
            self.paths[number_of(entity["handle"])] = entity["path"]
        self.names = {number_of(client["client"]): client["name"] for client in scene.get("clients", [])
                      if isinstance(client.get("name"), str)}
        self.goals = {number_of(item["run"]): item for item in scene.get("script", []) if item.get("event") == "begin"}

    def path_at(self, handle):
        return self.paths.get(handle, f"0x{handle:08x}" if handle is not None else "")

    def used(self, event):
        """The entity that a command is on: a run's goal, or by the handle."""
        if event.run in self.goals:
            return self.goals[event.run].get("goal", {}).get("path", "")
        if event.code in (0x14e, *WRITES):
            return self.path_at(handle_at(event, 1))
        return self.path_at(handle_at(event, 0))


def changes_of(events, entities, is_matched):
    """What changed the machine, in order."""
    changes = []
    for event in events:
        if event.happening:
            changes.append(Change(event, "happened", event.happening))
        elif event.is_done() and event.code == EXTEND:
            changes.append(Change(event, "extended", f"PCR {handle_at(event, 0)}" if is_matched else "a PCR"))
        elif event.is_done() and event.code in WRITES:
            changes.append(Change(event, WRITES[event.code], entities.used(event) if is_matched else "an index"))
    return changes


def tickets_of(events):
    """The tickets that were given, each with the events that used it; uses of unknown tickets stand alone."""
    tickets, unknown = [], []
    for event in events:
        if event.code in (SECRET, SIGNED) and event.is_done():
            timeout, behind = sized_at(event.reply, 14 if event.reply[:2] == b"\x80\x02" else 10)
            digest, _ = sized_at(event.reply, behind + 6)
            if len(timeout) == 8 and digest:
                tickets.append(Ticket(event, int.from_bytes(timeout, "big"), digest, []))
        elif event.code == TICKET:
            fits = [ticket for ticket in tickets if ticket.digest == ticket_digest(event)]
            if fits:
                fits[-1].uses.append(event)
            else:
                unknown.append(event)
    return tickets, unknown


def ticket_digest(event):
    """The digest in a PolicyTicket: behind timeout, cpHashA, policyRef, Name, and the ticket's tag and hierarchy."""
    place = 14
    for _ in range(4):
        _, place = sized_at(event.buffer, place)
    return sized_at(event.buffer, place + 6)[0]


class Journal:
    """A scene's events with all that the script tells of them."""

    def __init__(self, explained, scene):
        self.entities = Entities(scene)
        self.is_matched = match_script(explained, scene.get("script", []))
        if self.is_matched:
            find_sessions(explained.events)
        self.by_number = {event.number: event for event in explained.events}
        self.changes = changes_of(explained.events, self.entities, self.is_matched)
        self.change_at = {change.event.number: change for change in self.changes}
        self.tickets, self.stray_tickets = tickets_of(explained.events) if self.is_matched else ([], [])
