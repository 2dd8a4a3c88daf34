"""The lines of `fapipol explain`, `paths` and `lint`, read into what they say.

docs/statuses-and-lines.md says what each line means. Everything that is read here keeps its line, as the program
printed it, so that each statement of the page can name the line that it was made from.
"""

import json
import re
from dataclasses import dataclass, field

CHOICE = r'(?:@\*|@?"(?:[^"\\]|\\.)*")'
LABEL = rf"-|{CHOICE}(?:/{CHOICE})*"

COMMAND = re.compile(r"(\d+) client (\d+) locality (\d+) code (\S+) rc (\S+) (accepted|served|refused|denied)"
                     r"(?: (\w+))? reply (\S*)")
HAPPENING = re.compile(r"(\d+) (time \d+|presence on|presence off|reset)")
RUN = re.compile(r"run (\d+) (.*)")
BLOCK = re.compile(rf"block (\d+) ({LABEL}) (.+)")
OPENING = re.compile(rf"opening (\d+) path (\d+) ({LABEL}) events ([\d,]*)")
NO_OPENING = re.compile(r"(clash|zero) (\d+) .*")
WAY = re.compile(rf"path (\d+) ({LABEL}) (\S+)")
DEAD = re.compile(rf"dead (\d+) ({LABEL}) (\S+) move (\d+)")


def lines_in(text):
    """The lines of a text; a line feed alone ends one, since names may hold other separators."""
    return [line for line in text.split("\n") if line]


def choices(label):
    """The choices of a way's label, outermost first; none where the label is `-`."""
    return re.findall(CHOICE, label)


def name_in(choice):
    """The name in a choice: that of a branch, or of an approved document; None for `@*`."""
    return None if choice == "@*" else json.loads(choice.removeprefix("@"))


@dataclass
class Event:
    """Something that the machine met: a command of a client, or time, presence or a reset."""

    number: int
    line: str
    client: int | None = None
    locality: int = 0
    code: int | None = None
    answer: int = 0
    result: str = ""
    check: str | None = None
    reply: bytes = b""
    happening: str = ""
    run: int | None = None
    buffer: bytes = b""
    session: int | None = None
    maker: "Event | None" = None

    def is_stopped(self):
        return self.result in ("refused", "denied")

    def is_done(self):
        return self.result in ("accepted", "served")

    def is_foreign(self):
        """Whether the session was made by another client."""
        return self.maker is not None and self.maker.client != self.client


@dataclass
class Block:
    """What stops a way, as a run's begin found it, or how a blind run's try of it ended."""

    line: str
    run: int
    way: int
    label: str
    why: str


@dataclass
class Run:
    """A run: the line it began with, what blocks it, and how it ended."""

    number: int
    begun: str = ""
    chosen: str = ""
    way: int | None = None
    label: str = ""
    blocks: list = field(default_factory=list)
    end: str = ""
    ending: str = ""
    ended_at: int | None = None
    over: str = ""
    turns_over: int = 0

    def is_served(self):
        return self.ending.startswith("served")


@dataclass
class Opening:
    """An entity that was opened, and the policy commands that opened it."""

    line: str
    event: int
    way: int
    label: str
    by: list


@dataclass
class Way:
    """A line of `paths`; `steps` are the places of its choices in the documents."""

    line: str
    number: int
    label: str
    kinds: list
    steps: list = field(default_factory=list)


@dataclass
class Dead:
    """A way that no session can ever go, by `lint`."""

    line: str
    way: int
    rule: str
    move: int


class Explained:
    """What `explain` printed of a scene."""

    def __init__(self, text):
        self.lines = lines_in(text)
        self.events = []
        self.runs = {}
        self.openings = []
        self.unproved_openings = []
        self.others = []
        self.beats = []
        self.told = None
        for line in self.lines:
            self.read(line)

    def read(self, line):
        readers = [(COMMAND, self.read_command), (HAPPENING, self.read_happening), (RUN, self.read_run),
                   (BLOCK, self.read_block), (OPENING, self.read_opening), (NO_OPENING, self.read_no_opening)]
        for form, reader in readers:
            match = form.fullmatch(line)
            if match and reader(line, match) is not False:
                return
        self.others.append(line)

    def read_command(self, line, match):
        code = None if match[4].startswith("-") else int(match[4], 16)
        reply = bytes.fromhex(match[8]) if match[8] != "-" else b""
        self.add(Event(int(match[1]), line, int(match[2]), int(match[3]), code, int(match[5], 16), match[6], match[7],
                       reply))

    def read_happening(self, line, match):
        self.add(Event(int(match[1]), line, happening=match[2]))

    def add(self, event):
        self.events.append(event)
        self.beats.append(event)

    def read_run(self, line, match):
        number, what = int(match[1]), match[2]
        run = self.told = self.runs.setdefault(number, Run(number))
        path = re.fullmatch(rf"path (\d+) ({LABEL})", what)
        if path:
            run.chosen, run.way, run.label = line, int(path[1]), path[2]
            run.begun = run.begun or line
        elif what == "blind":
            run.begun = line
        elif what == "over":
            run.over, run.turns_over = line, run.turns_over + 1
            self.beats.append(run)
        elif what == "nobranch" or what.split()[0] in ("served", "denied", "badreply"):
            run.begun = run.begun or line
            run.end, run.ending = line, what
            run.ended_at = self.events[-1].number if self.events else 0
        else:
            return False
        return True

    def read_block(self, line, match):
        if self.told is None:
            return False
        self.told.blocks.append(Block(line, self.told.number, int(match[1]), match[2], match[3]))
        return True

    def read_opening(self, line, match):
        by = [int(number) for number in match[4].split(",") if number]
        self.openings.append(Opening(line, int(match[1]), int(match[2]), match[3], by))

    def read_no_opening(self, line, match):
        self.unproved_openings.append((line, match[1], int(match[2])))


def ways_of(text):
    """The ways of the lines of `paths`."""
    matches = [WAY.fullmatch(line) for line in lines_in(text)]
    return [Way(match[0], int(match[1]), match[2], match[3].split(",")) for match in matches if match]


def digest_of(text):
    """The digest of the lines of `paths`."""
    match = re.search(r"^digest ([0-9a-f]{64})$", text, re.MULTILINE)
    return match[1] if match else ""


def dead_of(text):
    """The dead ways of the lines of `lint`, by their numbers."""
    matches = [DEAD.fullmatch(line) for line in lines_in(text)]
    return {int(match[1]): Dead(match[0], int(match[1]), match[3], int(match[4])) for match in matches if match}
