"""Who got in by which way, and who did not, and why: a box for each run, and for each opening that no run made."""

from journal import number_of
from markup import listed, of_scene, name, statement, way_words, words
from words import command_name, plural, reason, same_path, why_blocked, why_stopped

SHOWN_BLOCKS = 4


class Story:
    """What happened, with what the page asks of it in more than one place."""

    def __init__(self, explained, journal, policies, scene):
        self.explained = explained
        self.journal = journal
        self.policies = policies
        self.policy_of_path = {same_path(entity["path"]): entity["policy"].removeprefix("/policy/")
                               for entity in scene.get("entities", []) if isinstance(entity.get("policy"), str)}
        self.foreign = {}
        for event in explained.events:
            if event.is_foreign():
                self.foreign.setdefault(event.maker.run, []).append(event)

    def client(self, number):
        """A client, by its number and its name where the scene has one; HTML."""
        called = self.journal.entities.names.get(number)
        return f"client {number}" + (of_scene(f" ({name(called)})") if called else "")

    def run_of(self, opening):
        """The run whose goal this opening is, or None."""
        return next((run for run in self.explained.runs.values()
                     if run.is_served() and run.ended_at == opening.event), None)

    def opening_of(self, run):
        return next((opening for opening in self.explained.openings
                     if run.is_served() and opening.event == run.ended_at), None)

    def goal(self, run):
        """What a run is for, in the scene's words; HTML."""
        begin = self.journal.entities.goals.get(run.number)
        if not begin:
            return ""
        goal = begin["goal"]
        who = self.client(number_of(begin["client"]))
        return of_scene(f'{who}, {words(goal["command"])} of {name(goal["path"])}')

    def policy_of_run(self, run):
        begin = self.journal.entities.goals.get(run.number)
        return begin["policy"].removeprefix("/policy/") if begin else None

    def policy_of(self, opening):
        """The name of the policy of the entity that was opened."""
        event = self.journal.by_number[opening.event]
        path = self.journal.entities.used(event) if self.journal.is_matched else ""
        found = self.policy_of_path.get(same_path(path))
        return found or next((name for name, policy in self.policies.items() if policy.way(opening.way)
                              and policy.way(opening.way).label == opening.label), None)

    def senders(self, opening):
        """The other clients that sent policy commands of an opening, than the one that used it."""
        user = self.journal.by_number[opening.event].client
        return sorted({self.journal.by_number[number].client for number in opening.by} - {user})

    def look(self, opening):
        return "warn" if self.is_foreign(opening) else "in"

    def is_foreign(self, opening):
        return bool(self.senders(opening)) or self.journal.by_number[opening.event].is_foreign()

    def foreign_words(self, opening):
        """By whose commands, where that was not the one who used it; HTML."""
        event, parts = self.journal.by_number[opening.event], []
        if self.senders(opening):
            others = " and ".join(self.client(number) for number in self.senders(opening))
            parts.append(f"with commands of {others}")
        if event.is_foreign():
            parts.append(f"on a session that {self.client(event.maker.client)} made")
        return of_scene("; ⚠ " + ", ".join(parts)) if parts else ""


def opening_words(story, opening, verb="opened"):
    """An opening: the event, its way and its commands; HTML."""
    return (f"{verb} at event {opening.event} by {way_words(opening.way, opening.label)}: "
            f"the commands at {'event' if len(opening.by) == 1 else 'events'} {listed(opening.by) or 'none'}"
            f"{story.foreign_words(opening)}")


def end_words(run, kinds):
    """How a run ended, in words and with the program's own; HTML."""
    parts = run.ending.split()
    if parts[0] == "served":
        return f"Run {run.number} got in"
    if parts[0] == "nobranch":
        return f"Run {run.number} found no way"
    if parts[0] == "badreply":
        return f"Run {run.number}: a bad reply at {stage_words(parts[1:], kinds)}"
    kind = kinds[int(parts[2]) - 1] if parts[1] == "move" and int(parts[2]) <= len(kinds) else ""
    return f"Run {run.number} was denied at {stage_words(parts[1:-1], kinds)}: {words(reason(parts[-1:], kind))}"


def stage_words(parts, kinds):
    if parts[0] in ("move", "verify") and len(parts) > 1:
        number = int(parts[1])
        kind = f" ({kinds[number - 1]})" if number <= len(kinds) else ""
        return f"{'the signature for ' if parts[0] == 'verify' else ''}step {number}{kind}"
    return {"goal": "the goal", "start": "the session’s start", "restart": "the session’s restart"}.get(parts[0], parts[0])


def run_verdict(story, run):
    """A run's box: its look and its pieces of HTML."""
    policy = story.policies.get(story.policy_of_run(run))
    way = policy.way(run.way) if policy and run.way else None
    kinds = way.kinds if way else []
    opening, pieces = story.opening_of(run), []
    look = "idle" if not run.end else "out" if not run.is_served() else story.look(opening) if opening else "in"
    ended = (statement(run.end, end_words(run, kinds), "b") if run.end
             else of_scene(f"<b>Run {run.number} is not at its end</b>"))
    policy_words = of_scene(f", by the policy “{name(policy.name)}”") if policy else ""
    pieces.append(f"{ended}<br>{story.goal(run)}{policy_words}")
    if run.begun not in (run.end, run.chosen) and run.begun:
        pieces.append(statement(run.begun, f"run {run.number} began without a look at the machine"))
    if run.chosen:
        pieces.append(statement(run.chosen, f"run {run.number} chose {way_words(run.way, run.label)}"))
    if opening:
        pieces.append(statement(opening.line, opening_words(story, opening)))
    pieces += block_pieces(policy, run)
    pieces += foreign_pieces(story, run)
    if run.over:
        pieces.append(statement(run.over, f"run {run.number} had {plural(run.turns_over, 'turn')} after its end"))
    return look, pieces


def block_pieces(policy, run):
    """The first blocks of a run; all of them stand at their ways below."""
    pieces = [statement(block.line, f"{way_words(block.way, block.label)}: {block_words(policy, block)}")
              for block in run.blocks[:SHOWN_BLOCKS]]
    if len(run.blocks) > SHOWN_BLOCKS:
        more = plural(len(run.blocks) - SHOWN_BLOCKS, "blocked way")
        pieces.append(of_scene(f"{more} more: see every way, below"))
    return pieces


def foreign_pieces(story, run):
    """What other clients sent to the session of a run, of which the lines tell no session."""
    events = story.foreign.get(run.number, [])
    pieces = [f"⚠ {event_statement(event)}{of_scene(', on the session of this run')}" for event in events[:SHOWN_BLOCKS]]
    more = len(events) - SHOWN_BLOCKS
    return pieces + ([of_scene(f"and {plural(more, 'more command')} of others")] if more > 0 else [])


def event_words(event):
    """A command's event: its number, client and command; HTML."""
    return f"event {event.number}: client {event.client}, {words(command_name(event.code))}"


def answer_words(event):
    """What the machine answered; HTML."""
    if not event.is_stopped():
        return words(event.result)
    check = f" {words(event.check)}" if event.check else ""
    return f"{event.result}{check}, {event.answer:03x}: {words(why_stopped(event))}"


def event_statement(event):
    answer = f": {answer_words(event)}" if event.is_stopped() else ""
    return statement(event.line, event_words(event) + answer)


def block_words(policy, block):
    way = policy.way(block.way) if policy else None
    return words(why_blocked(block.why, way.kinds if way else []))


def hand_verdict(story, opening):
    """The box of an opening that no run made."""
    event = story.journal.by_number[opening.event]
    where = name(story.journal.entities.used(event)) if story.journal.is_matched else "an entity"
    who = of_scene(f"<b>{story.client(event.client).capitalize()} got in</b>, without a run<br>"
                   f"{words(command_name(event.code))} of {where}")
    return story.look(opening), [who, statement(opening.line, opening_words(story, opening))]


def verdicts(story):
    """All boxes, as looks and pieces: the runs by their numbers, then the openings by hand."""
    boxes = [run_verdict(story, run) for _, run in sorted(story.explained.runs.items())]
    boxes += [hand_verdict(story, opening) for opening in story.explained.openings if story.run_of(opening) is None]
    for line, what, number in story.explained.unproved_openings:
        said = "two strings of one digest" if what == "clash" else "a string whose digest is zero"
        boxes.append(("warn", [statement(line, f"<b>event {number}</b>: {what}, {said}, stand in the line")]))
    return boxes


def verdict_section(story):
    boxes = "".join(f'<li class="{look}">{"<br>".join(piece for piece in pieces if piece)}</li>'
                    for look, pieces in verdicts(story))
    return f'<ul class="verdicts" data-part="verdicts">{boxes}</ul>' if boxes else "<p>No run, and nothing was opened.</p>"
