"""The policies: nested boxes with who got in and what stopped whom, and a table of every way and every run."""

from markup import attribute, branch_name, choice_words, folded, name, of_scene, statement, table, way_words, words
from verdicts import block_words, end_words, opening_words
from words import RULES, element_words, plural

SHOWN_MARKS = 6
SHOWN_WAYS = 40
SHOWN_IDLE_WAYS = 200
APPROVALS = ("POLICYAUTHORIZE", "POLICYAUTHORIZENV")


class Marks:
    """What is said at each way of one policy: of openings, blocks and dead ways."""

    def __init__(self, story, policy):
        self.policy = policy
        self.openings, self.blocks = {}, {}
        for opening in story.explained.openings:
            if story.policy_of(opening) == policy.name:
                self.openings.setdefault(opening.way, []).append(opening)
        self.runs = [run for _, run in sorted(story.explained.runs.items())
                     if story.policy_of_run(run) == policy.name]
        for run in self.runs:
            for block in run.blocks:
                self.blocks.setdefault(block.way, []).append(block)
        self.chosen = {run.way for run in self.runs if run.way}
        self.story = story

    def is_told(self, number):
        """Whether any line speaks of this way."""
        return (number in self.openings or number in self.blocks or number in self.chosen
                or number in self.policy.dead)

    def look(self, ways):
        """The look of a box that these ways lead through."""
        opened = [opening for way in ways for opening in self.openings.get(way.number, [])]
        if opened:
            return "warn" if all(self.story.is_foreign(opening) for opening in opened) else "in"
        if ways and all(way.number in self.policy.dead for way in ways):
            return "dead"
        return "out" if ways and all(way.number in self.blocks for way in ways) else ""

    def at(self, ways):
        """The marks of the ways that end in one box: openings first, so that no fold hides them."""
        marks = [self.opening_mark(opening) for way in ways for opening in self.openings.get(way.number, [])]
        marks += [dead_mark(self.policy.dead[way.number], "p") for way in ways if way.number in self.policy.dead]
        marks += [self.block_mark(block) for way in ways for block in self.blocks.get(way.number, [])]
        return folded(marks, SHOWN_MARKS, "marks") or '<p class="mark idle">nobody went this way</p>'

    def opening_mark(self, opening):
        user = self.story.journal.by_number[opening.event].client
        said = (f"{'⚠' if self.story.is_foreign(opening) else '✔'} {of_scene(self.story.client(user))} "
                f"{opening_words(self.story, opening)}")
        return statement(opening.line, said, "p", f"mark {self.story.look(opening)}")

    def block_mark(self, block):
        said = f"✘ run {block.run}, {way_words(block.way, block.label)}: {block_words(self.policy, block)}"
        return statement(block.line, said, "p", "mark out")


def dead_mark(dead, tag):
    said = f"✝ way {dead.way} can never be gone, from step {dead.move} on: {RULES.get(dead.rule, '')} ({words(dead.rule)})"
    return statement(dead.line, said, tag, "mark dead", source="lint")


class Tree:
    """A policy drawn along its ways: each way's steps say which branch it takes at each choice."""

    def __init__(self, marks):
        self.marks = marks
        self.policy = marks.policy
        self.passed = {way.number: 0 for way in self.policy.ways}

    def drawn(self):
        ways = self.policy.ways
        flow = self.flow(self.policy.document["policy"], ways)
        single = [way for way in ways if not way.steps]
        return flow + (self.marks.at(single) if single else "")

    def flow(self, elements, ways):
        """A list of elements, each below the one before it."""
        return f'<div class="flow">{"".join(self.element(element, ways) for element in elements)}</div>'

    def element(self, element, ways):
        if element["type"] == "POLICYOR":
            count = plural(len(element["branches"]), "branch", "branches")
            return f'<div class="choice"><p class="caption">one of {count}</p>{self.branches(element, ways)}</div>'
        what, detail = element_words(element)
        step = f'<div class="step"><b>{words(what)}</b> {words(detail)}</div>'
        return step + self.approvals(ways) if element["type"] in APPROVALS else step

    def branches(self, element, ways):
        parts = self.parted(ways)
        boxes = [self.box(f'branch="{attribute(branch["name"])}"', branch_name(branch["name"]), branch, parts.get(place, []))
                 for place, branch in enumerate(element["branches"])]
        return f'<div class="branches">{"".join(boxes)}</div>'

    def approvals(self, ways):
        """The approved documents below their AUTHORIZE or AUTHORIZENV, and any other policy that is approved."""
        boxes = []
        for step, part in self.parted(ways).items():
            document = self.policy.approved.get(step)
            title = f"approved: {name(step)}" if document else "any other policy that is approved"
            choice = f'approved="{attribute(step)}"' if document else "outside"
            boxes.append(self.box(choice, title, document, part))
        caption = '<p class="caption">one of these, carried out before it</p>'
        return f'<div class="choice">{caption}<div class="branches">{"".join(boxes)}</div></div>'

    def parted(self, ways):
        """These ways by the choice that each makes here; they stand behind it afterwards."""
        parts = {}
        for way in ways:
            parts.setdefault(way.steps[self.passed[way.number]], []).append(way)
            self.passed[way.number] += 1
        return parts

    def box(self, choice, title, content, ways):
        """A branch or an approved document; what is said of ways stands where they make their last choice."""
        ends = [way for way in ways if self.passed[way.number] == len(way.steps)]
        look = self.marks.look(ways)
        described = (content or {}).get("description")
        text = f'<p class="soft">{words(described)}</p>' if described else ""
        inside = self.flow(content["policy"], ways) if content else ""
        marks = self.marks.at(ends) if ends else ""
        width = leaves(content["policy"]) if content else 1
        return (f'<div class="branch {look}" style="--leaves:{width}" data-{choice}><h4>{title}</h4>'
                f'{text}{inside}{marks}</div>')


def leaves(elements):
    """How many boxes stand side by side in a list of elements, where there is room."""
    widths = [sum(leaves(branch["policy"]) for branch in element["branches"]) for element in elements
              if element["type"] == "POLICYOR"]
    return max([1, *widths])


def ways_table(marks):
    """Every way against every run. Ways of which no line speaks are left out where there are too many."""
    ways = marks.policy.ways
    left_out = 0
    if len(ways) > SHOWN_IDLE_WAYS:
        told = [way for way in ways if marks.is_told(way.number)]
        left_out, ways = len(ways) - len(told), told
    by_hand = any(marks.story.run_of(opening) is None for found in marks.openings.values() for opening in found)
    heads = ["way", "its policy commands"] + [f"run {run.number}<br>{marks.story.goal(run)}" for run in marks.runs]
    heads += ["without a run"] if by_hand else []
    rows = [f"<tr>{way_cells(marks, way)}{''.join(run_cell(marks, run, way) for run in marks.runs)}"
            f"{hand_cell(marks, way) if by_hand else ''}</tr>" for way in ways]
    drawn = folded(rows, SHOWN_WAYS, "ways", lambda part: table(heads, part, "ways"))
    return drawn + (f"<p>{plural(left_out, 'more way')}, of which no line speaks.</p>" if left_out else "")


def way_cells(marks, way):
    kinds = statement(way.line, words(" → ".join(way.kinds)), source="way")
    dead = dead_mark(marks.policy.dead[way.number], "div") if way.number in marks.policy.dead else ""
    first = statement(way.line, f'way {way.number}<br>{of_scene(choice_words(way.label))}', "div", source="way")
    return f'<th scope="row">{first}</th><td>{kinds}{dead}</td>'


def run_cell(marks, run, way):
    block = next((block for block in marks.blocks.get(way.number, []) if block.run == run.number), None)
    if block:
        said = f"✘ run {run.number}, way {way.number}: {block_words(marks.policy, block)}"
        return f'<td class="out">{statement(block.line, said)}</td>'
    if run.way == way.number:
        return chosen_cell(marks, run, way)
    if run.way and run.way > way.number and run.begun == run.chosen:
        return f'<td class="out">✘ {statement(run.chosen, f"closed: run {run.number} chose way {run.way}")}</td>'
    is_later = run.way is not None and run.way < way.number
    return f'<td class="idle">{"an earlier way was free" if is_later else "nothing is told"}</td>'


def chosen_cell(marks, run, way):
    said = [statement(run.chosen, f"run {run.number} chose way {run.way}")]
    look = "idle"
    if run.end:
        look = "in" if run.is_served() else "out"
        said.append(statement(run.end, ("✔ " if run.is_served() else "✘ ") + end_words(run, way.kinds)))
    for opening in marks.openings.get(way.number, []):
        if run.is_served() and run.ended_at == opening.event:
            look = marks.story.look(opening)
            said.append(statement(opening.line, opening_words(marks.story, opening)))
    return f'<td class="{look}">{"<br>".join(said)}</td>'


def hand_cell(marks, way):
    openings = [opening for opening in marks.openings.get(way.number, []) if marks.story.run_of(opening) is None]
    if not openings:
        return '<td class="idle">—</td>'
    look = "warn" if any(marks.story.is_foreign(opening) for opening in openings) else "in"
    said = [statement(opening.line, opening_words(marks.story, opening)) for opening in openings]
    return f'<td class="{look}">{"<br>".join(said)}</td>'


def policy_section(story, policy):
    marks = Marks(story, policy)
    described = policy.document["description"]
    about = f'<p class="soft">{words(described)}</p>' if described else ""
    lint = f"<p>{statement(policy.lint[-1], lint_words(policy.lint[-1]), source='lint')}</p>" if policy.lint else ""
    return (f'<section><h2>The policy “{name(policy.name)}”</h2>{about}'
            f'<p class="soft">digest <code>{words(policy.digest)}</code></p>{lint}'
            f'<div class="tree wide" data-part="policy">{Tree(marks).drawn()}</div>'
            f'<h3>Every way, and every run</h3><div data-part="ways">{ways_table(marks)}</div></section>')


def lint_words(line):
    """The last line of `lint`, `lint K of N`."""
    parts = line.split()
    return f"{words(parts[1])} of {words(parts[-1])} ways can never be gone"
