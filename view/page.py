"""The page: all sections in one file, with its style in it and nothing from outside."""

import html
import pathlib
import re

from details import changes_section, foreign_section, others_section, refused_section, tickets_section
from lanes import lanes_section
from markup import words
from policies import policy_section
from verdicts import verdict_section, verdicts
from words import plural

STYLE = pathlib.Path(__file__).resolve().parent / "style.css"

PROVED = """<section class="proved"><h2>What is proved here, and what is layout</h2>
<p><b>Proved</b> are the lines that <code>fapipol</code>, once it is built, printed: each event’s answer, each way and digest, what blocks a
way, and by which written way an entity was opened. Each statement on this page carries the line that it says: rest the
pointer on it, or read its <code>data-line</code> (<code>data-way</code> for <code>paths</code>, <code>data-lint</code>
for <code>lint</code>). Their contracts are about the machine that the scene describes; whether your machine is that one,
nobody has proved.</p>
<p><b>Layout</b> is everything else: the words and pictures here, the names, and what was read out of the scene’s own
bytes, namely whose session a command used, which PCR or index it changed, and which ticket is which. A script made
it, and no proof covers it.</p></section>"""


def page(story, title):
    """The whole page, for this title."""
    counts = ", ".join([plural(len(story.policies), "policy", "policies"), plural(len(story.explained.runs), "run"),
                        plural(len(story.explained.events), "event"), plural(len(story.explained.openings), "opening")])
    policies = "".join(policy_section(story, policy) for policy in story.policies.values())
    return f"""<!doctype html>
<html lang="en">
<head>
<meta charset="utf-8">
<meta name="viewport" content="width=device-width, initial-scale=1">
<title>{words(title)}: who gets in</title>
<style>
{STYLE.read_text(encoding="utf-8")}</style>
</head>
<body>
<main>
<h1>Who gets in, and by which way</h1>
<p class="soft">{words(title)}: {counts}</p>
{verdict_section(story)}
{policies}
{lanes_section(story)}
{changes_section(story)}
{foreign_section(story)}
{tickets_section(story)}
{refused_section(story)}
{others_section(story)}
{PROVED}
</main>
</body>
</html>
"""


def plain(story):
    """What the boxes at the top of the page say, as lines of text."""
    lines = []
    for look, pieces in verdicts(story):
        said = [html.unescape(re.sub(r"<[^>]*>", "", piece.replace("<br>", ": "))) for piece in pieces if piece]
        lines.append("; ".join(said))
    return "".join(line + "\n" for line in lines)
