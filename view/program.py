"""Calls of the program: on a scene, and on the policies that it names, in a copy of the store."""

import json
import os
import pathlib
import re
import shutil
import subprocess
import tempfile

from lines import Explained, choices, dead_of, digest_of, lines_in, name_in, ways_of

ROOT = pathlib.Path(__file__).resolve().parent.parent
POLICY_NAME = r"[A-Za-z0-9_\-][A-Za-z0-9_.\-]{0,63}"
SCENE = "fapipol-view"
GROUP = object()


class Refused(Exception):
    """The program ended with another status than Done."""

    def __init__(self, status, text):
        super().__init__(text.strip())
        self.status = status


class Program:
    """The program, in a folder that has a folder `policies`."""

    def __init__(self, folder):
        self.folder = folder
        self.path = os.environ.get("FAPIPOL") or str(ROOT / "fapipol")

    def run(self, words, source, errors=None):
        """What it prints for these words and this standard input. The launcher tells on standard error how it builds."""
        done = subprocess.run([self.path, *words], input=source, stdout=subprocess.PIPE, stderr=errors, cwd=self.folder)
        text = done.stdout.decode("utf-8")
        if done.returncode != 0:
            raise Refused(done.returncode, text)
        return text


class Policy:
    """A policy of the store: its canonical document, its ways, and its dead ways where `lint` is known.

    `approved` has the canonical documents that its ways enter, by name. The ways' `steps` are their choices by
    place: the number of a branch in its OR, the name of an approved document, or None for `@*`.
    """

    def __init__(self, name, document, paths, places, lint, approved):
        self.name = name
        self.document = document
        self.digest = digest_of(paths)
        self.ways = ways_of(paths)
        self.approved = approved
        self.dead = dead_of(lint)
        self.lint = lines_in(lint)
        for way, placed in zip(self.ways, ways_of(places)):
            way.steps = [step for step in map(step_in, choices(placed.label)) if step is not GROUP]

    def way(self, number):
        return self.ways[number - 1] if 0 < number <= len(self.ways) else None


def step_in(choice):
    """A choice of a document whose branches are named by their places; GROUP for a group of an OR's branches."""
    name = name_in(choice)
    if name is None or choice.startswith("@"):
        return name
    return GROUP if name.startswith("#") else int(name)


def with_places(value):
    """The same document, with each branch named by its place in its OR: names are in no digest."""
    if isinstance(value, list):
        return [with_places(item) for item in value]
    if not isinstance(value, dict):
        return value
    placed = {name: with_places(item) for name, item in value.items()}
    if isinstance(placed.get("branches"), list):
        for place, branch in enumerate(placed["branches"]):
            if isinstance(branch, dict):
                branch["name"] = str(place)
    return placed


def policy_name(name):
    return name.removeprefix("/policy/")


def named_policies(scene):
    """The policies that a scene names, in its order, each once."""
    items = scene.get("entities", []) + scene.get("script", [])
    return list(dict.fromkeys(policy_name(item["policy"]) for item in items if isinstance(item.get("policy"), str)))


class Store:
    """Two copies of a store with the scene beside it: as it is, and with the branches named by their places.

    The scene is without its script and clients, which `paths` needs not, and which may be larger than a file may be.
    """

    def __init__(self, folder, scene):
        self.home = tempfile.TemporaryDirectory()
        self.plain = Program(os.path.join(self.home.name, "plain"))
        self.placed = Program(os.path.join(self.home.name, "placed"))
        for program in (self.plain, self.placed):
            os.makedirs(os.path.join(program.folder, "policies"))
            machine = {name: value for name, value in scene.items() if name not in ("script", "clients")}
            self.write(program, f"{SCENE}.scene", json.dumps(machine))
        self.copy(os.path.join(folder, "policies"))
        self.knows_lint = True

    def __enter__(self):
        return self

    def __exit__(self, *error):
        self.home.cleanup()

    def write(self, program, name, text):
        with open(os.path.join(program.folder, "policies", name), "w", encoding="utf-8") as file:
            file.write(text)

    def copy(self, policies):
        for name in sorted(os.listdir(policies)) if os.path.isdir(policies) else []:
            if re.fullmatch(POLICY_NAME + r"\.json", name):
                path = os.path.join(policies, name)
                shutil.copyfile(path, os.path.join(self.plain.folder, "policies", name))
                with open(path, encoding="utf-8") as file:
                    self.write(self.placed, name, json.dumps(with_places(json.load(file))))

    def source(self, program, name):
        with open(os.path.join(program.folder, "policies", f"{name}.json"), "rb") as file:
            return file.read()

    def policy(self, name):
        source = self.source(self.plain, name)
        paths = places = self.plain.run(["paths", "--scene", SCENE], source)
        if any(way.label != "-" for way in ways_of(paths)):
            places = self.placed.run(["paths", "--scene", SCENE], self.source(self.placed, name))
        names = {json.loads(choice) for choice in re.findall(r'@("(?:[^"\\]|\\.)*")', places)}
        return Policy(name, self.document(name), paths, places, self.lint(source),
                      {name: self.document(name) for name in sorted(names)})

    def document(self, name):
        return json.loads(self.plain.run(["canon"], self.source(self.plain, name)))

    def lint(self, source):
        """The lines of `lint`; none where the program does not know the word."""
        try:
            words = ["lint", "--scene", SCENE]
            return self.plain.run(words, source, subprocess.DEVNULL) if self.knows_lint else ""
        except Refused:
            self.knows_lint = False
            return ""


def explained(folder, scene_text, words):
    """What `explain` prints of the scene, with these words behind it."""
    return Explained(Program(folder).run(["explain", *words], scene_text.encode()))


def policies_of(folder, scene):
    """The policies that the scene names, by name."""
    with Store(folder, scene) as store:
        return {name: store.policy(name) for name in named_policies(scene)}
