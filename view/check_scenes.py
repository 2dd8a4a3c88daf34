"""The scenes whose pages view/check makes: those of examples/, those of the console blocks, and some made up here."""

import json
import os
import pathlib
import re
import shutil
import subprocess
import tempfile

ROOT = pathlib.Path(__file__).resolve().parent.parent
EXAMPLES = ROOT / "examples"

START = "80010000003b000001764000000740000007002000000000000000000000000000000000000000000000000000000000000000000000010010000b"
VALUE = "80010000000e0000016b03000000"


class Scene:
    """A scene with the policies of its store."""

    def __init__(self, name, scene, policies):
        self.name = name
        self.scene = scene
        self.policies = policies

    def text(self):
        return json.dumps([self.scene, self.policies], sort_keys=True)

    def written(self, folder):
        """The scene's file, in a folder with its store."""
        (folder / "policies").mkdir()
        for name, policy in self.policies.items():
            (folder / "policies" / f"{name}.json").write_text(json.dumps(policy), encoding="utf-8")
        file = folder / f"{self.name.replace('/', '-')}.json"
        file.write_text(json.dumps(self.scene), encoding="utf-8")
        return file


def loaded(path):
    return json.loads(path.read_text(encoding="utf-8"))


def example_scenes():
    """The scenes of examples/, with the policies that its page imports, and those of examples/worked."""
    page = (EXAMPLES / "README.md").read_text(encoding="utf-8")
    imports = re.findall(r"import ([\w.-]+) < ([\w.-]+\.json)", page)
    policies = {name: loaded(EXAMPLES / file) for name, file in imports if (EXAMPLES / file).exists()}
    for path in sorted(EXAMPLES.glob("*.json")):
        if "script" in loaded(path):
            yield Scene(path.stem, loaded(path), policies)
    worked = {path.stem: loaded(path) for path in sorted(EXAMPLES.glob("worked/policies/*.json"))}
    for path in sorted(EXAMPLES.glob("worked/*.json")):
        if "script" in loaded(path):
            yield Scene(f"worked/{path.stem}", loaded(path), loaded(path).get("policies", worked))


RECORDER = """#!/usr/bin/env bash
# Keeps what `run` and `explain` are given, and hands it on.
case ${1-} in
run | explain)
    kept=$(mktemp -d "$KEPT/XXXXXX")
    cat > "$kept/scene.json"
    cp -r policies "$kept/policies" 2>/dev/null
    exec "$PROGRAM" "$@" < "$kept/scene.json"
    ;;
esac
exec "$PROGRAM" "$@"
"""


def console_commands(page):
    """The commands of a page's console blocks, as docs/check runs them."""
    commands, is_console = [], False
    for line in page.read_text(encoding="utf-8").splitlines():
        if line.startswith("```"):
            is_console = line == "```console"
        elif is_console and line.startswith("$ "):
            commands.append(line[2:])
        elif is_console and line.startswith("> ") and commands:
            commands[-1] += "\n" + line[2:]
    return commands


def console_scenes(program):
    """The scenes that the console blocks of two documents hand to `run` and `explain`, each once."""
    with tempfile.TemporaryDirectory() as home:
        top, kept = pathlib.Path(home, "top"), pathlib.Path(home, "kept")
        kept.mkdir()
        for folder in ("docs", "examples"):
            shutil.copytree(ROOT / folder, top / folder)
        (top / "fapipol").write_text(RECORDER, encoding="utf-8")
        (top / "fapipol").chmod(0o755)
        for page in ("worked-scenes.md", "statuses-and-lines.md"):
            for command in console_commands(ROOT / "docs" / page):
                if re.search(r"fapipol (run|explain)", command):
                    subprocess.run(["bash", "-c", command], cwd=top, stdout=subprocess.DEVNULL, stderr=subprocess.DEVNULL,
                                   env={**os.environ, "KEPT": str(kept), "PROGRAM": program}, timeout=600)
        seen = set()
        for folder in sorted(kept.iterdir(), key=lambda folder: folder.stat().st_mtime_ns):
            scene = kept_scene(folder, f"console-{len(seen) + 1}")
            if scene and scene.text() not in seen:
                seen.add(scene.text())
                yield scene


def kept_scene(folder, name):
    """A scene that was handed to the program, or None where it is no JSON object."""
    try:
        value = loaded(folder / "scene.json")
        policies = {path.stem: loaded(path) for path in sorted(folder.glob("policies/*.json"))}
    except ValueError:
        return None
    return Scene(name, value, policies) if isinstance(value, dict) else None


def sealed(policy, path="/s", handle="0x80000000"):
    return {"kind": "seal", "path": path, "handle": handle, "attributes": "0x0", "auth": "70696e", "secret": "6b6579",
            "policy": policy}


def begin(run, policy, path="/s", client=1):
    return {"event": "begin", "run": run, "client": client, "policy": policy, "goal": {"command": "Unseal", "path": path}}


def sent(client, buffer):
    return {"event": "command", "client": client, "bytes": buffer}


def choice(*branches):
    return {"type": "OR", "branches": [{"name": name, "policy": policy} for name, policy in branches]}


def made_up_scenes():
    """Names that want to be markup, all sessions taken, choices behind and inside choices, no policy, no event."""
    hostile = "<script>alert(1)</script>\"'&]]>\u202egnitset\u2066\u0000\u0085\u2028 --><svg onload=x>"
    value, person, nowhere = {"type": "AUTHVALUE"}, {"type": "PHYSICALPRESENCE"}, {"type": "LOCALITY", "locality": 2}
    secrets = [{"path": hostile, "auth": "70696e"}]
    names = {"description": hostile, "policy": [choice((hostile, [value]), (hostile, [person]), ("", [nowhere]))]}
    yield Scene("names", {"entities": [sealed("names", hostile)], "clients": [
        {"client": 1, "name": hostile, "secrets": secrets}, {"client": 2, "name": "\u202e"}], "script": [
            begin(1, "names", hostile), {"event": "turn", "run": 1, "times": 2}, sent(2, VALUE), {"event": "turn", "run": 1},
            begin(2, "names", hostile, 2), begin(3, "names", hostile), {"event": "turn", "run": 3}]}, {"names": names})
    yield Scene("taken", {"entities": [sealed("value")], "clients": [{"client": 1}], "script": [sent(2, START)] * 64
                          + [begin(1, "value"), {"event": "turn", "run": 1, "times": 3}]}, {"value": {"policy": [value]}})
    nine = choice(*((f"b{number}", [nowhere if number < 8 else value]) for number in range(10)))
    inner = choice(("in", [choice(("deep", [nowhere]), ("deeper", [value, nine]))]), ("out", [nowhere]))
    yield Scene("choices", {"entities": [sealed("choices")], "clients": [
        {"client": 1, "secrets": [{"path": "/s", "auth": "70696e"}]}, {"client": 2}], "script": [
            begin(1, "choices"), {"event": "turn", "run": 1}, begin(2, "choices", client=2),
            begin(3, "choices", client=2)]},
                {"choices": {"policy": [{"type": "COMMANDCODE", "code": "Unseal"}, inner,
                                        choice(("x", [nowhere]), ("y", [value]))]}})
    yield approvals()
    yield Scene("nothing", {}, {})
    yield Scene("moments", {"script": [{"event": "presence", "on": True}, {"event": "time", "ms": 5}, sent(1, "8001"),
                                       {"event": "presence", "on": False}, sent(1, START), {"event": "reset"},
                                       sent(2, VALUE)]}, {})


def approvals():
    """Approved documents inside approved documents, of the scene that docs/worked-scenes.md approves its own by."""
    worked = {path.stem: loaded(path) for path in sorted(EXAMPLES.glob("worked/policies/*.json"))}
    scene = loaded(EXAMPLES / "worked" / "approved.json")
    both = {"policy": [choice(("approved", worked["base"]["policy"]), ("nobody", [{"type": "LOCALITY", "locality": 2}]))]}
    scene["entities"].append(sealed("both", "/t", "0x80000002"))
    scene["clients"][0]["secrets"].append({"path": "/t", "auth": "70696e"})
    scene["script"] += [begin(2, "both", "/t"), {"event": "turn", "run": 2}]
    return Scene("approvals", scene, {**worked, "both": both, "group": worked["v1"]})
