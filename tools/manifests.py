"""Makes the list of texts that crates/manifest is run on, and what the program must print for them.

    python3 tools/manifests.py

writes crates/manifest/stdin, the texts of manifest_texts.py, crates/manifest/args, the published manifests that the program
reads as files before, and crates/manifest/stdout. Whether a text is accepted, and
its values, are those of Python's json (json_reader.py); where node is on the path it is asked too. Places of faults are
found by trying continuations (continuations.py). The program itself is not run.
"""

import os
import shutil
import subprocess
import sys

from continuations import fault_place
from json_reader import Object, Refused, read, read_laxly
from manifest_texts import GROUPS, real

LIMIT = 16384
CRATE = os.path.join(os.path.dirname(os.path.abspath(__file__)), "..", "crates", "manifest")


def word(text):
    """The word of a string, as docs/RULES.md has it."""
    plain = (chr(byte) if 32 < byte < 127 and byte != 37 else f"%{byte:02X}" for byte in text.encode())
    return {"": "-", "-": "%2D"}.get(text) or "".join(plain)


def is_plain(target):
    components = target[2:].split("/")
    return (
        target.startswith("./")
        and not any(part in ("", ".", "..") or part.encode().lower() == b"node_modules" for part in components)
        and not any(char in target for char in "*%\\")
    )


def targets(value):
    """The targets of a pattern, or None where the value gives no pattern."""
    if isinstance(value, str):
        return [value]
    if isinstance(value, list):
        return [item for item in value if isinstance(item, str)]
    return None


def patterns(versions):
    """The patterns of the first range that gives any. The first of equal keys counts, among ranges and among patterns."""
    for _, paths in versions.counted() if isinstance(versions, Object) else []:
        members = paths.counted() if isinstance(paths, Object) else []
        found = [(key, targets(value)) for key, value in members if targets(value) is not None]
        if found:
            return found
    return []


def fields(root):
    if not isinstance(root, Object):
        return
    for name in ("name", "main", "types", "typings"):
        value = root.first(name)
        if isinstance(value, str):
            yield f"  {name} {word(value)}"
    if any(key == "exports" for key, _ in root.members):
        value = root.first("exports")
        yield f"  exports plain {word(value)}" if isinstance(value, str) and is_plain(value) else "  exports other"
    for key, values in patterns(root.first("typesVersions")):
        yield f"  pattern {word(key)}"
        for value in values:
            yield f"    target {word(value)}"


def told(text):
    """The lines that the program must print of a text."""
    if len(text) > LIMIT:
        return [f"fault {LIMIT}"]
    try:
        root = read(text)
    except Refused:
        return [f"fault {fault_place(text)}"]
    return ["manifest", *fields(root)]


# The manifests that are read as files.
FILES = ["just-diff", "canonical-json", "ip-regex"]

# How the run ends.
STRAY = "json 7b7d"


def asked_of_node(all_texts):
    """Stops unless node's JSON.parse accepts just what Python alone does."""
    if not shutil.which("node"):
        return
    script = """
        const decoder = new TextDecoder('utf-8', { fatal: true, ignoreBOM: true });
        for (const line of require('fs').readFileSync(0, 'latin1').split('\\n').slice(0, -1)) {
            let taken = true;
            try { JSON.parse(decoder.decode(Buffer.from(line, 'hex'))); } catch { taken = false; }
            console.log(taken ? 1 : 0);
        }"""
    lines = "".join(text.hex() + "\n" for text in all_texts)
    taken = subprocess.run(["node", "-e", script], input=lines, capture_output=True, text=True, check=True).stdout.split()
    for text, node in zip(all_texts, taken, strict=True):
        try:
            read_laxly(text)
            python = "1"
        except Refused:
            python = "0"
        if python != node:
            sys.exit(f"node and Python differ: {text!r}")


def main():
    lines, output = [], []
    for name in FILES:
        output += told(real(name))
    for title, group in GROUPS:
        lines.append(f"# {title}")
        for text in group:
            lines.append(f"text {text.hex() or '-'}")
            output += told(text)
    lines += ["# Digits in capitals, and in both cases in one text.", "text 7B7D", "text 7b7D",
        "# A line that is no command, which ends the run.", STRAY, "text 7b7d"]
    output += [*told(b"{}"), *told(b"{}"), f"line {lines.index(STRAY) + 1}: there is no such command"]
    asked_of_node([text for _, group in GROUPS for text in group])
    words = [*(name + ".json" for name in FILES), "-"]
    for name, content in (("stdin", lines), ("args", words), ("stdout", output)):
        with open(os.path.join(CRATE, name), "w", encoding="ascii") as file:
            file.write("\n".join(content) + "\n")
    print(sum(line.startswith("text ") for line in lines[: lines.index(STRAY)]), "texts")


if __name__ == "__main__":
    main()
