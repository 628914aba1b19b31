#!/usr/bin/env python3
"""Writes the labels of the records in specs/ in snake case: `first-a` is `first_a`. It runs once, at the top of the repository, after tools/respell.py.

usage: tools/respell_labels.py

A dash joins the name of a definition to what a law says of it; a label is one word. `most-frames` is `frames_at_most`, since a definition has the name most_frames.
"""

import glob
import re

LABELS = """a-count a-octets a1-answered a2-answered age-allows b-count b-octets b1-answered b2-answered block-after cut-frame delay-allows first-a
first-answered first-b first-names kind-is legal-block long-frame more-after most-frames no-count no-set octet-more one-after one-sided other-ports
readable-a readable-b room-1 room-2 room-3 room-4 rooms-after same-ports same-room second-a second-answered second-b second-names timer-kept
wrong-frame""".split()
OTHERS = {"most-frames": "frames_at_most"}


def main():
    turn = {label: OTHERS.get(label, label.replace("-", "_")) for label in LABELS}
    word = re.compile(rf"(?<![\w'-])({'|'.join(sorted(map(re.escape, LABELS), key=len, reverse=True))})(?![\w'-])")
    paths = [p for end in ("specs/**/*.antt", "proofs/**/*.antt", "src/**/*.rt", "must-fail/*.edit") for p in glob.glob(f"crates/*/{end}", recursive=True)]
    changed = 0
    for path in sorted(paths):
        with open(path, encoding="utf-8", newline="") as f:
            text = f.read()
        # A comment is prose, where a dash may stand between words.
        lines = []
        for line in text.split("\n"):
            at = line.find("//" if path.endswith(".rt") else "--")
            code, prose = (line, "") if at < 0 else (line[:at], line[at:])
            lines.append(word.sub(lambda m: turn[m[1]], code) + prose)
        new = "\n".join(lines)
        if new != text:
            changed += 1
            with open(path, "w", encoding="utf-8", newline="") as f:
                f.write(new)
    print(f"{len(LABELS)} labels, {changed} files changed")


if __name__ == "__main__":
    main()
