#!/usr/bin/env python3
"""Brings the repository's own definitions and lemmas to snake case: usage: python3 tools/respell.py [--look] at the top of the repository.

It was run once, after the kit's own scripts. A name turns that a file of specs/ or proofs/ defines (a definition, a lemma, a field of a
record): capitals inside it and dashes become underscores, as `wantOf` and `level-fits` become `want_of` and `level_fits`. Names that begin
with a capital are facts and types and stay, and so do the names that Rattle makes of the code, such as a goal's, and the page of the port. Whole words turn, in the code
of .antt files, in clauses and ghost lines of .rt files, in code spans of comments and of .md files, and in must-fail edits. --look writes nothing and says which
names would fall together.
"""

import collections
import os
import re
import sys

# A lemma that would get its definition's name, and one definition that would get a lemma's.
OTHERWISE = {
    name: name.replace("-", "_") + "_lem"
    for name in (
        "by-line decimal-last equal-part good-lead hear-status input-length output-length state-length minus-zero no-orders no-reason "
        "not-just-after reason-after reason-of refused-between rest-left shown-after state-after sum-of-each switch-opens total-over "
        "worked-readings is-nan low-half high-half"
    ).split()
} | {"byMove": "by_move_test", "got-no": "got_a_no", "record-at": "own_record_at", "heldStays": "keeps_held"}

# What the kit's scripts had turned already in .antt and .rt files: pages and must-fail edits follow.
TURNED = """
    add-spec after-same alike-same all-seen among-in and-first and-second any-order at-most at-once atMost bitAt bits-back bitsOf
    both-zero by-move by-number by-size byWord byteAt byteOf bytesOf clear-spec cleared-more copied-all cut-at cut-in cut-line cut-off
    digits-more drop-min each-more either-way every-more every-of fieldAt fieldsAt fieldsOf filled-apart filled-copy filled-more
    filled-none finish-spec first-below flagsOf found-within foundAt foundFrom from-fields from-zero front-kept goes-on good-of headOf
    held-stays highHalf highWord in-order in-pieces inputAt inputOf is-false is-true isPlain isRegister isTaken isWhole joined-length
    joined-same kept-there last-digits last-found last-line last-none last-step lastAt lastOf lead-is left-is line-first line-read
    line-taken lines-more linesFrom linesOf lowByte lowHalf lowWord moved-on next-row no-lines no-nan no-sign none-below not-written
    number-by number-fits number-is number-more numberAt numberOf one-byte one-more only-one only-then or-l or-r order-is orderAt
    orderIn orderOf other-length past-all place-rest placesOf plain-more put-spec read-again read-spec readingOf refusal-is rises-next
    round-trip same-end same-left same-length same-lines same-lists same-more same-not seen-all seen-next size-of spelled-is stepOf
    still-seen sum-first take-twice takenOf tick-is tickInput tickRows too-short total-at-most turn-below turn-in turn-low u32At up-is
    upTo value-grows valueAt viewOf wantAt when-false when-true withNumber word-bytes word-small write-spec written-over writtenOf
    zero-by-zero zero-of
""".split()

WORD = re.compile(r"[^\s(){}.;,@\"«»`]+")
SIGNATURE = re.compile(r"^( *)((?:pub |abbrev |unfoldable )*)([^\s(){}.;,@\"«»]+) :(?: (.*))?$")
SPAN = re.compile(r"`[^`\n]+`")


def snake(name):
    if not re.match(r"[a-z]", name):
        return name
    name = name.replace("-", "_")
    return re.sub(r"(?<=[a-z0-9])[A-Z]|(?<=[A-Z])[A-Z](?=[a-z])", lambda m: "_" + m[0].lower(), name).lower()


def files(*endings):
    for top in ("crates", "docs", "demo", "tests", "."):
        for folder, dirs, names in os.walk(top):
            if top == ".":
                dirs[:] = []
            dirs[:] = sorted(d for d in dirs if d not in ("out", ".git", "target"))
            for n in sorted(names):
                if n.endswith(endings) and n != "PORT.md":
                    yield os.path.normpath(os.path.join(folder, n))


def read(path):
    with open(path, encoding="utf-8") as f:
        return f.read()


def code_and_comment(line):
    at = re.search(r"(?:(?<=\s)|^)--(?=\s|$)", line)
    return (line, "") if at is None else (line[: at.start()], line[at.start() :])


def defined():
    """name -> the files that define it."""
    found = collections.defaultdict(set)
    for path in files(".antt"):
        local = None  # the indent of a `where` of a clause
        header = False  # a module's header goes on over lines
        for line in read(path).split("\n"):
            code = code_and_comment(line)[0].rstrip()
            if not code.strip():
                continue
            indent = len(code) - len(code.lstrip())
            if local is not None and indent <= local:
                local = None
            if code.lstrip().startswith("module "):
                header = not code.endswith(" where")
            if code.strip() == "where":
                if local is None and not header:
                    local = indent
                header = False
                continue
            if local is not None:
                continue
            m = SIGNATURE.match(code)
            if m and not (m[4] or "").startswith(("tie.", "goal.")) and not m[3].startswith(("invariant-", "decreases-")):
                found[m[3]].add(path)
    return found


def table(found):
    rows = {}
    for name in sorted(found):
        new = OTHERWISE.get(name, snake(name))
        if new != name:
            rows[name] = new
    return rows


def turn_words(text, rows):
    return WORD.sub(lambda m: rows.get(m[0], m[0]), text)


def turn_spans(text, rows):
    return SPAN.sub(lambda m: turn_words(m[0], rows), text)


def turn_antt(text, rows):
    out = []
    for line in text.split("\n"):
        code, comment = code_and_comment(line)
        out.append(turn_words(code, rows) + turn_spans(comment, rows))
    return "\n".join(out)


def turn_rt(text, rows):
    out = []
    for line in text.split("\n"):
        at = line.find("//")
        code, comment = (line, "") if at < 0 else (line[:at], line[at:])
        if '"' not in code:
            code = turn_words(code, rows)
        out.append(code + turn_spans(comment, rows))
    return "\n".join(out)


def turn_edit(text, rows):
    out = []
    for line in text.split("\n"):
        if line.startswith("#"):
            # the item is named before the colon
            head, colon, tail = line.partition(":")
            out.append(re.sub(r"[A-Za-z][\w'-]*", lambda m: rows.get(m[0], m[0]), head) + colon + turn_spans(tail, rows))
        elif line.startswith(("old:", "new:")):
            out.append(line[:4] + turn_words(line[4:], rows))
        else:
            out.append(line)
    return "\n".join(out)


def look(rows, found):
    back = collections.defaultdict(set)
    for old, new in rows.items():
        back[new].add(old)
    for new, olds in sorted(back.items()):
        if len(olds) > 1:
            print("two names:", new, *sorted(olds))
    for path in files(".antt", ".rt"):
        text = "\n".join(code_and_comment(line)[0] for line in read(path).split("\n")) if path.endswith(".antt") else read(path)
        words = set(WORD.findall(text))
        for old in sorted(words & rows.keys()):
            if rows[old] in words:
                print("both in a file:", path, old, rows[old])
    dotted = collections.Counter()
    for path in files(".antt"):
        for line in read(path).split("\n"):
            code = code_and_comment(line)[0]
            for m in re.finditer(r"\.([^\s(){}.;,@\"«»]+)", code):
                if m[1] in rows and not re.match(r"\s*use ", code):
                    dotted[m[1]] += 1
    print("behind a dot:", *(f"{n}:{c}" for n, c in sorted(dotted.items())))


def main():
    found = defined()
    rows = table(found)
    if "--look" in sys.argv:
        print(len(rows), "names")
        look(rows, found)
        return
    beside = {name: snake(name) for name in TURNED if name not in found} | rows
    for endings, turn, names in (
        ((".antt",), turn_antt, rows),
        ((".rt",), turn_rt, rows),
        ((".md",), turn_spans, beside),
        ((".edit",), turn_edit, beside),
    ):
        for path in files(*endings):
            text = read(path)
            new = turn(text, names)
            if new != text:
                with open(path, "w", encoding="utf-8") as f:
                    f.write(new)
    print(len(rows), "names turned")


if __name__ == "__main__":
    main()
