#!/usr/bin/env python3
"""Respells the definitions and lemmas of the crates as Rattle spells names now: words and lemmas in snake case,
facts in upper camel case. Run once, at the top of the repository. Functions of src/, strings and generated names stay."""
import collections
import os
import re

DEFINES = re.compile(
    r"^\s*(?:(?:abbrev|unfoldable|pub|data|record|ruleset)\s+)*([A-Za-z][^\s:(){}]*) ?(:|\(|\{)\s*(.*)$"
)
GENERATED = re.compile(r"(?:goal|need|given)s?\.")
TOKEN = re.compile(r"[A-Za-z_][A-Za-z0-9_'′-]*")
# Names that the rules below would spell alike, or that are facts or no words.
BY_HAND = {
    "eqZ": "int_eq",
    "dueIn": "DueIn",
    "keyOf": "key_of",
    "of-int": "of_int_lem",
    "by-late": "by_late_lem",
    "live-in": "live_in_lem",
    "passes-all": "passes_all_lem",
    "idle-after": "idle_after_lem",
    "messages-of": "messages_of_lem",
    "no-message": "no_message_lem",
    "allShown": "all_are_shown",
    "all-below": "all_below_lem",
}


def files():
    for folder, _, names in os.walk("crates"):
        parts = folder.split(os.sep)
        if "out" in parts:
            continue
        for name in names:
            if name.endswith((".antt", ".rt", ".edit")):
                yield os.path.join(folder, name), parts


def own_names():
    own = set()
    for path, parts in files():
        if not path.endswith(".antt"):
            continue
        for line in open(path, encoding="utf-8"):
            found = DEFINES.match(line)
            if not found or GENERATED.match(found.group(3)):
                continue
            if found.group(2) == ":" or re.match(r"\s*(pub )?(data|record) ", line):
                own.add(found.group(1))
    return own


def spelled(name):
    if name in BY_HAND:
        return BY_HAND[name]
    if name[0].isupper():
        return "".join(word[0].upper() + word[1:] for word in name.split("-"))
    name = re.sub(r"(?<=[a-z0-9])[A-Z]", lambda m: "_" + m.group(0).lower(), name)
    return name.replace("-", "_").replace("′", "'")


def respell(text, renamed, mark):
    """The code of a line with its names respelled; in a comment only those that no prose has."""
    at = text.find(mark)
    code, comment = (text, "") if at < 0 or '"' in text[:at] else (text[:at], text[at:])

    def code_name(m):
        word = m.group(0)
        before = code[: m.start()]
        root = re.search(r"([A-Za-z_0-9'-]+)(?:\.[A-Za-z_0-9'-]+)*\.$", before)
        if root and root.group(1) in ("c", "l", "w", "g", "t"):
            return word
        if before.count('"') % 2 == 1:
            return word
        return renamed.get(word, word)

    def comment_name(m):
        word = m.group(0)
        return renamed[word] if word in renamed and re.search(r"[a-z][A-Z]", word) else word

    return TOKEN.sub(code_name, code) + TOKEN.sub(comment_name, comment)


def main():
    own = own_names() | {"keyOf"}
    renamed = {name: spelled(name) for name in own if spelled(name) != name}
    together = collections.defaultdict(set)
    for name in own:
        together[spelled(name)].add(name)
    for name, before in sorted(together.items()):
        if len(before) > 1:
            print(f"fall together as {name}: {', '.join(sorted(before))}")
    for path, _ in files():
        text = open(path, encoding="utf-8").read()
        mark = "//" if path.endswith(".rt") else "--"
        out = "".join(respell(line, renamed, mark) for line in text.splitlines(True))
        if out != text:
            open(path, "w", encoding="utf-8").write(out)
    print(f"{len(renamed)} names respelled")


main()
