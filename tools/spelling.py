#!/usr/bin/env python3
"""Brings the repository's own names to the spelling of Rattle's kit 13: definitions, lemmas, fields and constructors in snake case, types
and modules in camel case. It is run once, right after the kit's port.py.

usage: python3 tools/spelling.py            at the top of the repository: rewrites crates/, the pages at the top and docs/
       python3 tools/spelling.py --names    prints each old name beside its new one, and changes nothing

A name that a library declares keeps its spelling, and so does one that Rattle makes for a proof. Of two names that would fall together the
definition takes the plain one and the other gets `_lem`. Functions of src/, exported names, strings, inputs and outputs stay.
"""

import glob
import os
import re
import sys

TOKEN = re.compile(r"[^\s(){}\[\],.;\"`|]+")
CAMEL = re.compile(r"[a-z][A-Za-z0-9]*[A-Z][A-Za-z0-9]*'*")
KEBAB = re.compile(r"[a-z][A-Za-z0-9_']*(?:-[A-Za-z0-9_']+)+")
# By folder, and "" for all: definitions that are types; and lemmas that would take the name of a definition beside them.
OTHERWISE = {
    "crates/motion": {"right": "IsRight", "serves": "Serves", "four": "FourAreRight"},
    "crates/refuted": {"sentenceOf": "SentenceOf", "wordingOf": "WordingOf"},
    "crates/choice/specs/Laws.antt": {"kept_above": "kept_above_lem"},
    "crates/recording/specs/Follows.antt": {"last_fits": "last_fits_lem"},
    "crates/refuted/specs/WrongReadings.antt": {"held_back": "held_back_lem"},
    "crates/sentences/specs/Events.antt": {"run_fits": "run_fits_lem"},
    "crates/sentences/specs/Forms.antt": {"off_zero": "off_zero_lem"},
    "crates/sentences_hall": {"left_over": "left_over_lem"},
    "": {
        "bad-number": "bad_number_lem",
        "bad-row": "bad_row_lem",
        "bill-refusal": "bill_refusal_lem",
        "bus-active": "bus_active_lem",
        "drive-after": "drive_after_lem",
        "due-at": "due_at_lem",
        "due-at-each": "due_at_each_lem",
        "due-told": "due_told_lem",
        "further-apart": "further_apart_lem",
        "given-told": "given_told_lem",
        "hall-turned": "hall_turned_lem",
        "host-log": "host_log_lem",
        "in-range": "in_range_lem",
        "is-due": "is_due_lem",
        "is-report": "is_report_lem",
        "is-tick": "is_tick_lem",
        "names-twice": "names_twice_lem",
        "no-run": "no_run_lem",
        "place-from": "place_from_lem",
        "rate-given": "rate_given_lem",
        "sends-told": "sends_told_lem",
        "sent-at-one": "sent_at_one_lem",
        "share-trace": "share_trace_lem",
        "tick-given": "tick_given_lem",
        "trace-from": "trace_from_lem",
        "wait-after": "wait_after_lem",
        "well-formed": "well_formed_lem",
        "without-reading": "without_reading_lem",
    },
}


def snake(name):
    if not CAMEL.fullmatch(name):
        return name.replace("-", "_")
    return re.sub(r"(?<=[a-z0-9'])[A-Z]|(?<=[A-Z])[A-Z](?=[a-z])", lambda m: "_" + m.group(0), name).lower()


def is_old(name):
    return any(CAMEL.fullmatch(part) or KEBAB.fullmatch(part) for part in name.split("◌"))


def head(text, at):
    """What stands before the dot at the left of a place, if there is one."""
    start = at
    while start > 0 and text[start - 1] not in " \n\t(){}[],;\"`|":
        start -= 1
    return text[start:at].rstrip(".")


def blank(text):
    """The text with strings and comments as spaces of the same length."""
    text = re.sub(r'"(?:\\.|[^"\\\n])*"', lambda m: " " * len(m.group(0)), text)
    return re.sub(r"(?m)(?:(?<=\s)|^)--.*$", lambda m: " " * len(m.group(0)), text)


def read(path):
    with open(path, encoding="utf-8") as f:
        return f.read()


def own_crates():
    return {os.path.basename(p) for p in glob.glob("crates/*")}


def antt_files():
    return sorted(glob.glob("crates/*/specs/**/*.antt", recursive=True) + glob.glob("crates/*/proofs/**/*.antt", recursive=True))


def in_proof_of_function(path):
    return path.split("/")[2] == "proofs" and path.count("/") > 3


USE = re.compile(r"(?m)^[ \t]*(?:pub )?use ([\w.]*\w)(?:\.\{([^}]*)\}|[ \t]+as[ \t]+(\w+)|[ \t]+\{([^}]*)\})?")


def imports(text, own):
    """The names from libraries, the names from own crates, and the aliases of own modules and of others."""
    lib, ours, alias, other = set(), set(), set(), set()
    for m in USE.finditer(text):
        parts = m.group(1).split(".")
        # What Rattle makes for a function's proof stands below proofs.F or specs.declared.
        made = (parts[2:3] == ["proofs"] and len(parts) > 4) or "declared" in parts
        mine = parts[0] == "Rattle" and len(parts) > 2 and parts[1] in own and not made
        names = [n.strip().split(" as ")[0].strip() for n in (m.group(2) or m.group(4) or "").split(",") if n.strip()]
        (ours if mine else lib).update(names)
        if m.group(3) or not (m.group(2) or m.group(4)):
            (alias if mine else other).add(m.group(3) or parts[-1])
    return lib, ours, alias, other


def renamed_tokens(path, own):
    """Where each token of a file stands that has the old spelling, if it is a name of this repository."""
    text = read(path)
    plain = blank(text)
    lib, ours, alias, other = imports(plain, own)
    found = []
    for m in TOKEN.finditer(plain):
        name = m.group(0)
        old = is_old(name)
        dotted = m.start() > 0 and plain[m.start() - 1] == "."
        if dotted:
            first = head(plain, m.start()).split(".")[0]
            if first in other or first in ("tie", "Rattle") or (in_proof_of_function(path) and first not in alias):
                continue
        elif in_proof_of_function(path) and name not in ours:
            continue
        elif name in lib:
            continue
        if old or new_name(path, name) != name:
            found.append((m.start(), name))
    return text, plain, found, lib


def collisions(own):
    """For each file: bare names that would fall together, and names of the same module that would."""
    out = []
    for path in antt_files():
        text, plain, found, lib = renamed_tokens(path, own)
        at = {p for p, _ in found}
        new = {}
        for m in TOKEN.finditer(plain):
            name = m.group(0)
            key = (head(plain, m.start()), new_name(path, name) if m.start() in at else name)
            new.setdefault(key, set()).add(name)
        out += [(path, n, sorted(o)) for n, o in new.items() if len(o) > 1]
    return out


def new_name(path, name):
    for folder, table in OTHERWISE.items():
        if (folder == "" or path == folder or path.startswith(folder + "/")) and name in table:
            return table[name]
    return "◌".join(snake(part) for part in name.split("◌")) if is_old(name) else name


def parameters(text):
    """Each function of a source file: its parameters, and where its clauses stand."""
    for m in re.finditer(r"\bfn (\w+)(?:<[^>]*>)?\(([^)]*)\)", text):
        end = re.search(r"(?m)^\s*\{\s*$|;\s*$", text[m.end():])
        yield m.group(1), set(re.findall(r"(\w+)\s*:", m.group(2))), text[m.end(): m.end() + (end.start() if end else 0)]


def rewrite(path, own):
    text, plain, found, _ = renamed_tokens(path, own)
    out, last = [], 0
    for at, name in found:
        out += [text[last:at], new_name(path, name)]
        last = at + len(name)
    return "".join(out) + text[last:]


def rewrite_source(path, names):
    """A source file: its ghost lines and clauses have the names of specs/."""
    text = read(path)
    plain = blank(text)
    plain = re.sub(r"(?m)//.*$", lambda m: " " * len(m.group(0)), plain)
    out, last = [], 0
    for m in TOKEN.finditer(plain):
        name = m.group(0)
        if is_old(name) and name in names:
            out += [text[last: m.start()], new_name(path, name)]
            last = m.end()
    return "".join(out) + text[last:]


def rewrite_quoted(text, names, path=""):
    """Names of the repository that stand in back quotes, in a comment or a page."""
    respelled = lambda m: new_name(path, m.group(0)) if m.group(0) in names else m.group(0)
    return re.sub(r"`([^`\n]+)`", lambda q: "`" + TOKEN.sub(respelled, q.group(1)) + "`", text)


def main():
    own = own_crates()
    together = collisions(own)
    for c in together:
        print("falls together:", *c, file=sys.stderr)
    names = {}
    for path in antt_files():
        for _, name in renamed_tokens(path, own)[2]:
            names.setdefault(name, new_name(path, name))
    sources = sorted(glob.glob("crates/*/src/**/*.rt", recursive=True))
    for path in sources:
        text = read(path)
        for f, params, clauses in parameters(text):
            for m in TOKEN.finditer(clauses):
                if m.group(0) in names and new_name(path, m.group(0)) in params:
                    print("hidden by a parameter:", path, f, m.group(0), file=sys.stderr)
                    together.append(f)
    if "--names" in sys.argv:
        for old in sorted(names):
            print(old, names[old])
        return
    if together:
        sys.exit("names fall together: nothing was changed")
    new = {path: rewrite(path, own) for path in antt_files()}
    new.update({path: rewrite_source(path, names) for path in sources})
    pages = [p for p in ("README.md", "CONTRIBUTING.md", "CHANGELOG.md") if os.path.exists(p)]
    pages += sorted(glob.glob("docs/**/*.md", recursive=True))
    for path in pages:
        new[path] = read(path)
    for path in new:
        new[path] = rewrite_quoted(new[path], names, path)
    for path in new:
        with open(path, "w", encoding="utf-8") as f:
            f.write(new[path])
    print(f"{len(names)} names")


if __name__ == "__main__":
    main()
