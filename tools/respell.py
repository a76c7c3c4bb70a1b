#!/usr/bin/env python3
"""Brings the repository's own definitions and lemmas to today's spelling, once, after port.py: words in snake case, types in camel case.

usage: python3 tools/respell.py [--list]      at the top of the repository; --list prints old and new and changes nothing

A name is taken where a file of specs/ or proofs/ declares it: a signature, a type, a constructor, a field. A type is what `data` or `record`
declares, or whose signature ends in `Type`. Names of Rust (functions, fields, variants) and of the library keep theirs. In a file that has a
name from the library in a `use` line, that name is left alone. Where a new name would fall together with another, OTHER says which to take.
"""
import glob
import re
import sys

WORD = r"[A-Za-z\u0370-\u03ff][\w'\u2080-\u2089\u2032\u2115-]*"
# where two names of one file would fall together: a lemma beside its definition, a fact beside the struct that it speaks of
OTHER = {
    "Flat-fed": "IsFlatFed",
    "Flat-given": "IsFlatGiven",
    "Flat-ran": "IsFlatRan",
    "Flat-recorded": "IsFlatRecorded",
    "Flat-taken": "IsFlatTaken",
    "Request-read": "IsRequestRead",
    "action-back": "action_back_lem",
    "block-at": "block_at_lem",
    "content-in": "content_in_lem",
    "data-of": "data_of_each",
    "doing-back": "doing_back_lem",
    "failure-of": "failure_of_lem",
    "goesOn": "run_goes_on",
    "item-raw": "item_raw_lem",
    "kind-back": "kind_back_lem",
    "link-back": "link_back_lem",
    "mark-outside": "mark_outside_lem",
    "may-start": "may_start_lem",
    "nested-at": "nested_at_lem",
    "no-flags": "no_flags_lem",
    "not-called": "not_called_lem",
    "own-after": "own_after_lem",
    "own-most": "own_most_lem",
    "parts-bytes": "parts_bytes_lem",
    "parts-fit": "parts_fit_lem",
    "parts-ok": "parts_ok_lem",
    "parts-raw": "parts_raw_lem",
    "piece-outside": "piece_outside_lem",
    "ran_out": "ran_out_read",
    "reply-bytes": "reply_bytes_lem",
    "reply-told": "reply_told_lem",
    "reply-worked": "reply_worked_lem",
    "sent-raw": "sent_raw_lem",
    "style-ok": "style_ok_lem",
    "value-from": "value_from_lem",
    "wait-back": "wait_back_lem",
}
# a lemma that has the name of a type of another file
KEPT = {("crates/replies/proofs/Trips.antt", "accepted")}
OWN = re.compile(r"^(?:ghost |pub )*use Rattle\.(?!std\b|core\b)")


def files():
    return sorted(glob.glob("crates/*/specs/**/*.antt", recursive=True) + glob.glob("crates/*/proofs/**/*.antt", recursive=True))


def sources():
    return sorted(glob.glob("crates/*/src/**/*.rt", recursive=True))


def walk(path):
    """Whether a file is a function's own, whose names nothing else cites, but for NAME-spec."""
    return re.fullmatch(r"crates/[^/]*/proofs/.+/.+", path) is not None


def declared(path):
    """The names that a file declares, each with whether it is a type."""
    for name, kind in all_declared(path):
        if not walk(path) or name.endswith("-spec"):
            yield name, kind


def all_declared(path):
    lines = open(path, encoding="utf-8").read().split("\n")
    for i, line in enumerate(lines):
        m = re.match(r"^( *)(?:pub )?(?:(abbrev|unfoldable) )?(?:pub )?(?:(data|record) )?(" + WORD + r")((?: [^:\u2254=]*?)?) ?: ", line + " ")
        n = re.match(r"^( *)(?:pub )?(data|record) (" + WORD + r")", line)
        if n:
            yield n.group(3), True
            continue
        if not m or line.lstrip().startswith(("--", "use ", "let ", "in ", "where")):
            continue
        indent, names = len(m.group(1)), [m.group(4)] + [w for w in m.group(5).split() if re.fullmatch(WORD, w)]
        text = line[m.end() - 1:]
        for more in lines[i + 1:]:
            if not more.strip() or len(more) - len(more.lstrip()) <= indent:
                break
            text += " " + more.strip()
        kind = bool(re.search(r"(?:^|→|\))\s*Type [01]\s*$", re.sub(r"\s*--.*$", "", text).strip()))
        for name in names:
            yield name, kind


def parts(name):
    out = []
    for piece in re.split(r"[-_]", name):
        out += re.findall(r"[0-9][0-9A-F]*|[A-Z]+(?![a-z])[0-9A-Z]*|[A-Z]?[^A-Z]+", piece) or [piece]
    return [p for p in out if p]


def respelled(name, kind):
    if name in OTHER:
        return OTHER[name]
    name = name.replace("\u2032", "'")
    if kind:
        return "".join(p[0].upper() + p[1:] for p in parts(name))
    if "-" not in name and not re.search(r"[a-z0-9][A-Z]", name):
        return name
    ps = parts(name)
    return "_".join([ps[0] if name[0].isupper() else ps[0].lower()] + [p if re.fullmatch(r"[0-9A-F]+[A-F0-9]*", p) and any(c.isdigit() for c in p) else p.lower() for p in ps[1:]])


def library_names(text):
    """The names that a file takes from the library."""
    out = set()
    for line in text.split("\n"):
        m = re.match(r"^\s*(?:pub )?(?:ghost )?(?:pub )?use ([^{]*)(?:\{(.*)\})?", line)
        if m and not OWN.match(line.strip()) and not m.group(1).startswith(("tie", "goal")):
            for item in (m.group(2) or m.group(1).split(".")[-1]).split(","):
                out.add(item.split(" as ")[0].strip(" ;"))
                out.add(item.split(" as ")[-1].strip(" ;"))
    return out


def main():
    kinds = {}
    for path in files():
        for name, kind in declared(path):
            kinds[name] = kinds.get(name, False) or kind
    table = {}
    for name, kind in sorted(kinds.items()):
        new = respelled(name, kind)
        if new != name:
            table[name] = new
    rust = {}
    for path in sources():
        for w in re.findall(r"\b(?:fn|struct|enum|const|let mut|let|mod) ([A-Za-z_]\w*)|\b([a-z_]\w*): ", open(path, encoding="utf-8").read()):
            for x in w:
                if x:
                    rust.setdefault(x, set()).add(path)
    taken = {}
    for name in list(kinds):
        taken.setdefault(table.get(name, name), set()).add(name)
    for new, olds in sorted(taken.items()):
        if len(olds) > 1:
            print("fall together:", new, sorted(olds))
    token = re.compile(r"(?<![\w'\u2032-])" + WORD)
    for path in files() + sources():
        text = open(path, encoding="utf-8").read()
        skip = library_names(text)
        seen = {}
        for w in set(token.findall(re.sub(r"(?m)(^|\s)(--|//).*$", "", text))):
            new = w if w in skip or (path, w) in KEPT else table.get(w, w)
            seen.setdefault(new, set()).add(w)
        for new, olds in sorted(seen.items()):
            if len(olds) > 1:
                print("in one file:", path, new, sorted(olds))
    if "--list" in sys.argv:
        for old, new in table.items():
            print(old, new, "TYPE" if kinds[old] else "", "RUST " + " ".join(sorted(rust[new]))[:200] if new in rust else "")
        return
    changed = 0
    for path in files() + sources():
        text = open(path, encoding="utf-8").read()
        skip = library_names(text)

        def turn(m):
            w = m.group(0)
            return w if w in skip or (path, w) in KEPT else table.get(w, w)

        if path.endswith(".rt"):
            # only ghost lines and clauses: the names that are taken all have a dash or a hump, which no Rust word of these files has
            new = re.sub(token, turn, text)
        else:
            new = re.sub(token, turn, text)
        if new != text:
            open(path, "w", encoding="utf-8").write(new)
            changed += 1
    print(f"respell: {len(table)} names, {changed} files")


main()
