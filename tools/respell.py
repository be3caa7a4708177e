#!/usr/bin/env python3
"""Brings the repository's own definitions, lemmas, fields and constructors to snake case, wherever they are named.

usage: python3 tools/respell.py     at the top, once, after the kit's port.py

Types, modules and facts keep their upper camel case; what a file imports from elsewhere keeps its spelling there, and so do functions, exported names, strings and
what Rattle makes. A lemma that would get the name of its function ends in _lem, a module under another name is in camel case.
"""
import glob
import re

# names that would fall together with another
TAKEN = {
    "stem-word": "stem_word_lem", "period-word": "period_word_lem", "long-enough": "long_enough_lem", "bad-file": "bad_file_lem",
    "one-letter": "one_letter_lem", "period-packed": "period_packed_lem", "period-entries": "period_entries_lem",
    "stem-packed": "stem_packed_lem", "stem-entries": "stem_entries_lem", "stem-entry": "stem_entry_lem", "stem-target": "stem_target_lem",
    "stem-state": "stem_state_lem", "stem-letter": "stem_letter_lem", "stem-parent": "stem_parent_lem", "link-state": "link_state_lem",
    "link-letter": "link_letter_lem", "link-parent": "link_parent_lem", "led_on": "led_on_lem", "moved_all": "moved_all_lem",
    "link-at": "link_at_lem", "bit-and": "bit_and_lem", "bit-or": "bit_or_lem",
}
# of these, the files in which the old spelling is a lemma and no function of the code
ONLY = {
    "led_on": {"crates/automata/proofs/Rows.antt", "crates/automata/proofs/eight/led_on/Proof.antt"},
    "moved_all": {"crates/bits/proofs/Moved.antt", "crates/bits/proofs/members/moved/Proof.antt", "crates/bits/proofs/members/moved16/Proof.antt"},
}
TOKEN = re.compile(r"[^\s(){}\[\],;.`|]+")
DECLARED = re.compile(r"^\s*(?:abbrev |unfoldable |pub |private )*(?:record |data )?([^\s(){}\[\],;.:λ]+)(?: *[({].*)? :(?= |$)")
USE = re.compile(r"^\s*(?:pub |ghost )*use ([^\s{;]+?)(?:\.\{([^}]*)\}| as (\S+)|(?=;|$))", re.M)


def snake(name):
    return re.sub(r"([a-z0-9])([A-Z])", lambda m: m.group(1) + "_" + m.group(2).lower(), name).replace("-", "_")


def own_names(texts):
    """What the declared names become, and all that are declared then."""
    names, declared = {}, set()
    for path, text in texts.items():
        if not path.endswith(".antt"):
            continue
        for line in text.splitlines():
            m = DECLARED.match(line.split(" -- ")[0])
            if not m or line.lstrip().startswith("--") or re.search(r": (tie\.|statement )", line):
                continue
            name = m.group(1)
            if re.match(r"[a-z]", name) and snake(name) != name:
                names[name] = TAKEN.get(name, snake(name))
            declared.add(names.get(name, name))
    for name in ONLY:
        names[name] = TAKEN[name]
    return names, declared


def imported(text, crates):
    """The names of a file that come from elsewhere, and those that stand for modules."""
    far, modules = set(), {}
    for m in USE.finditer(text):
        head = m.group(1).split(".")
        here = len(head) > 1 and head[0] == "Rattle" and head[1] in crates
        if m.group(2) and not here:
            far |= {w.strip().split(" as ")[-1] for w in m.group(2).split(",")}
        if m.group(3) and "-" in m.group(3):
            modules[m.group(3)] = "".join(w.capitalize() for w in m.group(3).split("-"))
    return far, modules


def respelled(text, names, comment):
    """Code with the names turned; of a comment what stands between backticks, and what no sentence has."""
    def turn(part):
        return TOKEN.sub(lambda m: names.get(m.group(0), m.group(0)), part)

    def words(part):
        camel = {n: m for n, m in names.items() if re.search(r"[a-z][A-Z]", n)}
        part = TOKEN.sub(lambda m: camel.get(m.group(0), m.group(0)), part)
        return re.sub(r"`[^`]*`", lambda m: turn(m.group(0)), part)

    lines = []
    for line in text.split("\n"):
        if comment is None:
            lines.append(words(line))
            continue
        m = re.search(r"(^|\s)" + comment, line)
        cut = m.start() if m else len(line)
        lines.append(turn(line[:cut]) + words(line[cut:]))
    return "\n".join(lines)


def main():
    crates = {p.split("/")[1] for p in glob.glob("crates/*/src")}
    paths = [p for e in ("antt", "rt", "edit") for p in glob.glob(f"crates/**/*.{e}", recursive=True) if "/out/" not in p]
    paths += glob.glob("*.md") + glob.glob("docs/*.md")
    texts = {p: open(p, encoding="utf-8").read() for p in paths}
    names, declared = own_names(texts)
    # port.py turns no page and no edit: there a name may still stand as it was before
    before = {w: snake(w) for p in paths if p.endswith((".edit", ".md")) for w in TOKEN.findall(texts[p]) if snake(w) != w and snake(w) in declared}
    changed = 0
    for path, text in texts.items():
        far, modules = imported(text, crates) if path.endswith((".antt", ".rt")) else (set(), {})
        here = {n: m for n, m in names.items() if n not in far and (n not in ONLY or path in ONLY[n])} | modules
        if path.endswith((".edit", ".md")):
            here = before | here
        new = respelled(text, here, {"antt": "--", "rt": "//", "edit": "\0", "md": None}[path.rsplit(".", 1)[1]])
        if new != text:
            open(path, "w", encoding="utf-8").write(new)
            changed += 1
    print(f"respell: {len(names)} names, {changed} files")


if __name__ == "__main__":
    main()
