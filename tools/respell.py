"""Brings the repository's own words to today's spelling: definitions and lemmas in snake case, types and modules in camel case, a dash only between
two words that are defined. usage: respell.py [TOP] [--list]. For a tree that is fresh from the toolchain's port.py, and once: a tree that is turned already
loses by it."""

import glob
import os
import re
import sys

SIGNATURE = re.compile(r"^\s*(?:(?:pub|abbrev|unfoldable|theorem)\s+)*([^\s:(){},;]+)\s*:(?!:)")
WORD = re.compile(r"[^\s(){}\[\],;.\"«»⟨⟩λ]+")


def snake(name):
    return re.sub(r"(?<=[a-z0-9])([A-Z])", lambda m: "_" + m[1].lower(), name)


def is_type(name):
    return bool(re.match(r"[A-Z]", name))


def files(top, *kinds):
    for kind in kinds:
        ends = {"src": "*.rt", "must-fail": "*.edit"}.get(kind, "**/*.antt")
        yield from sorted(glob.glob(os.path.join(top, "crates", "*", kind, ends), recursive=True))


def defined(top, *kinds):
    """The names that have a signature of their own in these folders; apart, the fields of records."""
    names, fields = set(), set()
    for path in files(top, *kinds):
        for line in open(path, encoding="utf-8"):
            m = None if line.lstrip().startswith("--") else SIGNATURE.match(line)
            if m and re.fullmatch(r"[A-Za-z+μ][\w'+-]*", m[1]):
                (fields if line.startswith(" ") and line.lstrip().startswith("pub ") else names).add(m[1])
    return names, fields


def source_names(top):
    return {m[1] for path in files(top, "src") for m in re.finditer(r"\bfn\s+(\w+)", open(path, encoding="utf-8").read())}


def dashed(name, words):
    """A dashed name with each word of several parts in it, the longest first, in that word's own spelling."""
    parts, out = name.split("-"), []
    while parts:
        n = next((n for n in range(len(parts), 1, -1) if "_".join(parts[:n]) in words), 1)
        out.append("_".join(parts[:n]))
        parts = parts[n:]
    return "-".join(out) if len(out) > 1 or "_" not in out[0] else out[0] + "_lem"


def renames(top):
    (specs, spec_fields), (proofs, proof_fields) = defined(top, "specs"), defined(top, "proofs")
    fields = spec_fields | proof_fields
    names = {n for n in specs | proofs | fields if not is_type(n)}
    plain = {n: snake(n) for n in names if "-" not in n}
    functions = source_names(top)
    words = set(plain.values()) | functions
    turned = dict(plain)
    for n in names:
        if "-" not in n:
            continue
        low = snake(n)
        if n in fields and n not in specs | proofs:
            turned[n] = low.replace("-", "_")
        elif low.endswith("-spec") and low[:-5].replace("-", "_") in functions:
            turned[n] = low.replace("-", "_")
        else:
            turned[n] = dashed(low, words)
    turned.update(EXCEPTIONS)
    return {n: t for n, t in turned.items() if n != t}


# where the rule would let two names fall together, or reads badly
EXCEPTIONS = {"in-force": "in_force_lem", "is-for": "is_for_lem", "judged-time": "judged_time_lem", "own-time": "own_time_lem", "getD-bytes": "get_or-bytes", "caseWLog": "case_w_log", "caseWReport": "case_w_report"}
# fields and constructors that share their old name with a lemma
EXCEPTIONS |= {
    n: n.replace("-", "_")
    for n in "effective-actual actual-production production-uptime uptime-total one-digit of-log of-benchmarks by-report by-numbers by-write by-print by-supplemental".split()
}


def turn_text(path, text, turned):
    """In source and edits, and in comments, words without a dash alone: there a dash may be a hyphen or a minus."""
    plain = {n: t for n, t in turned.items() if "-" not in n}

    def line(text):
        names = plain if not path.endswith(".antt") or text.lstrip().startswith("--") else turned
        return WORD.sub(lambda m: names.get(m[0], m[0]), text)

    return "\n".join(line(t) for t in text.split("\n"))


def main():
    args = [a for a in sys.argv[1:] if not a.startswith("--")]
    if set(sys.argv[1:]) - set(args) - {"--list"}:
        sys.exit(__doc__)
    top = args[0] if args else "."
    turned = renames(top)
    if "--list" in sys.argv:
        for n in sorted(turned):
            print(n, turned[n])
        return
    for path in files(top, "specs", "proofs", "src", "must-fail"):
        text = open(path, encoding="utf-8").read()
        # an import needs no other name where a word is spelled as the function beside it
        new = turn_text(path, re.sub(r" as Names·|Names·", lambda m: "" if m[0] == "Names·" else " as ", text), turned)
        new = re.sub(r"\b(\w+) as \1\b", r"\1", new)
        if new != text:
            open(path, "w", encoding="utf-8").write(new)
    print(len(turned), "names turned")


main()
