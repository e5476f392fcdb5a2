"""Compares NOTATION.md with what the labs hand out: each sign and each word of std that a contract or a definition has is
explained there. checks/labs.sh --notation; it needs no kit."""
import re
import sys

import bodies
import laws
import places
from source import LABS, Lab, all_labs

# What antt reads by itself, and no file brings in.
BUILT_IN = "elim record let in if then else do when or data abbrev unfoldable where Type".split()


def explained():
    """What stands between backticks in NOTATION.md: its words, and its signs between blanks."""
    spans = re.findall(r"`([^`\n]+)`", (LABS / "NOTATION.md").read_text(encoding="utf-8"))
    return {word for span in spans for word in [*re.findall(r"\w+", span), *span.split(), *re.split(r"[\s()\[\]{};.,]+", span)]}


def handed_out(lab):
    """The files of a lab's folder, as pairs of name and text."""
    if laws.is_one(lab.name):
        return [*laws.files_of(lab)]
    asked = [(places.NAME, places.sheet(lab))] if places.is_one(lab) else []
    return [("answer.rs", lab.sheet()), *asked, *bodies.handed_out(lab)]


def clauses_of(text):
    """The lines of the contracts in a file of code."""
    clause = r"^ *(?:requires|ensures)\b.*(?:\n(?! *(?:requires|ensures|\{)\b).*\S.*)*"
    return "\n".join(re.findall(clause, re.sub(r"//.*", "", text), re.M))


def signs_of(name, text):
    """The words of std that a file brings in, the signs of its contracts or definitions, and the words of antt's own."""
    for names in re.findall(r"use Rattle\.std\.[\w.]+\.\{([^}]*)\}", text):
        yield from (it for one in names.split(",") for it in re.split(r"[◌\s]+", one.partition(" as ")[0]) if it)
    is_code = not name.endswith(".antt")
    told = clauses_of(text) if is_code else re.sub(r"--.*", "", text)
    yield from (it for it in told if ord(it) > 127 and it != "◌")
    yield from ([] if is_code else [it for it in BUILT_IN if re.search(rf"\b{it}\b", told)])


def amiss():
    """What isn't explained, with the labs and files that have it."""
    known, found = explained(), {}
    for name in all_labs():
        for file, text in handed_out(Lab(name)):
            for sign in signs_of(file, text):
                if sign not in known:
                    found.setdefault(sign, []).append(f"{name}/{file}")
    return found


def main():
    """Tells what isn't explained."""
    found = amiss()
    for sign, places in sorted(found.items()):
        print(f"labs/NOTATION.md doesn't explain `{sign}`, of {', '.join(sorted(set(places))[:3])}")
    print(f"the signs of {len(all_labs())} labs' files beside labs/NOTATION.md: {len(found)} are not explained")
    return 1 if found else 0


if __name__ == "__main__":
    sys.exit(main())
