"""Tries edits of bodies over the libraries that a gate left: after each of them the function that it turns must read as not
proved. See README.md, and ../edits.py for what an edit is.
"""
import pathlib
import sys

TOP = pathlib.Path(__file__).resolve().parents[2]
sys.path.insert(0, str(TOP / "checks"))
import since  # noqa: E402  (its folder is known only now)


def try_crate(run, crate, is_meant):
    """Tries those edits of a crate that are meant: how many there are, and how many are not refused."""
    found, bad = since.all_edits(run, crate)
    found, bad = [it for it in found if is_meant(it.path)], [it for it in bad if is_meant(it[0])]
    for path, text in bad:
        since.say(f"{crate}/{path.name}: {text}")
    if not found:
        return len(bad), len(bad)
    is_ready = since.begin_edits(run, crate, len(found))
    missed = since.try_edits(run, crate, found)[1] if is_ready else found
    return len(found) + len(bad), len(missed) + len(bad)


def main(words):
    options, names = since.read_words(words, ("--must-fail",))
    run = since.begin([], {**options, "anew": True})
    run.stand_all()
    count, lost = 0, 0
    for crate in sorted(run.here.crates):
        def is_meant(path):
            is_here = (path.parent.name == "must-fail") == options["must-fail"]
            return is_here and (not names or crate in names or f"{crate}/{path.name}" in names)
        tried, missed = try_crate(run, crate, is_meant)
        count, lost = count + tried, lost + missed
    print(f"{count} edits tried, {lost} of them not refused")
    return 1 if lost or not count else 0


if __name__ == "__main__":
    since.leave(main)
