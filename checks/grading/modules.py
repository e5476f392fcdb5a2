"""What the checks of marks.mjs and `xv --check` need: Node, and modules that are of the code that stands here."""
import pathlib
import shutil
import subprocess

TOP = pathlib.Path(__file__).resolve().parents[2]


def what_lacks():
    """What isn't here of that, in words for a person, or None."""
    if shutil.which("node") is None:
        return "there is no node"
    if subprocess.run([TOP / "anywhere/is_current.sh"], capture_output=True).returncode != 0:
        return "the modules for Node are of an earlier state: anywhere/build.sh makes them anew"
    return None
