"""The proved programs that the checks run."""
import subprocess
import sys
from pathlib import Path

TOP = Path(__file__).resolve().parent.parent


def proved(words=(), name="ripqwarp"):
    """The path of a program: the first of the words where there is one, or else that of the program which `./run --prove` makes."""
    if words:
        return Path(words[0]).resolve()
    made = subprocess.run([TOP / "run", "--prove", name], stdout=subprocess.PIPE, text=True)
    if made.returncode:
        sys.exit(made.returncode)
    return Path(made.stdout.strip())
