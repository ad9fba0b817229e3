"""The cases of the program, and the folder that they are called in: `data` beside the `examples` of the top."""
import os
import shutil

HERE = os.path.dirname(os.path.abspath(__file__))
EXAMPLES = os.path.join(HERE, "..", "..", "examples")


def read_cases():
    """The lines of the file `cases` that are calls."""
    with open(f"{HERE}/cases", encoding="utf8") as file:
        lines = file.read().splitlines()
    return [line for line in lines if line and not line.startswith("#")]


def furnish(room):
    """Copies into an empty folder what the calls read."""
    shutil.copytree(f"{HERE}/data", room, dirs_exist_ok=True)
    shutil.copytree(EXAMPLES, f"{room}/examples")
