"""What the scripts of this folder share of the repository."""
import os

TOP = os.path.dirname(os.path.dirname(os.path.realpath(__file__)))


def crates():
    """Returns the names of the repository's crates."""
    with open(f"{TOP}/crates.txt", encoding="utf-8") as lines:
        return [it.split(":")[0].split()[0] for it in lines if ":" in it and not it.startswith("#")]
