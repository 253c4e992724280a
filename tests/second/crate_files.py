"""The files stdin and stdout in a crate's folder: what its program reads, and what it must write."""

import os


def store(into, crate, stdin, stdout):
    """Both files, in the crate's folder within `into`; a program that reads nothing has no stdin."""
    here = os.path.join(into, crate)
    os.makedirs(here, exist_ok=True)
    for name, content in (("stdin", stdin), ("stdout", stdout)):
        if content is not None:
            with open(os.path.join(here, name), "wb") as file:
                file.write(content)
