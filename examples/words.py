"""Words of the commands that several scripts read."""

import argparse
import pathlib


def key(word):
    """A key of 32 bytes: its digits, those of one byte, which is then repeated, or @ and the name of a file that has its bytes."""
    try:
        text = pathlib.Path(word[1:]).read_bytes() if word.startswith("@") else bytes.fromhex(word)
    except OSError as why:
        raise argparse.ArgumentTypeError(f"{word[1:]}: {why.strerror}") from None
    text = text * 32 if len(text) == 1 else text
    if len(text) != 32:
        raise ValueError(word)
    return text
