"""The program `yongidra`, called on the bytes of a program."""
import pathlib
import subprocess
from dataclasses import dataclass


@dataclass
class Answer:
    words: list  # None if it was refused
    stack: int
    message: str


def compile_program(binary, folder, text):
    path = pathlib.Path(folder) / "program"
    path.write_bytes(text)
    done = subprocess.run([binary, str(path)], capture_output=True, text=True)
    if done.returncode != 0:
        return Answer(None, 0, done.stderr.strip() or f"status {done.returncode}")
    stack, *words = [int(line, 16) for line in done.stdout.split()]
    return Answer(words, stack, "")
