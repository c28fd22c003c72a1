"""Writes the inputs of `strips` and `calls`, and what they must print, into the folder that is named."""

import os
import sys

import calls
import plates
from calls_inputs import lines_of_calls
from strips_inputs import records_of_strips


def write(folder, program, standard_input, standard_output):
    os.makedirs(os.path.join(folder, program), exist_ok=True)
    for name, content in (("stdin", standard_input), ("stdout", standard_output)):
        with open(os.path.join(folder, program, name), "wb") as file:
            file.write(content)


def joined(lines):
    return "".join(line + "\n" for line in lines).encode("ascii")


def main(folder):
    records = records_of_strips()
    write(folder, "strips", records, plates.strips(records))
    lines = lines_of_calls()
    write(folder, "calls", joined(lines), joined(map(calls.answered, lines)))


if __name__ == "__main__":
    if len(sys.argv) != 2:
        sys.exit("usage: generate.py DIR")
    main(sys.argv[1])
