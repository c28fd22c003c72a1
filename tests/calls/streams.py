"""The streams of `calls` past their edges. Who waits gets answers: those to a full input while more is to come, and at the end of the input no read more.
The longest line is answered and a longer one ends the program; a disk that is full, or a reader that has gone, is told.

    python3 streams.py PROGRAM
"""

import os
import pty
import subprocess
import sys
import threading

PROGRAM = sys.argv[1]
SECONDS = 20


def ended(program):
    """Kills a program that hangs, and tells when it ends by itself."""
    watch = threading.Timer(SECONDS, program.kill)
    watch.start()
    return watch


def full_input():
    """Three inputs of 65,536 bytes: each is sent when the one before is answered."""
    lines = b"K 1 1\n" * 10922 + b"K 7\n"
    answers = b"1\n" * 10922 + b"unclear\n"
    program = subprocess.Popen([PROGRAM], stdin=subprocess.PIPE, stdout=subprocess.PIPE)
    watch = ended(program)
    for _ in range(3):
        program.stdin.write(lines)
        program.stdin.flush()
        assert program.stdout.read(len(answers)) == answers, "a full input is not answered"
    program.stdin.close()
    assert program.stdout.read() == b"" and program.wait() == 0
    watch.cancel()


def end_in_a_line():
    """A terminal whose input ends behind a line without a line feed."""
    upper, lower = pty.openpty()
    program = subprocess.Popen([PROGRAM], stdin=lower, stdout=subprocess.PIPE)
    os.close(lower)
    watch = ended(program)
    os.write(upper, b"K 7 11\x04\x04")
    assert program.stdout.read() == b"0\n" and program.wait() == 0, "the input is read behind its end"
    watch.cancel()
    os.close(upper)


def longest_line():
    """65,535 bytes and a line feed are a line, at the front of an input and behind others; one byte more is none."""
    longest = b"L 11 " + b"1" * 65530
    for front, answer in (b"", b""), (b"K 7 11\n", b"0\n"):
        for line, end in (longest, b"unclear\n0\n"), (longest + b"1", b"a line is too long\n"):
            said = subprocess.run([PROGRAM], input=front + line + b"\nK 7 11\n", stdout=subprocess.PIPE, timeout=SECONDS)
            assert (said.stdout, said.returncode) == (answer + end, 0), "a line of %d bytes behind %d" % (len(line), len(front))


def failed_writes():
    """Three inputs whose answers can't be written."""
    lines = b"K 1 1\n" * 32768
    with open("/dev/full", "wb") as full:
        said = subprocess.run([PROGRAM], input=lines, stdout=full, stderr=subprocess.PIPE, timeout=SECONDS)
    assert said.returncode == 1 and b"No space left" in said.stderr, "a full disk is not told"
    reader, writer = os.pipe()
    os.close(reader)
    said = subprocess.run([PROGRAM], input=lines, stdout=writer, stderr=subprocess.PIPE, timeout=SECONDS)
    os.close(writer)
    assert said.returncode == 1 and b"Broken pipe" in said.stderr, "a reader that has gone is not told"


full_input()
end_in_a_line()
longest_line()
failed_writes()
