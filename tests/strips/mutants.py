"""Wrong versions of the program's loop and of the script, which nothing proves: each is put into a copy of this repository, and tests/strips/run.sh must
fail there. It is run by hand when one of the two changes, and is no part of the gate: it takes some minutes. It builds the program anew
for each."""

import os
import pathlib
import shutil
import signal
import subprocess
import sys
import tempfile

LOOP, SCRIPT = "crates/strips/src/main.rt", "strips"

MUTANTS = [
    ("two blocks and no more", LOOP, "for _ in 0..=u64::MAX {", "for _ in 0..=1u64 {"),
    ("one block and no more", LOOP, "            if n < block.len() {", "            if n == block.len() {"),
    ("stops where the block was written", LOOP, "            print(rt, &block[..n], out)?;\n", "            if print(rt, &block[..n], out).is_continue() {\n                return ControlFlow::Break(());\n            }\n"),
    ("goes on where it was not written", LOOP, "        Err(_) => stop(rt, \"strips: standard output cannot be written\"),", "        Err(_) => {\n            let _ = stop(rt, \"strips: standard output cannot be written\");\n            ControlFlow::Continue(())\n        }"),
    ("goes on where it was not read", LOOP, "            stop(rt, \"strips: standard input cannot be read\")\n", "            let _ = stop(rt, \"strips: standard input cannot be read\");\n            ControlFlow::Continue(())\n"),
    ("a small read taken for the end", LOOP, "            Ok(0) =>", "            Ok(0..=4095) =>"),
    ("a failed read taken for the end", LOOP, "            Err(_) => return Err(n),", "            Err(_) => return Ok(n),"),
    ("each read to the front of the block", LOOP, "input.read(&mut block[n..])", "input.read(&mut block[0..])"),
    ("another stream read", LOOP, "fill(input, block)", "fill(&mut b\"\".as_slice(), block)"),
    ("lines on standard error", LOOP, "one_block(&rt, &mut input", "one_block(&rt.stderr(), &mut input"),
    ("a rest where a read failed", LOOP, "n - n % 16", "n - n % 8"),
    ("nothing where a read failed", LOOP, "n - n % 16", "n - n % 262144"),
    ("a closed pipe ends the program in silence", LOOP, "        Err(_) => stop(rt, \"strips: standard output cannot be written\"),", "        Err(_) => ControlFlow::Break(()),"),
    ("the other message", LOOP, "\"strips: standard input cannot", "\"strips: standard output cannot"),
    ("closed standard error", SCRIPT, "( : >&2 ) || exec 2>/dev/null", ":"),
    ("its folder as it was called", SCRIPT, "$(readlink -f -- \"$0\")", "$0"),
    ("two at once", SCRIPT, "flock 3 &&", ":;"),
    ("what the program says held back", SCRIPT, "printf '%s\\n' \"$said\" >&2; exit 1;", "exit 1;"),
    ("no status of what it says", SCRIPT, "wait \"$watcher\" || exit 1", "wait \"$watcher\""),
    ("no status of a breakdown", SCRIPT, "[ \"$status\" -eq 0 ] ||", "true ||"),
    ("a signal not passed on", SCRIPT, "    kill -s TERM \"$!\" 2>/dev/null\n    wait \"$!\" \"$watcher\"\n", ""),
    ("no signal waited for", SCRIPT, "trap 'ended 143' TERM", ":"),
    ("what it says through a file", SCRIPT, "exec 3> >(said=$(cat);", "file=$(mktemp) || exit 2; exec 3> >(said=$(cat);"),
]


def last(text):
    lines = [line for line in text.splitlines() if line.strip()]
    return lines[-1][:150] if lines else "no word"


def run(command, folder):
    """What a command gives and writes within two minutes; what it started ends with it."""
    with subprocess.Popen(command, cwd=folder, stdin=subprocess.DEVNULL, stdout=subprocess.PIPE, stderr=subprocess.STDOUT, text=True, start_new_session=True) as process:
        try:
            said, _ = process.communicate(timeout=120)
            return process.returncode, said
        finally:
            if process.poll() is None:
                os.killpg(process.pid, signal.SIGKILL)


def shown_by(copy, path):
    """What shows the mutant that stands in the copy, or None."""
    try:
        if path == LOOP:
            status, said = run(["rt", "run"], copy / "crates/strips")
            if status:
                return f"it is not proved: {last(said)}"
        status, said = run(["bash", "tests/strips/run.sh"], copy)
    except subprocess.TimeoutExpired:
        return "no end in two minutes"
    return None if status == 0 else last(said)


def main():
    here = pathlib.Path(__file__).resolve().parents[2]
    missed = 0
    with tempfile.TemporaryDirectory() as folder:
        copy = pathlib.Path(folder) / "plates"
        shutil.copytree(here, copy, symlinks=True, ignore=shutil.ignore_patterns(".git", "must-fail", "incremental"))
        for name, *edits in MUTANTS:
            changed = {}
            for path, old, new in zip(edits[0::3], edits[1::3], edits[2::3]):
                changed[path] = text = (copy / path).read_text()
                if old not in text:
                    sys.exit(f"{name}: its place is not in {path}")
                (copy / path).write_text(text.replace(old, new))
            shown = shown_by(copy, edits[0])
            missed += shown is None
            print(f"{name}: {shown or 'NOT SHOWN'}", flush=True)
            for path, text in changed.items():
                (copy / path).write_text(text)
            if edits[0] == LOOP:
                subprocess.run(["./strips"], cwd=copy, stdin=subprocess.DEVNULL, stderr=subprocess.DEVNULL, check=True)
    print(f"{len(MUTANTS)} wrong versions, {missed} not shown")
    sys.exit(1 if missed else 0)


main()
