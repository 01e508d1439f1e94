"""What the measurements share: where the programs are, and a folder on the disk that is measured."""
import os
import re
import resource
import subprocess
import tempfile
import time

TOP = os.path.dirname(os.path.dirname(os.path.abspath(__file__)))
PROGRAM = os.path.join(TOP, "crates", "st80", "out", "st80")
PARSER = os.path.join(TOP, "crates", "parse_bench", "out", "parse_bench")


def build():
    """Builds the program where it is missing or older than its sources."""
    subprocess.run([os.path.join(TOP, "bin", "st80")], stdout=subprocess.DEVNULL, stderr=subprocess.DEVNULL)
    assert os.access(PROGRAM, os.X_OK), "bin/st80 builds no program"


def build_parser():
    """Builds the program that parses a text again and again, where it is missing or older than its sources."""
    found = subprocess.run(["rt", "run", "--", "doit", "0"], cwd=os.path.join(TOP, "crates", "parse_bench"),
                           stdin=subprocess.DEVNULL, stdout=subprocess.PIPE, stderr=subprocess.STDOUT, text=True)
    assert found.returncode == 0, "rt run builds no parse_bench:\n" + found.stdout


def folder():
    """A new folder beside the repository's files, so that both programs write to one disk."""
    return tempfile.TemporaryDirectory(prefix="bench-", dir=os.path.join(TOP, "bench"))


def measured(words, data=b""):
    """The time by the clock and the user time of a run of the program, the most memory that it took in KiB, and how many bytes it wrote."""
    before, began = resource.getrusage(resource.RUSAGE_CHILDREN).ru_utime, time.monotonic()
    run = subprocess.Popen([PROGRAM, *words], stdin=subprocess.PIPE, stdout=subprocess.PIPE)
    run.stdin.write(data)
    run.stdin.close()
    out = run.stdout.read(1)
    with open(f"/proc/{run.pid}/status") as status:
        peak = re.search(r"VmHWM:\s*(\d+)", status.read())
    out += run.stdout.read()
    assert run.wait() == 0
    user = resource.getrusage(resource.RUSAGE_CHILDREN).ru_utime - before
    return time.monotonic() - began, user, int(peak.group(1)) if peak else 0, len(out)
