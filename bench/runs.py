"""Runs of the program chip: which one, and what a run of it takes."""

import collections
import os
import re
import subprocess
import sys
import tempfile

TOP = os.path.dirname(os.path.dirname(os.path.abspath(__file__)))
# What isn't the same in each run, and what `./chip` says of itself.
LEFT_OUT = re.compile(r"^(report [0-9a-f]{316,318}|chip: .*)$")

Run = collections.namedtuple("Run", "seconds peak status output told")


def built(checkout):
    """The proved program of a checkout, which its `./chip` proves and builds first where it is missing or old."""
    own = {name: value for name, value in os.environ.items() if name != "CHIP_UNPROVED"}
    words = [os.path.join(checkout, "chip"), "plain", os.path.join(checkout, "examples/exit7.bin"), "--flat"]
    try:
        done = subprocess.run(words, env=own, stdout=subprocess.DEVNULL, stderr=subprocess.PIPE, text=True)
    except OSError as fault:
        sys.exit(f"{words[0]}: {fault.strerror}")
    path = os.path.join(checkout, "crates/chip/out/chip")
    if done.returncode != 0 or not os.access(path, os.X_OK):
        sys.exit(f"{checkout}: its chip ends with status {done.returncode}\n{done.stderr}")
    return path


def program(path):
    """The program that is run: the one that is named, or this checkout's. Never the script `./chip`, which looks through
    all sources at each call."""
    if path is None:
        return built(TOP)
    if not os.path.isfile(path) or not os.access(path, os.X_OK):
        sys.exit(f"{path}: no program")
    return os.path.abspath(path)


def run(words):
    """One run: the processor's seconds, the process's peak memory in bytes, its status, and what it writes."""
    with tempfile.TemporaryFile() as output, tempfile.TemporaryFile() as told:
        process = subprocess.Popen(words, stdin=subprocess.DEVNULL, stdout=output, stderr=told)
        _, status, used = os.wait4(process.pid, 0)
        process.returncode = os.waitstatus_to_exitcode(status)
        output.seek(0)
        told.seek(0)
        lines = [line for line in told.read().decode(errors="replace").splitlines() if not LEFT_OUT.match(line)]
        seconds = used.ru_utime + used.ru_stime
        return Run(seconds, 1024 * used.ru_maxrss, process.returncode, output.read(), lines)


def expect(words, done, told, output=None):
    """The script ends where a run ends otherwise than it should, or prints something else than the output, if one is given."""
    if done.told[: len(told)] != told:
        sys.exit(f"{' '.join(words)}: status {done.status}, {done.told} in place of {told}")
    if output is not None and done.output != output:
        sys.exit(f"{' '.join(words)}: prints {done.output} in place of {output}")


def assemble(chip, text, path):
    """The ELF file of an assembly text, made by the chip."""
    source = path + ".s"
    with open(source, "w", encoding="utf-8") as file:
        file.write(text)
    with open(path, "wb") as file:
        subprocess.run([chip, "asm", source], stdout=file, stderr=subprocess.DEVNULL, check=True)
    return path
