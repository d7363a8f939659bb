"""What `compare` needs: building, running, medians, tables."""

import functools
import os
import re
import statistics
import subprocess
import sys
from pathlib import Path

BENCH = Path(__file__).resolve().parent
ROOT = BENCH.parent
OUT = BENCH / "out"

# Rattle builds for x86-64-v2 and the whole program as one module, and does not unwind, so Rust does too.
RUSTC = ["rustc", "--edition", "2024", "-C", "opt-level=3", "-C", "codegen-units=1", "-C", "panic=abort"]
if os.uname().machine == "x86_64":
    RUSTC += ["-C", "target-cpu=x86-64-v2"]
# A higher limit for inlining: without it std's hash is a call in some cases. The peer gains 3 of 100 instructions.
RUSTC += ["-C", "llvm-args=-inline-threshold=600"]


@functools.cache
def build_rust(name):
    """Builds bench/NAME/main.rs to out/NAME if a source is newer than that."""
    OUT.mkdir(exist_ok=True)
    built = OUT / name
    sources = list(BENCH.rglob("*.rs"))
    newest = max(path.stat().st_mtime for path in sources)
    if not built.exists() or built.stat().st_mtime < newest:
        subprocess.run(RUSTC + [str(BENCH / name / "main.rs"), "-o", str(built)], check=True)
    return str(built)


class Program:
    """The built omny_cli: the one that was given, else the proved one if it is newer than its sources, else a trial."""

    def __init__(self, given):
        self.is_trial = False
        if given:
            self.path, self.what = str(Path(given).resolve()), "as given"
            return
        proved = subprocess.run([str(ROOT / "scripts/proved_program"), "omny_cli"], capture_output=True, text=True)
        if proved.returncode == 0:
            self.path, self.what = proved.stdout.strip(), "proved"
            return
        self.is_trial = True
        self.path = str(ROOT / "out/trial/omny_cli")
        print(f"no proved program: {proved.stderr.strip()}. A trial is built, and measured in its place", flush=True)
        if subprocess.run([str(ROOT / "scripts/build_trial"), "omny_cli"]).returncode != 0:
            sys.exit("there is no program to measure")
        self.what = "A TRIAL: nothing is proved of it, and its checks make it slow and large. These are not the program's figures"


class Run:
    """One run of a program in a folder: wall and processor seconds, peak memory in KiB, exit status, and the bytes
    that it read and wrote by calls, -1 if the system does not count them."""

    def __init__(self, words, out, folder):
        # In their folder files have short names, so that 65,535 of them fit on a command line.
        command = [build_rust("timed"), str(out), *words]
        told = subprocess.run(command, cwd=folder, stdin=subprocess.DEVNULL, stdout=subprocess.PIPE, check=True, text=True)
        seconds, busy, memory, status, read, written = told.stdout.split()
        self.seconds, self.busy, self.memory = float(seconds), float(busy), int(memory)
        self.status = os.waitstatus_to_exitcode(int(status))
        self.read, self.written = int(read), int(written)


def instructions(words, folder):
    """The instructions of a run in a folder, of all threads, as valgrind counts them. None if it gives no count."""
    log = Path(folder) / "valgrind.log"
    command = ["valgrind", "--tool=callgrind", "--callgrind-out-file=/dev/null", f"--log-file={log}", *words]
    ran = subprocess.run(command, cwd=folder, stdin=subprocess.DEVNULL, stdout=subprocess.DEVNULL, stderr=subprocess.DEVNULL)
    found = re.search(r"Collected : (\d+)", log.read_text()) if log.exists() else None
    return int(found[1]) if found and ran.returncode == 0 else None


def median(values):
    return statistics.median(values)


def machine():
    """One line on the machine and what else it is doing."""
    model = "processor unknown"
    try:
        for line in open("/proc/cpuinfo"):
            if line.startswith("model name"):
                model = line.split(":", 1)[1].strip()
                break
    except OSError:
        pass
    load = " ".join(f"{one:.1f}" for one in os.getloadavg())
    return f"machine: {model}, {os.cpu_count()} processors, load {load}"


def rising(text):
    """A list of numbers, as 1,2,4."""
    return [int(part.replace("_", "")) for part in text.split(",")]
