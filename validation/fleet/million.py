#!/usr/bin/env python3
"""Times a portfolio of many loans in parts: split, run with one process and with several, and gathered.

    million.py PROGRAM FOLDER [COUNT [JOBS]]

PROGRAM is the path of the built program; FOLDER is made, and takes some 20 kilobytes a loan (a million: 20 GB); COUNT is
a million where it isn't given, JOBS 4. Told are seconds by the clock, processor seconds, and the greatest memory of a
process, of each step, and how they stand to one another. Run it on a machine that has nothing else to do.
"""

import os
import pathlib
import resource
import shutil
import subprocess
import sys
import time

TOP = pathlib.Path(__file__).resolve().parents[2]


def step(name: str, words: list[str]) -> float:
    """Runs a step, and tells what it took."""
    environment = dict(os.environ, PYTHONPATH=str(TOP / "python"))
    before = resource.getrusage(resource.RUSAGE_CHILDREN)
    begun = time.monotonic()
    done = subprocess.run(["/usr/bin/env", *words], env=environment, stderr=subprocess.PIPE, stdout=subprocess.PIPE)
    seconds = time.monotonic() - begun
    after = resource.getrusage(resource.RUSAGE_CHILDREN)
    if done.returncode not in (0, 8):
        sys.exit(f"{name} ended with {done.returncode}: {done.stderr.decode()[-500:]}")
    used = after.ru_utime + after.ru_stime - before.ru_utime - before.ru_stime
    print(f"{name:28} {seconds:8.1f} s by the clock {used:8.1f} s of processors, "
          f"greatest process so far {after.ru_maxrss / 1024:6.0f} MiB", flush=True)
    return seconds


def main() -> None:
    if len(sys.argv) < 3:
        sys.exit(__doc__)
    program, folder = os.path.abspath(sys.argv[1]), pathlib.Path(sys.argv[2])
    count, jobs = int((sys.argv[3:] or ["1000000"])[0]), int((sys.argv[4:] or ["4"])[0])
    actus, parts = [sys.executable, "-m", "actus"], str(folder / "parts")
    if folder.exists():
        sys.exit(f"{folder} is there already: name a new folder")
    subprocess.run([sys.executable, str(pathlib.Path(__file__).parent / "make.py"), str(count), str(folder)], check=True)
    size = (folder / "all.json").stat().st_size
    print(f"{count} loans, {size / 2 ** 20:.0f} MiB, {jobs} processes")
    split = step("split", [*actus, "split", str(folder / "all.json"), str(folder / "all.txt"), "-o", parts, "-j", str(jobs)])
    several = step(f"run, {jobs} processes", [*actus, "run-parts", parts, "-j", str(jobs), "--program", program])
    size = sum(path.stat().st_size for path in pathlib.Path(parts).glob("*/text"))
    peak = max(int(line.split(":")[1].strip(" ,")) for path in pathlib.Path(parts).glob("*/result.json")
               for line in path.read_text().splitlines() if '"memory_kib"' in line)
    step("gather, CSV", [*actus, "gather", parts, "-o", str(folder / "all.csv"), "-j", str(jobs)])
    with open(folder / "all.csv", "rb") as file:
        rows = sum(data.count(b"\n") for data in iter(lambda: file.read(1 << 24), b"")) - 1
    (folder / "all.csv").unlink()
    step("gather, sums by month", [*actus, "gather", parts, "--ladder", "month", "-o", str(folder / "sums.csv"), "-j",
                                   str(jobs)])
    for path in pathlib.Path(parts).glob("*/result.json"):
        path.unlink()
    one = step("run, 1 process", [*actus, "run-parts", parts, "-j", "1", "--program", program])
    print(f"{rows} rows, {size / 2 ** 30:.2f} GiB of text; {one / several:.2f} times as fast with {jobs} processes; split "
          f"{split / several:.2f} of the run; the program's greatest memory {peak / 1024:.0f} MiB")
    shutil.rmtree(folder)


if __name__ == "__main__":
    main()
