"""Random programs over the Python package, beside numpy and formats that are written from the standards alone.

bindings/random                      2,000 programs, of the seeds 1 to 2,000
bindings/random --programs N         N programs
bindings/random --minutes M          as many as there is time for; each minute it tells how many on the other output
bindings/random --seed S             of the seeds from S on
bindings/random --show SEED          runs one program, made no smaller, and prints its lines
bindings/random --only NAME,..       programs of these names alone
bindings/random --most F             ends where F programs have failed: 5 where nothing is said, 0 for never
bindings/random --tries T            makes a program that fails smaller by T tries at most; 400 where nothing is said
bindings/random --package FOLDER     the package in this folder, and not the one beside this script

A program makes chains, values, arrays or stores at random, by its seed, and holds what the package does to numpy and to
the formats. Each runs in a process of its own, whose processor time and memory are bounded. One that fails is made smaller, and
its lines are printed, with what is wrong below them. The status is 1 where one fails.
"""

import argparse
import os
import pathlib
import sys
import time

for _name in ("OPENBLAS_NUM_THREADS", "OMP_NUM_THREADS"):
    os.environ[_name] = "1"
sys.dont_write_bytecode = True
BINDINGS = pathlib.Path(__file__).resolve().parent.parent


def _asked():
    parser = argparse.ArgumentParser(description=__doc__, formatter_class=argparse.RawDescriptionHelpFormatter)
    parser.add_argument("--programs", type=int)
    parser.add_argument("--minutes", type=float)
    parser.add_argument("--seed", type=int, default=1)
    parser.add_argument("--show", type=int)
    parser.add_argument("--only", default="")
    parser.add_argument("--most", type=int, default=5)
    parser.add_argument("--tries", type=int, default=400)
    parser.add_argument("--package", default=str(BINDINGS / "python"))
    return parser.parse_args()


def main():
    asked = _asked()
    os.environ.setdefault("ZARRS_CODECS_LIBRARY", str(BINDINGS / "out/libzarrs_codecs.so"))
    sys.path.insert(0, asked.package)
    import driver
    import programs

    names = [name for name in asked.only.split(",") if name]
    if unknown := [name for name in names if name not in programs.PROGRAMS]:
        sys.exit(f"bindings/random: {unknown[0]} is none of the programs {', '.join(programs.PROGRAMS)}")
    chosen = programs.chosen_of(names)
    if asked.show is not None:
        counts = driver.run_all(chosen, [asked.show], 1, 0, is_shown=True)
        return 1 if counts.failed else 0
    until = None if asked.minutes is None else time.time() + 60 * asked.minutes
    count = asked.programs or (2000 if until is None else 1 << 62)
    counts = driver.run_all(chosen, range(asked.seed, asked.seed + count), asked.most, asked.tries, until=until)
    last = asked.seed + sum(counts.programs.values()) - 1
    print(f"seeds {asked.seed} to {last}: {counts.line()}")
    return 1 if counts.failed else 0


if __name__ == "__main__":
    sys.exit(main())
