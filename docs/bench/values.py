#!/usr/bin/env python3
"""What long lists of values cost: instructions of a built chronos, by callgrind (Debian's valgrind).

    values.py --program PATH [--counts 4000,40000,400000]

For each count n, kernels are made in which one variable has n assignments of one value, or n variables one each, and
chronos is asked for a few answers. The figures:

    load       all that isn't a line: the start, the reading of the kernel, and the loading
    first      the first line, which reads the values and is refused for their number
    second     the second line, which is refused by what is known
    third      the third line
    whole      all of it

A whole that grows with n has at most 11 times the instructions for 10 times n. Nothing is timed, and no figure is a
limit: the script prints them.
"""

import argparse
import os
import re
import subprocess
import tempfile

CLOCK = """SCLK_DATA_TYPE_82 = 1
SCLK01_TIME_SYSTEM_82 = 1
SCLK01_N_FIELDS_82 = 2
SCLK01_MODULI_82 = ( 10000000000 256 )
SCLK01_OFFSETS_82 = ( 0 0 )
SCLK01_OUTPUT_DELIM_82 = 1
SCLK_PARTITION_START_82 = 0
SCLK_PARTITION_END_82 = 2000000000000
"""

CONSTANTS = """DELTET/DELTA_T_A = 32.184
DELTET/K = 1.657D-3
DELTET/EB = 1.671D-2
DELTET/M = ( 6.239996D0 1.99096871D-7 )
"""


def kernel(lines):
    return "\\begindata\n" + "".join(lines)


def leaps(count):
    return kernel(["DELTET/DELTA_AT += 1\n"] * count), ["-from", "UTC", "-to", "TAI"], "2000-01-01T00:00:00\n"


def coefficients(count):
    lines = [CLOCK, CONSTANTS, "SPACECRAFT_ID = -82\n"] + ["SCLK01_COEFFICIENTS_82 += 1\n"] * count
    return kernel(lines), ["-from", "SCLK", "-to", "ET"], "1/5\n"


def set_again(count):
    """The last `=` is the last assignment: what stands before it isn't read."""
    lines = ["DELTET/DELTA_AT = 1\n"] * (count - 1) + ["DELTET/DELTA_AT = ( 10 @1972-JAN-1 )\n"]
    return kernel(lines), ["-from", "UTC", "-to", "TAI"], "2000-01-01T00:00:00\n"


def names(count):
    return kernel(["V%06d = 1\n" % i for i in range(count)]), ["-from", "UTC", "-to", "TAI"], "2000-01-01T00:00:00\n"


def files(count):
    """The setup is refused at the first file, which is missing: no line is answered."""
    return kernel(["LEAPSECONDS_FILE += 'absent.tls'\n"] * count), ["-from", "UTC", "-to", "TAI"], ""


def unloads(count):
    """Each line unloads the kernel or loads it again."""
    text, words, _ = names(count)
    return text, words, "$unload k.ker\n$load k.ker\n$unload k.ker\n"


ROWS = (
    ("DELTET/DELTA_AT +=", leaps),
    ("SCLK01_COEFFICIENTS_82 +=", coefficients),
    ("DELTET/DELTA_AT =", set_again),
    ("LEAPSECONDS_FILE +=", files),
    ("names of one value", names),
    ("unload, load, unload", unloads),
)


def instructions(program, folder, words, lines):
    said = subprocess.run(
        ["valgrind", "--tool=callgrind", "--callgrind-out-file=/dev/null", program, "-setup", "k.ker", *words, "-batch"],
        cwd=folder, input=lines.encode(), stdout=subprocess.PIPE, stderr=subprocess.PIPE, check=False)
    found = re.search(rb"refs:\s+([\d,]+)", said.stderr)
    if not found:
        raise SystemExit("valgrind: " + said.stderr.decode(errors="replace")[-300:])
    return int(found.group(1).replace(b",", b"")), said.stdout.decode().splitlines()


def measure(program, make, count):
    """The instructions with no line, one, two and three; and what was answered."""
    text, words, lines = make(count)
    if lines.count("\n") == 1:
        lines *= 3
    with tempfile.TemporaryDirectory() as folder:
        with open(os.path.join(folder, "k.ker"), "w", encoding="ascii") as handle:
            handle.write(text)
        pieces = lines.splitlines(True)
        runs = [instructions(program, folder, words, "".join(pieces[:i])) for i in range(len(pieces) + 1)]
    return [run[0] for run in runs], runs[-1][1]


def main():
    args = argparse.ArgumentParser(description=__doc__, formatter_class=argparse.RawDescriptionHelpFormatter)
    args.add_argument("--program", required=True)
    args.add_argument("--counts", default="4000,40000,400000")
    args = args.parse_args()
    program = os.path.abspath(args.program)
    print("%-26s %7s %15s %15s %13s %13s %15s %6s  %s" % (
        "", "n", "load", "first", "second", "third", "whole", "times", "answers"))
    for name, make in ROWS:
        before = 0
        for count in [int(part) for part in args.counts.split(",")]:
            totals, answers = measure(program, make, count)
            steps = [after - earlier for earlier, after in zip(totals, totals[1:])]
            shown = ["{:,}".format(step) for step in steps] + ["-"] * (3 - len(steps))
            times = "%.1f" % (totals[-1] / before) if before else ""
            print("%-26s %7d %15s %15s %13s %13s %15s %6s  %s" % (
                name, count, "{:,}".format(totals[0]), *shown, "{:,}".format(totals[-1]), times,
                " | ".join(dict.fromkeys(answers))), flush=True)
            before = totals[-1]


main()
