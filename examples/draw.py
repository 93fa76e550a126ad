#!/usr/bin/env python3
"""Draws a trace with its raw peaks, as `cds peaks` found them.

    cds peaks WORDS < TRACE.csv | examples/draw.py TRACE.csv PICTURE.png

The table of raw peaks is read from standard input. Each peak's range is shaded, and its apex is marked with its number
and its time in minutes. It needs matplotlib (Debian's python3-matplotlib). Nothing of the peaks is drawn but what the
table says.
"""
import csv
import sys

import matplotlib

matplotlib.use("Agg")
from matplotlib import pyplot  # noqa: E402

MINUTE_US = 60_000_000


def read_trace(path):
    """The times in minutes and the samples of a trace."""
    with open(path, newline="") as file:
        rows = list(csv.DictReader(file))
    return [int(row["time_us"]) / MINUTE_US for row in rows], [int(row["signal"]) for row in rows]


def read_peaks(file):
    """The start, the apex and the end of each raw peak, as places of samples."""
    return [tuple(int(row[name]) for name in ("start", "apex", "end")) for row in csv.DictReader(file)]


def draw(times, samples, peaks, path):
    """The picture of a trace and its peaks, with a table of the peaks beneath."""
    figure, (chart, table) = pyplot.subplots(2, 1, figsize=(9, 6), height_ratios=[4, 1])
    chart.plot(times, samples, color="black", linewidth=0.8)
    for number, (start, apex, end) in enumerate(peaks, 1):
        chart.fill_between(times[start:end + 1], samples[start:end + 1], min(samples), color="tab:blue", alpha=0.25)
        top = (times[apex], samples[apex])
        chart.annotate(f"{number}\n{times[apex]:.2f}", top, ha="center", va="bottom", fontsize=8)
    chart.set_xlabel("minutes")
    chart.set_ylabel("signal")
    chart.margins(x=0, y=0.15)
    table.axis("off")
    rows = [
        [number, *(f"{times[place]:.3f}" for place in peak), samples[peak[1]]]
        for number, peak in enumerate(peaks, 1)
    ]
    table.table(cellText=rows, colLabels=["peak", "start", "apex", "end", "signal at the apex"], loc="center")
    figure.tight_layout()
    figure.savefig(path, dpi=110)


def main():
    if len(sys.argv) != 3:
        sys.exit(__doc__)
    times, samples = read_trace(sys.argv[1])
    draw(times, samples, read_peaks(sys.stdin), sys.argv[2])


if __name__ == "__main__":
    main()
