"""Figures of docs/PERF.md: they must be those of the files that the benchmarks write.

The means must be the means of docs/performance.csv, and the tables must have the ratios of docs/performance-json.csv
and docs/performance-jobs.csv.
"""

import csv
import re
import statistics

from pages import table, text_of


def rows_of(top, name):
    return csv.reader(text_of(top / "docs" / name).splitlines())


def stale_means(top, page):
    """The titles whose means are not the same in the page and in docs/performance.csv."""
    _, *rows = rows_of(top, "performance.csv")
    groups = {}
    for title, operation, *ratios in rows:
        groups.setdefault(title, []).append(ratios)
        if title == "sets" and operation != "all":
            groups.setdefault("sets without `all`", []).append(ratios)
    _, shown_rows = table(page, "|")
    for title, of_title in groups.items():
        columns = [[float(ratio) for ratio in column if ratio] for column in zip(*of_title, strict=True)]
        means = [f"{statistics.geometric_mean(column):.2f}" if column else "" for column in columns]
        if [title, *means] != shown_rows.get(title):
            yield title
    yield from shown_rows.keys() - groups.keys()


def stale_ratios(top, page):
    """The rows of docs/performance-json.csv that the page does not have."""
    rows = rows_of(top, "performance-json.csv")
    return [row[0] for row in rows if f"| {' | '.join(row)} |".replace("|  |", "| |") not in page]


def stale_jobs(top, page):
    """The rows of docs/performance-jobs.csv whose ratio the page does not have in the column of their commits."""
    commits = re.findall(r"(?m)^(\w+) (\w{8})\w*$", text_of(top / "bench/commits.txt"))
    names = {commit: name for name, commit in commits if name not in ("calls", "json")}
    head, *rows = rows_of(top, "performance-jobs.csv")
    for row in (dict(zip(head, cells)) for cells in rows):
        column = " over ".join(names.get(row[side], row[side]) for side in ("old", "new"))
        digits = 3 if row["unit"] == "instructions" else 2
        titles, shown_rows = table(page, f"Job, in {row['unit']} ")
        cells = dict(zip(titles, shown_rows.get(f"`{row['job']}`", [])))
        if cells.get(column) != f"{float(row['old over new']):.{digits}f}":
            yield f"{row['job']} in {row['unit']}, {column}, seed {row['seed']}"


def check(top):
    page = text_of(top / "docs/PERF.md")
    files = ("performance.csv", "performance-json.csv", "performance-jobs.csv")
    count = sum(len(list(rows_of(top, name))) for name in files)
    faults = [f"the means of {title} differ from performance.csv" for title in stale_means(top, page)]
    faults += [f"performance-json.csv has another row for {title}" for title in stale_ratios(top, page)]
    faults += [f"performance-jobs.csv has another ratio for {job}" for job in stale_jobs(top, page)]
    return count, [f"docs/PERF.md: {fault}" for fault in faults]
