#!/usr/bin/env python3
"""Our service beside what a user would take instead: a page in markdown with words, a table and a plot.

    performance.py [--doc FILE] [--rounds N] [--ms M] [--threads 1,2,4] [--reads 0,50,..] [--sizes LINESxKEYS,..]
    performance.py --redraw --doc FILE

Build the programs first: python3 bench/build.py service_bench
                          cd bench/peers && cargo build --release --offline

`--doc docs/PERFORMANCE.md` writes the page there, and the plot into `pictures` beside it; else the page is printed. All takes some 3 minutes.
The section on a queue, which queue_performance.py writes, stays there, and what is behind it. With --redraw nothing is measured: the plot is
drawn anew from the table of the page that is there. It shows calls a second; of a peer they are ours, by the table, times its ratio.

In each round the service and each peer run in turn, so that what else the machine does is met by all alike; who begins changes from
round to round. A figure is the median over rounds of the ratio within a round. Throughput is calls by wall time in the callers'
threads, and processor time is that of those threads: making and filling a store is not counted. Each runs for about M milliseconds:
the service makes one store, and as many updates as a short run before told. A size that some program does not take is left out, and
said. A run of one caller is made again, at most 8 times, until the other hardware thread of its core was idle before and after it
(`core_probe.py`); how many never were is said.

Example: python3 bench/performance.py --rounds 1 --threads 2 --sizes 1024x100
Status 0 where the page or the plot is written; 1 where a program is not built or no size was measured; 2 where the words are others.
"""
import argparse
import functools
import itertools
import os
import statistics
import subprocess
import sys
from dataclasses import dataclass

from build import path_of
from core_probe import Core
from performance_plot import Panel, drawn
from performance_words import advice, comparison, short, size_words, thread_words, wrapped
from service import PARTS, READ_PARTS, parts

HERE = os.path.dirname(os.path.abspath(__file__))
SERVICE = path_of("service_bench")
PEERS = os.path.join(HERE, "peers", "target", "release", "peers")
OURS, REGION = "service", "region_mutex"
FORMS = {
    OURS: "our service",
    REGION: "one region, Mutex",
    "btree_mutex": "BTreeMap, Mutex",
    "btree_rwlock": "BTreeMap, RwLock",
}
MAPS = ["btree_mutex", "btree_rwlock"]
LEAST_ROUNDS = 9
# the updates of each caller in the short run that tells how many a longer one has; of reads alone it makes as many
FIRST_UPDATES = 500
# how often a run of one caller is made until the core is its own
TRIES = 8
PICTURE = os.path.join("pictures", "performance.svg")
FIGURES_HEAD = "## The figures"
QUEUE_HEAD = "## A queue"


@dataclass(frozen=True)
class Setting:
    lines: int
    keys: int
    threads: int
    reads: int


@dataclass(frozen=True)
class Ran:
    """One run: calls by a thread's second, and nanoseconds of processor time of a call."""

    rate: float
    cpu: float


def said_by(words):
    """The names and numbers of a program's line."""
    words = [str(word) for word in words]
    line = subprocess.run(words, check=True, stdout=subprocess.PIPE, stderr=subprocess.DEVNULL, text=True).stdout.split()
    return {name: int(number) for name, number in zip(line[::2], line[1::2])}


def service_words(setting, updates):
    return [SERVICE, "calls", setting.threads, updates, setting.reads, setting.lines, setting.keys]


@functools.cache
def updates_of(setting, ms):
    """The updates of each caller of the service that take about so many milliseconds; where all calls are reads, the reads."""
    said = said_by(service_words(setting, FIRST_UPDATES))
    return max(1, FIRST_UPDATES * ms * 1_000_000 * setting.threads // max(said["wall"], 1))


def words_of(form, setting, ms):
    """A program's words for a run."""
    if form == OURS:
        return service_words(setting, updates_of(setting, ms))
    named = [word for name, value in vars(setting).items() for word in (f"--{name}", value)]
    return [PEERS, "run", "--form", form, "--ms", ms, *named]


def taken(lines, keys):
    """Whether the programs run so many lines and keys; service_bench says them back."""
    setting = Setting(lines, keys, 1, 50)
    try:
        said, _ = said_by(service_words(setting, 1)), said_by(words_of(REGION, setting, 1))
    except subprocess.CalledProcessError:
        return False
    return (said["lines"], said["keys"]) == (lines, keys)


def ran(form, setting, options):
    """Runs a form once; one caller until the core was its own, where that can be told."""
    if setting.threads > 1 or options.core is None:
        return ran_once(form, setting, options)
    run, is_alone = options.core.alone(lambda: ran_once(form, setting, options), TRIES)
    options.single += 1
    options.shared += not is_alone
    return run


def ran_once(form, setting, options):
    said = said_by(words_of(form, setting, options.ms))
    calls = said["updates"] + said["reads"]
    if not (calls and said["wall"] and said["cpu"]):
        sys.exit(f"{form} made no calls, or took no time: {setting}, {said}")
    return Ran(calls * 1e9 / said["wall"], said["cpu"] / calls)


def rounds_of(setting, options, run=ran):
    """What each form did in each round."""
    forms = list(FORMS)
    rounds = []
    for number in range(options.rounds):
        begin = number % len(forms)
        rounds.append({form: run(form, setting, options) for form in forms[begin:] + forms[:begin]})
    return rounds


def median_ratio(rounds, form, base, value=lambda run: run.rate):
    """The median over rounds of what a form did, where 1 is what the base did in the same round."""
    return statistics.median(value(each[form]) / value(each[base]) for each in rounds)


def row(setting, rounds):
    """A row of the table: ours, and each peer by ours."""
    rate = setting.threads * statistics.median(each[OURS].rate for each in rounds)
    cpu = statistics.median(each[OURS].cpu for each in rounds)
    cells = [f"{setting.lines:,}", f"{setting.keys:,}", setting.threads, setting.reads, f"{short(rate / 1000)} ({short(cpu)})"]
    for form in FORMS:
        if form != OURS:
            faster = median_ratio(rounds, form, OURS)
            dearer = median_ratio(rounds, form, OURS, lambda run: run.cpu)
            cells.append(f"{short(faster)} ({short(dearer)})")
    return cells


def markdown(measured):
    head = ["Lines", "Keys", "Threads", "Reads in 100", *(name[0].upper() + name[1:] for name in FORMS.values())]
    return table_of([head, ["--:"] * len(head)] + [row(setting, rounds) for setting, rounds in measured.items()])


def table_of(rows):
    return "\n".join("| " + " | ".join(str(cell) for cell in cells) + " |" for cells in rows)


def steps_by_part(found, call, of, last):
    """The steps of each part of a call, and of all, by what one run of the parts found."""
    calls = found[last]["times"]
    rows = [[words, f"{found[part]['steps'] / calls:.1f}"] for part, words in of.items()]
    whole = sum(found[part]["steps"] for part in of) / calls
    return table_of([[f"Part of {call}", "Steps"], ["--", "--:"], *rows, ["all", f"{whole:.1f}"]])


def figures_in(text):
    """What the table of a page tells: of each setting the calls a second of each form, of all threads together. Other sections have tables of their own."""
    found = {}
    rows = text.partition(f"\n{FIGURES_HEAD}\n")[2].partition("\n## ")[0]
    for line in (rows or text).split("\n"):
        cells = [cell.strip().split(" ")[0].replace(",", "") for cell in line.strip("|").split("|")]
        if len(cells) == 4 + len(FORMS) and cells[0].isdigit():
            ours = 1000 * float(cells[4])
            ratios = [1.0, *map(float, cells[5:])]
            found[Setting(*map(int, cells[:4]))] = {form: ours * ratio for form, ratio in zip(FORMS, ratios)}
    return found


def panels(figures):
    """A panel for each size and number of threads: each form's calls a second."""
    found = {}
    for setting, calls in figures.items():
        place = (f"{setting.lines:,} lines, {setting.keys:,} keys", thread_words(setting.threads))
        panel = found.setdefault(place, Panel(*place, {form: [] for form in FORMS}))
        for form, points in panel.lines.items():
            points.append((setting.reads, calls[form]))
    return list(found.values())


def machine():
    with open("/proc/cpuinfo", encoding="utf-8") as file:
        names = [line.split(":", 1)[1].strip() for line in file if line.startswith("model name")]
    return f"{os.cpu_count()} processors, {names[0] if names else os.uname().machine}, load {os.getloadavg()[0]:.1f} before"


def core_words(options):
    """What is said of the cores of the runs of one caller."""
    if options.core is None:
        return "Whether the other hardware thread of a core was busy was not looked at."
    if options.shared:
        return f"Of {options.single} runs of one caller {options.shared} shared the core with another hardware thread, the others had it alone."
    return "In all runs of one caller the other hardware thread of the core was idle."


def core_here():
    """What tells whether a core is one's own, or None where there is no C compiler or no binding to a processor."""
    try:
        return Core()
    except (OSError, AttributeError, subprocess.CalledProcessError) as why:
        print(f"whether a core is shared is not told: {why}", file=sys.stderr)
        return None


def shares(measured, peer):
    """For each size and number of threads the throughput of the service by that of a peer, for each share of reads."""
    found = {}
    for setting, rounds in measured.items():
        place = (setting.lines, setting.keys), setting.threads
        found.setdefault(place, {})[setting.reads] = median_ratio(rounds, OURS, peer)
    return found


def page(measured, options, where, left_out, found):
    """The page: words, the table, and where it was measured."""
    lines = [
        "# Performance",
        "",
        "A service beside what a user would take instead: the words of one region under a mutex, each changed word also stored in a durable copy, "
        "and a `BTreeMap` under a lock, which has no crash image. Updates put a document of 32 bytes at a key that is there, reads get one.",
        "",
        "## Which to take",
        "",
        "\n\n".join(advice(shares(measured, REGION), [shares(measured, form) for form in MAPS])),
        "",
        "From which share of reads on the service makes at least as many calls as each of the others ('never' where it does not with reads alone):",
        "",
        comparison({FORMS[peer]: shares(measured, peer) for peer in FORMS if peer != OURS}),
        "",
        f"![Calls a second by share of reads]({PICTURE})",
        "",
        "The picture is drawn from the table below: the others' calls are ours times their ratio. Its vertical scale is logarithmic: equal steps up are equal factors.",
        "",
        FIGURES_HEAD,
        "",
        f"{where}. Medians of {options.rounds} rounds of {options.ms} milliseconds, in which all run in turn (`bench/performance.py`; the others "
        "are `bench/peers`). Our service: thousands of calls a second, and in brackets the nanoseconds of processor time of a call. The others: "
        f"how many times as many calls a second, and in brackets how many times that processor time. {core_words(options)}",
        "",
        markdown(measured),
        "",
        "## Steps by part",
        "",
        "The steps of a caller alone at 1,024 lines and 100 keys, on average over its first 16 updates and the 64 reads after them. Over many updates one "
        "makes a few more (`bench/service.py` has the times).",
        "",
        steps_by_part(found, "an update", PARTS, "retire"),
        "",
        steps_by_part(found, "a read", READ_PARTS, "read_release"),
    ]
    for size in left_out:
        lines += ["", f"Not measured: {size_words(*size)}, which not all programs take."]
    if options.rounds < LEAST_ROUNDS:
        lines += ["", f"A try: figures take {LEAST_ROUNDS} rounds or more."]
    return wrapped("\n".join(lines)) + "\n"


def written(name, text):
    os.makedirs(os.path.dirname(name) or ".", exist_ok=True)
    with open(name, "w", encoding="utf-8") as file:
        file.write(text)


def draw_plot(name):
    """Draws the plot of a page beside it."""
    with open(name, encoding="utf-8") as file:
        found = figures_in(file.read())
    written(os.path.join(os.path.dirname(name), PICTURE), drawn(panels(found), FORMS))


def with_section(page, head, text):
    """The page with this section in the place of an older one of its head, else at its end."""
    before, found, rest = page.partition(f"{head}\n")
    _, begun, after = rest.partition("\n## ") if found else ("", "", "")
    return before.rstrip("\n") + "\n\n" + text + (f"{begun}{after}" if begun else "")


def queue_section(name):
    """The section on a queue of the page that is there and what stands behind it, or nothing."""
    if not os.path.exists(name):
        return ""
    with open(name, encoding="utf-8") as file:
        _, head, rest = file.read().partition(QUEUE_HEAD)
    return f"\n{head}{rest}" if head else ""


def numbers(text):
    return [int(word) for word in text.split(",")]


def pairs(text):
    return [tuple(int(word) for word in size.split("x")) for size in text.split(",")]


def options_of(words):
    parser = argparse.ArgumentParser(description=__doc__, formatter_class=argparse.RawDescriptionHelpFormatter)
    parser.add_argument("--doc", metavar="FILE")
    parser.add_argument("--redraw", action="store_true")
    parser.add_argument("--rounds", type=int, default=LEAST_ROUNDS)
    parser.add_argument("--ms", type=int, default=100)
    parser.add_argument("--threads", type=numbers, default=[1, 2, 4])
    parser.add_argument("--reads", type=numbers, default=[0, 50, 90, 99, 100])
    parser.add_argument("--sizes", type=pairs, default=[(1024, 100), (1024, 1000), (16384, 100), (16384, 1000)])
    # what tells whether a core is shared; the runs of one caller, and those of them that shared it
    parser.set_defaults(core=None, single=0, shared=0)
    options = parser.parse_args(words)
    if options.redraw and not options.doc:
        parser.error("--redraw needs --doc")
    return options


def main(words):
    options = options_of(words)
    if options.redraw:
        draw_plot(options.doc)
        return
    for program in (SERVICE, PEERS):
        if not os.path.exists(program):
            sys.exit(f"{os.path.relpath(program)} is not there\n\n{__doc__}")
    sizes = [size for size in options.sizes if taken(*size)]
    where = machine()
    options.core = core_here()
    measured = {}
    for size, threads, reads in itertools.product(sizes, options.threads, options.reads):
        setting = Setting(*size, threads, reads)
        print("measured now:", *(f"{name} {value}" for name, value in vars(setting).items()), file=sys.stderr)
        measured[setting] = rounds_of(setting, options)
    if not measured:
        sys.exit("no size was measured")
    text = page(measured, options, where, [size for size in options.sizes if size not in sizes], parts(1))
    if options.doc:
        written(options.doc, text + queue_section(options.doc))
        draw_plot(options.doc)
    else:
        print(text, end="")


if __name__ == "__main__":
    main(sys.argv[1:])
