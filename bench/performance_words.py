"""Says in words what figures tell: from which share of reads on the service is as fast as another form, and which to take when.

Figures are throughputs of the service where 1 is that of the other form: for each size, a pair of lines and keys, and number of threads
those of each share of reads.
"""
import textwrap

# the widest line of a page
WIDTH = 155


def wrapped(page):
    """A page whose lines of words are no wider than the widest; rows of tables, headings and pictures stay as they are."""
    lines = [[line] if line[:1] in ("|", "#", "!", "") else textwrap.wrap(line, WIDTH, break_long_words=False, break_on_hyphens=False) for line in page.split("\n")]
    return "\n".join(line for of_one in lines for line in of_one)


def size_words(lines, keys):
    return f"{lines:,} lines and {keys:,} keys"


def thread_words(threads):
    return f"{threads} thread" + ("s" if threads > 1 else "")


def short(number):
    """A number with three digits, or all before the point; with two where it is below 1."""
    if number >= 100:
        return f"{number:,.0f}"
    return f"{number:.1f}" if number >= 10 else f"{number:.2f}" if number >= 1 else f"{number:.2g}"


def least_share(ratios):
    """The least share of reads from which on, up to the greatest, no ratio is below 1; else None."""
    least = None
    for reads in sorted(ratios, reverse=True):
        if ratios[reads] < 1:
            break
        least = reads
    return least


def share_words(reads):
    if reads is None:
        return "never"
    return "with reads alone" if reads == 100 else f"from {reads} reads in 100 up" if reads else "always"


def rows_of(peer, figures):
    """The rows of a table for a peer: from which share of reads on the service is as fast, for each size and number of threads."""
    sizes = dict.fromkeys(size for size, _ in figures)
    threads = sorted({threads for _, threads in figures})
    least = {place: least_share(ratios) for place, ratios in figures.items()}
    return [[peer, f"{size[0]:,}", f"{size[1]:,}", *(share_words(least[size, count]) for count in threads)] for size in sizes]


def comparison(figures):
    """A table in markdown of rows for each peer, by its name."""
    threads = sorted({threads for of_peer in figures.values() for _, threads in of_peer})
    head = ["As fast as", "Lines", "Keys", *(f"on {thread_words(count)}" for count in threads)]
    rows = [head, ["--"] * len(head)]
    for peer, of_peer in figures.items():
        rows += rows_of(peer, of_peer)
    return "\n".join("| " + " | ".join(cells) + " |" for cells in rows)


def shares_at_all_sizes(figures):
    """For each number of threads the least share of reads from which on the service is as fast at all sizes; None where it is not."""
    least = {}
    for (_, threads), ratios in figures.items():
        share = least_share(ratios)
        before = least.setdefault(threads, share)
        least[threads] = None if None in (before, share) else max(before, share)
    return dict(sorted(least.items()))


def joined(words):
    """Words in a row: with an `and` before the last."""
    return ", ".join(words[:-1]) + " and " + words[-1] if len(words) > 1 else words[0]


def wins(figures):
    """From which share of reads on the service is as fast at all sizes, with the numbers of threads for which that is so."""
    found = {}
    for count, share in shares_at_all_sizes(figures).items():
        if share is not None:
            found.setdefault(share, []).append(str(count))
    return [f"{share_words(share)} on {joined(counts)} thread{'' if counts == ['1'] else 's'}" for share, counts in found.items()]


def range_words(ratios):
    """The least and the greatest of ratios."""
    return " to ".join(dict.fromkeys(short(end) for end in (min(ratios), max(ratios))))


def updates_in(figures):
    """The ratios of updates alone."""
    return [ratios[0] for ratios in figures.values() if 0 in ratios]


def map_words(mutex, rwlock):
    """How the service is beside a map that has no crash image, under a mutex and under a readers-writer lock."""
    words = ""
    if updates_in(mutex):
        words += f", and {range_words(updates_in(mutex))} times as many as a `BTreeMap` under one"
    faster = [1 / ratio for ratios in rwlock.values() for ratio in ratios.values()]
    return words + f". A `BTreeMap` under a readers-writer lock makes {range_words(faster)} times as many calls as the service, over all rows below. Neither map has a crash image."


def advice(figures, maps=None):
    """When to take the service, and when one region under a mutex, which the figures are beside; `maps` are those beside a map under a mutex,
    and under a readers-writer lock."""
    found = wins(figures)
    service = (
        "**Take the service** where an acknowledged change must survive a crash (a power failure in the simulated persistent memory: when the process "
        "ends its data are gone, unless the store was saved), or where a stalled thread must not stop all others at once. They go on reading, and each can make "
        "at most 16 more updates before it gets `Full`, which names the stalled thread. With a lock, a stalled thread stops all others, and a crash in the "
        "middle of a change leaves it half made."
    )
    if found:
        service += f" Its speed alone is a reason {joined(found)}: there it is at least as fast as a region under a mutex, at all sizes measured."
    else:
        service += " Its speed alone is no reason: on no number of threads is it as fast as a region under a mutex at all sizes measured."
    if all(share == 0 for share in shares_at_all_sizes(figures).values()):
        return [service]
    mutex = "**Take a mutex** for all else."
    updates = updates_in(figures)
    if updates:
        mutex += f" Of updates alone the service makes {range_words(updates)} times as many as a region under a mutex"
        mutex += map_words(*maps) if maps else "."
    return [service, mutex]
