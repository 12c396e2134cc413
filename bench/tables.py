"""The tables in Markdown, and what their columns mean."""

import os

from turns import COMMANDS, READ_BATCH, SECONDS, Measure, times_as_long
from workloads import PARTS

LEGEND = """\
*time* is that of the clock from start to end, and *processor* the time of the user and the system, which also
has the fork of a shell (some tenths of a millisecond); both are medians over the turns. *memory* is the
greatest that the process held, over all turns, with the pages of its code. Each turn stays on one processor,
and the next one goes to the next. Before each run another process fills 100 MB and ends, so that no run gains
from what the one before it left in the processor's caches.

*reading* is the floor: what the program takes to start once and read the same documents into values. It is
measured by `check` of documents which it refuses once it has read them whole into a value: with F04
(NoRequests), since they have no member `requests`. For `check`, `plan` and `canon` the floor is `check` of the
batch with its member `requests` renamed to `messages`. For `replay`, `match` and `run` it is that, plus `check`
of the second document, minus one start; so also for memory, as these commands hold the values of both documents.
*checks* is another floor, which holds more: `check` of the batch as it is, and for `replay`, `match` and `run`
plus `check` of the second document, minus one start.
Every command leaves what it has read to the system at its end. One start is `check` of a batch without
requests. The columns with `/` say how many times the floor's a command's processor time and memory
are, for the time as the median of what that was in each turn."""

GROWTH_LEGEND = """\
Processor time in milliseconds at 1/8, 1/4, 1/2 and all of the requests, medians over the turns; *(reading)* is
the floor of `replay`. *1/2 : 1/8* and *all : 1/4* say how many times as long four times the requests take: 4
where time grows as the requests do, 16 where it grows as their square. Each is the median of what it was in each
turn, since the machine's own pace may change from turn to turn. The documents grow a little more, as ids get
longer."""


def machine():
    """The facts of the machine, in one line."""
    model = "unknown model"
    with open("/proc/cpuinfo", encoding="utf-8") as file:
        for line in file:
            if line.startswith("model name"):
                model = line.split(":", 1)[1].strip()
                break
    return f"{os.cpu_count()} processors, {model}"


def row(cells):
    """A row of a table."""
    return "| " + " | ".join(cells) + " |"


def table(heads, rows, texts):
    """A table with these heads and rows, whose first columns, as many as `texts`, hold texts."""
    rule = ["---" if column < texts else "---:" for column in range(len(heads))]
    return "\n".join(row(cells) for cells in [heads, rule, *rows])


def milliseconds(seconds):
    """The time in milliseconds, with as many digits as mean something."""
    value = seconds * 1000
    return f"{value:,.0f}" if value >= 100 else f"{value:.1f}"


def megabytes(count):
    """The number of bytes in millions."""
    return f"{count / 1e6:.1f}"


def case_table(cases):
    """Which workloads there are: their requests, and the bytes of their documents."""
    heads = ["workload", "what it is", "requests"]
    heads += [f"{kind} bytes" for kind in ("batch", "outcomes", "responses", "events")]
    rows = [
        [case.name, case.words, f"{case.requests:,}"]
        + [f"{os.path.getsize(path):,}" for path in (case.batch, case.outcomes, case.responses, case.events)]
        for case in cases
        if case.is_whole()
    ]
    return table(heads, rows, 2)


def both(first, second, start):
    """The measures of two readings in one process: in each turn their sum minus one start."""

    def joined(firsts, seconds, starts):
        return [one + other - less for one, other, less in zip(firsts, seconds, starts)]

    return Measure(
        walls=joined(first.walls, second.walls, start.walls),
        processors=joined(first.processors, second.processors, start.processors),
        memories=joined(first.memories, second.memories, start.memories),
    )


def floors(measures, name, part, command):
    """The floors of a command on a workload: reading, and the checks of its documents."""
    unread, checked = measures[name, part, READ_BATCH], measures[name, part, "check"]
    if command not in SECONDS:
        return unread, checked
    start, second = measures["start", 1, "check"], measures[name, part, SECONDS[command]]
    return both(unread, second, start), both(checked, second, start)


def ratios(measured, floor):
    """How many times the floor this is, in processor time and in memory."""
    return [f"{times_as_long(measured, floor):.2f}", f"{measured.memory / floor.memory:.2f}"]


def command_table(cases, measures):
    """What each command takes on each workload, and how many times the floors."""
    heads = ["workload", "command", "time ms", "processor ms", "memory MB", "reading ms", "reading MB"]
    heads += ["processor / reading", "memory / reading", "processor / checks", "memory / checks"]
    rows = []
    for case in cases:
        for command in COMMANDS if case.is_whole() else ():
            measured = measures[case.name, 1, command]
            reading, checks = floors(measures, case.name, 1, command)
            cells = [case.name, command, milliseconds(measured.wall), milliseconds(measured.processor)]
            cells += [megabytes(measured.memory), milliseconds(reading.processor), megabytes(reading.memory)]
            rows.append(cells + ratios(measured, reading) + ratios(measured, checks))
    return table(heads, rows, 2)


def growths(measures, name):
    """Gives the measures of each command at each size of a workload, and of the reading for
    `replay`."""
    for command in COMMANDS:
        yield command, [measures[name, part, command] for part in PARTS]
    yield "(reading)", [floors(measures, name, part, "replay")[0] for part in PARTS]


def growth_table(cases, measures):
    """How the processor time of each command grows with the number of requests; nothing where no
    workload has smaller sizes."""
    sizes = {(case.name, case.part): case.requests for case in cases}
    heads = ["workload", "command", "requests", "at 1/8", "at 1/4", "at 1/2", "at all"]
    heads += ["1/2 : 1/8", "all : 1/4"]
    rows = []
    for name in [case.name for case in cases if case.part == PARTS[0]]:
        counts = f"{sizes[name, PARTS[0]]:,} to {sizes[name, 1]:,}"
        for what, sizes_measured in growths(measures, name):
            eighth, quarter, half, whole = sizes_measured
            cells = [name, what, counts, *(milliseconds(it.processor) for it in sizes_measured)]
            rows.append(cells + [f"{times_as_long(half, eighth):.2f}", f"{times_as_long(whole, quarter):.2f}"])
    return table(heads, rows, 2) if rows else ""
