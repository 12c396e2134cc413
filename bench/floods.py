"""Documents whose names crowd a hash table, beside documents of the same form with random names.

The hashes of those names end in the same bits, as long as the hasher of the table is not seeded. A program whose tables can be crowded takes time that grows as the square of their
number. The table shows how many times as long, and how much more memory, such a document takes.
"""

import json
import os
from dataclasses import dataclass

from measure import BenchFault, staying_on, stir_memory
from support.contents import KINDS as DOCUMENTS
from support.contents import Content, documents_of
from support.crowds import SHARED_BITS, colliding_names, get, lookup_requests, random_names
from turns import Job, run_job, summary, times_as_long

NAMES = 100_000
SHORT_NAMES = 4_000
KINDS = ("random", "flooded")


@dataclass(frozen=True)
class Flood:
    """A command on two documents of one form: its arguments and the text that it has to print, both
    for random and for flooded names."""

    title: str
    command: str
    arguments: dict
    wanted: dict
    status: int


def write_text(folder, name, kind, text):
    path = os.path.join(folder, f"flood_{name}_{kind}.json")
    with open(path, "w", encoding="utf-8") as file:
        file.write(text)
    return path


def write(folder, name, kind, document):
    return write_text(folder, name, kind, json.dumps(document, separators=(",", ":")))


def of_each(lists, made):
    """What is made of the names of each kind."""
    return {kind: made(kind, names) for kind, names in lists.items()}


def name_flood(folder, lists):
    """A request that names them all."""
    arguments = of_each(
        lists, lambda kind, names: (write(folder, "names", kind, {"requests": [{**get("one"), "dependsOn": names}]}),)
    )
    wanted = dict.fromkeys(KINDS, "fault F40 UnknownName /requests/0\n")
    return Flood(f"{len(lists['random']):,} names in one `dependsOn`", "check", arguments, wanted, 1)


def outcome_flood(folder, lists):
    """One request, and an outcome for each of them."""
    batch = write(folder, "one", "batch", {"requests": [get("one")]})

    def outcomes(kind, names):
        recorded = [{"id": name, "status": 200} for name in [*names, "one"]]
        return batch, write(folder, "outcomes", kind, {"outcomes": recorded})

    content = Content([get("one")], [{"id": "one", "status": 200}])
    wanted = dict.fromkeys(KINDS, content.wanted("replay"))
    return Flood(f"{len(lists['random']):,} outcomes", "replay", of_each(lists, outcomes), wanted, 0)


def lookup_floods(folder, lists):
    """A batch of them as ids and groups, which many names refer to, and what a run of it gave."""
    size = min(10_000, len(lists["random"]) * 2 // 3)
    batches = of_each(lists, lambda kind, names: lookup_requests(names, size))
    contents = of_each(batches, lambda kind, batch: Content(batch, [{"id": it["id"], "status": 200} for it in batch]))
    title = f"ids and groups, looked up {sum(len(it.get('dependsOn', [])) for it in batches['random']):,} times"
    titles = {
        "check": title,
        "plan": title,
        "match": "the same batch, and its responses",
        "run": "the same batch, and the events of its run",
    }

    def arguments(command, kind, content):
        texts = documents_of(content)
        return [write_text(folder, name, kind, texts[name]) for name in DOCUMENTS[command]]

    def flood(command):
        words = of_each(contents, lambda kind, it: arguments(command, kind, it))
        return Flood(titles[command], command, words, of_each(contents, lambda _, it: it.wanted(command)), 0)

    return [flood(command) for command in titles]


def floods(folder, short):
    """Makes the documents; gives the commands on them."""
    count = SHORT_NAMES if short else NAMES
    lists = {"random": random_names(count), "flooded": colliding_names(folder, count, SHARED_BITS, 0)}
    return [name_flood(folder, lists), outcome_flood(folder, lists), *lookup_floods(folder, lists)]


def job_of(program, flood, kind):
    return Job(flood.title, 1, flood.command, (program, flood.command, *flood.arguments[kind]), flood.status)


def try_floods(program, folder, found):
    """Runs each command once, and fails where it does not print what it has to."""
    output = os.path.join(folder, "printed")
    for flood in found:
        for kind in KINDS:
            run_job(job_of(program, flood, kind), output)
            with open(output, encoding="utf-8", errors="replace", newline="") as file:
                if file.read() != flood.wanted[kind]:
                    raise BenchFault(f"{flood.command} of {flood.title}, {kind}, gave a wrong answer")


def measure_floods(program, found, turns, report):
    """Measures each command on both documents, one after the other in each turn."""
    runs = {(at, kind): [] for at in range(len(found)) for kind in KINDS}
    processors = sorted(os.sched_getaffinity(0))
    for turn in range(turns):
        report(f"flooded names, turn {turn + 1} of {turns}")
        with staying_on(processors[turn % len(processors)]):
            for at, flood in enumerate(found):
                for kind in KINDS:
                    stir_memory()
                    runs[at, kind].append(run_job(job_of(program, flood, kind)))
    return [tuple(summary(runs[at, kind]) for kind in KINDS) for at in range(len(found))]


def rows(found, measures):
    """The rows of the table: processor time, and how many times that of random names; likewise memory."""
    for flood, (plain, flooded) in zip(found, measures):
        yield [
            flood.title,
            flood.command,
            f"{plain.processor * 1000:.0f}",
            f"{flooded.processor * 1000:.0f}",
            f"{times_as_long(flooded, plain):.2f}",
            f"{flooded.memory / plain.memory:.2f}",
        ]


HEADS = ["document", "command", "random ms", "flooded ms", "time, times", "memory, times"]
LEGEND = """\
*random* and *flooded* are the processor times on two documents of one form and size, medians over the turns; the
names of the second would crowd a hash table whose hasher is not seeded. *times* says how many times as long the
flooded document takes, as the median over the turns, and how many times as much memory."""
