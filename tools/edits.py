"""Lists which clauses of public calls the must-fail edits ask, and which they do not.

An edit (crates/NAME/must-fail/*.edit) is a wrong body that the prover must refuse. Its first line
names the clause that has to refuse it:

    asks: CALL: CLAUSE
    asks: CALL: CLAUSE, CASE

CALL is written as a caller writes it (`check`, `Plan::needs`), CLAUSE is the name of its `ensures`,
or `result` where it has one without a name, and CASE distinguishes two edits of one clause. The exit
status is 1 where an edit lacks that line, names a call or a clause that does not exist, asks what
another one asks, where there are more than EDITS edits, or where they take more processor minutes
than MINUTES; else 0. A clause that no edit asks is no failure: `--unasked` lists it.

`--try NAME` tries the one edit crates/CRATE/must-fail/NAME.edit instead, over what `rt check` kept, and
ends with the lines and the status of `rt must-fail`, and with what it took.
"""

import argparse
import glob
import os
import re
import resource
import shutil
import subprocess
import sys
import tempfile

ROOT = os.path.dirname(os.path.dirname(os.path.realpath(__file__)))

# How many edits there may be, and how many minutes of `.ci/run` they may take. What one edit of a crate takes, beside
# other work, is without the proof of the crate that its edits are tried over, which all of them together double. A crate
# without a number counts as the dearest did.
EDITS = 60
MINUTES = 20
SECONDS = {
    "odb_dense": 11, "odb_names": 13, "odb_io": 16, "odb_doc": 28, "odb_check": 26, "odb_sched": 26, "odb_exec": 30,
    "odb_reply": 24, "odb_engine": 40,
}  # fmt: skip
OTHER = 70

# The wrong bodies that an edit has to keep out, also where a clause states the exact result: what is wrong, and the edits
# with such a body. No clause refuses a body whose allocation, or device, always fails: a test does, which makes the call
# with enough memory, or with a device that works.
WRONG_BODIES = {
    "a name in dependsOn may appear later": ["a_name_that_appears_later_is_accepted"],
    "an unlisted reference to an earlier member of the own group is refused": [
        "an_unlisted_reference_to_a_member_of_the_own_group_is_refused"
    ],
    "a group is satisfied when its last member succeeds": ["a_group_is_satisfied_when_its_last_member_succeeds"],
    "a member starts although another one has failed": ["a_member_starts_after_a_sibling_failed"],
    "a failed dependency does not reach the other members of the group": [
        "a_failure_is_not_propagated_to_the_other_members"
    ],
    "a run is finished while a request runs": ["a_run_is_finished_while_a_request_runs"],
    "an undone request keeps its status": ["an_undone_request_keeps_its_201"],
    "a request that never started has no response": ["what_never_started_has_no_response"],
    "$crossjoin(A,B) is a reference, or %241/Orders is none": [
        "crossjoin_with_arguments_is_a_reference",
        "a_percent_encoded_reference_is_not_decoded",
    ],
    "a second report overwrites the first": ["a_report_overwrites_an_earlier_one"],
    "the last fault is reported, or the least number before the least position": [
        "a_fault_of_the_last_request_is_reported_first",
        "the_least_number_is_reported_before_the_least_position",
    ],
    "a canonical text has the URL in lower case, header names as given, or the document itself": [
        "the_canonical_text_has_the_url_in_lower_case",
        "the_canonical_text_keeps_the_case_of_header_names",
        "a_command_repeats_its_document",
    ],
    "a dependency that is listed twice is counted twice, so the request never becomes ready": [
        "a_dependency_is_counted_twice"
    ],
    "a reference to a member of the own group is not counted": [
        "the_reference_of_a_request_in_a_group_is_no_need"
    ],
    "every start, or every batch, is refused": ["every_start_is_refused", "check_always_refuses"],
    "the service is never asked, and each request gets 200": ["the_service_is_never_asked"],
    "every execution ends without an outcome": ["every_execution_ends_without_an_outcome"],
    "304 stops a run": ["a_stopping_run_stops_at_304"],
    "a text is written again after a short write": ["bytes_are_written_again_after_a_short_write"],
    "responses are only counted, so one that appears twice stands for one that is missing": [
        "a_repeated_response_stands_for_a_missing_one"
    ],
    "an event that may not come is left out": ["an_event_that_may_not_come_is_left_out"],
    "the first ready request starts, whatever the chooser picks": [
        "the_first_ready_request_starts_whatever_is_chosen"
    ],
    "a call always runs out of memory": [],
    "an engine, or a device, always fails to read or to write": [
        "every_answer_is_a_failed_input",
        "every_answer_is_a_failed_output",
    ],
    "a request names a member of another group without that group": [
        "a_member_of_another_group_is_accepted_without_its_group"
    ],
    "the width counts the started requests": ["the_width_counts_the_started_requests"],
    "the plan is that of the empty batch": ["the_plan_is_that_of_the_empty_batch"],
}
TESTS = {
    "a call always runs out of memory": [
        "a_written_text_is_read_back",
        "texts_as_json_are_read_again",
        "takes_events_one_by_one_and_as_a_list",
        "drives_a_plan",
        "executes_a_plan",
        "gives_each_outcome_once",
        "keys_and_recorded_runs",
        "has_a_response_for_each_request",
        "each_call_of_a_device_may_fail",
    ],
    "an engine, or a device, always fails to read or to write": [
        "each_call_of_a_device_may_fail",
        "remembers_a_read_that_failed",
        "remembers_a_write_that_failed_or_took_nothing",
    ],
}

BLOCK = re.compile(r"(?:pub )?(?:unsafe )?(impl|trait)\b(.*)")
CALL = re.compile(r"( *)(pub )?(?:final )?(?:const )?(?:extern \"C\" )?fn (\w+)")
CLAUSE = re.compile(r" +ensures\*? *(\w+)? *\{")
TEST = re.compile(r"#\[test\]\s+fn (\w+)")


def text_of(path):
    with open(path, encoding="utf-8") as file:
        return file.read()


def crates():
    """The crates of the repository, lowest first as crates.txt lists them."""
    lines = text_of(f"{ROOT}/crates.txt").splitlines()
    return [line.partition(":")[0].split()[0] for line in lines if line.strip() and not line.startswith("#")]


def sources(crate):
    """The files of a crate, without its tests."""
    for folder, folders, names in os.walk(f"{ROOT}/crates/{crate}/src"):
        folders[:] = sorted(it for it in folders if it != "tests")
        for name in sorted(names):
            if name.endswith(".rt") and name != "tests.rt":
                yield os.path.join(folder, name)


def exported(crate):
    """The names that the crate's root file hands out, and its public modules; a program has none."""
    root = f"{ROOT}/crates/{crate}/src/lib.rt"
    if not os.path.exists(root):
        return set(), set()
    text = re.sub(r"//.*", "", text_of(root))
    uses = re.findall(r"pub use [\w:]+::\{?([\w, \n]+)\}?;", text)
    names = {name for names in uses for name in re.findall(r"\w+", names)}
    return names, set(re.findall(r"pub mod (\w+);", text))


def owner_of(kind, rest):
    """The type, or the trait, that the calls of a block belong to."""
    rest = re.sub(r"<[^<>]*(?:<[^<>]*>[^<>]*)*>", "", rest)
    name = rest.split(" for ")[-1] if kind == "impl" else rest
    found = re.search(r"\w+", name)
    return found[0] if found else ""


def calls(path):
    """The functions of a file: the owner or None, whether a caller may name it, the name and the clauses."""
    found, owner, inherits = [], None, False
    for line in text_of(path).splitlines():
        block = BLOCK.match(line)
        if block:
            owner = owner_of(block[1], block[2])
            inherits = block[1] == "trait" or " for " in block[2]
        elif line.startswith("}"):
            owner, inherits = None, False
        if line.startswith(("mod tests", "#[cfg(test)]")):
            break
        call = CALL.match(line)
        if call and len(call[1]) == (4 if owner else 0):
            found.append((owner, bool(call[2]) or inherits, call[3], []))
        clause = CLAUSE.match(line)
        if clause and found:
            found[-1][3].append(clause[1] or "result")
    return found


def public_clauses(crate):
    """The clauses of each public call of a crate; a method of a trait may be asked for under each type."""
    names, modules = exported(crate)
    found = {}
    for path in sources(crate):
        module = os.path.splitext(os.path.basename(path))[0]
        for owner, is_public, name, clauses in calls(path):
            is_open = (owner or name) in names or module in modules
            if is_public and is_open:
                prefix = owner or (module if module in modules else None)
                found.setdefault(f"{prefix}::{name}" if prefix else name, []).extend(clauses)
    return found


def questions(crate):
    """The edits of a crate, by name, each with its question: the call, the clause and the case, or None."""
    folder = f"{ROOT}/crates/{crate}/must-fail"
    for name in sorted(os.listdir(folder) if os.path.isdir(folder) else []):
        if name.endswith(".edit"):
            first = text_of(f"{folder}/{name}").split("\n", 1)[0]
            asked = re.fullmatch(r"asks: ([\w:]+): (\w+)(?:, (.+))?", first)
            yield name, asked and (asked[1], asked[2], asked[3] or "")


def clauses_of(call, every):
    """The clauses of a call; where a type's method has none of its own, those of the trait's method."""
    own = every.get(call, [])
    name = call.rpartition("::")[2]
    inherited = [it for other, found in every.items() if other.rpartition("::")[2] == name for it in found]
    return own or (inherited if call in every else [])


def wrong(crate, every):
    """What is wrong with the edits of a crate, a line each."""
    asked = {}
    for name, question in questions(crate):
        at = f"crates/{crate}/must-fail/{name}"
        if not question:
            yield f"{at}: the first line is not 'asks: CALL: CLAUSE' or 'asks: CALL: CLAUSE, CASE'"
            continue
        call, clause, _ = question
        if clause not in clauses_of(call, every):
            yield f"{at}: there is no clause {clause} of a public call {call}"
        if question in asked:
            yield f"{at}: asks what {asked[question]} asks"
        asked[question] = name


def proved_tests():
    """The names of the proved tests."""
    found = set()
    for path in glob.glob(f"{ROOT}/crates/odb_tests*/src/**/*.rt", recursive=True):
        found.update(TEST.findall(text_of(path)))
    return found


def gone():
    """The edits and the tests of WRONG_BODIES that are no more, a line each."""
    edits = {name[: -len(".edit")] for crate in crates() for name, _ in questions(crate)}
    tests = proved_tests()
    for body, named in WRONG_BODIES.items():
        yield from (f"{body}: the edit {name} is gone" for name in named if name not in edits)
        yield from (f"{body}: the test {name} is gone" for name in TESTS.get(body, []) if name not in tests)


def with_those_below(crate):
    """The names of a crate and of all that it stands on; crates.txt lists the lowest first."""
    found, known = {crate}, crates()
    for line in reversed(text_of(f"{ROOT}/crates.txt").splitlines()):
        name, _, libraries = line.partition(":")
        if found.intersection(name.split()[:1]):
            found.update(set(known).intersection(libraries.split()))
    return found


def link(one, other):
    """Copies a file. What was proved is linked: the prover replaces such a file, and never writes into it."""
    try:
        if one.endswith(".oantt"):
            return os.link(one, other)
    except OSError:
        pass
    return shutil.copy2(one, other)


def copy_crates(crate, copy):
    """Copies the crates without their edits, with the kept work of one crate and of those that it stands on."""
    kept = with_those_below(crate)

    def left_out(folder, _names):
        if os.path.dirname(folder) != f"{ROOT}/crates":
            return []
        return ["must-fail"] if os.path.basename(folder) in kept else ["must-fail", "out"]

    shutil.copytree(f"{ROOT}/crates", f"{copy}/crates", symlinks=True, ignore=left_out, copy_function=link)


def try_alone(name):
    """Tries one edit in a copy of the crates that has no other edit; returns the exit status."""
    found = glob.glob(f"{ROOT}/crates/*/must-fail/{glob.escape(name)}.edit")
    if len(found) != 1:
        print(f"{name}: {len(found)} edits have this name")
        return 2
    crate = found[0].split("/")[-3]
    with tempfile.TemporaryDirectory(prefix="edit-") as copy:
        copy_crates(crate, copy)
        os.mkdir(f"{copy}/crates/{crate}/must-fail")
        for path in (found[0], f"{ROOT}/crates.txt", f"{ROOT}/HANDLES"):
            shutil.copy(path, os.path.join(copy, os.path.relpath(path, ROOT)))
        status = subprocess.run(["rt", "must-fail", crate], cwd=copy).returncode
    used = resource.getrusage(resource.RUSAGE_CHILDREN)
    print(f"{name}: {used.ru_utime + used.ru_stime:.0f} s of processor time")
    return status


def main():
    parser = argparse.ArgumentParser(description="Lists which clauses of public calls the must-fail edits ask.")
    parser.add_argument("--try", dest="tried", metavar="NAME", help="try this edit alone")
    parser.add_argument("--unasked", action="store_true", help="list the clauses that no edit asks")
    options = parser.parse_args()
    if options.tried:
        return try_alone(options.tried)
    clauses = {crate: public_clauses(crate) for crate in crates()}
    every = {call: found for known in clauses.values() for call, found in known.items()}
    faults, count, seconds = [], 0, 0
    asked = {question[:2] for crate in clauses for _, question in questions(crate) if question}
    for crate, known in clauses.items():
        edits = len(list(questions(crate)))
        count, seconds = count + edits, seconds + edits * SECONDS.get(crate, OTHER)
        faults += wrong(crate, every)
        pairs = [(call, clause) for call, found in known.items() for clause in found]
        unasked = [f"{call}: {clause}" for call, clause in pairs if (call, clause) not in asked]
        total = sum(map(len, known.values()))
        print(f"{crate}: {edits} edits; {total - len(unasked)} of {total} clauses of public calls are asked")
        if options.unasked:
            print("".join(f"  not asked: {it}\n" for it in unasked), end="")
    faults += gone()
    if count > EDITS:
        faults.append(f"there are more than {EDITS} edits: drop one that asks less")
    if seconds > MINUTES * 60:
        faults.append(f"the edits take more than {MINUTES} processor minutes: drop one that asks less")
    print("".join(f"{it}\n" for it in faults), end="")
    print(f"{count} edits of at most {EDITS}, about {seconds / 60:.0f} processor minutes of at most {MINUTES}; {len(faults)} faults")
    return 1 if faults else 0


if __name__ == "__main__":
    sys.exit(main())
