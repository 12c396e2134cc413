"""Compares the program with the plain rules of support/rules.py on documents made at random.

A call that is once found to differ is kept: as an `@example` of its command.
"""

import re

from hypothesis import event, example, given

from support.calls import OF_LOGS, OPTIONS, ORDERS, Trial, trials
from support.helps import Texts, read_helps
from support.profiles import share

examples = share(len(OPTIONS))
ONE = b'{"requests":[{"id":"a","method":"get","url":"X"}]}'
TWO = b'{"requests":[{"id":"a","method":"get","url":"X"},{"id":"b","method":"get","url":"$a","dependsOn":["a"]}]}'


def follows_rules(program, trial):
    text, status = trial.by_rules()
    fault = re.search(rb"\b[FSP][0-9]+\b", text)
    event(fault[0].decode() if fault else "good")
    assert trial.by_program(program) == (text, status)


@examples
@given(trial=trials("check"))
@example(trial=Trial("check", {"json": True}, [b'{"requests":[]}\xff'], by_input=True))
@example(trial=Trial("check", {}, [b""]))
@example(trial=Trial("check", {"all": True}, [b'{"requests":[{"id":"a"},7]}']))
def test_check(program, trial):
    follows_rules(program, trial)


@examples
@given(trial=trials("plan"))
@example(trial=Trial("plan", {"dot": True}, [b'{"requests":[]}']))
def test_plan(program, trial):
    follows_rules(program, trial)


@examples
@given(trial=trials("canon"))
@example(trial=Trial("canon", {}, [b'{"requests":[{"id":"a","method":"put","url":"X","body":18446744073709551616}]}']))
def test_canon(program, trial):
    follows_rules(program, trial)


@examples
@given(trial=trials("replay"))
@example(trial=Trial("replay", {"trace": True}, [TWO, b'{"outcomes":[{"id":"a","status":200}]}']))
def test_replay(program, trial):
    follows_rules(program, trial)


@examples
@given(trial=trials("match"))
@example(trial=Trial("match", {}, [ONE, b'{"responses":[{"id":"a","status":600}]}']))
def test_match(program, trial):
    follows_rules(program, trial)


@examples
@given(trial=trials("run"))
@example(trial=Trial("run", {}, [TWO, b'{"events":[{"start":"a"},{"report":"a","status":404},{"start":"b"}]}']))
def test_run(program, trial):
    follows_rules(program, trial)


@examples
@given(trial=trials("rest"))
@example(trial=Trial("rest", {}, [TWO, b'{"responses":[{"id":"a","status":200},{"id":"b","status":429}]}']))
def test_rest(program, trial):
    follows_rules(program, trial)


def test_each_option_is_tried(program):
    helps = read_helps(Texts(program))[1]
    for command, options in OPTIONS.items():
        listed = {option.long[2:]: option.values for option in helps[command].options}
        assert set(listed) == {*options, *OF_LOGS, "help"}, f"the options of {command}"
        assert tuple(listed.get("order", ORDERS)) == ORDERS
