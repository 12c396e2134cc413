"""Runs in the page: by keys alone, by itself, by documents; its responses are those that the program prints."""

import json

import pytest

from support.commands import run
from support.keys import CONTROL
from support.page import answer, choose, play, read, step, write

SAID = "return document.getElementById('said').textContent"


def response(page):
    return page.until("return document.getElementById('response-text')?.textContent")


def events(page):
    """The events of the run, by the button that copies them."""
    return copied(page, "document.getElementById('copy-events')")


def copied(page, button):
    """What a button puts on the clipboard."""
    page.value(f"""window.copied = ''
        const clipboard = {{ writeText: async (text) => {{ window.copied = text }} }}
        Object.defineProperty(navigator, 'clipboard', {{ value: clipboard, configurable: true }})
        {button}.click()""")
    return page.until("return window.copied")


def printed(program, tmp_path, batch, second, *words, command="run"):
    """What the program prints of the same documents."""
    for name, text in [("batch.json", batch), ("second.json", second)]:
        (tmp_path / name).write_text(text)
    return run(program, command, tmp_path / "batch.json", tmp_path / "second.json", *words).rstrip("\n")


def press_until(page, key, name):
    """Presses a key until the focus is on something of this name."""
    for _ in range(60):
        if page.focused() == name:
            return
        page.press(key)
    raise AssertionError(f"{name} is not reached by {key}: {page.focused()}")


def happens(page, key, wanted):
    page.press(key)
    page.until(f"return document.getElementById('said').textContent.includes({json.dumps(wanted)})")


def test_a_run_by_keys_alone(page, program, example, tmp_path):
    """The loan is refused, so the mark of its group is undone and the list is not started."""
    page.value("document.getElementById('text').focus()")
    press_until(page, "Tab", "Start book")
    happens(page, "Enter", "Started book. Running: book.")
    page.press("ArrowRight")
    happens(page, "Enter", "Reported book: 200. May start: mark and loan.")
    page.press("ArrowLeft")
    page.press("ArrowDown")
    happens(page, "Enter", "Started mark.")
    page.press("ArrowDown")
    happens(page, " ", "Started loan. Running: mark and loan.")
    page.press("ArrowUp")
    page.press("ArrowRight")
    assert page.focused() == "Report mark"
    happens(page, "Enter", "Reported mark: 204.")
    press_until(page, "Tab", "The status that loan is answered")
    page.press("a", modifiers=2)
    page.type("409")
    press_until(page, "Tab", "Report loan")
    happens(page, "Enter", "The run is finished.")
    assert page.value(SAID) == (
        "Reported loan: 409. The run is finished. 1 request succeeded, 1 request failed, 1 request not started and answered 424, "
        "1 request to be undone: mark."
    )
    rows = page.value("return Array.from(document.querySelectorAll('#requests tbody tr[data-position]'), (it) => it.cells[1].textContent)")
    assert rows == [
        "✓answered 200",
        "↶to be undone, answered 424loan was answered 409, and the group lend is applied as a whole or not at all",
        "✕answered 409",
        "–not started, answered 424it needs the group lend, and loan was answered 409",
    ]
    assert response(page) == printed(program, tmp_path, example("batch_usual.json"), events(page))
    assert "The response fits the batch: 4 responses." in page.text("response")
    assert "rolls them back and answers 424" in page.text("response")
    assert "To be undone, in this order: mark" in page.text("timeline")


def test_a_refused_event_says_its_cause(page):
    for button, wanted in [
        ("Start list", "The start of list is refused: S4 Waiting."),
        ("Report book", "The report of book is refused: P1 NotRunning."),
    ]:
        page.value(f"""document.querySelector('[aria-label="{button}"]').click()""")
        found = page.until(f"{SAID}.startsWith({wanted!r}) && document.querySelector('.said.refused').textContent")
        assert len(found) > len(wanted) + 40
    answer(page, "book", 99)
    page.value("""document.querySelector('[aria-label="Start book"]').click()""")
    page.until("return document.getElementById('said').textContent.includes('Started book')")
    page.value("""document.querySelector('[aria-label="Report book"]').click()""")
    page.until("return document.getElementById('said').textContent.includes('P2 BadStatus')")
    assert len(json.loads(events(page))["events"]) == 1


@pytest.mark.parametrize("order", ["wide", "first", "last"])
@pytest.mark.parametrize("words", [[], ["--stop"], ["--width", "1"]])
def test_it_plays_by_itself(page, program, example, tmp_path, order, words):
    choose(page, "order", order)
    if "--stop" in words:
        choose(page, "stop", True)
    if "--width" in words:
        choose(page, "width", 1)
    answer(page, "mark", 500)
    play(page)
    batch, document = example("batch_usual.json"), events(page)
    assert response(page) == printed(program, tmp_path, batch, document, *words)
    # The order is that of the program.
    statuses = {"book": 200, "mark": 500, "loan": 201, "list": 200}
    outcomes = json.dumps({"outcomes": [{"id": id, "status": status} for id, status in statuses.items()]})
    trace = printed(program, tmp_path, batch, outcomes, "--trace", "--order", order, *words, command="replay").splitlines()
    steps = [f"start {it['start']}" if "start" in it else f"report {it['report']} {it['status']}" for it in json.loads(document)["events"]]
    assert steps == [it for it in trace[:-1] if not it.startswith("undo")]


def test_steps_are_undone(page):
    for _ in range(3):
        step(page)
    page.until("return document.getElementById('said').textContent.includes('Started mark')")
    page.value("document.getElementById('undo').click()")
    page.until("return document.getElementById('said').textContent.includes('Took back the start of mark. May start: mark and loan.')")
    page.value("document.getElementById('undo').click()")
    page.until("return document.getElementById('said').textContent.includes('Took back the report of book. Running: book.')")
    assert json.loads(events(page)) == {"events": [{"start": "book"}]}
    page.value("document.getElementById('restart').click()")
    page.until("return document.getElementById('said').textContent.includes('May start: book')")


def status_of(page, id, name):
    """A property of the field for the status that a request is answered."""
    return page.value(f"""return document.querySelector('[aria-label="The status that {id} is answered"]').{name}""")


def test_a_finished_run_is_played_again(page):
    buttons = "return ['play', 'step'].map((it) => document.getElementById(it)).map((it) => [it.textContent, it.ariaDisabled])"
    assert page.value(buttons) == [["Play", "false"], ["Step", "false"]]
    step(page)
    assert not status_of(page, "book", "readOnly")
    play(page)
    assert page.value(buttons) == [["Play again", "false"], ["Step", "true"]]
    assert status_of(page, "book", "readOnly") and status_of(page, "list", "readOnly")
    page.value("document.getElementById('undo').click()")
    page.until("return document.getElementById('said').textContent.includes('Took back the report of list')")
    assert page.value(buttons) == [["Play", "false"], ["Step", "false"]]
    assert status_of(page, "book", "readOnly") and not status_of(page, "list", "readOnly")


def test_a_status_is_typed_over(page):
    press_until(page, "Tab", "Start book")
    happens(page, "Enter", "Started book.")
    press_until(page, "Tab", "The status that book is answered")
    page.type("6000")
    assert status_of(page, "book", "value") == "600"
    assert status_of(page, "book", "ariaInvalid") == "true"
    press_until(page, "Tab", "Report book")
    happens(page, "Enter", "P2 BadStatus")
    page.press("ArrowLeft")
    page.press("ArrowLeft")
    page.press("ArrowDown")
    page.press("ArrowUp")
    page.type("404")
    assert status_of(page, "book", "value") == "404"
    assert status_of(page, "book", "ariaInvalid") == "false"
    assert page.value(SAID) == "Running: book."


def test_a_run_that_is_replaced_comes_back(page, example):
    answer(page, "loan", 409)
    play(page)
    before = response(page)
    choose(page, "examples", 1)
    page.until("return document.querySelector('.batch').textContent.includes('Your run of 6 events was replaced. Bring it back')")
    page.until("return document.getElementById('verdict').textContent.includes('ok 3 requests')")
    bring = "document.querySelector('.replaced button').click()"
    page.value(bring)
    assert response(page) == before
    assert page.value("return document.getElementById('examples').value") == "0"
    assert page.value("return document.querySelector('.replaced')") is None
    read(page, example("outcomes_lent.json"))
    assert "Your run of 6 events was replaced." in page.value("return document.querySelector('.second .replaced').textContent")
    own = example("batch_usual.json").replace("list", "own")
    write(page, own)
    choose(page, "examples", 1)
    page.until("return document.querySelector('.batch').textContent.includes('Your batch was replaced. Bring it back')")
    page.value(bring)
    assert page.value("return document.getElementById('text').value") == own


def test_a_paste_over_all_replaces_the_run(page):
    play(page)
    page.value("const field = document.getElementById('text'); field.focus(); field.select()")
    for command in ("copy", "paste"):
        page.call("Input.dispatchKeyEvent", type="rawKeyDown", key="v", modifiers=CONTROL, commands=[command])
    page.until("return document.querySelector('.replaced')?.textContent === 'Your run of 8 events was replaced. Bring it back'")


def test_the_events_are_copied(page):
    """Also beside the response; the field for second documents keeps its text."""
    play(page)
    page.value("document.getElementById('second-text').value = 'mine'")
    beside = copied(page, "Array.from(document.querySelectorAll('#response button')).find((it) => it.textContent.includes('events'))")
    assert beside == events(page) and len(json.loads(beside)["events"]) == 8
    assert page.value("return document.getElementById('second-text').value") == "mine"


def test_headers_and_bodies_are_repeated(page, program, example, tmp_path):
    page.value("""document.querySelector('[aria-label="Headers and body that loan is answered with"]').click()
        const write = (label, text) => {
          const field = document.querySelector(`[aria-label="${label} of the answer to loan"]`)
          field.value = text
          field.dispatchEvent(new Event('input'))
        }
        write('Headers', '{"Location": "Loans(1)"}')
        write('Body', '{"Due": "2026-12-01", "n": 18446744073709551615}')""")
    play(page)
    found = response(page)
    assert '"body":{"Due":"2026-12-01","n":18446744073709551615},"headers":{"location":"Loans(1)"},"id":"loan"' in found
    assert found == printed(program, tmp_path, example("batch_usual.json"), events(page))


def test_headers_that_are_none_are_refused(page):
    page.value("""const field = document.querySelector('[aria-label="Headers of the answer to book"]')
        field.value = '[1]'
        field.dispatchEvent(new Event('input'))""")
    for _ in range(2):
        step(page)
    assert "Headers must be a JSON object of strings." in page.value(SAID)


def test_events_are_read(page, example):
    read(page, example("events_recorded.json"))
    assert "Accepted: a document of events" in page.text("second-verdict")
    assert response(page).startswith('{"responses":[{"id":"book","status":200}')
    assert page.value("return document.querySelectorAll('#timeline rect').length") == 4
    read(page, '{"events": [{"start": "book"}]}')
    assert "fault F66 Unfinished events" in page.text("second-verdict")
    assert "Running: book." in page.value(SAID)


def test_a_fault_of_events_is_marked(page, example):
    read(page, example("events_too_soon.json"))
    assert "fault S4 Waiting /events/3" in page.text("second-verdict")
    marked = page.value("return document.querySelector('#second-editor mark.part').textContent")
    assert marked == '{"start": "list"}'


@pytest.mark.parametrize("text, marked", [('{"events', " "), ('{"outcomes": [}', "}"), ("", " "), ('{"events": [1]}', "1")])
def test_what_is_no_document_is_refused(page, text, marked):
    read(page, text)
    assert page.text("second-verdict").startswith(f"Refused: fault {'F64' if '[1]' in text else 'F02'} ")
    assert page.value("return document.querySelector('#second-editor mark.part').textContent") == marked


def test_outcomes_are_replayed(page, program, example, tmp_path):
    batch = example("batch_usual.json")
    for name in ("outcomes_lent.json", "outcomes_not_lent.json"):
        read(page, example(name))
        assert response(page) == printed(program, tmp_path, batch, example(name), command="replay")


def test_responses_are_compared(page, example):
    answer(page, "loan", 409)
    play(page)
    read(page, example("responses_served.json"))
    assert "Accepted: ok 4 responses" in page.text("second-verdict")
    assert "3 requests were answered otherwise: mark, loan and list." in page.text("comparison")
    read(page, example("responses_unsound.json"))
    assert "fault F75 UnsoundSuccess /requests/3" in page.text("second-verdict")
    page.value("document.querySelector('#second-faults .link').click()")
    assert page.value("""const { value, selectionStart, selectionEnd } = document.activeElement
        return value.slice(selectionStart, selectionEnd)""").startswith('{"id": "list"')


def served(*statuses):
    """The response of a service to batch_usual.json, of which some responses have more."""
    groups = {"mark": "lend", "loan": "lend"}
    return json.dumps({"responses": [
        {"id": id, "status": it, **({"atomicityGroup": groups[id]} if id in groups else {})}
        for id, it in zip(("book", "mark", "loan", "list"), statuses)
    ]})  # fmt: skip


def answers(page):
    """The statuses that the requests are to be answered."""
    return [int(status_of(page, id, "value")) for id in ("book", "mark", "loan", "list")]


def reasons(page):
    return page.value("return Array.from(document.querySelectorAll('#requests tbody tr[data-position]'), (it) => it.cells[1].textContent)")


SAME = "The run and the service answered every request with the same status."


def test_responses_are_what_requests_are_answered(page):
    answer(page, "book", 203)
    read(page, served(200, 424, 409, 424))
    assert "Accepted: ok 4 responses" in page.text("second-verdict")
    # What was not performed, or undone, has no status of its own: the run finds it.
    assert answers(page) == [200, 204, 409, 200]
    assert page.text("comparison").startswith("Answer with has what the service answered. Play the run to see why")
    assert page.value("return document.querySelectorAll('#timeline rect').length") == 0
    play(page)
    assert SAME in page.text("comparison")
    assert reasons(page) == [
        "✓answered 200",
        "↶to be undone, answered 424loan was answered 409, and the group lend is applied as a whole or not at all",
        "✕answered 409",
        "–not started, answered 424it needs the group lend, and loan was answered 409",
    ]


@pytest.mark.parametrize("statuses, filled, is_stop", [
    ((424, 424, 424, 424), [424, 204, 201, 200], False),
    ((200, 424, 424, 424), [200, 424, 201, 200], False),
    ((200, 404, 409, 424), [200, 404, 409, 200], False),
    ((200, 204, 201, 424), [200, 204, 201, 424], False),
    ((500, 424, 424, 424), [500, 204, 201, 200], True),
])  # fmt: skip
def test_a_424_without_a_cause_is_an_answer(page, statuses, filled, is_stop):
    choose(page, "stop", is_stop)
    read(page, served(*statuses))
    assert answers(page) == filled
    play(page)
    assert SAME in page.text("comparison")


def test_responses_bring_headers_and_bodies(page):
    text = served(200, 204, 201, 200).replace('"id": "loan",', '"id": "loan", "headers": {"Location": "Loans(1)", "Age": 7}, "body": {"n": 9.990},')
    read(page, text)
    fields = [f"""document.querySelector('[aria-label="{it} of the answer to loan"]').value""" for it in ("Headers", "Body")]
    assert page.value(f"return [{', '.join(fields)}]") == ['{"Location":"Loans(1)","Age":"7"}', '{"n": 9.990}']
    play(page)
    assert '"body":{"n": 9.990},"headers":{"age":"7","location":"Loans(1)"},"id":"loan"' in response(page)
    assert SAME in page.text("comparison")


def test_long_bodies_are_left_out(page):
    body = json.dumps("x" * 1_000_000)
    read(page, served(200, 424, 409, 424).replace('"id": "book",', f'"id": "book", "body": {body},'))
    assert page.text("comparison").startswith("Answer with has what the service answered, without headers and bodies")
    assert answers(page) == [200, 204, 409, 200]


def test_statuses_that_no_run_ends_with_say_so(page):
    read(page, served(200, 201, 409, 424))
    assert "Accepted: ok 4 responses" in page.text("second-verdict")
    assert "No run of the batch ends with these statuses: match --strict prints fault F77 " in page.text("comparison")
    read(page, served(200, 424, 409, 424))
    assert "No run" not in page.text("comparison")


def test_responses_stay_with_a_run_that_is_finished(page):
    answer(page, "loan", 409)
    play(page)
    read(page, served(200, 204, 201, 200))
    assert "answered otherwise: mark, loan and list. Play again to run the batch with what" in page.text("comparison")
    page.value("document.getElementById('play').click()")
    page.until(f"return document.getElementById('comparison').textContent.includes({json.dumps(SAME)})")


@pytest.mark.parametrize("width", [1100, 1400])
def test_the_time_line_fits_its_place(page, width):
    page.size(width, 1000)
    play(page)
    found = page.value("const { scrollWidth, clientWidth } = document.querySelector('#timeline .scroll'); return [scrollWidth, clientWidth]")
    assert found[0] <= found[1]


def test_numbers_of_bodies_stay_as_they_are(page):
    write(page, '{"requests": [{"id": "a", "method": "get", "url": "A"}]}')
    page.value("""const field = document.querySelector('[aria-label="Body of the answer to a"]')
        field.value = '{"n": 1.50}'
        field.dispatchEvent(new Event('input'))""")
    play(page)
    assert response(page) == '{"responses":[{"body":{"n": 1.50},"id":"a","status":200}]}'
    page.value("document.getElementById('undo').click()")
    page.until("return document.getElementById('said').textContent.includes('Took back the report')")
