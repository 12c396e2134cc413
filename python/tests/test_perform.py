"""Batches that are performed by a function: each trap of transactions and failures, in threads and in tasks."""

import asyncio
import contextlib
import json
import threading
import time

import pytest

from odb_batch import Fault, Refusal, Run, perform, perform_async
from support.counting import lines_of
from support.performing import GROUP, Ledger, answering, gets, shown


class TestTransactions:
    @pytest.mark.parametrize("width", [1, 2, 8])
    def test_begins_when_the_group_needs_nothing_more_from_outside(self, width):
        """x writes, too: a transaction that begins with a would hold the writer and wait for x."""
        ledger, log = Ledger(), []

        def send(request):
            if request.group is None and request.method == "POST":
                time.sleep(0.1)
                assert ledger.writer.acquire(timeout=60), "deadlock"
                ledger.writer.release()
            log.append(request.id)
            return (201,)

        assert shown(perform(GROUP, send, width=width, transaction=ledger.transaction)) == dict.fromkeys("xabc", 201)
        assert (log, ledger.committed) == (["x", "a", "b", "c"], ["g"])

    def test_what_needs_the_group_starts_after_its_commit(self, driver):
        ledger = Ledger()

        def send(request):
            assert (request.id == "c") == bool(ledger.committed)
            return (200,)

        assert set(shown(driver(GROUP, send, width=4, transaction=ledger.transaction)).values()) == {200}

    @pytest.mark.parametrize("statuses, wanted", [
        ({"a": 404}, {"x": 200, "a": 404, "b": 424, "c": 424}),
        ({"b": 409}, {"x": 200, "a": 424, "b": 409, "c": 424}),
        ({"b": 304}, {"x": 200, "a": 424, "b": 304, "c": 424}),
    ])  # fmt: skip
    def test_is_rolled_back_at_the_first_failure(self, driver, statuses, wanted):
        ledger, log = Ledger(), []
        assert shown(driver(GROUP, answering(statuses, log), transaction=ledger.transaction)) == wanted
        assert (ledger.committed, ledger.rolled_back) == ([], ["g"])
        assert log == ["x", "a", "b"][: 2 if "a" in statuses else 3]

    def test_does_not_begin_after_a_failure_outside(self, driver):
        ledger = Ledger()
        assert shown(driver(GROUP, answering({"x": 500}), transaction=ledger.transaction)) == {
            "x": 500, "a": 424, "b": 424, "c": 424,
        }  # fmt: skip
        assert ledger.rolled_back == []

    def test_a_commit_that_fails_is_the_answer_of_the_last_request(self, driver):
        ledger = Ledger(fails=["g"])
        found = shown(driver(GROUP, answering({}), transaction=ledger.transaction))
        assert found == {"x": 200, "a": 424, "b": 500, "c": 424}

    @pytest.mark.parametrize("id, wanted", [("a", (500, 424)), ("b", (424, 500))])
    def test_a_body_that_cannot_be_written_fails_the_group_before_its_commit(self, driver, id, wanted):
        ledger = Ledger()

        def send(request):
            return 200, {}, float("nan") if request.id == id else None

        found = shown(driver(GROUP, send, transaction=ledger.transaction))
        assert (found["a"], found["b"], found["c"]) == (*wanted, 424)
        assert (ledger.committed, ledger.rolled_back) == ([], ["g"])

    def test_a_begin_that_is_refused_is_the_answer_of_the_first_request(self, driver):
        @contextlib.contextmanager
        def busy(group):
            raise Refusal(503, "Busy", "try again", retry_after="1")
            yield

        log = []
        found = json.loads(driver(GROUP, answering({}, log), transaction=busy))["responses"]
        assert [it["status"] for it in found] == [200, 503, 424, 424] and log == ["x"]
        assert found[1]["headers"]["retry-after"] == "1"

    def test_a_function_without_a_manager(self, driver):
        def broken(group):
            raise KeyError(group)

        assert shown(driver(GROUP, answering({}), transaction=broken)) == {"x": 200, "a": 500, "b": 424, "c": 424}

    def test_a_rollback_that_fails_is_logged(self, driver, caplog):
        @contextlib.contextmanager
        def broken(group):
            try:
                yield
            except Exception:
                raise RuntimeError("the connection is gone") from None

        found = shown(driver(GROUP, answering({"b": 409}), transaction=broken))
        assert found == {"x": 200, "a": 424, "b": 409, "c": 424}
        assert "the group g could not be rolled back" in caplog.text

    @pytest.mark.parametrize("statuses, wanted", [({"a": 404}, (404, 424)), ({"b": 404}, (424, 404))])
    def test_a_manager_that_swallows_exceptions(self, driver, statuses, wanted):
        """contextlib.suppress and the like: the group has failed all the same."""
        found = shown(driver(GROUP, answering(statuses), transaction=lambda group: contextlib.suppress(Exception)))
        assert (found["a"], found["b"], found["c"]) == (*wanted, 424)

    def test_a_manager_that_swallows_all_is_not_taken_for_success(self):
        def send(request):
            if request.id == "b":
                raise KeyboardInterrupt
            return (200,)

        found = perform(GROUP, send, transaction=lambda group: contextlib.suppress(BaseException))
        assert shown(found) == {"x": 200, "a": 424, "b": 500, "c": 424}

    def test_the_run_stops_in_the_middle_of_a_group(self, monkeypatch):
        """Another request fails while a group is under way: it is rolled back, and answered 424."""
        batch = {"requests": [{**it, "dependsOn": []} for it in GROUP["requests"][1:3]]}
        batch["requests"].append({"id": "y", "method": "get", "url": "Y"})
        ledger, failed, report = Ledger(), threading.Event(), Run.report

        def noted(run, id, *more):
            report(run, id, *more)
            if id == "y":
                failed.set()

        def send(request):
            if request.id == "y":
                return (404,)
            failed.wait(5)
            return (201,)

        monkeypatch.setattr(Run, "report", noted)

        found = shown(perform(batch, send, mode="stop", width=2, transaction=ledger.transaction))
        assert found == {"a": 424, "b": 424, "y": 404} and ledger.rolled_back == ["g"]

    def test_the_run_stops_while_a_unit_begins(self, monkeypatch):
        """An error that is reported after a unit was found and before it has started: nothing more starts."""
        next_unit = Run.next_unit

        def late(run):
            found = next_unit(run)
            if found == ("b",):
                run.stop()
            return found

        monkeypatch.setattr(Run, "next_unit", late)
        assert shown(perform(gets("a", "b", "c"), answering({}), mode="stop", width=2)) == {
            "a": 200,
            "b": 424,
            "c": 424,
        }

    def test_groups_without_transactions_are_refused_before_anything_is_sent(self, driver):
        with pytest.raises(Refusal) as refused:
            driver(GROUP, lambda it: pytest.fail("sent"))
        assert refused.value.answer.status == 501

    def test_an_asynchronous_transaction(self):
        steps = []

        @contextlib.asynccontextmanager
        async def transaction(group):
            steps.append("begin")
            await asyncio.sleep(0)
            yield
            await asyncio.sleep(0)
            steps.append("commit")

        async def send(request):
            steps.append(request.id)
            return (200,)

        asyncio.run(perform_async(GROUP, send, transaction=transaction))
        assert steps == ["x", "begin", "a", "b", "commit", "c"]


    @pytest.mark.parametrize("is_begin, wanted", [(True, (500, 424)), (False, (424, 500))])
    def test_something_else_that_is_cancelled_in_a_transaction_is_an_answer(self, is_begin, wanted):
        @contextlib.asynccontextmanager
        async def transaction(group):
            if not is_begin:
                yield
            lost = asyncio.get_running_loop().create_future()
            lost.cancel()
            await lost
            yield

        async def send(request):
            return (200,)

        found = shown(asyncio.run(perform_async(GROUP, send, transaction=transaction)))
        assert (found["a"], found["b"], found["c"]) == (*wanted, 424)


class TestFailures:
    @pytest.mark.parametrize("error, status", [
        (TimeoutError(), 504), (asyncio.TimeoutError(), 504), (ConnectionResetError(), 502), (KeyError("k"), 500),
        (Refusal(429, "Slow", "later"), 429), (Fault("F02", "NotJson", "batch"), 500),
    ])  # fmt: skip
    def test_an_exception_is_an_answer(self, driver, error, status):
        def send(request):
            raise error

        assert shown(driver(gets("a"), send)) == {"a": status}

    @pytest.mark.parametrize("answered, status", [
        (None, 500), ("200", 500), ((), 500), ((True,), 500), (("200",), 500), ((200, {"A": 1}), 500), ((200, None), 500),
        ((100,), 502), ((0,), 502), ((600,), 502), ((200, {}, float("nan")), 500), ((200, {}, object()), 500),
        ((200, {"X": "\ud800"}), 200), ((200, {"X": "a", "x": "b"}), 200),
    ])  # fmt: skip
    def test_an_answer_that_is_none_has_a_status(self, driver, answered, status):
        assert shown(driver(gets("a"), lambda request: answered)) == {"a": status}

    def test_an_interruption_rolls_back(self):
        ledger = Ledger()

        def send(request):
            if request.id == "b":
                raise KeyboardInterrupt
            return (200,)

        with pytest.raises(KeyboardInterrupt):
            perform(GROUP, send, transaction=ledger.transaction)
        assert (ledger.rolled_back, ledger.committed) == (["g"], [])

    def test_an_interruption_in_a_thread_lets_nothing_more_start(self, monkeypatch):
        ledger, sent, stopped, stop = Ledger(), [], threading.Event(), Run.stop
        monkeypatch.setattr(Run, "stop", lambda run: stop(run) or stopped.set())

        def send(request):
            sent.append(request.id)
            if request.id == "y":
                raise SystemExit(3)
            stopped.wait(5)
            return (200,)

        members = [{**it, "dependsOn": []} for it in GROUP["requests"][1:3]]
        with pytest.raises(SystemExit):
            batch = {"requests": [*members, {"id": "y", "method": "get", "url": "Y"}]}
            perform(batch, send, width=2, transaction=ledger.transaction)
        assert sorted(sent) == ["a", "y"] and ledger.rolled_back == ["g"]

    @pytest.mark.parametrize("option", [
        {"width": 0}, {"width": 10_001}, {"mode": "half"}, {"base": "http://h/odata"}, {"base": "http://h/?x=/"}, {"roots": ["x"]},
        {"limit": True}, {"limit": 1.5}, {"limit": 0}, {"limit": -1},
    ])  # fmt: skip
    def test_wrong_options(self, driver, option):
        with pytest.raises(ValueError):
            driver(gets("a"), lambda it: pytest.fail("sent"), **option)

    @pytest.mark.parametrize("option", [{"base": 5}, {"base": b"http://h/"}, {"roots": [5]}])
    def test_options_that_are_no_urls(self, driver, option):
        with pytest.raises(TypeError, match="a base or a root must be a URL, not"):
            driver(gets("a"), lambda it: pytest.fail("sent"), **option)

    def test_a_batch_that_is_refused(self, driver):
        with pytest.raises(Fault) as fault:
            driver('{"requests": 7}', lambda it: pytest.fail("sent"))
        assert fault.value.code == "F04"
        with pytest.raises(Refusal) as refused:
            driver(gets(*"abc"), lambda it: pytest.fail("sent"), limit=2)
        assert refused.value.answer.status == 413

    def test_the_status_of_a_refusal_is_an_error(self):
        for status in (200, 304, 399, 600):
            with pytest.raises(ValueError):
                Refusal(status, "Code", "message")

    def test_a_stop_answers_the_rest(self, driver):
        sent = []
        found = driver(gets(*"abcd"), answering({}, sent), width=1, stop=lambda: len(sent) == 2)
        assert (sent, shown(found)) == (["a", "b"], {"a": 200, "b": 200, "c": 424, "d": 424})

    def test_a_stop_that_fails_ends_all(self, driver):
        def stop():
            raise LookupError

        with pytest.raises(LookupError):
            driver(gets("a"), answering({}), stop=stop)


@pytest.mark.slow
@pytest.mark.parametrize("is_chain", [False, True])
def test_ten_thousand_requests(driver, is_chain):
    """Four times the requests take some four times the work: with width, chain or not."""

    def perform_many(count):
        needs = lambda k: {"dependsOn": [f"r{k - 1}"]} if is_chain and k else {}
        batch = {"requests": [{"id": f"r{k}", "method": "get", "url": "A", **needs(k)} for k in range(count)]}
        assert set(shown(driver(batch, answering({}), width=8)).values()) == {200}

    perform_many(10_000)
    few, many = (lines_of(lambda: perform_many(count)) for count in (500, 2000))
    assert many < 6 * few
