"""Units that are performed one after another or sent as one, the states of requests, and runs that are stopped."""

import unittest

from odb_batch import Refused, RequestState, Run

BATCH = {
    "requests": [
        {"id": "book", "method": "get", "url": "Books('dune')"},
        {"id": "mark", "atomicityGroup": "lend", "dependsOn": ["book"], "method": "delete", "url": "Books('dune')"},
        {"id": "loan", "atomicityGroup": "lend", "dependsOn": ["mark"], "method": "post", "url": "Loans"},
        {"id": "list", "dependsOn": ["lend"], "method": "get", "url": "Loans"},
    ]
}


def perform(live, unit, statuses):
    """Starts and reports the members of a unit, each once it is ready."""
    left = list(unit)
    while left:
        (id, *_) = [id for id in left if live.state(id).state == "ready"]
        live.start(id)
        live.report(id, statuses.get(id, 200))
        left.remove(id)
        if live.state(id).status >= 300:
            return


def units_of(live, statuses):
    """Performs one unit after another, and returns them."""
    units = []
    for unit in iter(live.next_unit, None):
        units.append(unit)
        perform(live, unit, statuses)
    return units


def states_of(live):
    return [(live.state(request["id"]).state, live.state(request["id"]).status) for request in BATCH["requests"]]


class Units(unittest.TestCase):
    def test_begin_in_the_order_of_the_batch(self):
        with Run(BATCH) as live:
            self.assertEqual(units_of(live, {}), [("book",), ("mark", "loan"), ("list",)])
            self.assertTrue(live.finished)

    def test_do_not_begin_once_one_that_they_need_has_failed(self):
        with Run(BATCH) as live:
            self.assertEqual(units_of(live, {"mark": 204, "loan": 409}), [("book",), ("mark", "loan")])
            self.assertEqual(states_of(live), [("reported", 200), ("undone", 424), ("reported", 409), ("skipped", 424)])

    def test_wait_for_a_place(self):
        independent = {"requests": [dict(request, dependsOn=[]) for request in BATCH["requests"]]}
        with Run(independent, width=2) as live:
            seen = []
            for id in ("book", "mark"):
                seen.append(live.next_unit())
                live.start(id)
            self.assertEqual([*seen, live.next_unit()], [("book",), ("mark", "loan"), None])
            live.report("book", 200)
            self.assertEqual(live.next_unit(), ("list",))

    def test_are_none_in_an_empty_batch(self):
        with Run({"requests": []}) as live:
            self.assertIsNone(live.next_unit())


class SentAsOne(unittest.TestCase):
    def test_start_together_and_take_one_place(self):
        with Run(BATCH, width=1) as live:
            perform(live, ("book",), {})
            live.start_unit("loan")
            self.assertEqual((live.running, live.ready), (("mark", "loan"), ()))
            live.report("loan", 201)
            self.assertEqual(live.running, ("mark",))
            self.assertIsNone(live.next_unit())
            live.report("mark", 204)
            self.assertEqual(live.next_unit(), ("list",))
            live.start_unit("list")
            live.report("list", 200)
            self.assertTrue(live.finished)
            self.assertEqual(live.response().count(b'"status":20'), 4)

    def test_are_all_or_none(self):
        with Run(BATCH, mode="stop") as live:
            perform(live, ("book",), {})
            live.start_unit("mark")
            live.report("mark", 409)
            live.stop()
            live.report("loan", 201)
            self.assertEqual(states_of(live), [("reported", 200), ("reported", 409), ("undone", 424), ("skipped", 424)])
            self.assertEqual(live.undone, ("loan",))

    def test_are_refused_as_a_whole(self):
        with Run(BATCH) as live:
            refused = {}
            for cause, before in (("S4", None), ("S1", "book"), ("S2", "stop")):
                if before == "book":
                    perform(live, ("book",), {})
                    live.start("mark")
                if before == "stop":
                    live.report("mark", 204)
                    live.stop()
                id = "list" if before == "stop" else "loan"
                with self.assertRaises(Refused) as error:
                    live.start_unit(id)
                refused[cause] = (error.exception.code, error.exception.id)
            self.assertEqual(refused, {"S4": ("S4", "loan"), "S1": ("S1", "loan"), "S2": ("S2", "list")})
            with self.assertRaises(KeyError):
                live.start_unit("lend")

    def test_are_refused_after_a_failure_or_at_the_width(self):
        with Run(BATCH) as live:
            live.start("book")
            live.report("book", 500)
            with self.assertRaises(Refused) as refused:
                live.start_unit("list")
            self.assertEqual((refused.exception.code, refused.exception.name), ("S3", "UnitFailed"))
        with Run({"requests": [dict(request, dependsOn=[]) for request in BATCH["requests"]]}, width=1) as live:
            live.start("mark")
            with self.assertRaises(Refused) as refused:
                live.start_unit("book")
            self.assertEqual((refused.exception.code, refused.exception.name), ("S5", "WidthReached"))
            self.assertEqual((live.running, live.next_unit()), (("mark",), None))


class States(unittest.TestCase):
    def test_follow_the_run(self):
        with Run(BATCH) as live:
            waits = [("waiting", None)] * 3
            self.assertEqual(states_of(live), [("ready", None), *waits])
            live.start("book")
            self.assertEqual(states_of(live), [("running", None), *waits])
            live.report("book", 404)
            self.assertEqual(states_of(live), [("reported", 404), *[("skipped", 424)] * 3])

    def test_have_names(self):
        with Run(BATCH) as live:
            self.assertEqual(live.state("book"), RequestState(state="ready", status=None))

    def test_are_of_requests_of_the_batch(self):
        with Run(BATCH) as live:
            with self.assertRaises(KeyError):
                live.state("lend")


class Stops(unittest.TestCase):
    def test_let_nothing_start(self):
        for mode in ("continue", "stop"):
            with self.subTest(mode), Run(BATCH, mode=mode) as live:
                live.start("book")
                live.stop()
                self.assertEqual((live.ready, live.running, live.finished), ((), ("book",), False))
                self.assertEqual(states_of(live), [("running", None), *[("skipped", None)] * 3])
                live.report("book", 200)
                self.assertTrue(live.finished)
                self.assertEqual(states_of(live), [("reported", 200), *[("skipped", 424)] * 3])
                with self.assertRaises(Refused) as refused:
                    live.start("mark")
                self.assertEqual((refused.exception.code, refused.exception.name), ("S2", "Stopped"))
                self.assertEqual(live.response().count(b'"status":424'), 3)

    def test_end_a_run_in_which_nothing_runs(self):
        with Run(BATCH) as live:
            live.stop()
            live.stop()
            self.assertTrue(live.finished)
            self.assertIsNone(live.next_unit())
            self.assertEqual(live.undone, ())

    def test_are_refused_of_a_closed_run(self):
        live = Run(BATCH)
        live.close()
        for call in (live.stop, live.next_unit, lambda: live.state("book"), lambda: live.start_unit("book")):
            with self.assertRaises(ValueError):
                call()


if __name__ == "__main__":
    unittest.main()
