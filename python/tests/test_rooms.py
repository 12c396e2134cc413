"""The memory that batches may take: reserved part by part, given back on failure, and one budget for all."""

import threading

import pytest

from odb_batch import Refusal
from odb_batch.http.budget import DEFAULT_MEMORY, MemoryBudget, BodyBudget, memory_budget


def read(room, method, *parts):
    with room.read(method) as reading:
        for part in parts:
            reading.add(part)
        return reading.body()


class TestRooms:
    def test_keep_what_fits(self):
        budget = MemoryBudget(100)
        with BodyBudget(10, budget) as room:
            assert read(room, "GET", b"abc", b"", b"de") == b"abcde"
            assert (room.left, budget.used) == (5, 5)
        assert budget.used == 0

    def test_a_get_without_room_is_refused_and_takes_nothing(self):
        budget = MemoryBudget(100)
        room = BodyBudget(10, budget)
        for _ in range(3):
            with pytest.raises(Refusal) as refused:
                read(room, "GET", b"x" * 6, b"x" * 6)
            assert refused.value.answer.status == 507
        assert (room.left, budget.used) == (10, 0)

    def test_what_was_performed_loses_its_body(self, caplog):
        room = BodyBudget(10, MemoryBudget(100))
        with room.read("POST") as reading:
            assert [reading.add(b"x" * 6), reading.add(b"x" * 6), reading.add(b"x")] == [True, False, False]
            assert reading.body() == b""
        assert room.left == 10 and "loses its body" in caplog.text

    def test_a_refusal_lasts(self):
        """An application may catch the first."""
        with BodyBudget(2).read("GET") as reading:
            for call in (lambda: reading.add(b"xxx"), lambda: reading.add(b"x"), reading.body):
                with pytest.raises(Refusal):
                    call()

    def test_many_answers_at_once_take_no_more_than_the_room(self):
        """Each of eight has a part, and the room has four."""
        budget = MemoryBudget(1000)
        room = BodyBudget(40, budget)
        readings = [room.read("POST") for _ in range(8)]
        kept = [reading.add(b"x" * 10) for reading in readings]
        assert (kept, budget.used) == ([True] * 4 + [False] * 4, 40)

    def test_what_is_left_in_the_middle_gives_back(self):
        budget = MemoryBudget(100)
        room = BodyBudget(10, budget)
        with pytest.raises(KeyError), room.read("GET") as reading:
            reading.add(b"xxx")
            raise KeyError
        assert (room.left, budget.used) == (10, 0)


class TestBudgets:
    def test_hold_batches_and_answers_of_all(self):
        budget = MemoryBudget(10)
        first, second = BodyBudget(100, budget), BodyBudget(100, budget)
        first.hold(4)
        assert read(first, "GET", b"xxxx") == b"xxxx"
        for call in (lambda: second.hold(3), lambda: read(second, "GET", b"xxx")):
            with pytest.raises(Refusal) as refused:
                call()
            assert refused.value.answer.status == 503
        assert second.left == 100
        first.close()
        first.close()
        assert budget.used == 0
        second.hold(10)

    def test_are_shared_by_threads(self):
        budget = MemoryBudget(1_000)

        def work():
            for _ in range(200):
                with BodyBudget(100, budget) as room:
                    room.hold(1)
                    read(room, "GET", b"x")

        threads = [threading.Thread(target=work) for _ in range(8)]
        for thread in threads:
            thread.start()
        for thread in threads:
            thread.join()
        assert budget.used == 0

    def test_of_an_option(self):
        assert memory_budget(None, 100).size == DEFAULT_MEMORY
        assert memory_budget(None, DEFAULT_MEMORY).size == 2 * DEFAULT_MEMORY
        assert memory_budget(100, 100).size == 100
        with pytest.raises(ValueError, match="memory must be at least max_size, 100, not 99"):
            memory_budget(99, 100)
