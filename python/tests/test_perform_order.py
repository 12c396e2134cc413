"""What runs beside what where a batch is performed by threads or by tasks, and how that ends."""

import asyncio
import contextlib
import threading
import time
from concurrent.futures import CancelledError, ThreadPoolExecutor
from contextvars import ContextVar

import pytest

from odb_batch import Fault, perform, perform_async
from support.performing import GROUP, answering, gets, shown
from support.servers import until

SECONDS = 60  # until something that is waited for has come


class TestThreads:
    def test_a_width_of_one_stays_in_the_thread_of_the_caller(self):
        found = set()
        perform(gets(*"abc"), lambda it: found.add(threading.get_ident()) or (200,))
        assert found == {threading.get_ident()}

    def test_a_width_above_one_has_the_context_of_the_caller_for_each_unit(self):
        variable = ContextVar("variable", default=0)
        variable.set(1)
        seen = []

        def send(request):
            seen.append(variable.get())
            variable.set(2)
            return (200,)

        perform(gets(*"abcdef"), send, width=2)
        assert seen == [1] * 6

    def test_a_place_that_is_free_is_taken(self):
        """The third request begins while the first one is still out."""
        third = threading.Event()

        def send(request):
            if request.id == "c":
                third.set()
            return (200 if request.id != "a" or third.wait(SECONDS) else 504,)

        assert shown(perform(gets(*"abc"), send, width=2)) == dict.fromkeys("abc", 200)

    @pytest.mark.parametrize("width", [1, 2, 3])
    def test_keeps_to_the_width(self, width):
        lock, now, most = threading.Lock(), [0], [0]

        def send(request):
            with lock:
                now[0] += 1
                most[0] = max(most[0], now[0])
            time.sleep(0.01)
            with lock:
                now[0] -= 1
            return (200,)

        perform(gets(*map(str, range(12))), send, width=width)
        assert most[0] <= width

    def test_a_pool_is_shared_and_left_open(self):
        from concurrent.futures import ThreadPoolExecutor

        with ThreadPoolExecutor(2) as pool:
            for _ in range(2):
                assert set(shown(perform(gets(*"abcdef"), answering({}), width=4, pool=pool)).values()) == {200}


    def test_a_pool_that_is_shut_down_does_not_block(self):
        pool, begun, ended = ThreadPoolExecutor(1), threading.Event(), threading.Event()

        def send(request):
            begun.set()
            ended.wait(SECONDS)
            return (200,)

        def performed():
            with contextlib.suppress(CancelledError):
                perform(gets(*"abc"), send, width=3, pool=pool)

        caller = threading.Thread(target=performed, daemon=True)
        caller.start()
        assert begun.wait(SECONDS)
        until(lambda: pool._work_queue.qsize() == 2)  # the others
        pool.shutdown(wait=False, cancel_futures=True)
        ended.set()
        caller.join(SECONDS)
        assert not caller.is_alive()


class TestTasks:
    def test_is_not_over_before_what_is_out_however_often_it_is_cancelled(self):
        steps = []

        @contextlib.asynccontextmanager
        async def transaction(group):
            try:
                yield
            finally:
                await asyncio.sleep(0.05)
                steps.append("rolled back")

        async def main():
            out = asyncio.Event()

            async def send(request):
                if request.group is not None:
                    out.set()
                    await asyncio.sleep(5)
                return (200,)

            task = asyncio.ensure_future(perform_async(GROUP, send, transaction=transaction))
            await out.wait()
            for _ in range(3):
                task.cancel()
                await asyncio.sleep(0.01)
            with pytest.raises(asyncio.CancelledError):
                await task
            steps.append("over")

        asyncio.run(main())
        assert steps == ["rolled back", "over"]

    def test_a_timeout_cancels_and_is_answered(self):
        ended = []

        async def send(request):
            try:
                await asyncio.sleep(5 if request.id == "slow" else 0)
            finally:
                ended.append(request.id)
            return (200,)

        batch = {"requests": [*gets("slow")["requests"], *gets("after", dependsOn=["slow"])["requests"]]}
        assert shown(asyncio.run(perform_async(batch, send, timeout=0.05))) == {"slow": 504, "after": 424}
        assert ended == ["slow"]

    def test_a_timeout_holds_for_what_is_sent_after_another(self):
        """One timer watches all. It is set for the first, which has ended when it comes."""
        batch = {"requests": [*gets("first")["requests"], *gets("slow", dependsOn=["first"])["requests"]]}

        async def main():
            now = [0.0]
            asyncio.get_running_loop().time = lambda: now[0]

            async def send(request):
                for _ in range(20 if request.id == "first" else 100):
                    now[0] += 1
                    await asyncio.sleep(0)
                return (200,)

            return await perform_async(batch, send, timeout=30)

        assert shown(asyncio.run(main())) == {"first": 200, "slow": 504}

    def test_a_cancellation_rolls_back(self):
        ended, sent = [], []

        async def send(request):
            sent.append(request.id)
            await asyncio.sleep(5 if request.id == "b" else 0)
            return (200,)

        @contextlib.asynccontextmanager
        async def transaction(group):
            try:
                yield
                ended.append("commit")
            except BaseException as error:
                ended.append(type(error).__name__)
                raise

        async def main():
            task = asyncio.ensure_future(perform_async(GROUP, send, transaction=transaction))
            while "b" not in sent:
                await asyncio.sleep(0.001)
            task.cancel()
            with pytest.raises(asyncio.CancelledError):
                await task

        asyncio.run(main())
        assert ended == ["CancelledError"]

    @pytest.mark.skipif("sys.version_info < (3, 9)")
    def test_something_else_that_is_cancelled_is_an_answer(self):
        """Else the request would never be reported, and the batch have no response."""

        async def send(request):
            other = asyncio.ensure_future(asyncio.sleep(5))
            asyncio.get_running_loop().call_soon(other.cancel)
            await other

        found = shown(asyncio.run(perform_async(gets("a", "b"), send)))
        assert found == {"a": 500, "b": 500}

    def test_a_place_that_is_free_is_taken(self):
        """The third request begins while the first one is still out."""

        async def main():
            third = asyncio.Event()

            async def send(request):
                if request.id == "c":
                    third.set()
                elif request.id == "a":
                    await asyncio.wait_for(third.wait(), SECONDS)
                return (200,)

            return await perform_async(gets(*"abc"), send, width=2)

        assert shown(asyncio.run(main())) == dict.fromkeys("abc", 200)

    def test_each_unit_has_a_copy_of_the_context(self):
        variable, seen = ContextVar("variable", default=0), []

        async def send(request):
            seen.append(variable.get())
            variable.set(2)
            return (200,)

        async def main():
            variable.set(1)
            await perform_async(gets(*"abcdef"), send, width=2)

        asyncio.run(main())
        assert seen == [1] * 6

    def test_a_gate_bounds_all_batches(self):
        now, most = [0], [0]

        async def send(request):
            now[0] += 1
            most[0] = max(most[0], now[0])
            await asyncio.sleep(0.01)
            now[0] -= 1
            return (200,)

        async def main():
            gate = asyncio.Semaphore(3)
            await asyncio.gather(*(perform_async(gets(*"abcdef"), send, width=4, gate=gate) for _ in range(4)))

        asyncio.run(main())
        assert most[0] == 3


    def test_a_long_batch_does_not_hold_up_the_loop(self):
        async def performed(batch):
            ticks = []

            async def tick():
                while True:
                    ticks.append(None)
                    await asyncio.sleep(0)

            async def send(request):
                ticks.append(len(ticks))
                return (200,)

            ticking = asyncio.ensure_future(tick())
            response = await perform_async(batch, send)
            ticking.cancel()
            return shown(response), max(filter(None, ticks))

        batch = {"requests": [{"id": "a", "method": "post", "url": "A", "body": [{"n": 1}] * 100_000}]}
        found, count = asyncio.run(performed(batch))
        assert found == {"a": 200} and count > 3
        batch["requests"].append({"id": "a", "method": "get", "url": "A"})
        with pytest.raises(Fault, match="F30"):
            asyncio.run(performed(batch))
