"""Gateways over one journal that are killed, paused and cut off, clients that ask again, and what a service has seen."""

import asyncio
import json
import random
import signal
import subprocess
import sys
from collections import Counter, defaultdict
from contextlib import AsyncExitStack

import aiohttp
from aiohttp import web

from .commands import with_package
from .cuts import Cut
from .servers import CONTINUE, SECONDS, repeatable


def requests_of(key):
    """Chains of POSTs and GETs, and a group, on paths of their own."""
    post = lambda id, **more: {"id": id, "method": "post", "url": f"{key}-{id}", "body": {"n": 1.50}, **more}
    group = {"atomicityGroup": "g"}
    return [
        post("a"), {"id": "b", "method": "get", "url": f"{key}-b", "dependsOn": ["a"]}, post("c", dependsOn=["b"]),
        post("d", **group), post("e", **group), post("f", dependsOn=["g"]), post("h", dependsOn=["f", "c"]),
    ]  # fmt: skip


class Service:
    """Answers requests and groups, and keeps when each request was seen that is not a GET."""

    def __init__(self, turns):
        self.seen, self.turns = defaultdict(list), turns

    async def answer(self, request):
        body = await request.read()
        if request.path.endswith("/$batch"):
            given = json.loads(body)["requests"]
            for it in given:
                self.note(it["url"])
            found = {"responses": [{"id": it["id"], "status": 201, "atomicityGroup": "g"} for it in given]}
        else:
            if request.method != "GET":
                self.note(request.path)
            found = {"path": request.path}
        await asyncio.sleep(self.turns.random() * 0.06)
        status = 201 if request.method == "POST" and "responses" not in found else 200
        return web.json_response(found, status=status)

    def note(self, url):
        self.seen[url.rpartition("/")[2]].append(asyncio.get_running_loop().time())


class Slot:
    """A place for one gateway after another, with a way to PostgreSQL that can be cut."""

    def __init__(self, chaos, cut):
        self.chaos, self.cut, self.process, self.port, self.is_busy = chaos, cut, None, 0, False

    async def start(self):
        chaos = self.chaos
        place = chaos.place.replace(f":{chaos.database.port}/", f":{self.cut.port}/") if self.cut else chaos.place
        command = [sys.executable, "-m", "odb_batch", "gateway", "--listen", f"127.0.0.1:{self.port}", "--one-client"]
        command += ["--upstream", chaos.url, "--groups", "forward", "--journal", place, "--lease", str(chaos.lease)]
        self.process = await asyncio.create_subprocess_exec(
            *command, "--log", "none", "--timeout", "5", env=with_package(), stderr=subprocess.PIPE
        )
        while line := await asyncio.wait_for(self.process.stderr.readline(), SECONDS):
            if line.startswith(b"listening on "):
                self.port = int(line.rpartition(b":")[2])
                break
        self.reading = asyncio.ensure_future(self.process.stderr.read())

    async def harm(self, kind):
        """Kills the gateway and starts another one, pauses it, or cuts it off, for less or more than a lease."""
        turns, lease = self.chaos.turns, self.chaos.lease
        self.is_busy = True
        seconds = turns.choice([0.3, lease, lease * 1.5, lease * 3]) * (0.5 + turns.random())
        if kind == "kill":
            self.process.kill()
            await self.process.wait()
            await asyncio.sleep(turns.random() * 0.5)
            await self.start()
        elif kind == "pause":
            self.process.send_signal(signal.SIGSTOP)
            await asyncio.sleep(seconds)
            self.process.send_signal(signal.SIGCONT)
        else:
            self.cut.is_cut = True
            await asyncio.sleep(seconds)
            self.cut.is_cut = False
        await asyncio.sleep(0.3)
        self.is_busy = False


class Chaos:
    """A run; `judged` says what has gone wrong.

    Args:
        place: What --journal names.
        database: The PostgreSQL of that, or None.
        harms: How many times a gateway is harmed, by each kind: kill, pause, cut; and restart, of the database.
        gateways, clients: How many.
        lease: That of the gateways, in seconds.
        seed: What the random numbers depend on.
    """

    def __init__(self, place, database, harms, gateways=3, clients=6, lease=1.5, seed=0):
        self.place, self.database, self.gateways, self.clients = place, database, gateways, clients
        self.lease, self.turns = lease, random.Random(seed)
        self.harms = [kind for kind, count in harms.items() for _ in range(count)]
        self.turns.shuffle(self.harms)
        self.answers, self.codes, self.faults, self.keys = {}, Counter(), [], iter(range(10**6))
        self.is_over = False

    async def run(self):
        self.service = Service(self.turns)
        app = web.Application()
        app.router.add_route("*", "/{path:.*}", self.service.answer)
        runner = web.AppRunner(app, access_log=None)
        await runner.setup()
        await web.TCPSite(runner, "127.0.0.1", 0, shutdown_timeout=0.1).start()
        self.url = f"http://127.0.0.1:{runner.addresses[0][1]}/odata/"
        async with AsyncExitStack() as ends:
            ends.push_async_callback(runner.cleanup)
            self.slots = []
            for _ in range(self.gateways):
                cut = await ends.enter_async_context(Cut(self.database.port)) if "cut" in self.harms else None
                self.slots.append(Slot(self, cut))
                await self.slots[-1].start()
                ends.push_async_callback(self.stop, self.slots[-1])
            connector = aiohttp.TCPConnector(limit=0, force_close=True)
            self.http = await ends.enter_async_context(aiohttp.ClientSession(connector=connector))
            await self.perform()

    async def perform(self):
        clients = [asyncio.ensure_future(self.client()) for _ in range(self.clients)]
        harming = set()
        for kind in self.harms:
            while not (free := [it for it in self.slots if not it.is_busy]):
                await asyncio.sleep(0.02)
            await asyncio.sleep(self.turns.random() * 0.3)
            if kind == "restart":
                mode = self.turns.choice(["fast", "immediate"])
                work = asyncio.get_running_loop().run_in_executor(None, self.database.restart, mode)
            else:
                work = self.turns.choice(free).harm(kind)
            harming.add(task := asyncio.ensure_future(work))
            if kind == "restart":
                await task
            else:
                await asyncio.sleep(0)
        await asyncio.gather(*harming)
        self.is_over = True
        await asyncio.gather(*clients)
        await asyncio.gather(*(self.ask(key) for key in list(self.answers)))  # each again, of any gateway

    async def stop(self, slot):
        slot.process.send_signal(signal.SIGCONT)
        slot.process.kill()
        await slot.process.wait()
        await slot.reading

    async def client(self):
        while not self.is_over:
            key = f"k{next(self.keys)}"
            await self.ask(key)
            if self.turns.random() < 0.3:
                await self.ask(key)

    async def ask(self, key):
        """Asks some gateway, and again another one, until there is an answer. Clients hang up at times."""
        now = asyncio.get_running_loop().time
        end, batch = now() + SECONDS, json.dumps({"requests": requests_of(key)})
        while now() < end:
            slot = self.turns.choice(self.slots)
            limit = aiohttp.ClientTimeout(20 if self.is_over else self.turns.choice([0.05, 2, 2, 8]))
            url = f"http://127.0.0.1:{slot.port}/odata/$batch"
            try:
                headers = {**CONTINUE, **repeatable(key)}
                async with self.http.post(url, data=batch, headers=headers, timeout=limit) as answer:
                    status, text = answer.status, await answer.read()
            except (aiohttp.ClientError, OSError, asyncio.TimeoutError) as error:
                self.codes[type(error).__name__] += 1
                await asyncio.sleep(0.05)
                continue
            if status == 200:
                if self.answers.setdefault(key, (now(), text))[1] != text:
                    self.faults.append(("another answer", key))
                return
            self.codes[json.loads(text)["error"]["code"]] += 1
            await asyncio.sleep(0.1)
        self.faults.append(("no answer", key))

    def judged(self):
        """What has gone wrong: a request that was sent twice, or after its client was told that it is lost; an answer that
        has changed, has not come, or does not fit what was sent."""
        found, lost = list(self.faults), 0
        found.extend(("twice", name) for name, times in self.service.seen.items() if len(times) > 1)
        for key, (at, text) in self.answers.items():
            for it in json.loads(text)["responses"]:
                times = self.service.seen.get(f"{key}-{it['id']}", [])
                lost += it["status"] == 500
                if any(time > at + 0.02 for time in times) and it["id"] != "b":
                    found.append(("late", key, it["id"]))
                if it["id"] != "b" and it["status"] not in (500, 502, 504) and (it["status"] == 201) != bool(times):
                    found.append(("wrong", key, it["id"], it["status"]))
        self.lost = lost
        return found
