"""The headers by which a batch may be sent again (OASIS Repeatable Requests Version 1.0), who its client is, and the
text of journals.
"""

import asyncio
import contextlib
import email.utils
import json
import signal
import subprocess
import sys
import threading
import time

import pytest

from odb_batch import Refusal, Report, ReportUnit
from odb_batch.gateway._options import options_of
from odb_batch.gateway._repeatability import AHEAD, Repeatability
from odb_batch.journals import _encoding
from support.commands import with_package
from support.journals import EVENTS, events_of, written
from support.servers import CONTINUE, FIRST_SENT, SECONDS, Asked, repeatable, until

BATCH = json.dumps({"requests": [{"id": "a", "method": "post", "url": "X", "body": 1}]})
MAIN = "from odb_batch.__main__ import main; sys.exit(main(sys.argv[1:]))"


def date(seconds):
    """A date so many seconds ago."""
    return email.utils.formatdate(time.time() - seconds, usegmt=True)


@pytest.fixture
def ask(upstream, front, tmp_path):
    """Sends a batch with some headers to a gateway; returns the status, the code of the error and the result."""
    service = upstream()

    def send(headers, *words):
        it = front("--upstream", service.url, *(words or ("--journal", str(tmp_path), "--one-client")))
        status, found, text = it.ask("POST", "/odata/$batch", BATCH, {**CONTINUE, **headers})
        error = json.loads(text).get("error", {})
        return status, error.get("code"), found.get("repeatability-result"), len(service.seen)

    return send


def test_without_a_journal_nothing_is_promised(ask):
    assert ask(repeatable("x"), "--width", "8") == (501, "NotRepeatable", "rejected", 0)


@pytest.mark.parametrize("sent", [
    None, "", "1998", "Sunday, 06-Nov-94 08:49:37 GMT", "Sun Nov  6 08:49:37 1994", "Mon, 06 Nov 1994 08:49:37 GMT",
    "Sun, 06 Nov 1994 08:49:37 +0000", "Sun, 31 Feb 2021 08:49:37 GMT", "Sun, 6 Nov 1994 08:49:37 GMT",
    "x Sun, 06 Nov 1994 08:49:37 GMT",
])  # fmt: skip
def test_the_date_is_asked_for(ask, sent):
    headers = {"Repeatability-Request-ID": "x", **({} if sent is None else {"Repeatability-First-Sent": sent})}
    assert ask(headers) == (400, "BadFirstSent", "rejected", 0)


def test_a_date_in_the_future_would_be_kept_too_long(ask):
    assert ask(repeatable("x", date(-400))) == (400, "BadFirstSent", "rejected", 0)
    assert ask(repeatable("x", date(-200)))[0] == 200


@pytest.mark.parametrize("headers", [{"Repeatability-First-Sent": FIRST_SENT}, repeatable("")])
def test_a_date_without_an_id(ask, headers):
    assert ask(headers) == (400, "BadRepeatability", "rejected", 0)


def test_a_batch_that_is_not_kept_any_more_is_not_performed_again(ask, tmp_path):
    words = ["--journal", str(tmp_path), "--one-client", "--keep", "1000"]
    assert ask(repeatable("x", date(900)), *words) == (200, None, "accepted", 1)
    assert ask(repeatable("y", date(1_100)), *words) == (412, "TooLate", "rejected", 1)


def test_a_batch_is_refused_as_late_before_its_journal_is_removed(aiohttp, tmp_path):
    """Whenever the journal of a batch is gone, its date is too old: there is no moment between the two."""
    from odb_batch.gateway._application import Gateway

    options = options_of(["--upstream", "http://a", "--journal", str(tmp_path), "--one-client", "--keep", "100"])
    now, journals = [0.0], Gateway(options)._journals
    repeatability = Repeatability(options, lambda: now[0])
    # The clock of the client is as far ahead as it may be.
    headers = {name.lower(): value for name, value in repeatable("x", date(1 - AHEAD)).items()}

    async def shown():
        return now[0]

    async def run():
        journals._steady, journals.store.now = lambda: now[0], shown
        await journals.open()
        await written(journals)
        start, accepted = int(time.time()), 0
        for now[0] in range(start, start + 1_000, 25):
            await journals.prune()
            with contextlib.suppress(Refusal):
                repeatability.read(headers)
                accepted += 1
                assert await events_of(journals) == EVENTS
        assert await events_of(journals) == [] and 12 < accepted < 20
        await journals.close()

    asyncio.run(run())


@pytest.mark.parametrize("headers, code", [
    ({}, "NoClient"), ({"X-Client": ""}, "NoClient"), ({"X-Client": "ada"}, None),
])  # fmt: skip
def test_the_client_has_to_be_known(ask, tmp_path, headers, code):
    found = ask({**repeatable("x"), **headers}, "--journal", str(tmp_path), "--client-header", "X-Client")
    assert found[:2] == ((400, code) if code else (200, None))


def test_no_header_of_a_client_takes_what_it_says_of_a_batch_away(ask):
    assert ask({**repeatable("x"), "Connection": "Repeatability-Request-ID, Repeatability-First-Sent"})[2] == "accepted"


def test_a_client_by_what_a_proxy_has_forwarded(ask, tmp_path):
    """A header of proxies that an option names is read, and cannot be removed by another header."""
    words = ["--journal", str(tmp_path), "--client-header", "X-Forwarded-User"]
    headers = {**repeatable("x"), "X-Forwarded-User": "ada", "Connection": "X-Forwarded-User"}
    assert ask(headers, *words)[0] == 200


@pytest.mark.parametrize("value, status", [("Basic YTpi", 200), ("basic YTpi", 200), ("Bearer 1", 400), ("", 400)])
def test_authorization_says_who_a_client_is_only_by_basic(ask, tmp_path, value, status):
    words = ["--journal", str(tmp_path), "--client-header", "Authorization"]
    assert ask({**repeatable("x"), "Authorization": value}, *words)[0] == status


@pytest.mark.parametrize("words, line", [
    (["--journal", "/tmp"], "--journal needs --client-header NAME, which says who a client is, or --one-client"),
    (["--one-client", "--client-header", "X"], "--client-header and --one-client cannot be combined"),
    (["--client-header", "Cookie"], "argument --client-header: 'Cookie' does not say who a client is"),
    (["--client-header", "Repeatability-Request-ID"],
     "argument --client-header: 'Repeatability-Request-ID' does not say who a client is"),
])  # fmt: skip
def test_a_start_without_saying_who_a_client_is(words, line, capsys):
    with pytest.raises(SystemExit) as ended:
        options_of(["--upstream", "http://a/", *words])
    assert ended.value.code == 2
    assert capsys.readouterr().err.splitlines()[-1] == f"python3 -m odb_batch gateway: error: {line}"


def test_ids_and_clients_do_not_run_into_each_other():
    options = options_of(["--upstream", "http://a", "--journal", "/x", "--client-header", "X-Client"])
    keys = set()
    for client, id in (("a", "bc"), ("ab", "c"), ("1:a", "b"), ("1", ":ab")):
        headers = {"x-client": client, "repeatability-request-id": id, "repeatability-first-sent": FIRST_SENT}
        keys.add(Repeatability(options).read(headers))
    assert len(keys) == 4


# What waits for a store


@pytest.mark.slow
def test_a_device_that_hangs_does_not_keep_the_process(upstream, tmp_path):
    """Threads that do not end are left behind."""
    before = "import time; from odb_batch.journals import SqliteStore"
    program = f"import sys; {before}; SqliteStore._write = lambda *given: time.sleep(100_000); {MAIN}"
    words = ["--upstream", upstream().url, "--journal", str(tmp_path), "--one-client", "--grace", "0.1"]
    command = [sys.executable, "-c", program, "gateway", "--listen", "127.0.0.1:0", *words, "--metrics", "/metrics"]
    with subprocess.Popen(command, env=with_package(), stderr=subprocess.PIPE, text=True) as process:
        try:
            it = Asked()
            it.port = int(process.stderr.readline().rpartition(":")[2])
            headers = {**CONTINUE, **repeatable("x")}
            given = (it.ask, "POST", "/odata/$batch", BATCH, headers)
            threading.Thread(target=quietly, args=given, daemon=True).start()
            until(lambda: b"batches_running 1" in it.ask("GET", "/metrics")[2])
            process.send_signal(signal.SIGTERM)
            assert process.wait(SECONDS) == 0
            assert "the device may hang" in process.stderr.read()
        finally:
            process.kill()


def quietly(function, *given):
    try:
        function(*given)
    except Exception:
        pass


# The text of journals


@pytest.mark.parametrize("size", [None, 0, 7, 200_000])
def test_a_body_is_kept_byte_for_byte(size):
    body = None if size is None else bytes(k % 256 for k in range(size))
    report = Report("a", 200, {"x": "\u00fc\n"}, body)
    for event in (report, ReportUnit((report, Report("b", 204, {}), report))):
        text = b"".join(_encoding.encode_events([event]))
        assert _encoding.decode_events(text * 2) == [event, event]
        for cut in {1, len(text) // 2, len(text) - 1}:
            with pytest.raises(ValueError, match="damaged"):
                _encoding.decode_events(text[:cut])
