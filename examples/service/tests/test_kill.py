"""A service that is killed under load: after each start no group is half in the database."""

import http.client
import threading
from collections import Counter
from random import Random

import pytest

from common import Process, new_book, request, rows, until

KILLS, CLIENTS, MEMBERS = 20, 4, 5
MOST_ANSWERS = 30  # of the clients together before a kill


class Load:
    """Clients that send groups of MEMBERS books until the service is gone, and note those that were answered."""

    def __init__(self, service, prefix):
        self.service, self.prefix, self.answered = service, prefix, []
        self.threads = [threading.Thread(target=self.send, args=(k,), daemon=True) for k in range(CLIENTS)]
        for thread in self.threads:
            thread.start()

    def send(self, k):
        with self.service.client() as client:
            try:
                for number in range(10_000):
                    name = f"{self.prefix}.{k}.{number}"
                    members = [new_book(f"r{i}", f"{name}.{i}", "g") for i in range(MEMBERS)]
                    if set(client.statuses(*members, request("list", "get", "Loans")).values()) <= {200, 201}:
                        self.answered.append(name)
            except (OSError, http.client.HTTPException):
                pass

    def join(self):
        for thread in self.threads:
            thread.join()


@pytest.mark.slow
def test_no_group_is_half_in_the_database(tmp_path):
    random, groups, answered, database = Random("kill"), Counter(), [], str(tmp_path / "library.sqlite")
    for k in range(KILLS + 1):
        with Process(database) as service:
            with service.client() as client:
                assert client.statuses(request("a", "get", "Books")) == {"a": 200}
            assert rows(database, "pragma_integrity_check") == [("ok",)]
            groups = Counter(id.rpartition(".")[0] for id, *_ in rows(database) if "." in id)
            assert set(groups.values()) - {MEMBERS} == set()
            assert set(answered) - set(groups) == set(), "answered, and not in the database"
            if k == KILLS:
                assert service.stop() == 0
                break
            load = Load(service, f"k{k}")
            wanted = random.randint(1, MOST_ANSWERS)
            assert until(lambda: len(load.answered), lambda count: count >= wanted) >= wanted
            service.kill()
            load.join()
            answered += load.answered
    assert len(answered) > KILLS
