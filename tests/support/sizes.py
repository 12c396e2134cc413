"""Documents as long as the program takes, of as many parts of one kind as they hold, and the answers of the rules."""

import tempfile
from dataclasses import dataclass

from . import contents, crowds

MOST_BYTES = 16_777_216
LONG = 15_728_640
MOST_REQUESTS = 10_000
NAMED = 200
ONE = '{"requests":[{"id":"a","method":"get","url":"X"}]}'


@dataclass
class Trial:
    """A call of the program: the command with its options, its documents, what it has to print, and its
    exit status."""

    title: str
    command: str
    documents: list
    wanted: str
    status: int = 0


def refused(title, command, documents, fault):
    return Trial(title, command, documents, f"fault {fault}\n", 1)


def filled(before, part, after):
    """A document with as many parts between two texts as it holds, and how many that are.

    A part is made of its number. All have one length, and a comma between them.
    """
    count = (MOST_BYTES - len(before) - len(after) + 1) // (len(part(0)) + 1)
    return before + ",".join(map(part, range(count))) + after, count


def request(members):
    """The parts of a batch of one request before and after these members."""
    return '{"requests":[{"id":"a","method":"put","url":"X",' + members, "}]}"


def names():
    before = '{"requests":[{"id":"one","method":"get","url":"X"},{"id":"two","method":"get","url":"X","dependsOn":['
    same, _ = filled(before, lambda n: '"one"', "]}]}")
    plan = "0 one level 0 group * needs *\n1 two level 1 group * needs one\n"
    yield Trial("one name again and again", "plan", [same], plan)
    different, _ = filled(before, lambda n: f'"{n:07}"', "]}]}")
    yield refused("different names", "check", [different], "F40 UnknownName /requests/1")
    every, _ = filled('{"requests":[', lambda n: "0", "]}")
    yield refused("more requests than a batch has", "check", [every], "F06 TooMany batch")


def dense():
    ids = [f"{n:04}" for n in range(MOST_REQUESTS)]
    requests, lines = [], []
    for n, name in enumerate(ids):
        named = ids[max(n - NAMED, 0) : n]
        listed = ",".join(f'"{it}"' for it in named)
        requests.append(f'{{"id":"{name}","method":"get","url":"X","dependsOn":[{listed}]}}')
        lines.append(f"{n} {name} level {n} group * needs {','.join(named) or '*'}\n")
    document = '{"requests":[' + ",".join(requests) + "]}"
    yield Trial(f"10,000 requests, each of which names {NAMED}", "plan", [document], "".join(lines))


def runs():
    numbers = range(MOST_REQUESTS)
    last = MOST_REQUESTS - 1
    listed = lambda of: ",".join(of(n) for n in numbers)
    outcomes = '{"outcomes":[' + listed(lambda n: f'{{"id":"{n}","status":{409 if n == last else 201}}}') + "]}"

    def replayed(title, options, member, steps, statuses):
        request = lambda n: f'{{"id":"{n}","method":"post","url":"X"{member}}}'
        group = '"atomicityGroup":"g",' if member else ""
        response = '{"responses":[' + listed(lambda n: f'{{{group}"id":"{n}","status":{statuses(n)}}}') + "]}\n"
        documents = ['{"requests":[' + listed(request) + "]}", outcomes]
        return Trial(title, f"replay --trace {options}", documents, "".join(steps) + response)

    turn = lambda n: f"start {n}\nreport {n} {409 if n == last else 201}\n"
    undone = [f"undo {n}\n" for n in reversed(numbers) if n != last]
    steps = [turn(n) for n in numbers] + undone
    failed = lambda n: 409 if n == last else 424
    yield replayed("a group whose last request fails", "--order first", ',"atomicityGroup":"g"', steps, failed)
    steps = [turn(n) for n in reversed(numbers)]
    apart = lambda n: 409 if n == last else 201
    yield replayed("requests apart, from the last on", "--order last", "", steps, apart)


def crowded():
    """The batch of the benchmark whose ids and groups would crowd a table without a seed, to each command."""
    with tempfile.TemporaryDirectory(prefix="crowded-") as folder:
        count = MOST_REQUESTS + MOST_REQUESTS // crowds.MEMBERS
        names = crowds.colliding_names(folder, count, crowds.SHARED_BITS, 0)
    requests = crowds.lookup_requests(names, MOST_REQUESTS)
    content = contents.Content(requests, [{"id": it["id"], "status": 200} for it in requests])
    texts = contents.documents_of(content)
    for command, kinds in contents.KINDS.items():
        yield Trial("crowded ids and groups", command, [texts[kind] for kind in kinds], content.wanted(command))


def members():
    before, after = request("")
    many, _ = filled(before, lambda n: f'"@{n:07}":{n % 10}', after)
    yield Trial("annotations of one request", "check", [many], "ok 1 requests 0 groups\n")
    many, _ = filled(before, lambda n: f'"@{n:07}":{n % 10}', ',"x":0' + after)
    yield refused("an unknown member after them", "check", [many], "F12 UnknownRequestMember /requests/0")
    before, after = request('"body":{')
    many, count = filled(before, lambda n: f'"{9_999_999 - n}":{n % 10}', "}" + after)
    inside = ",".join(f'"{9_999_999 - n}":{n % 10}' for n in reversed(range(count)))
    text = f'{{"requests":[{{"body":{{{inside}}},"id":"a","method":"put","url":"X"}}]}}\n'
    yield Trial("members of a body, from the last on", "canon", [many], text)


def headers():
    before, after = request('"headers":{')
    many, count = filled(before, lambda n: f'"H{9_999_999 - n}":""', "}" + after)
    inside = ",".join(f'"h{9_999_999 - n}":""' for n in reversed(range(count)))
    text = f'{{"requests":[{{"headers":{{{inside}}},"id":"a","method":"put","url":"X"}}]}}\n'
    yield Trial("headers of one request, from the last on", "canon", [many], text)
    many, _ = filled(before, lambda n: f'"H{9_999_999 - n}":""', ',"h9999999":""}' + after)
    yield refused("a header that is the first in another case", "check", [many], "F19 HeaderTwice /requests/0")
    many, count = filled('{"outcomes":[{"id":"a","status":200,"headers":{', lambda n: f'"{n:07}":""', "}}]}")
    inside = ",".join(f'"{n:07}":""' for n in range(count))
    text = f'{{"responses":[{{"headers":{{{inside}}},"id":"a","status":200}}]}}\n'
    yield Trial("headers of one outcome", "replay", [ONE, many], text)


def seconds():
    outcome = lambda n: f'{{"id":"{n:07}","status":200}}'
    many, _ = filled('{"outcomes":[', outcome, ',{"id":"a","status":201}]}')
    response = '{"responses":[{"id":"a","status":201}]}\n'
    yield Trial("outcomes that are not used, and one that is", "replay", [ONE, many], response)
    many, _ = filled('{"outcomes":[', outcome, "]}")
    yield refused("outcomes that are not used", "replay", [ONE, many], "F80 NoOutcome /requests/0")
    many, count = filled('{"outcomes":[', outcome, ',{"id":"0000000","status":200}]}')
    yield refused("an id that comes back after all", "replay", [ONE, many], f"F61 OutcomeTwice /outcomes/{count}")
    many, _ = filled('{"events":[', lambda n: '{"start":"a"}', "]}")
    yield refused("starts of one request", "run", [ONE, many], "S1 AlreadyStarted /events/1")
    many, count = filled('{"events":[', lambda n: '{"start":"a"}', ',{"start":"b"}]}')
    yield refused("an unknown event after them", "run", [ONE, many], f"F65 UnknownEvent /events/{count}")
    many, count = filled('{"events":[', lambda n: '{"report":"a","status":200,"body":[0]}', ",0]}")
    yield refused("a bad event after reports", "run", [ONE, many], f"F64 BadEvents /events/{count}")
    response = lambda n: f'{{"id":"{n:07}","status":200}}'
    many, _ = filled('{"responses":[', response, "]}")
    yield refused("responses to no request", "match", [ONE, many], "F71 UnknownResponse /responses/0")
    many, count = filled('{"responses":[', response, ',{"id":"a","status":99}]}')
    yield refused("a bad response after them", "match", [ONE, many], f"F70 BadResponses /responses/{count}")
    many, _ = filled('{"responses":[', lambda n: '{"id":"a","status":200}', "]}")
    yield refused("one response again and again", "match", [ONE, many], "F72 ResponseTwice /responses/1")


def urls():
    batch = lambda url: '{"requests":[{"id":"a","method":"get","url":"' + url + '"}]}'
    dollars = "%24" * (LONG // 3)
    yield refused("a URL of encoded dollars", "check", [batch(dollars)], "F23 BadReference /requests/0")
    yield Trial("the same after a letter", "check", [batch("x" + dollars)], "ok 1 requests 0 groups\n")
    yield Trial("a URL of slashes", "check", [batch("/" * LONG)], "ok 1 requests 0 groups\n")
    yield refused("a batch after them", "check", [batch("/" * LONG + "%24batch")], "F22 NestedBatch /requests/0")
    letters = "a" * LONG
    yield refused("a reference to a long id", "check", [batch("$" + letters)], "F44 UnknownReference /requests/0")
    document = '{"requests":[{"id":"' + letters + '","method":"get","url":"X"}]}'
    yield Trial("a long id", "plan", [document], f"0 {letters} level 0 group * needs *\n")


def escapes():
    count = LONG // 6
    escaped, letters = "\\u0041" * count, "A" * count
    text = lambda body: f'{{"requests":[{{"body":"{body}","id":"a","method":"put","url":"X"}}]}}'
    yield Trial("a body of escapes", "canon", [text(escaped)], text(letters) + "\n")
    before, after = request('"headers":{"content-type":"image/png"},"body":"')
    yield Trial("escapes as base64url", "check", [before + escaped + '"' + after], "ok 1 requests 0 groups\n")
    wrong = before + escaped + 'A"' + after
    yield refused("one character more than whole fours", "check", [wrong], "F21 BadBody /requests/0")
    outcomes = f'{{"outcomes":[{{"id":"a","status":200,"body":"{escaped}"}}]}}'
    response = f'{{"responses":[{{"body":"{letters}","id":"a","status":200}}]}}\n'
    yield Trial("a body of escapes in an outcome", "replay", [ONE, outcomes], response)


def rests():
    ids = [f"{n:04}" for n in range(MOST_REQUESTS)]
    listed = lambda n: ",".join(f'"{it}"' for it in ids[max(n - NAMED, 0) : n])
    names = lambda n: f'"dependsOn":[{listed(n)}],' if n else ""
    request = lambda n: f'{{"body":{n}.50,{names(n)}"id":"{ids[n]}","method":"post","url":"X"}}'
    document = '{"requests":[' + ",".join(map(request, range(MOST_REQUESTS))) + "]}"
    response = lambda n, first: f'{{"id":"{ids[n]}","status":{424 if n else first}}}'
    responses = lambda first: '{"responses":[' + ",".join(response(n, first) for n in range(MOST_REQUESTS)) + "]}"
    yield Trial("a batch that was not begun", "rest", [document, responses(429)], document + "\n")
    yield Trial("a batch that needs what has failed", "rest", [document, responses(409)], '{"requests":[]}\n')


# What makes the trials of each kind; a document is made when it is wanted, since they have 16 MB each.
KINDS = (crowded, dense, seconds, members, headers, names, urls, escapes, runs, rests)
