"""The shapes of the workloads: lists of requests and of their outcomes, as values of JSON.

Each function takes a size and gives two lists: the requests of a batch, and one outcome for each of
them. All outcomes are 2xx, so that every request runs and is answered its outcome. The same size
gives the same lists.
"""

NEEDED_BY_DENSE = 50
GROUP_MEMBERS = 10
LINES_OF_ORDER = 217

# The bytes of a line of a long text in a document, with the two of its `\n`.
TEXT_LINE_BYTES = 64


def get(position, names=()):
    """A request that reads a book, and needs the requests and groups with these names."""
    request = {"id": str(position), "method": "get", "url": f"/library/Books({position})"}
    if names:
        request["dependsOn"] = list(names)
    return request


def found(position):
    """The outcome of a request that read a book: a header and a small body."""
    body = {"Number": position, "Title": f"Book {position}", "Lent": position % 3 == 0}
    return {"id": str(position), "status": 200, "headers": {"ETag": str(position)}, "body": body}


def patch(position, group, names=()):
    """A request of an atomicity group, that changes a book and needs what has these names."""
    request = {
        "id": str(position),
        "atomicityGroup": group,
        "method": "patch",
        "url": f"/library/Books({position})",
        "headers": {"Content-Type": "application/json"},
        "body": {"Reader": position, "Shelf": None},
    }
    if names:
        request["dependsOn"] = list(names)
    return request


def changed(position):
    """The outcome of a request that changed a book: a status alone."""
    return {"id": str(position), "status": 204}


def order_body(position):
    """The body of an order, of about 15 KB: an object of some texts and a list of its lines."""
    lines = [
        {"Line": line, "Book": f"Book {position + line}", "Price": 100 * line, "Gift": False, "Note": None}
        for line in range(LINES_OF_ORDER)
    ]
    return {"Order": position, "Reader": f"Reader {position}", "Lines": lines}


def post(position, content_type, body):
    """A request that creates an order with this body."""
    headers = {"Content-Type": content_type}
    return {"id": str(position), "method": "post", "url": "/library/Orders", "headers": headers, "body": body}


def created(position):
    """The outcome of a request that created an order: where it is, and no body."""
    return {"id": str(position), "status": 201, "headers": {"Location": f"Orders({position})"}}


def plain(size):
    """Requests that need nothing."""
    return [get(i) for i in range(size)], [found(i) for i in range(size)]


def chain(size):
    """Requests each of which needs the one before it."""
    requests = [get(i, [str(i - 1)] if i > 0 else []) for i in range(size)]
    return requests, [found(i) for i in range(size)]


def fan(size):
    """Requests that all need the first one."""
    requests = [get(i, ["0"] if i > 0 else []) for i in range(size)]
    return requests, [found(i) for i in range(size)]


def dense(size):
    """Requests each of which needs the 50 before it, or as many as there are."""
    requests = [
        get(i, [str(j) for j in range(max(0, i - NEEDED_BY_DENSE), i)]) for i in range(size)
    ]
    return requests, [found(i) for i in range(size)]


def halves(size):
    """Requests of which each in the second half needs one of the first half, in the same order."""
    half = size // 2
    requests = [get(i, [str(i - half)] if i >= half else []) for i in range(size)]
    return requests, [found(i) for i in range(size)]


def pairs(size):
    """Pairs of requests of which the second needs the first, and after them half as many requests
    that need nothing."""
    paired = 2 * (size // 3)
    requests = [get(i, [str(i - 1)] if i < paired and i % 2 == 1 else []) for i in range(size)]
    return requests, [found(i) for i in range(size)]


def group(size):
    """One atomicity group of requests."""
    return [patch(i, "all") for i in range(size)], [changed(i) for i in range(size)]


def groups(size):
    """Atomicity groups of 10 requests, each of which needs the group before its own."""
    requests = []
    for position in range(size):
        number = position // GROUP_MEMBERS
        requests.append(patch(position, f"g{number}", [f"g{number - 1}"] if number > 0 else []))
    return requests, [changed(i) for i in range(size)]


def posts(size):
    """Requests that create orders, with a body of about 15 KB each."""
    requests = [post(i, "application/json", order_body(i)) for i in range(size)]
    return requests, [created(i) for i in range(size)]


def long_text(size):
    """A text that takes this many bytes in a document, rounded down to whole lines of 64 bytes."""
    lines = range(size // TEXT_LINE_BYTES)
    return "".join(f"{i:06} of a text that a request has as its body, line by line.\n" for i in lines)


def text(size):
    """One request whose body is a text of this many bytes, and an outcome with a small body."""
    return [post(0, "text/plain", long_text(size))], [found(0)]


def echo(size):
    """One request whose body is a text of this many bytes, which is the outcome's body too."""
    body = long_text(size)
    return [post(0, "text/plain", body)], [{"id": "0", "status": 200, "body": body}]
