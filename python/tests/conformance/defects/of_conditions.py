"""Defects in conditions: in what $ and an id stand for there, and in which requests have one."""

import json
import re

from patching import Execution, change_answers, change_document, change_requests

CONDITIONS = ("if-match", "if-none-match")
# What stands for a reference, so that the library leaves it as it is.
HIDDEN = re.compile(r'"tag-of-(.*)"')


def stand(tag_of, names=CONDITIONS):
    """Has references in conditions stand for another ETag: by an execution, in which `tags` has those of the answers, an
    id, and the group of the request with the condition. None is no condition."""
    prepare, answer = Execution.__init__, Execution.answer

    def hide(requests):
        for request in requests:
            headers = request.get("headers", {})
            hidden = {name: f'"tag-of-{value[1:]}"' for name, value in headers.items() if value.startswith("$")}
            headers.update({name: value for name, value in hidden.items() if name.lower() in names})

    def preparing(self, *rest):
        self.tags = {}
        prepare(self, *rest)

    def answering(self, request):
        hidden = {name: HIDDEN.fullmatch(value) for name, value in request.headers.items()}
        changed = {name: tag_of(self, found[1], request.group) for name, found in hidden.items() if found}
        headers = {name: value for name, value in {**request.headers, **changed}.items() if value is not None}
        given = answer(self, request._replace(headers=headers))
        self.tags.setdefault(request.id, given.headers.get("etag"))
        return given

    Execution.__init__, Execution.answer = preparing, answering
    change_document(hide)


def tags_as_written():
    """$ and an id in a condition are taken as they are."""
    stand(lambda execution, id, group: f"${id}")


def tags_dropped():
    """A condition with $ and an id is dropped."""
    stand(lambda execution, id, group: None)


def tags_of_none_match_dropped():
    """If-None-Match with $ and an id is dropped."""
    stand(lambda execution, id, group: None, ["if-none-match"])


def tags_as_any():
    """$ and an id in a condition stand for any ETag."""
    stand(lambda execution, id, group: "*")


def first_tag():
    """$ and an id stand for the first ETag of the batch."""
    stand(lambda execution, id, group: next(tag for tag in execution.tags.values() if tag))


def last_tag():
    """$ and an id stand for the last ETag of the batch."""
    stand(lambda execution, id, group: [tag for tag in execution.tags.values() if tag][-1])


def tags_of_members_dropped():
    """In a group a condition with $ and an id is dropped, but not outside of one."""

    stand(lambda execution, id, group: None if group else execution.tags[id])


def conditions_stick():
    """A request without a condition has that of an earlier one."""
    last = {}

    def change(request):
        found = {name: value for name, value in request.headers.items() if name in CONDITIONS}
        last.update({request.group: found} if found else {})
        return request if found else request._replace(headers={**request.headers, **last.get(request.group, {})})

    change_requests(change)


def conditions_of_all_or_none():
    """Conditions are dropped if a request of the batch has none."""
    respond = Execution.respond

    def has_condition(given):
        return any(name.lower() in CONDITIONS for name in given.get("headers", {}))

    def responding(self):
        value = json.loads(self.document)
        if not all(map(has_condition, value["requests"])):
            for given in value["requests"]:
                headers = given.get("headers", {})
                given["headers"] = {name: it for name, it in headers.items() if name.lower() not in CONDITIONS}
        self.document = json.dumps(value).encode()
        return respond(self)

    Execution.respond = responding


def first_of_several_tags():
    """Of a list of ETags the first counts."""

    def change(request):
        tags = {name: request.headers[name].partition(",")[0] for name in CONDITIONS if name in request.headers}
        return request._replace(headers={**request.headers, **tags})

    change_requests(change)


def first_tag_of_group():
    """In a group $ and an id stand for the ETag of its first member that has one."""

    def tag_of(execution, id, group):
        tags = [execution.tags.get(name) for name in execution.members(group)] if group else []
        return next(filter(None, tags), execution.tags[id])

    stand(tag_of)


def drop_conditions(is_dropped):
    """Has conditions of some requests dropped, by the request and the name of the header."""

    def change(request):
        kept = {name: it for name, it in request.headers.items() if not is_dropped(request, name)}
        return request._replace(headers=kept)

    change_requests(change)


def none_match_of_members_dropped():
    """If-None-Match of a member of a group is dropped."""
    drop_conditions(lambda request, name: name == "if-none-match" and request.group is not None)


def none_match_of_patches_dropped():
    """If-None-Match of a PATCH is dropped."""
    drop_conditions(lambda request, name: name == "if-none-match" and request.method == "PATCH")


def weak_tags_as_strong():
    """A weak ETag in If-Match counts as a strong one."""

    def change(request):
        strong = {name: it.replace("W/", "") for name, it in request.headers.items() if name == "if-match"}
        return request._replace(headers={**request.headers, **strong})

    change_requests(change)


def last_of_several_known():
    """Of a list of ETags in If-None-Match the last counts."""

    def change(request):
        last = {name: it.rpartition(", ")[2] for name, it in request.headers.items() if name == "if-none-match"}
        return request._replace(headers={**request.headers, **last})

    change_requests(change)


def tags_of_new_as_any():
    """$ and the id of a POST in a condition stand for any ETag."""
    stand(lambda execution, id, group: "*" if execution.requests[id]["method"] == "post" else execution.tags[id])


def tags_of_changed_members_unknown():
    """In a group $ and the id of a PATCH stand for an ETag that no entity has."""

    def tag_of(execution, id, group):
        return '"0"' if group and execution.requests[id]["method"] == "patch" else execution.tags[id]

    stand(tag_of)


def last_tags_of_members():
    """After a group $ and the id of a member stand for the last ETag that the group gave the same entity."""

    def tag_of(execution, id, group):
        given = execution.requests[id]
        inside = execution.members(given["atomicityGroup"]) if "atomicityGroup" in given and not group else [id]
        same = [name for name in inside if execution.requests[name]["url"] == given["url"]]
        return execution.tags[same[-1]]

    stand(tag_of)


def by_name(is_same):
    """Has $ and an id in a condition stand for the ETag of the first id that is taken for theirs."""

    def tag_of(execution, id, group):
        return execution.tags[next(name for name in execution.requests if name in execution.tags and is_same(name, id))]

    stand(tag_of)


def tags_in_any_case():
    """Ids in conditions are compared without their case."""
    by_name(lambda name, id: name.lower() == id.lower())


def tags_by_prefix():
    """$ and an id in a condition stand for the ETag of the first id that it begins with."""
    by_name(lambda name, id: id.startswith(name))


def conditions_before_groups():
    """In a group an ETag is compared with the one before the group, so a condition holds though a member changed the
    entity."""
    answer = Execution.answer

    def answering(self, request):
        self.changed = getattr(self, "changed", set())
        key = request.group, request.url
        if request.group and key in self.changed and not self.requests[request.id]["headers"].get("If-Match", "").startswith("$"):
            request = request._replace(headers={name: it for name, it in request.headers.items() if name != "if-match"})
        self.changed.add(key)
        return answer(self, request)

    Execution.answer = answering


def any_creates():
    """A PATCH with If-Match: * of what is missing is answered 201."""

    def change(given, answer):
        is_any = given["method"] == "patch" and "*" in given.get("headers", {}).values()
        return answer._replace(status=201) if is_any and not answer.is_success else answer

    change_answers(change)
