"""Defects in what members of a group are answered."""

from patching import change_answers, change_responses, is_success


def of_members(change):
    """Has the responses of the groups that succeed changed: by a list of them."""

    def changed(responses, requests):
        groups = {}
        for it in responses:
            groups.setdefault(it.get("atomicityGroup"), []).append(it)
        for name, members in groups.items():
            if name and all(is_success(it["status"]) for it in members):
                change(members)

    change_responses(changed)


def no_bodies_of_members():
    """Members of a group are answered without bodies."""
    of_members(lambda members: [it.pop("body", None) for it in members])


def no_headers_of_members():
    """Members of a group are answered without headers."""
    of_members(lambda members: [it.pop("headers", None) for it in members])


def members_are_200():
    """Members of a group that succeeds are answered 200."""
    of_members(lambda members: [it.update(status=200) for it in members])


def turned(members):
    """Gives each of several members that are answered alike what the one before it is answered."""
    for status in {it["status"] for it in members}:
        alike = [it for it in members if it["status"] == status]
        parts = [{name: it.pop(name) for name in ("body", "headers") if name in it} for it in alike]
        for it, part in zip(alike, parts[-1:] + parts[:-1]):
            it.update(part)


def answers_of_members_turned():
    """Members of a group are answered what another member with the same status is answered."""
    of_members(turned)


def bodies_of_first_group():
    """Members of a second group have the bodies of the first."""

    def change(responses, requests):
        groups = [it["atomicityGroup"] for it in responses if "atomicityGroup" in it]
        first = [it for it in responses if groups and it.get("atomicityGroup") == groups[0]]
        second = [it for it in responses if groups and it.get("atomicityGroup", groups[0]) != groups[0]]
        for one, other in zip(first, second):
            if "body" in one and "body" in other:
                other["body"] = one["body"]

    change_responses(change)


def errors_of_members_without_bodies():
    """A member that fails is answered its status alone."""

    def change(given, answer):
        is_member = "atomicityGroup" in given
        return answer._replace(body=b"") if is_member and not answer.is_success else answer

    change_answers(change)


def lists_of_members_cut():
    """A list in a group has one entity at most."""

    def change(members):
        for it in members:
            if "value" in it.get("body", {}):
                it["body"]["value"] = it["body"]["value"][:1]

    of_members(change)


def nulls_of_members_lost():
    """Members of a group are answered without what is null."""

    def change(members):
        for it in members:
            if isinstance(it.get("body"), dict):
                it["body"] = {name: value for name, value in it["body"].items() if value is not None}

    of_members(change)


def bodies_of_members_at_the_end():
    """What a member creates is answered as it is at the end of the group."""

    def change(responses, requests):
        for it in responses:
            url = it.get("headers", {}).get("location", "").rpartition("/")[2]
            if it["status"] == 201 and "atomicityGroup" in it:
                later = [given for given in requests.values() if given["url"] in (url, f"${it['id']}")]
                changes = [given["body"] for given in later if given["method"] == "patch"]
                it["body"].update((name, value) for body in changes for name, value in body.items())

    change_responses(change)


def undone_as_the_failure():
    """Each member of a group that fails is answered what the one is that fails."""

    def change(responses, requests):
        failed = {it["atomicityGroup"]: it for it in responses if "atomicityGroup" in it and 400 <= it["status"] != 424}
        for it in responses:
            cause = failed.get(it.get("atomicityGroup"))
            if cause:
                it.update((name, value) for name, value in cause.items() if name != "id")

    change_responses(change)
