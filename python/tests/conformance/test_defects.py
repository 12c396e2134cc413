"""Each planted defect is found, and a service without one keeps every promise."""

import json
import os
from typing import NamedTuple

import pytest

from common import rows
from odb_batch import check
from tool import ABOUT, judgement, service


class Defect(NamedTuple):
    """What a defect breaks.

    Attributes:
        name: Its function in defects/.
        cases: The cases that are run, so that the tests take a fraction of the time.
        promises: The promises that are broken.
        is_exact: Whether no others are broken; where requests overtake each other it depends on the threads.
    """

    name: str
    cases: str
    promises: str
    is_exact: bool = True


DEFECTS = (
    # what a batch is answered
    Defect("hangs_up", "one-* side-by-side* chain*", "answered"),
    Defect("one_at_a_time", "at-once", "answered"),
    Defect("missing", "one-* chain looks", "once"),
    Defect("twice", "one-* chain", "once"),
    Defect("lower_case_ids", "ids-*", "once"),
    Defect("ids_as_names", "ids-*", "once"),
    Defect("long_ids_cut", "ids-*", "once"),
    Defect("numbers_as_ids", "ids-*", "once"),
    Defect("own_keys_posts_twice", "one-* chain group", "once"),
    Defect("no_group_names", "group group-of-one", "named"),
    Defect("lower_case_groups", "groups-*", "named"),
    # what a request of a batch does
    Defect("no_etags_in_batches", "alone-*", "alone"),
    Defect("old_etags", "alone-patch*", "alone"),
    Defect("no_preconditions", "alone-*-stale", "alone"),
    Defect("no_location", "alone-post*", "alone"),
    Defect("no_body_of_a_post", "alone-post*", "alone"),
    Defect("created_is_200", "alone-post*", "alone"),
    Defect("not_found_is_400", "alone-get*", "alone"),
    Defect("no_error_objects", "alone-get*", "alone"),
    Defect("body_as_text", "one-read alone-get", "alone"),
    Defect("wrong_type", "alone-get", "alone"),
    Defect("no_request_headers", "alone-post*", "alone"),
    Defect("no_query", "alone-get*", "alone"),
    Defect("no_signs", "alone-post* alone-patch*", "alone"),
    Defect("put_as_patch", "alone-put*", "alone"),
    Defect("patch_as_put", "alone-patch*", "alone"),
    Defect("lost_changes", "alone-patch* alone-put*", "alone"),
    Defect("deletes_nothing", "alone-delete*", "alone"),
    Defect("other_urls_answered", "urls-*", "alone order"),
    Defect("mixed_answers", "at-once reference-at-once", "alone order reference", False),
    # the order
    Defect("no_waiting", "chain* looks wait-* chain-fails-*", "order failed", False),
    Defect("reads_do_not_wait", "wait-*", "order"),
    Defect("deletes_do_not_wait", "wait-*", "order", False),
    Defect("patches_do_not_wait", "wait-*", "order", False),
    Defect("puts_do_not_wait", "wait-*", "order", False),
    Defect("posts_do_not_wait", "wait-* group-waits*", "order", False),
    Defect("waits_for_the_first", "wait-for-*", "order"),
    Defect("waits_for_the_last", "wait-for-*", "order"),
    Defect("no_waiting_for_groups", "wait-for-group group-waits-for-group", "order", False),
    Defect("groups_do_not_wait", "group-waits*", "order", False),
    Defect("chains_of_twenty", "chain-many", "alone"),
    Defect("groups_of_reads_last", "wait-for-reads", "order", False),
    # what depends on a failure
    Defect("far_failures_forgotten", "failure-long-before", "failed"),
    Defect("false_success", "chain-fails-* failing-fan-*", "failed"),
    Defect("false_424", "one-write failing-fan-in chain-fails-*", "untouched alone continue", False),
    Defect("skipped_as_400", "chain-fails-*", "failed"),
    Defect("performed_all_the_same", "chain-fails-*", "untouched"),
    Defect("performed_after_others", "failing-fan-out-*", "failed"),
    Defect("performed_after_400", "failing-fan-out-body", "failed"),
    Defect("performed_after_409", "failing-fan-out-key", "failed"),
    Defect("performed_after_412", "failing-fan-out-precondition", "failed"),
    Defect("no_stop", "stop-*", "stop"),
    Defect("stops_by_itself", "failure-among-others failing-fan-out group-fails-body-*", "continue"),
    # groups
    Defect("half_group", "group group-fails-body-*", "group"),
    Defect("half_of_long_groups", "group-many-*", "group"),
    Defect("own_keys_half_group", "group-fails-missing-*", "group"),
    Defect("fixed_titles_half_group", "group-fails-missing-*", "group"),
    Defect("shown_success", "group-fails-missing-*", "group"),
    Defect("failed_reads_ignored", "group-fails-*", "group failed"),
    Defect("failed_puts_ignored", "group-fails-*", "group failed"),
    Defect("last_failure_ignored", "group-fails-missing-*", "group failed"),
    Defect("posts_stay", "group-fails-missing-*", "group"),
    Defect("patches_stay", "group-fails-missing-*", "group"),
    Defect("puts_stay", "group-many-*", "group"),
    Defect("deletes_stay", "group-fails-missing-*", "group"),
    # references
    Defect("no_references", "reference-read reference-deleted reference-groups", "reference"),
    Defect("first_reference", "reference-each-* reference-numbers", "reference alone", False),
    Defect("last_reference", "reference-each-* reference-numbers", "reference", False),
    Defect("references_in_any_case", "reference-case", "reference"),
    Defect("references_by_prefix", "reference-numbers", "reference"),
    Defect("references_by_word", "reference-numbers reference-signs", "reference"),
    Defect("references_of_first_group", "reference-groups", "reference"),
    Defect("changes_by_reference_lost", "reference-each-*", "reference alone"),
    Defect("references_without_rest", "reference-property reference-option", "reference"),
    Defect("shared_references", "reference-at-once", "reference", False),
    Defect("encoded_references_as_they_are", "reference-encoded", "reference"),
    Defect("references_to_new_alone", "reference-*to-read", "reference"),
    Defect("references_to_reads_nowhere", "reference-*to-read", "reference"),
    Defect("references_decoded_twice", "reference-escaped", "reference"),
    Defect("references_to_minimal_nowhere", "reference-to-minimal", "reference"),
    Defect("references_to_references_nowhere", "reference-to-reference", "reference"),
    Defect("references_to_changes_first", "reference-to-patch", "reference"),
    Defect("puts_by_reference_as_patch", "reference-alike", "alone"),
    Defect("texts_as_references", "values-reference", "alone"),
    Defect("dollars_of_patches_lost", "alone-patch-signs", "alone"),
    Defect("signs_of_references_lost", "reference-alike", "alone"),
    Defect("posts_by_reference_as_patch", "reference-alike", "alone"),
    Defect("locations_in_lower_case", "reference-escaped", "reference"),
    Defect("quotes_of_locations_lost", "reference-escaped", "reference"),
    # URLs
    Defect("urls_decoded_twice", "urls-escaped", "alone"),
    Defect("locations_decoded", "urls-escaped", "alone"),
    Defect("keys_in_lower_case", "urls-escaped", "alone"),
    Defect("plus_in_keys_as_blank", "urls-escaped", "alone"),
    Defect("queries_decoded_twice", "urls-queries", "alone"),
    Defect("queries_of_absolute_urls_lost", "urls-absolute", "alone"),
    Defect("queries_of_rooted_urls_lost", "urls-rooted", "alone"),
    # the status and the headers of a batch
    Defect("answered_207", "one-* chain-fails-first", "answered"),
    Defect("answered_as_the_first_error", "one-* chain-fails-first", "answered"),
    Defect("batches_as_html", "one-*", "answered"),
    Defect("no_version_of_batches", "one-*", "answered"),
    # headers
    Defect("other_host", "alone-post values-blanks", "alone"),
    Defect("other_port", "alone-post", "alone"),
    Defect("no_versions", "alone-get alone-patch", "alone"),
    Defect("other_versions", "alone-get", "alone"),
    Defect("no_accept", "headers-accept", "alone"),
    Defect("accept_sticks", "headers-accept", "alone"),
    Defect("no_max_version", "headers-version", "alone"),
    Defect("accept_of_members_dropped", "members-accept", "alone group", False),
    Defect("conditions_in_small_letters_dropped", "headers-tags", "alone"),
    Defect("weights_refused", "headers-accept", "alone"),
    Defect("types_needed", "headers-type", "alone"),
    Defect("types_without_parameters", "headers-type", "alone"),
    Defect("three_headers", "headers-many", "alone"),
    # values of bodies
    Defect("blanks_lost", "values-blanks", "alone"),
    Defect("blanks_of_answers_lost", "values-blanks", "alone"),
    Defect("texts_of_255", "values-long", "alone"),
    Defect("texts_of_4096", "values-long", "alone"),
    Defect("texts_of_65535", "values-long", "alone"),
    Defect("bodies_of_64_kib", "values-long", "alone"),
    Defect("tabs_as_blanks", "values-lines", "alone"),
    Defect("lines_of_unix", "values-lines", "alone"),
    Defect("blanks_as_one", "values-lines", "alone"),
    Defect("no_control_characters", "values-lines", "alone"),
    Defect("sixteen_bits", "values-beyond", "alone"),
    Defect("sixteen_bits_of_answers", "values-beyond", "alone"),
    Defect("latin_1", "values-utf-8", "alone"),
    Defect("no_empty_texts", "values-empty", "alone"),
    Defect("no_nulls", "values-null", "alone"),
    Defect("nulls_as_texts", "values-null", "alone"),
    Defect("numbers_as_floats", "values-numbers", "alone"),
    Defect("numbers_of_answers_as_floats", "values-numbers", "alone"),
    Defect("numbers_of_patches_as_floats", "values-together", "alone"),
    Defect("no_zeros_at_the_end", "values-numbers", "alone"),
    Defect("whole_numbers_without_fraction", "values-numbers", "alone"),
    Defect("hundreds_with_exponent", "values-numbers", "alone"),
    Defect("decimals_of_properties_short", "values-numbers", "alone"),
    Defect("null_properties_are_204", "values-null", "alone"),
    Defect("texts_without_type", "alone-get-value", "alone"),
    Defect("texts_cut", "alone-get-value", "alone"),
    Defect("whole_numbers_as_floats", "values-integer", "alone"),
    Defect("numbers_as_texts", "values-integer", "alone"),
    Defect("signs_of_numbers_lost", "values-numbers", "alone"),
    Defect("zeros_as_nulls", "values-numbers", "alone"),
    Defect("composed", "values-forms", "alone"),
    Defect("compatible", "values-forms", "alone"),
    Defect("lower_case", "values-forms", "alone"),
    Defect("plus_as_blank", "values-forms", "alone"),
    Defect("digits_as_numbers", "values-alike", "alone"),
    Defect("null_as_null", "values-alike", "alone"),
    # conditions
    Defect("tags_as_written", "etag-of-read", "etag"),
    Defect("tags_dropped", "etag-none-match etag-of-old-read", "alone etag"),
    Defect("tags_of_none_match_dropped", "etag-none-match", "etag"),
    Defect("tags_as_any", "etag-of-old-read", "alone etag"),
    Defect("first_tag", "etag-of-each", "etag"),
    Defect("last_tag", "etag-of-each", "etag"),
    Defect("tags_of_members_dropped", "etag-fails-group", "alone etag group"),
    Defect("conditions_stick", "headers-conditions", "alone"),
    Defect("conditions_of_all_or_none", "headers-conditions", "alone"),
    Defect("first_of_several_tags", "headers-conditions", "alone"),
    Defect("last_of_several_known", "headers-tags", "alone"),
    Defect("weak_tags_as_strong", "headers-tags", "alone"),
    Defect("none_match_of_patches_dropped", "headers-tags", "alone"),
    Defect("none_match_of_members_dropped", "members-new", "alone group", False),
    Defect("first_tag_of_group", "etag-in-group", "etag", False),
    Defect("tags_of_new_as_any", "etag-of-old-new", "etag alone", False),
    Defect("tags_of_changed_members_unknown", "etag-in-group-of-change", "etag"),
    Defect("last_tags_of_members", "etag-of-old-member", "etag", False),
    Defect("tags_in_any_case", "etag-ids", "etag"),
    Defect("tags_by_prefix", "etag-ids", "etag"),
    Defect("tags_of_reads_from_before", "etag-of-read-after-change", "etag"),
    Defect("conditions_before_groups", "etag-of-known-in-group", "group", False),
    Defect("any_creates", "headers-tags", "alone"),
    # what members of a group are answered
    Defect("no_bodies_of_members", "members-each", "alone"),
    Defect("no_headers_of_members", "members-each", "alone"),
    Defect("members_are_200", "members-each", "alone"),
    Defect("answers_of_members_turned", "members-alike", "alone"),
    Defect("bodies_of_first_group", "members-of-two", "alone"),
    Defect("errors_of_members_without_bodies", "members-error", "alone"),
    Defect("lists_of_members_cut", "members-lists", "alone"),
    Defect("nulls_of_members_lost", "members-values", "alone"),
    Defect("bodies_of_members_at_the_end", "members-in-turn", "alone"),
    Defect("undone_as_the_failure", "group-fails-missing-*", "group"),
    # one URL more than once
    Defect("reads_are_kept", "again-read again-list", "order"),
    Defect("reads_again_are_304", "again-alike again-read", "alone order"),
    Defect("deletes_are_kept", "again-delete", "order"),
    Defect("changes_are_kept", "again-change", "alone"),
    Defect("posts_are_kept", "again-create", "alone"),
    Defect("reads_are_kept_by_path", "again-lists", "alone"),
    Defect("properties_are_kept", "again-property", "order"),
    Defect("groups_keep_reads", "again-group", "order"),
    Defect("removed_are_400", "again-read", "order"),
    Defect("lists_without_new", "again-list-new", "order"),
    Defect("lists_of_three", "again-lists", "alone"),
    # what follows an error
    Defect("stops_by_404_alone", "stop-after-body stop-after-failure", "stop"),
    Defect("no_stop_by_412", "stop-after-precondition", "stop"),
    Defect("no_stop_by_400", "stop-after-body", "stop"),
    Defect("no_stop_by_reads", "stop-after-read", "stop"),
    Defect("no_stop_by_patches", "stop-after-patch", "stop"),
    Defect("no_stop_by_501", "stop-after-option", "stop"),
    Defect("stop_by_first_alone", "stop-amid", "stop"),
    Defect("false_is_true", "stop-said", "stop"),
    Defect("reads_go_on", "stop-then-reads", "stop"),
    Defect("creates_go_on", "stop-then-creates", "stop"),
    Defect("deletes_go_on", "stop-then-deletes", "stop"),
    Defect("patches_go_on", "stop-then-patches", "stop"),
    Defect("puts_go_on", "stop-then-puts", "stop"),
    Defect("groups_go_on", "stop-then-groups", "stop group"),
    Defect("stops_all", "at-once-stop", "alone", False),
    Defect("true_not_understood", "failure-said", "continue"),
    Defect("preferences_not_listed", "failure-said-in-list", "continue"),
    # groups that fail, and others
    Defect("first_delete_stays", "group-undone-delete", "group"),
    Defect("first_patch_stays", "group-undone-patch", "group"),
    Defect("first_put_stays", "group-undone-put", "group"),
    Defect("tags_change", "group-undone-whole", "group"),
    Defect("other_values_stay", "group-undone-whole", "group"),
    Defect("keys_stay_taken", "group-undone-keys", "group"),
    Defect("undone_at_the_end", "group-undone-seen", "group"),
    Defect("groups_fail_together", "groups-beside-*", "alone group failed"),
    Defect("groups_before_a_failure_lost", "groups-beside-*", "group"),
)
# Of each variant, which breaks nothing, a promise of which nothing is judged, and a reason; None if all is judged.
VARIANTS = {
    "refuses_groups": ("group", "the service refuses groups with 501 Groups are not supported"),
    "refuses_references": ("reference", "the service refuses references with 501 References are not supported"),
    "always_stops": ("continue", "the service does not apply the preference continue-on-error"),
    "one_batch_at_a_time": (
        None,
        "the service refuses batches at the same time with 503 A batch is being performed; try again",
    ),
    "own_keys": (None, "alone, no request fails by a key that is taken"),
    "hidden_keys": (None, "the service makes the keys itself"),
    "fixed_titles": (None, "no property of the body takes any text or number"),
    "no_etags": (None, "the service has no ETags"),
    "properties": (None, "alone, a property cannot be read by a URL of its own"),
    "reused_keys": (None, "the service makes the keys itself"),
    "slow": (None, "alone, $select is not applied"),
    "texts": (None, None),
    "from_the_last": (None, "alone, $select is not applied"),
    "last_first": (None, "alone, $select is not applied"),
    "last_first_and_stops": ("continue", "the service does not apply the preference continue-on-error"),
    "dressed": (None, "alone, $select is not applied"),
    None: (None, "alone, $select is not applied"),
}

# What responses may look like, besides as alone; `dressed` above is several of these at once.
LOOKS = (
    "absolute_locations",
    "annotated",
    "bodies_of_424",
    "headers_in_other_case",
    "more_headers",
    "null_groups",
    "relative_locations",
    "responses_reversed",
)
# The cases in which these could raise an alarm.
LOOKED_AT = "one-* alone-* members-* reference-* etag-* group-fails-missing-* chain-fails-* stop-then-reads"

pytestmark = pytest.mark.slow


def judged(name, cases):
    """The exit status, the report and the files of a run, which leaves the books as they were."""
    with service(name) as (running, folder):
        database = os.path.join(folder, "library.sqlite")
        before = rows(database)
        breaks = os.path.join(folder, "breaks")
        words = [it for glob in cases.split() for it in ("--case", glob)]
        done = judgement(folder, running.url, *ABOUT, *words, "--json", "--breaks", breaks)
        assert (rows(database), done.error) == (before, "")
        return done.status, json.loads(done.out), files_of(breaks)


def files_of(folder):
    """The files of each break, by the case."""
    found = {}
    for case in os.listdir(folder) if os.path.isdir(folder) else ():
        found[case] = {}
        for name in os.listdir(os.path.join(folder, case)):
            with open(os.path.join(folder, case, name), "rb") as file:
                found[case][name] = file.read()
    return found


@pytest.mark.parametrize("defect", DEFECTS, ids=lambda it: it.name)
def test_each_defect_is_found(defect):
    status, value, files = judged(defect.name, defect.cases)
    broken = {promise["name"] for promise in value["promises"] if promise["broken"]}
    promises = set(defect.promises.split())
    assert status == 1
    assert (broken if defect.is_exact else broken & promises) == promises
    assert {found["promise"] for found in value["breaks"]} == broken
    assert set(files) == {found["case"] for found in value["breaks"]}
    for found in value["breaks"]:
        assert_shows(files[found["case"]], found)


def assert_shows(files, found):
    """The files of a break have its batch, its response and its rule."""
    assert set(files) == {"batch.json", "response.json", "rules.txt"}
    assert found["rule"] in files["rules.txt"].decode()
    assert check(files["batch.json"]).requests > 0
    if found["promise"] != "answered":
        assert "responses" in json.loads(files["response.json"])


@pytest.mark.parametrize("variant", VARIANTS)
def test_without_a_defect_every_promise_is_kept(variant):
    promise, reason = VARIANTS[variant]
    status, value, files = judged(variant, "*")
    assert (status, value["breaks"], value["left"], files) == (0, [], [], {})
    assert reason in ({it["reason"] for it in value["notApplicable"]} or {None})
    for it in value["promises"]:
        assert it["broken"] == 0
        assert it["cases"] == it["kept"] + it["notApplicable"]
        if variant is None:
            assert it["kept"] > 0
        elif it["name"] == promise:
            assert it["notApplicable"] > 0


@pytest.mark.parametrize("look", LOOKS)
def test_what_responses_may_look_like(look):
    status, value, files = judged(look, LOOKED_AT)
    assert (status, value["breaks"], value["left"], files) == (0, [], [], {})


def test_a_service_that_gives_keys_again_is_named():
    _, value, _ = judged("reused_keys", "one-*")
    assert value["notes"] == [
        "new entities of Books have the keys of removed ones; what has to be missing has keys far from these"
    ]
