"""The fields of Kubernetes that the pages use; what a page has beside them, or lacks, is a fault."""

# A field whose name ends with `?` may be missing.
PROBE = {"httpGet": {"path": str, "port": int}, "periodSeconds?": int}
CONTAINER = {
    "name": str,
    "image": str,
    "command?": [str],
    "ports?": [{"containerPort": int}],
    "livenessProbe?": PROBE,
    "readinessProbe?": PROBE,
    "resources?": {"limits": {"memory": str}},
}
POD = {"terminationGracePeriodSeconds?": int, "containers": [CONTAINER]}
LABELS = {"app": str}
DEPLOYMENT = {
    "apiVersion": str,
    "kind": str,
    "metadata": {"name": str},
    "spec": {
        "replicas?": int,
        "selector": {"matchLabels": LABELS},
        "template": {"metadata": {"labels": LABELS}, "spec": POD},
    },
}


def faults(found, wanted, place=""):
    """Returns a line for each field that is missing, unknown or of another type."""
    if isinstance(wanted, type):
        return [] if type(found) is wanted else [f"{place} is not of the type {wanted.__name__}"]
    if type(found) is not type(wanted):
        return [f"{place} is not of the type {type(wanted).__name__}"]
    if isinstance(wanted, list):
        return [line for it in found for line in faults(it, wanted[0], f"{place}[]")]
    known = {name.rstrip("?"): it for name, it in wanted.items()}
    lines = [f"{place}.{name} is missing" for name in wanted if not name.endswith("?") and name not in found]
    lines += [f"{place}.{name} is unknown" for name in found if name not in known]
    return lines + [line for name in found if name in known for line in faults(found[name], known[name], f"{place}.{name}")]
