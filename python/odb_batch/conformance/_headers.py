"""Cases of headers that a request of a batch has for itself."""

from ._alone import together
from ._promises import Case

VERSIONS = ("get-version-4", "get-version-3", "get")
FORMATS = ("get-accept-plain", "get-accept-none", "get-accept-full", "get-accept-weights", "post-accept-plain", "get")
CONDITIONS = ("patch-match", "patch", "get-stale", "get", "get-known", "get", "patch-stale", "patch-one-of", "delete")
SMALL = ("post-minimal-small", "post")
OTHERS = ("get-known-of", "patch-weak", "patch-new", "patch-small", "patch-missing-any", "patch")
MANY = ("patch-headers", "get-headers", "get")
TYPES = ("post-no-type", "patch-no-type", "post-full-type", "patch-full-type", "post")

CASES = (
    Case("headers-version", "alone", "requests with OData-MaxVersion and without it", together(VERSIONS)),
    Case("headers-accept", "alone", "requests with Accept and without it", together(FORMATS)),
    Case("headers-type", "alone", "requests with Content-Type and without it", together(TYPES)),
    Case("headers-small", "alone", "names of headers in lower case", together(SMALL)),
    Case("headers-many", "alone", "requests with five headers", together(MANY), needs=["etags", "patch"]),
    Case("headers-tags", "alone", "requests with other forms of conditions", together(OTHERS), needs=["etags"]),
    Case("headers-conditions", "alone", "requests with conditions and without", together(CONDITIONS), needs=["etags"]),
)
