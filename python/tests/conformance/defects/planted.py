"""The example service with a defect, for the tests of the tool: `gunicorn 'planted:make_app(DEFECT, DATABASE)'`.

Each defect is a function that patches parts of the service, or of how it performs batches, before it starts.
"""

import app
import of_conditions
import of_groups
import of_headers
import of_members
import of_order
import of_reads
import of_references
import of_responses
import of_stops
import of_values
import variants

MODULES = (
    of_responses,
    of_headers,
    of_values,
    of_conditions,
    of_order,
    of_stops,
    of_groups,
    of_members,
    of_reads,
    of_references,
    variants,
)


def make_app(name, database, width):
    next(vars(it)[name] for it in MODULES if name in vars(it))()
    return app.make_app(database, width)
