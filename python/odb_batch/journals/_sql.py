"""What stores in databases share: a table of parts, and the statements that SQLite and PostgreSQL both understand."""

from typing import Any, Awaitable, Protocol, Sequence

from ._stores import NOBODY, Hold, Part, Store

#: The table of parts. SQLite has none of these types, and keeps bytes and numbers as they are.
TABLE = """\
CREATE TABLE odb_part (
    batch bytea NOT NULL, number integer NOT NULL, holder bigint NOT NULL, writer bigint NOT NULL,
    open boolean NOT NULL, at timestamptz NOT NULL, text bytea NOT NULL, PRIMARY KEY (batch, number)
);
CREATE INDEX odb_part_at ON odb_part (at) WHERE number = 0;
"""
#: Appends the rows that are given, each if it is the first of its batch, or the one before has the mark `after`.
APPEND = """INSERT INTO odb_part
WITH g(batch, number, holder, writer, after_holder, after_writer, open, text) AS ({given})
SELECT g.batch, g.number, g.holder, g.writer, g.open, {now}, g.text FROM g
WHERE g.number = 0 OR EXISTS (SELECT 1 FROM odb_part AS p WHERE p.batch = g.batch AND p.number = g.number - 1
    AND p.holder = g.after_holder AND p.writer = g.after_writer)
ON CONFLICT DO NOTHING"""
#: Removes batches that are old, but none whose last part is open and whose holder is living.
REMOVE = """DELETE FROM odb_part WHERE batch IN (SELECT batch FROM odb_part AS a WHERE number = 0 AND at < {before}
    AND NOT EXISTS (SELECT 1 FROM odb_part AS b WHERE b.batch = a.batch AND b.at >= {before})
    AND NOT EXISTS (SELECT 1 FROM odb_part AS c WHERE c.batch = a.batch AND c.open AND c.holder IN ({living})
        AND NOT EXISTS (SELECT 1 FROM odb_part AS d WHERE d.batch = c.batch AND d.number > c.number))
    ORDER BY at LIMIT 500)"""
_MARK = "SELECT holder, writer FROM odb_part WHERE batch = $1 AND number = $2"
# Long texts come only once there is memory for them.
_FIND = """SELECT number, holder, writer, open, length(text), CASE WHEN (SELECT sum(length(text)) FROM odb_part
    WHERE batch = $1) <= 65536 THEN text END FROM odb_part WHERE batch = $1 ORDER BY number"""
_TEXTS = "SELECT text FROM odb_part WHERE batch = $1 AND number < $2 ORDER BY number"

Rows = Sequence[Sequence[Any]]


class SqlStore(Store, Protocol):
    """Keeps batches in the table of parts; a database says how a statement is run."""

    def _rows(self, words: str, *given: Any, size: int = 0) -> Awaitable[Rows]:
        """Returns the rows of a statement that reads; so many bytes have to come."""

    def _insert(self, rows: Rows) -> Awaitable[Rows]:
        """Runs `APPEND` in one transaction; returns the rows that are new, or the first column of these."""

    async def read(self, batch: bytes, hold: Hold) -> list[Part]:
        rows = await self._rows(_FIND, batch)
        if not rows:  # as of most batches
            return []
        size = sum([row[4] for row in rows])
        hold(size)
        texts = [row[5] for row in rows]
        if None in texts:
            texts = [text for text, in await self._rows(_TEXTS, batch, len(rows), size=size)]
            if len(texts) < len(rows):
                raise OSError("the batch was removed")
        marks = [NOBODY, *[(row[1], row[2]) for row in rows]]
        found = zip(rows, marks[1:], marks, texts)
        return [Part(batch, row[0], mark, after, bool(row[3]), text) for row, mark, after, text in found]

    async def append(self, parts: Sequence[Part]) -> set[bytes]:
        # In one order: two that wait for each other would be a deadlock.
        rows = sorted([(part.batch, part.number, *part.mark, *part.after, part.is_open, part.text) for part in parts])
        kept = {row[0] for row in await self._insert(rows)}
        rest = [part for part in parts if part.batch not in kept]
        for part in rest:  # refused, or kept by a try whose answer was lost, which the statement itself may not see
            marks = await self._rows(_MARK, part.batch, part.number)
            kept.update(part.batch for mark in marks if tuple(mark) == part.mark)
        if rest:
            await self.confirm()
        return kept
