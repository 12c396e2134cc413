package odbbatch;

import static odbbatch.OdbLibrary.*;

import java.util.OptionalInt;

/** Why a document is refused. The position of one that was thrown is looked up when it is asked for: do not change the document before. */
public final class Fault {
    private final String code, name, place;
    private final byte[] document;
    private volatile long[] position;

    /** A fault in a document, or at a position; with neither it has none. */
    Fault(String code, String name, String place, byte[] document, long[] position) {
        this.code = code; this.name = name; this.place = place; this.document = document; this.position = position;
    }

    /** The fault of a line {@code fault CODE NAME PLACE}. */
    static Fault of(String line, byte[] batch, byte[] second) {
        String[] words = line.split(" ", 4);
        boolean isOfBatch = second == null || words[3].equals("batch") || words[3].startsWith("/requests/");
        return new Fault(words[1], words[2], words[3], isOfBatch ? batch : second, null);
    }

    /**
     * The code.
     *
     * @return the code, as F41
     */
    public String code() { return code; }

    /**
     * The name.
     *
     * @return the name, as ForwardName
     */
    public String name() { return name; }

    /**
     * The document, or its element.
     *
     * @return as batch, or /requests/0; report for a report of a live run
     */
    public String place() { return place; }

    /**
     * What it means, and how it is repaired.
     *
     * @return some lines
     */
    public String explanation() { return Odb.meaning(code); }

    /**
     * The line in which the place begins.
     *
     * @return a number from 1; none for a fault that a live run has found
     */
    public OptionalInt line() { return at(0); }

    /**
     * The column in that line, in characters.
     *
     * @return a number from 1; none for a fault that a live run has found
     */
    public OptionalInt column() { return at(1); }

    /**
     * How many bytes of the document come before the place.
     *
     * @return a number from 0; none for a fault that a live run has found
     */
    public OptionalInt offset() { return at(2); }

    /**
     * How many bytes of the document come before the end of the place.
     *
     * @return a number from 0; none for a fault that a live run has found
     */
    public OptionalInt end() { return at(3); }

    private OptionalInt at(int number) {
        long[] found = position;
        if (found == null && document != null) {
            found = new long[4];
            byte[] path = bytes(place);
            settle(odb_where(some(document), document.length, path, path.length, found));
            position = found;
        }
        return found == null ? OptionalInt.empty() : OptionalInt.of((int) found[number]);
    }

    @Override public String toString() { return code + " " + name + " " + place; }
}
