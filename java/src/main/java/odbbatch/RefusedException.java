package odbbatch;

/** A start or a report of a live run may not come, by the first of the causes S1 to S5, P1 and P2. Nothing has changed. */
public final class RefusedException extends OdbException {
    private static final long serialVersionUID = 1;
    /** The id. */
    private final String id;

    private RefusedException(String code, String id) { super(code, Odb.explain(code).split(" ", 3)[1], id); this.id = id; }

    /** Throws what a start or a report returns but that it is done: 11 is S1, and 21 is P1. */
    static void settle(int status, String id) {
        if (status > 10 && status < 30) { throw new RefusedException((status < 20 ? "S" : "P") + status % 10, id); }
        OdbLibrary.settle(status);
    }

    /**
     * The request.
     *
     * @return its id
     */
    public String id() { return id; }
}
