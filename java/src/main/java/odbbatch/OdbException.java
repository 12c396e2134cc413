package odbbatch;

/** The library refuses something by its rules. */
public abstract class OdbException extends RuntimeException {
    private static final long serialVersionUID = 1;
    /** The code. */
    private final String code;
    /** The name. */
    private final String name;

    OdbException(String code, String name, String where) { super(code + " " + name + " " + where); this.code = code; this.name = name; }

    /**
     * The code of the fault or the cause.
     *
     * @return the code, as F41, S4 or P2
     */
    public final String code() { return code; }

    /**
     * The name of the fault or the cause.
     *
     * @return the name, as ForwardName
     */
    public final String name() { return name; }

    /**
     * What the code means, and how it is repaired.
     *
     * @return some lines
     */
    public final String explanation() { return Odb.meaning(code); }
}
