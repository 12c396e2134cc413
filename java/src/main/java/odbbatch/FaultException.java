package odbbatch;

/** A document is refused. */
public final class FaultException extends OdbException {
    private static final long serialVersionUID = 1;
    /** The fault, which keeps the document. */
    private final transient Fault fault;

    FaultException(Fault fault) { super(fault.code(), fault.name(), fault.place()); this.fault = fault; }

    /**
     * The first fault of the document.
     *
     * @return the fault; null if the exception was serialized
     */
    public Fault fault() { return fault; }
}
