package odbbatch;

import static odbbatch.OdbLibrary.*;

import java.io.*;
import java.net.http.HttpTimeoutException;
import java.util.*;
import java.util.concurrent.*;

/** An exception that stands for an answer, with the error object of OData (OData JSON Format 4.01, section 21.1). */
public final class RefusalException extends RuntimeException {
    private static final long serialVersionUID = 1;
    private static final List<Class<?>> TIMEOUTS = List.of(
        TimeoutException.class, InterruptedIOException.class, HttpTimeoutException.class, CancellationException.class, InterruptedException.class);
    static final Answer TOO_LONG = new RefusalException(507, "TooLong", "The answer is too long for a batch").answer;
    /** The answer. */
    private final transient Answer answer;

    /**
     * A refusal.
     *
     * @param status the status, from 400 to 599
     * @param code the code of the error, for programs
     * @param message the message of the error, for people
     */
    public RefusalException(int status, String code, String message) { this(status, code, message, null, Map.of()); }

    /**
     * A refusal that says what it is about, and has headers.
     *
     * @param status the status, from 400 to 599
     * @param code the code of the error, for programs
     * @param message the message of the error, for people
     * @param target what the error is about, or null
     * @param headers further headers, as Retry-After
     */
    public RefusalException(int status, String code, String message, String target, Map<String, String> headers) {
        super(message);
        if (status < 400 || status > 599) { throw new IllegalArgumentException("a refusal has a status from 400 to 599, not " + status); }
        Map<String, String> error = new TreeMap<>(Map.of("code", code, "message", message));
        if (target != null) { error.put("target", target); }
        Map<String, String> all = new LinkedHashMap<>(headers); all.put("content-type", "application/json");
        answer = Answer.of(status, all, bytes("{\"error\":" + Bodies.object(error) + "}"));
    }

    /**
     * The answer.
     *
     * @return the answer; null if the exception was serialized
     */
    public Answer answer() { return answer; }

    /** What an exception stands for. */
    static Answer answerTo(Throwable error) {
        boolean isLate = TIMEOUTS.stream().anyMatch(kind -> kind.isInstance(error));
        return error instanceof RefusalException ? ((RefusalException) error).answer
            : isLate ? new RefusalException(504, "Timeout", "No answer came in time").answer
            : error instanceof IOException ? new RefusalException(502, "BadGateway", "The connection broke before an answer came").answer
            : new RefusalException(500, "InternalError", "The request failed; the log says why").answer;
    }
}
