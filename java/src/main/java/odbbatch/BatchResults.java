package odbbatch;

import java.nio.charset.StandardCharsets;
import java.util.*;
import java.util.function.Supplier;

/** What the requests of a batch were answered, in the order of the batch. */
public final class BatchResults {
    private final Map<String, Answer> found;
    private final Exception error;
    private final Supplier<byte[]> rest;

    BatchResults(Map<String, Answer> found, Exception error, Supplier<byte[]> rest) {
        this.found = found; this.error = error; this.rest = rest;
    }

    /**
     * What a request was answered.
     *
     * @param id its id
     * @return the answer; 424 if the request was skipped or not sent
     */
    public Answer get(String id) {
        Answer answer = found.get(id);
        if (answer == null) { throw new NoSuchElementException("no request has the id " + id); }
        return answer;
    }

    /**
     * What a request was answered.
     *
     * @param request its name
     * @return the answer; 424 if the request was skipped or not sent
     */
    public Answer get(Batch.Name request) { return get(request.id()); }

    /**
     * What a request was answered if it has succeeded.
     *
     * @param request its name
     * @return the answer
     * @throws IllegalStateException it has not, with id, status and body as text, and why the batch has ended early as cause
     */
    public Answer require(Batch.Name request) {
        Answer answer = get(request);
        if (!answer.isSuccess()) {
            throw new IllegalStateException(request.id() + " " + answer.status() + " " + new String(answer.body(), StandardCharsets.UTF_8), error);
        }
        return answer;
    }

    /**
     * All of them.
     *
     * @return the answers by their ids
     */
    public Map<String, Answer> all() { return Collections.unmodifiableMap(found); }

    /**
     * Why a part was not answered as it should be, and nothing more was sent.
     *
     * @return none if all was sent
     */
    public Optional<Exception> error() { return Optional.ofNullable(error); }

    /**
     * What may be sent again, as a batch of its own: what was refused for now or not sent, and reads without an answer.
     *
     * @return a document; one without requests if nothing may
     * @throws FaultException a request refers to one that was answered without a Location of use (F90) or without an ETag (F91)
     */
    public byte[] rest() { return rest.get(); }
}
