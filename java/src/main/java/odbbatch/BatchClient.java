package odbbatch;

import java.io.IOException;
import java.net.URI;
import java.net.http.*;
import java.time.Duration;
import java.util.*;
import java.util.stream.Collectors;

/**
 * Posts batches to a service, in parts if it takes few requests at once. Threads may share one that is not changed any more.
 *
 * <pre>{@code
 * BatchClient service = new BatchClient(HttpClient.newHttpClient(), URI.create("https://host/odata/$batch")).limit(20);
 * BatchResults results = service.send(batch);
 * byte[] body = results.require(order).body();
 * }</pre>
 */
public final class BatchClient {
    private final HttpClient client;
    private final URI url;
    private final Map<String, String> headers = new LinkedHashMap<>();
    private int limit = Odb.MAX_REQUESTS;
    private Mode mode = Mode.CONTINUE;
    private Duration timeout = Duration.ofSeconds(60);

    /**
     * A client of a service.
     *
     * @param client what sends; it has certificates, proxies and redirects
     * @param url the URL to which batches are posted
     */
    public BatchClient(HttpClient client, URI url) {
        this.client = client; this.url = url;
        headers.putAll(Map.of("content-type", "application/json", "accept", "application/json"));
    }

    /**
     * How many requests a part may have. A group is never split.
     *
     * @param limit a number from 1 to 10,000, which is the default
     * @return this client
     */
    public BatchClient limit(int limit) { this.limit = limit; return this; }

    /**
     * What the service does after an error.
     *
     * @param mode CONTINUE, for which it is asked, or STOP: then nothing more is sent, too
     * @return this client
     */
    public BatchClient mode(Mode mode) { this.mode = mode; return this; }

    /**
     * How long a part may take, to the last byte of its answer.
     *
     * @param timeout a duration; without it 60 seconds
     * @return this client
     */
    public BatchClient timeout(Duration timeout) { this.timeout = timeout; return this; }

    /**
     * A header of each batch, as Authorization.
     *
     * @param name its name
     * @param value its value
     * @return this client
     */
    public BatchClient header(String name, String value) { headers.put(name, value); return this; }

    /**
     * Sends a batch, and waits for all answers; see the other call.
     *
     * @param batch the batch
     * @return what its requests were answered
     */
    public BatchResults send(Batch batch) { return send(batch.document()); }

    /**
     * Sends a batch, and waits for all answers. Nothing is sent twice. Once a part fails, nothing more is sent: its requests get its status,
     * 504 for a timeout and an interrupt, 502 for a connection that broke or responses that do not fit, and {@link BatchResults#error} says
     * why. After an interrupt the thread stays interrupted.
     *
     * @param document the batch
     * @return what its requests were answered; 424 are those that were not sent
     * @throws FaultException it is refused; nothing was sent
     * @throws IllegalArgumentException a group has more requests than the limit; nothing was sent
     */
    public BatchResults send(byte[] document) {
        Map<String, Answer> found = new LinkedHashMap<>();
        try (LiveRun run = new LiveRun(document, mode, Odb.MAX_WIDTH)) {
            run.ids().forEach(id -> found.put(id, Answer.of(424)));
            Exception error = null;
            try {
                for (Optional<LiveRun.Part> part; error == null && (part = run.part(limit)).isPresent();) { error = sent(run, part.get(), found); }
            } catch (FaultException unsent) {
                error = unsent; // a request refers to a part that was answered without a Location or an ETag
            }
            return new BatchResults(found, error, () -> Odb.rest(document, responses(run.requests(), found), Mode.CONTINUE));
        }
    }

    /** Sends a part, and takes what its requests are answered; returns why nothing more is sent. */
    private Exception sent(LiveRun run, LiveRun.Part part, Map<String, Answer> found) {
        byte[] document = part.document();
        Exception error;
        Answer inPlace;
        try {
            inPlace = posted(document);
            if (inPlace.isSuccess()) {
                byte[] responses = Bodies.toJson(inPlace.body(), Map.of());
                Odb.match(document, responses, mode, 0);
                Odb.responses(responses).forEach((id, answer) -> take(run, id, answer, found));
                return null;
            }
            error = new IOException("a part of the batch was answered " + inPlace.status());
        } catch (IOException | InterruptedException | FaultException failed) {
            if (failed instanceof InterruptedException) { Thread.currentThread().interrupt(); }
            error = failed;
            inPlace = failed instanceof FaultException ? Answer.of(502) : RefusalException.answerTo(failed);
        }
        for (String id : part.ids()) { found.put(id, inPlace); }
        return error;
    }

    /** Notes an answer. One that may not start, since others have failed, is skipped by the run. */
    private static void take(LiveRun run, String id, Answer answer, Map<String, Answer> found) {
        found.put(id, answer);
        if (run.state(id) != LiveRun.State.RUNNING && run.tryStartUnit(id) != OdbLibrary.DONE) { return; }
        Map<String, String> headers = recorded(answer);
        run.report(id, answer.status() < 200 ? 502 : answer.status(), headers.isEmpty() ? null : headers, null);
    }

    /** The Location and the ETag of an answer, to which others may refer. */
    private static Map<String, String> recorded(Answer answer) {
        Map<String, String> headers = new TreeMap<>();
        References.locationOf(answer.headers()).ifPresent(place -> headers.put("location", place));
        if (answer.headers().containsKey("etag")) { headers.put("etag", answer.headers().get("etag")); }
        return headers;
    }

    /** A response document with statuses, Locations and ETags. */
    private static byte[] responses(List<Odb.Request> requests, Map<String, Answer> found) {
        return Bodies.joined(requests.stream().map(it -> {
            Answer answer = found.get(it.id());
            String group = it.group().map(name -> ",\"atomicityGroup\":" + Bodies.quoted(name)).orElse("");
            return "{\"id\":" + Bodies.quoted(it.id()) + group + ",\"status\":" + (answer.status() < 200 ? 502 : answer.status()) + ",\"headers\":" + Bodies.object(recorded(answer)) + "}";
        }).collect(Collectors.joining(",", "{\"responses\":[", "]}")));
    }

    private Answer posted(byte[] document) throws IOException, InterruptedException {
        HttpRequest.Builder request = HttpRequest.newBuilder(url).POST(HttpRequest.BodyPublishers.ofByteArray(document));
        headers.forEach(request::setHeader);
        if (mode == Mode.CONTINUE) { request.header("prefer", "continue-on-error"); }
        return PreparedRequest.exchange(client, request, timeout);
    }
}
