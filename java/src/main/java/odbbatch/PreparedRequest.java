package odbbatch;

import java.io.*;
import java.net.URI;
import java.net.http.*;
import java.time.Duration;
import java.util.*;
import java.util.concurrent.*;

/** A request as it is sent: its URL is absolute, references are replaced, and the body is bytes on the wire. */
public final class PreparedRequest {
    private final Odb.Request of;
    private final String url;
    private final Map<String, String> headers;
    private final byte[] body;

    PreparedRequest(Odb.Request of, String url, Map<String, String> headers, byte[] body) {
        this.of = of; this.url = url; this.headers = headers; this.body = body;
    }

    /**
     * Its id.
     *
     * @return the id
     */
    public String id() { return of.id(); }

    /**
     * Its method.
     *
     * @return in upper case, as POST
     */
    public String method() { return of.method(); }

    /**
     * Its atomicity group.
     *
     * @return the name of the group
     */
    public Optional<String> group() { return of.group(); }

    /**
     * Its URL.
     *
     * @return an absolute URL in ASCII, below one of the roots
     */
    public String url() { return url; }

    /**
     * Its headers, which are those that whoever wrote the batch has chosen.
     *
     * @return the values by the names in lower case
     */
    public Map<String, String> headers() { return Collections.unmodifiableMap(headers); }

    /**
     * Its body.
     *
     * @return the bytes; none if it has no body
     */
    public byte[] body() { return body; }

    /**
     * Begins the request of a client. Headers that a client sets by itself, as Host and Content-Length, are left out.
     *
     * @return a builder, to which more may be added
     * @throws RefusalException the URL or a header is one that java.net.http does not send (400)
     */
    public HttpRequest.Builder toHttpRequest() {
        try {
            HttpRequest.Builder request = HttpRequest.newBuilder(URI.create(url)).method(of.method(),
                body.length == 0 ? HttpRequest.BodyPublishers.noBody() : HttpRequest.BodyPublishers.ofByteArray(body));
            headers.forEach((name, value) -> { if (!Odb.names("of_connection").contains(name)) { request.setHeader(name, value); } });
            return request;
        } catch (IllegalArgumentException error) {
            throw new RefusalException(400, "BadRequest", error.getMessage());
        }
    }

    /**
     * Sends the request, and waits for the whole answer.
     *
     * @param client the client
     * @param timeout how long the answer may take, to the last byte of its body
     * @return the answer
     * @throws IOException the connection broke, the answer did not come in time, or its body has more than 16,777,216 bytes
     * @throws InterruptedException the thread was interrupted; the request is cancelled
     */
    public Answer send(HttpClient client, Duration timeout) throws IOException, InterruptedException {
        return exchange(client, toHttpRequest(), timeout);
    }

    /**
     * Sends a request. What does not come in time is an HttpTimeoutException, and a body that is too long an IOException: the timeout of
     * java.net.http ends with the headers, nothing bounds its bodies, and a thread that reads one from a stream cannot be interrupted.
     */
    static Answer exchange(HttpClient client, HttpRequest.Builder request, Duration timeout) throws IOException, InterruptedException {
        ByteArrayOutputStream body = new ByteArrayOutputStream();
        CompletableFuture<HttpResponse<Void>> sent = client.sendAsync(request.timeout(timeout).build(),
            HttpResponse.BodyHandlers.ofByteArrayConsumer(part -> part.ifPresent(bytes -> add(body, bytes))));
        try {
            HttpResponse<Void> response = sent.get(timeout.toNanos(), TimeUnit.NANOSECONDS);
            return Answer.of(response.statusCode(), response.headers(), body.toByteArray());
        } catch (TimeoutException error) {
            throw new HttpTimeoutException("no answer came in " + timeout.toMillis() + " ms");
        } catch (ExecutionException error) {
            throw error.getCause() instanceof IOException ? (IOException) error.getCause() : new IOException(error.getCause());
        } finally {
            sent.cancel(true);
        }
    }

    private static void add(ByteArrayOutputStream body, byte[] part) {
        String message = "the body of an answer has more than " + Odb.MAX_BYTES + " bytes";
        if (body.size() + part.length > Odb.MAX_BYTES) { throw new UncheckedIOException(new IOException(message)); }
        body.writeBytes(part);
    }
}
