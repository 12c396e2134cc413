package odbbatch;

import java.net.http.*;
import java.util.*;

/** What a request is answered. */
public final class Answer {
    private final int status;
    private final Map<String, String> headers = new TreeMap<>();
    private final byte[] body;

    private Answer(int status, byte[] body) { this.status = status; this.body = body == null ? new byte[0] : body; }

    private void add(String name, String value) { headers.merge(name.toLowerCase(Locale.ROOT), value, (one, more) -> one + ", " + more); }

    /**
     * An answer without headers and body.
     *
     * @param status the status, from 200 to 599; the response shows any other as 502
     * @return the answer
     */
    public static Answer of(int status) { return new Answer(status, null); }

    /**
     * An answer.
     *
     * @param status the status, from 200 to 599; the response shows any other as 502
     * @param headers the headers; those of one connection, as Set-Cookie, are not shown
     * @param body the body as bytes on the wire; null or empty if there is none
     * @return the answer
     */
    public static Answer of(int status, Map<String, String> headers, byte[] body) {
        Answer found = new Answer(status, body);
        headers.forEach(found::add);
        return found;
    }

    /**
     * What a client has received.
     *
     * @param response the response
     * @return the answer; headers of one name are joined by commas
     */
    public static Answer of(HttpResponse<byte[]> response) { return of(response.statusCode(), response.headers(), response.body()); }

    static Answer of(int status, HttpHeaders headers, byte[] body) {
        Answer found = new Answer(status, body);
        headers.map().forEach((name, values) -> values.forEach(value -> found.add(name, value)));
        found.headers.remove(":status"); // of HTTP/2
        return found;
    }

    /**
     * The status.
     *
     * @return a number
     */
    public int status() { return status; }

    /**
     * The headers.
     *
     * @return the values by the names in lower case
     */
    public Map<String, String> headers() { return Collections.unmodifiableMap(headers); }

    /**
     * The body, as bytes on the wire.
     *
     * @return the bytes; none if there is no body
     */
    public byte[] body() { return body; }

    /**
     * Whether the request has succeeded.
     *
     * @return true for a status from 200 to 299
     */
    public boolean isSuccess() { return status >= 200 && status <= 299; }
}
