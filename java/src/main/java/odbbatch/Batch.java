package odbbatch;

import static odbbatch.OdbLibrary.*;

import java.util.*;
import java.util.stream.Collectors;

/**
 * A batch that is made by calls, by one thread. A request that refers to an earlier one depends on it without further ado, and what depends on
 * a request of a group depends on the group, too. {@link BatchClient} sends it.
 *
 * <pre>{@code
 * Batch batch = new Batch(mapper::writeValueAsBytes);
 * Batch.Name order = batch.post("Orders", newOrder).add();
 * Batch.Name paid = batch.group(() -> batch.post(order + "/Lines", line).add());
 * Batch.Name list = batch.get(order).after(paid).add();
 * }</pre>
 */
public final class Batch {
    /** Writes a body as JSON, as {@code mapper::writeValueAsBytes} of Jackson, which throws a checked exception. */
    public interface Serializer {
        /**
         * Writes a value.
         *
         * @param value the value
         * @return its JSON
         * @throws Exception it cannot be written
         */
        byte[] write(Object value) throws Exception;
    }

    private final Serializer serializer;
    private final List<Map.Entry<String, byte[]>> elements = new ArrayList<>(); // of each request its id and its text
    private final Map<String, String> groups = new HashMap<>(); // by each id and group its group, or null
    private String open;
    private int groupCount;

    /** A batch whose bodies are bytes or texts. */
    public Batch() { this(body -> { throw new IllegalArgumentException("a body is bytes or a text, or the batch needs a serializer"); }); }

    /**
     * A batch whose other bodies a function writes.
     *
     * @param serializer the function, as that of a mapper of Jackson
     */
    public Batch(Serializer serializer) { this.serializer = serializer; }

    /** A request or a group of a batch. As a text it is $ and its id, for URLs: {@code order + "/Lines"}. */
    public static final class Name {
        private final String id;

        private Name(String id) { this.id = id; }

        /**
         * Its id, or the name of the group.
         *
         * @return the id
         */
        public String id() { return id; }

        @Override public String toString() { return "$" + id; }
    }

    /** A request that is added by {@link #add}. */
    public final class Adding {
        private final String method, url;
        private final Object body;
        private final Map<String, String> headers = new LinkedHashMap<>();
        private final Set<String> needs = new LinkedHashSet<>();
        private String id;

        private Adding(String method, Object url, Object body) {
            this.method = method; this.url = url.toString(); this.body = body;
            refer(this.url.split("[/?#]", 2)[0]);
        }

        /** Depends on a request of this batch, if a text is its name. */
        private void refer(String text) { if (text.startsWith("$") && groups.containsKey(text.substring(1))) { needs.add(text.substring(1)); } }

        /**
         * Further requests and groups that it depends on.
         *
         * @param names their names
         * @return this request
         */
        public Adding after(Name... names) { for (Name name : names) { needs.add(name.id); } return this; }

        /**
         * A header.
         *
         * @param name its name
         * @param value its value; in If-Match and If-None-Match the name of a request stands for the ETag of its answer
         * @return this request
         */
        public Adding header(String name, Object value) {
            String key = name.toLowerCase(Locale.ROOT);
            headers.put(key, value.toString());
            if (References.CONDITIONS.contains(key)) { refer(value.toString()); }
            return this;
        }

        /**
         * Has it performed only if the entity has the ETag that another request was answered.
         *
         * @param request the name of that request
         * @return this request
         */
        public Adding ifMatch(Name request) { return header("if-match", request); }

        /**
         * Its id; without it that is the first free number.
         *
         * @param id the id
         * @return this request
         * @throws IllegalArgumentException no URL can refer to the id, as metadata
         */
        public Adding id(String id) {
            if (Odb.names("reserved_ids").contains(id)) { throw new IllegalArgumentException("no URL can refer to a request with the id " + id); }
            this.id = id;
            return this;
        }

        /**
         * Adds it to the batch.
         *
         * @return its name
         * @throws IllegalArgumentException the body cannot be written
         */
        public Name add() { return Batch.this.add(this); }
    }

    /**
     * A GET.
     *
     * @param url a text or the name of a request
     * @return the request, which is to be added
     */
    public Adding get(Object url) { return request("GET", url, null); }

    /**
     * A POST.
     *
     * @param url a text or the name of a request
     * @param body as in {@link #request}
     * @return the request, which is to be added
     */
    public Adding post(Object url, Object body) { return request("POST", url, body); }

    /**
     * A PUT.
     *
     * @param url a text or the name of a request
     * @param body as in {@link #request}
     * @return the request, which is to be added
     */
    public Adding put(Object url, Object body) { return request("PUT", url, body); }

    /**
     * A PATCH.
     *
     * @param url a text or the name of a request
     * @param body as in {@link #request}
     * @return the request, which is to be added
     */
    public Adding patch(Object url, Object body) { return request("PATCH", url, body); }

    /**
     * A DELETE.
     *
     * @param url a text or the name of a request
     * @return the request, which is to be added
     */
    public Adding delete(Object url) { return request("DELETE", url, null); }

    /**
     * A request.
     *
     * @param method the method
     * @param url a text or the name of a request
     * @param body bytes as on the wire, the text of JSON, another value, which the serializer writes, or null
     * @return the request, which is to be added
     */
    public Adding request(String method, Object url, Object body) { return new Adding(method, url, body); }

    private Name add(Adding it) {
        String id = it.id == null ? free("", elements.size()) : it.id;
        if (it.body != null) { it.headers.putIfAbsent("content-type", "application/json"); }
        byte[] body = it.body == null ? null : Bodies.toJson(written(it.body), it.headers);
        Set<String> needs = new LinkedHashSet<>(it.needs);
        it.needs.forEach(name -> needs.add(groups.get(name)));
        needs.removeAll(Arrays.asList(null, open));
        elements.add(Map.entry(id, element(id, open, needs, it.method, it.url, it.headers, body)));
        groups.put(id, open);
        if (open != null) { groups.put(open, open); }
        return new Name(id);
    }

    private byte[] written(Object body) {
        try {
            return body instanceof byte[] ? (byte[]) body : body instanceof String ? bytes((String) body) : serializer.write(body);
        } catch (Exception error) {
            throw new IllegalArgumentException("the body cannot be written: " + error.getMessage(), error);
        }
    }

    /** The text of a request in a document; what is null or empty is left out. */
    static byte[] element(String id, String group, Collection<String> needs, String method, String url, Map<String, String> headers, byte[] body) {
        String text = "{\"id\":" + Bodies.quoted(id) + (group == null ? "" : ",\"atomicityGroup\":" + Bodies.quoted(group))
            + (needs.isEmpty() ? "" : needs.stream().map(Bodies::quoted).collect(Collectors.joining(",", ",\"dependsOn\":[", "]")))
            + ",\"method\":" + Bodies.quoted(method.toLowerCase(Locale.ROOT)) + ",\"url\":" + Bodies.quoted(url)
            + (headers.isEmpty() ? "" : ",\"headers\":" + Bodies.object(headers));
        return body == null || body.length == 0 ? Bodies.joined(text, "}") : Bodies.joined(text, ",\"body\":", body, "}");
    }

    /** The document with such texts. */
    static byte[] document(List<byte[]> elements) {
        List<Object> parts = new ArrayList<>();
        elements.forEach(element -> parts.addAll(List.of(parts.isEmpty() ? "" : ",", element)));
        return Bodies.joined("{\"requests\":[", Bodies.joined(parts.toArray()), "]}");
    }

    private String free(String prefix, int count) { while (groups.containsKey(prefix + ++count)) { continue; } return prefix + count; }

    /**
     * Makes the requests that a function adds an atomicity group: all of them are performed, or none. If it throws, none is added.
     *
     * @param add adds the requests
     * @return the name of the group
     */
    public Name group(Runnable add) {
        if (open != null) { throw new IllegalStateException("a group cannot be in another one"); }
        open = free("g", groupCount++);
        try {
            add.run();
            return new Name(open);
        } catch (RuntimeException | Error error) {
            elements.removeIf(it -> open.equals(groups.get(it.getKey())));
            groups.values().removeIf(open::equals);
            throw error;
        } finally {
            open = null;
        }
    }

    /**
     * The batch as it is.
     *
     * @return the document
     */
    public byte[] document() { return document(elements.stream().map(Map.Entry::getValue).collect(Collectors.toList())); }

    /**
     * Checks the batch as it is.
     *
     * @return how many requests and groups it has
     * @throws FaultException it is refused
     */
    public Odb.Counts check() { return Odb.check(document()); }
}
