package odbbatch;

import static odbbatch.OdbLibrary.*;

import java.net.URI;
import java.util.*;
import java.util.concurrent.ConcurrentHashMap;
import java.util.stream.*;

/**
 * What the references of requests stand for (OData JSON Format 4.01, sections 19.2 and 19.3), by the headers of answers. Threads may share
 * it: what a request refers to was answered before it starts.
 */
final class References {
    /** The headers in which $ and an id stand for an ETag. */
    static final List<String> CONDITIONS = List.of("if-match", "if-none-match");

    private final Map<String, Odb.Request> requests = new LinkedHashMap<>();
    private final Set<String> referred = new HashSet<>();
    private final Map<String, Answer> answers = new ConcurrentHashMap<>(); // without bodies
    private final Map<String, String> urls = new ConcurrentHashMap<>();
    private final String base, roots;

    References(List<Odb.Request> given, URI base, List<URI> roots) {
        this.base = base.toString();
        this.roots = (roots.isEmpty() ? List.of(base) : roots).stream().map(URI::toString).collect(Collectors.joining("\n"));
        if (resolve("", "", "", 0).status != DONE) {
            throw new IllegalArgumentException("a base must be an absolute URL that ends with /, below such a root, not " + base);
        }
        given.forEach(it -> requests.put(it.id(), it));
        given.forEach(it -> it.reference().ifPresent(referred::add));
        given.forEach(it -> referred.addAll(tags(it.headers(), requests.keySet()).values()));
    }

    /** The conditions among headers that refer to requests with these ids, with these. */
    static Map<String, String> tags(Map<String, String> headers, Set<String> ids) {
        Map<String, String> found = new LinkedHashMap<>();
        for (String name : CONDITIONS) {
            String value = headers.getOrDefault(name, "");
            if (value.startsWith("$") && ids.contains(value.substring(1))) { found.put(name, value.substring(1)); }
        }
        return found;
    }

    Odb.Request of(String id) { return requests.get(id); }

    /** Notes what a request was answered, if others refer to it. */
    void keep(String id, Answer answer) { if (referred.contains(id)) { answers.put(id, Answer.of(answer.status(), answer.headers(), null)); } }

    /** A request as it is sent; throws the refusal of one that cannot be. */
    PreparedRequest prepared(String id) {
        Odb.Request given = requests.get(id);
        String url = urlOf(given);
        Map<String, String> headers = given.headers();
        tags(headers, requests.keySet()).forEach((name, other) -> headers.put(name, tagOf(other)));
        if (given.body() == null) { return new PreparedRequest(given, url, headers, new byte[0]); }
        headers.putIfAbsent("content-type", "application/json");
        return new PreparedRequest(given, url, headers, Bodies.toWire(given.body(), headers));
    }

    private String tagOf(String id) {
        boolean isAnswered = answers.containsKey(id);
        String tag = isAnswered ? answers.get(id).headers().getOrDefault("etag", "") : "", why = isAnswered ? " was answered without an ETag" : " is not answered yet";
        if (tag.isEmpty()) { throw new RefusalException(isAnswered ? 424 : 400, "NoETag", id + why, id, Map.of()); }
        return tag;
    }

    private String urlOf(Odb.Request request) {
        String found = urls.get(request.id());
        if (found == null) {
            found = request.reference().map(other -> below(requests.get(other), request.rest())).orElseGet(() -> sent(resolve(request.url(), "", "", 0), ""));
            urls.put(request.id(), found);
        }
        return found;
    }

    /** The URL of what a request has created or returned, with what follows a reference to it. */
    private String below(Odb.Request other, String rest) {
        String location = locationOf(answers.get(other.id()).headers()).orElse("");
        return sent(resolve(rest, urlOf(other), location, other.method().equals("POST") ? 1 : 0), other.id());
    }

    /** The URL of what a request has created or returned, by the headers of its answer. */
    static Optional<String> locationOf(Map<String, String> headers) {
        return Stream.of("location", "odata-entityid").map(headers::get).filter(it -> it != null && !it.isEmpty()).findFirst();
    }

    private Written resolve(String url, String sent, String location, int post) {
        byte[] from = bytes(base), to = bytes(roots), given = bytes(url), other = bytes(sent), place = bytes(location);
        return write(from.length + to.length + 3 * given.length + other.length + 3 * place.length, (text, room, length) -> odb_resolve(
            some(from), from.length, some(to), to.length, some(given), given.length, some(other), other.length,
            some(place), place.length, post, text, room, length));
    }

    /** The URL that was resolved; throws why there is none. */
    private String sent(Written found, String id) {
        if (found.status == NO_LOCATION) {
            throw new RefusalException(424, "NoLocation", id + " was answered without the URL of what it has created", id, Map.of());
        } else if (found.status == UNREADABLE || found.status == OUTSIDE) {
            throw new RefusalException(404, "NotFound", "The URL leads out of " + roots.split("\n")[0]);
        }
        settle(found.status);
        return found.string();
    }
}
