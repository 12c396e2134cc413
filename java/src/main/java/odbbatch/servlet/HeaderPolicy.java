package odbbatch.servlet;

import java.util.*;
import java.util.regex.*;
import javax.servlet.http.HttpServletRequest;
import odbbatch.*;

/** Which headers the requests of a batch have: those that they inherit from the request that carries it, and their own. */
final class HeaderPolicy {
    private static final Pattern PREFERENCE = Pattern.compile("(?:[^,\"]|\"[^\"]*\"?)+");
    private static final Pattern FIELD_VALUE = Pattern.compile("[\t -~\u00a0-\u00ff]*");

    private final Map<String, String> outer = new TreeMap<>();
    private final Set<String> allowed = new HashSet<>(Odb.names("allowed"));
    private final Set<String> dropped = new HashSet<>(Odb.names("usually_dropped"));
    private final List<String> inheritedPreferences = new ArrayList<>();
    private boolean continues;

    HeaderPolicy(HttpServletRequest request, Set<String> allowed) {
        for (String name : Collections.list(request.getHeaderNames())) {
            outer.put(name.toLowerCase(Locale.ROOT), String.join(", ", Collections.list(request.getHeaders(name))));
        }
        this.allowed.addAll(allowed);
        dropped.removeAll(allowed);
        dropped.addAll(Odb.names("of_connection"));
        for (Matcher found = PREFERENCE.matcher(outer("prefer")); found.find();) { prefer(found.group().trim()); }
    }

    private void prefer(String preference) {
        String[] parts = preference.split(";", 2)[0].toLowerCase(Locale.ROOT).split("=", 2);
        String name = parts[0].trim().replaceFirst("^odata\\.", "");
        if (!Odb.names("preferences").contains(name)) {
            inheritedPreferences.add(preference);
        } else if (name.equals("continue-on-error")) {
            continues |= parts.length == 1 || parts[1].trim().replace("\"", "").matches("(true)?");
        }
    }

    /** A header of the request that carries the batch; empty if it has none. */
    String outer(String name) { return outer.getOrDefault(name, ""); }

    /** What an error does to the batch. */
    Mode mode() { return continues ? Mode.CONTINUE : Mode.STOP; }

    /** Whether the batch asks to be performed once, however often it is sent. */
    boolean isRepeatable() { return outer.keySet().stream().anyMatch(it -> it.startsWith("repeatability-")); }

    /** The headers of a request with its own; throws the refusal of one that it may not have. */
    Map<String, String> headers(Map<String, String> own) {
        Map<String, String> found = new TreeMap<>(String.CASE_INSENSITIVE_ORDER);
        found.putAll(outer);
        found.keySet().removeIf(it -> Odb.names("not_inherited").contains(it) || Odb.names("not_inherited_prefixes").stream().anyMatch(it::startsWith));
        own.forEach((name, value) -> {
            if (dropped.contains(name)) { return; }
            if (!allowed.contains(name) && Odb.names("allowed_prefixes").stream().noneMatch(name::startsWith)) {
                throw new RefusalException(400, "HeaderNotAllowed", "A request of a batch may not have the header " + name, name, Map.of());
            } else if (!FIELD_VALUE.matcher(value).matches()) {
                throw new RefusalException(400, "BadHeader", "The header " + name + " has a character that it may not have", name, Map.of());
            }
            found.put(name, value);
        });
        if (!inheritedPreferences.isEmpty()) {
            found.merge("prefer", String.join(", ", inheritedPreferences), (mine, inherited) -> mine + ", " + inherited);
        }
        return found;
    }
}
