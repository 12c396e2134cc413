package odbbatch.servlet;

import java.io.IOException;
import java.nio.charset.StandardCharsets;
import java.util.Map;
import java.util.TreeMap;
import java.util.concurrent.locks.ReentrantLock;
import java.util.regex.Matcher;
import java.util.regex.Pattern;
import javax.servlet.DispatcherType;
import javax.servlet.http.HttpServlet;
import javax.servlet.http.HttpServletRequest;
import javax.servlet.http.HttpServletResponse;

/** Books in memory with batches, for the conformance tool. Arguments: the class of a container. Prints its port. */
public final class Books extends HttpServlet {
    private static final long serialVersionUID = 1;
    private static final ReentrantLock LOCK = new ReentrantLock();
    private static Map<String, String[]> books = new TreeMap<>(); // title and version, as JSON has the title

    /** Holds the lock while a group is performed, and restores the books if it fails. */
    static void group(String name, Runnable body) {
        LOCK.lock();
        Map<String, String[]> before = new TreeMap<>(books);
        boolean isWhole = false;
        try {
            body.run();
            isWhole = true;
        } finally {
            books = isWhole ? books : before;
            LOCK.unlock();
        }
    }

    /** A member of a body that is a string, as JSON has it; empty if there is none. */
    private static String member(String body, String name) {
        Matcher found = Pattern.compile("\"" + name + "\"\\s*:\\s*\"((?:[^\"\\\\]|\\\\.)*)\"").matcher(body);
        return found.find() ? found.group(1) : "";
    }

    private static void write(HttpServletResponse response, int status, String body) throws IOException {
        response.setStatus(status);
        response.setContentType("application/json");
        response.getOutputStream().write(body.getBytes(StandardCharsets.UTF_8));
    }

    private static void fail(HttpServletResponse response, int status, String code) throws IOException {
        write(response, status, "{\"error\":{\"code\":\"" + code + "\",\"message\":\"" + code + "\"}}");
    }

    private static String shown(String key) {
        return "{\"Id\":\"" + key + "\",\"Title\":\"" + books.get(key)[0] + "\"}";
    }

    private static void show(HttpServletResponse response, int status, String key) throws IOException {
        response.setHeader("ETag", "\"" + books.get(key)[1] + "\"");
        response.setHeader("Location", "/odata/Books('" + key + "')");
        write(response, status, shown(key));
    }

    @Override
    protected void service(HttpServletRequest request, HttpServletResponse response) throws IOException {
        LOCK.lock();
        try {
            String path = request.getServletPath() + (request.getPathInfo() == null ? "" : request.getPathInfo());
            String body = new String(request.getInputStream().readAllBytes(), StandardCharsets.UTF_8);
            boolean hasTitle = !member(body, "Title").isEmpty() || request.getMethod().matches("GET|DELETE");
            if (request.getQueryString() != null && request.getQueryString().contains("$")) {
                fail(response, 501, "NoOptions");
            } else if (!hasTitle) {
                fail(response, 400, "BadBook");
            } else if (path.equals("/odata/Books")) {
                ofSet(request.getMethod(), body, response);
            } else {
                Matcher key = Pattern.compile("/odata/Books\\('(.*)'\\)").matcher(path);
                ofBook(request, key.matches() ? key.group(1) : "", body, response);
            }
        } finally {
            LOCK.unlock();
        }
    }

    private static void ofSet(String method, String body, HttpServletResponse response) throws IOException {
        String id = member(body, "Id");
        if (method.equals("GET")) {
            StringBuilder all = new StringBuilder();
            books.keySet().forEach(key -> all.append(all.length() == 0 ? "" : ",").append(shown(key)));
            write(response, 200, "{\"value\":[" + all + "]}");
        } else if (!method.equals("POST")) {
            fail(response, 405, "NotAllowed");
        } else if (id.isEmpty() || books.containsKey(id)) {
            fail(response, 409, "Exists");
        } else {
            books.put(id, new String[] {member(body, "Title"), "1"});
            show(response, 201, id);
        }
    }

    private static void ofBook(HttpServletRequest request, String key, String body, HttpServletResponse response) throws IOException {
        String[] found = books.get(key);
        String match = request.getHeader("If-Match");
        if (found == null) {
            fail(response, 404, "NotFound");
        } else if (request.getMethod().equals("GET")) {
            show(response, 200, key);
        } else if (match != null && !match.equals("*") && !match.equals("\"" + found[1] + "\"")) {
            fail(response, 412, "Changed");
        } else if (request.getMethod().equals("DELETE")) {
            books.remove(key);
            response.setStatus(204);
        } else if (request.getMethod().equals("PATCH")) {
            books.put(key, new String[] {member(body, "Title"), String.valueOf(Integer.parseInt(found[1]) + 1)});
            response.setStatus(204);
        } else {
            fail(response, 405, "NotAllowed");
        }
    }

    public static void main(String[] words) throws Exception {
        Container container = Container.of(words[0], "");
        container.filter("batch", new BatchFilter("/odata/$batch", Books::group), "/odata/$batch", DispatcherType.REQUEST);
        container.servlet(new Books(), "/odata/*");
        System.out.println(container.start(0));
        System.in.read(); // until the test ends
        container.stop();
        System.exit(0);
    }
}
