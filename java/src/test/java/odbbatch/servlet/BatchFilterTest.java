package odbbatch.servlet;

import static org.junit.jupiter.api.Assertions.assertEquals;
import static org.junit.jupiter.api.Assertions.assertTrue;

import java.io.IOException;
import java.io.OutputStream;
import java.io.UncheckedIOException;
import java.net.InetAddress;
import java.net.Socket;
import java.net.URI;
import java.net.http.HttpClient;
import java.net.http.HttpRequest;
import java.net.http.HttpResponse;
import java.nio.charset.StandardCharsets;
import java.time.Duration;
import java.util.ArrayList;
import java.util.Collections;
import java.util.LinkedHashMap;
import java.util.List;
import java.util.Map;
import java.util.logging.Handler;
import java.util.logging.LogRecord;
import java.util.logging.Logger;
import java.util.stream.Stream;
import javax.servlet.DispatcherType;
import javax.servlet.Filter;
import javax.servlet.FilterChain;
import javax.servlet.FilterConfig;
import javax.servlet.ServletException;
import javax.servlet.ServletRequest;
import javax.servlet.ServletResponse;
import javax.servlet.http.Cookie;
import javax.servlet.http.HttpServlet;
import javax.servlet.http.HttpServletRequest;
import javax.servlet.http.HttpServletResponse;
import odbbatch.Answer;
import odbbatch.Odb;
import org.junit.jupiter.api.AfterEach;
import org.junit.jupiter.api.Timeout;
import org.junit.jupiter.params.ParameterizedTest;
import org.junit.jupiter.params.provider.MethodSource;

/** The filter in each of the containers that the property containers lists. */
@Timeout(60)
class BatchFilterTest {
    private static final DispatcherType[] BOTH = {DispatcherType.REQUEST, DispatcherType.FORWARD};
    private final HttpClient http = HttpClient.newHttpClient();
    private final List<String> seen = Collections.synchronizedList(new ArrayList<>());
    private Container container;
    private String root;

    static Stream<String> containers() {
        return Stream.of(System.getProperty("containers", "JettyContainer").split(","));
    }

    private interface Filtering {
        void filter(HttpServletRequest request, HttpServletResponse response, FilterChain chain) throws IOException, ServletException;
    }

    /** A filter by a function. */
    private static Filter by(Filtering function) {
        return new Filter() {
            @Override
            public void init(FilterConfig config) {}

            @Override
            public void destroy() {}

            @Override
            public void doFilter(ServletRequest request, ServletResponse response, FilterChain chain) throws IOException, ServletException {
                function.filter((HttpServletRequest) request, (HttpServletResponse) response, chain);
            }
        };
    }

    /** Answers as its path says. */
    private final class Answering extends HttpServlet {
        private static final long serialVersionUID = 1;

        @Override
        protected void service(HttpServletRequest request, HttpServletResponse response) throws IOException, ServletException {
            String name = request.getRequestURI().replaceAll(".*/", "");
            seen.add(request.getMethod() + " " + name);
            switch (name) {
                case "echo":
                    response.setContentType("text/plain");
                    response.getWriter().print(request.getRequestURL() + " " + request.getQueryString() + " " + request.getHeader("x-request-id") + " "
                        + request.getHeader("authorization") + " " + request.getHeader("Accept") + " " + request.getContentType() + " "
                        + new String(request.getInputStream().readAllBytes(), StandardCharsets.UTF_8) + " " + request.getParameter("x"));
                    break;
                case "headers":
                    response.addHeader("X-A", "1");
                    response.addHeader("x-a", "2");
                    response.addHeader("X-A", null);
                    response.setIntHeader("X-I", 7);
                    response.setDateHeader("Last-Modified", 0);
                    response.addCookie(new Cookie("c", "d"));
                    response.setLocale(java.util.Locale.GERMAN);
                    response.setStatus(203);
                    break;
                case "date":
                    response.setIntHeader("X-Date", (int) (request.getDateHeader("If-Modified-Since") / 1000));
                    break;
                case "attribute":
                    response.setHeader("X-Before", String.valueOf(request.getAttribute("mine")) + request.getAttribute("outer")
                        + Collections.list(request.getAttributeNames()).contains("mine"));
                    request.setAttribute("mine", "set");
                    response.setHeader("X-After", String.valueOf(request.getAttribute("mine")) + Collections.list(request.getAttributeNames()).contains("mine"));
                    request.removeAttribute("outer");
                    break;
                case "panic":
                    throw new IllegalStateException("a panic");
                case "broken":
                    throw new IOException("a file");
                case "overflow":
                    throw new StackOverflowError();
                case "error":
                    response.getWriter().print("lost");
                    response.sendError(418, "teapot");
                    response.getWriter().print("lost, too");
                    break;
                case "redirect":
                    response.sendRedirect("/elsewhere");
                    break;
                case "endless":
                    byte[] part = new byte[65_536];
                    for (int i = 0; i < 1000; i++) {
                        response.getOutputStream().write(part);
                    }
                    seen.add(request.getMethod() + " has written all");
                    break;
                case "long":
                    response.getOutputStream().write(new byte[60_000]);
                    break;
                case "async":
                    request.startAsync();
                    break;
                case "latin":
                    response.setContentType("text/plain;charset=ISO-8859-1");
                    response.getWriter().print("\u00e9");
                    break;
                case "slow":
                    pause(100);
                    break;
                case "hang":
                    pause(60_000);
                    break;
                case "deaf":
                    for (long end = System.nanoTime() + 1_300_000_000; System.nanoTime() < end;) {
                        Thread.interrupted();
                    }
                    break;
                case "away":
                    response.setStatus(201);
                    response.setHeader("Location", "http://elsewhere/odata/x");
                    break;
                default:
                    response.setStatus(204);
            }
        }
    }

    private static void pause(int milliseconds) {
        try {
            Thread.sleep(milliseconds);
        } catch (InterruptedException error) {
            Thread.currentThread().interrupt();
            throw new IllegalStateException(error);
        }
    }

    private void start(String name, String contextPath, BatchFilter filter) throws Exception {
        container = Container.of(name, contextPath);
        container.filter("batch", filter, "/odata/$batch", DispatcherType.REQUEST);
        startWithFilter(contextPath);
    }

    private void startWithFilter(String contextPath) throws Exception {
        container.servlet(new Answering(), "/odata/*");
        root = "http://localhost:" + container.start(0) + contextPath + "/odata/";
    }

    private void start(String name) throws Exception {
        start(name, "", usual());
    }

    private static BatchFilter usual() {
        return new BatchFilter("/odata/$batch", (group, body) -> body.run());
    }

    @AfterEach
    void stop() throws Exception {
        if (container != null) {
            container.stop();
            container = null;
        }
    }

    private HttpResponse<byte[]> posted(String url, String type, String batch, String... headers) throws Exception {
        HttpRequest.Builder request = HttpRequest.newBuilder(URI.create(url)).POST(HttpRequest.BodyPublishers.ofString(batch)).header("Content-Type", type);
        if (headers.length > 0) {
            request.headers(headers);
        }
        return http.send(request.build(), HttpResponse.BodyHandlers.ofByteArray());
    }

    private static String get(String url) {
        return "{\"id\":\"ID\",\"method\":\"get\",\"url\":\"" + url + "\"}";
    }

    /** What the requests r0, r1 and so on of a batch are answered. */
    private Map<String, Answer> answers(String... requests) throws Exception {
        StringBuilder batch = new StringBuilder();
        for (int i = 0; i < requests.length; i++) {
            batch.append(i == 0 ? "" : ",").append(requests[i].replace("\"ID\"", "\"r" + i + "\""));
        }
        HttpResponse<byte[]> response = posted(root + "$batch", "application/json", "{\"requests\":[" + batch + "]}",
            "Prefer", "continue-on-error, return=minimal", "Authorization", "me", "Accept", "text/html");
        assertEquals(200, response.statusCode(), () -> text(response.body()));
        return Odb.responses(response.body());
    }

    private static String text(byte[] bytes) {
        return new String(bytes, StandardCharsets.UTF_8);
    }

    private static String statuses(Map<String, Answer> answers) {
        Map<String, Integer> found = new LinkedHashMap<>();
        answers.forEach((id, answer) -> found.put(id, answer.status()));
        return found.values().toString();
    }

    @ParameterizedTest
    @MethodSource("containers")
    void requestsAreThoseOfTheBatch(String name) throws Exception {
        for (String contextPath : new String[] {"", "/app"}) {
            start(name, contextPath, usual());
            Map<String, Answer> found = answers(get("echo?x=1&y=%20"), get("echo"), "{\"id\":\"ID\",\"method\":\"post\",\"url\":\"" + root + "echo\","
                + "\"headers\":{\"X-Request-ID\":\"7\",\"accept\":\"*/*\",\"Host\":\"evil\"},\"body\":{\"a\": 9.990}}");
            assertEquals(root + "echo x=1&y=%20 null me null null  1", text(found.get("r0").body()));
            assertEquals(root + "echo null null me null null  null", text(found.get("r1").body()));
            assertEquals(root + "echo null 7 me */* application/json {\"a\": 9.990} null", text(found.get("r2").body()));
            stop();
        }
    }

    @ParameterizedTest
    @MethodSource("containers")
    void headersAreKept(String name) throws Exception {
        start(name);
        Map<String, Answer> found = answers(get("headers"), "{\"id\":\"ID\",\"method\":\"get\",\"url\":\"date\",\"headers\":{\"If-Modified-Since\":"
            + "\"Thu, 01 Jan 1970 00:01:00 GMT\"}}", get("date"), get("latin"), get("error"), get("redirect"));
        assertEquals(203, found.get("r0").status());
        assertEquals("{last-modified=Thu, 1 Jan 1970 00:00:00 GMT, x-a=1, 2, x-i=7}", found.get("r0").headers().toString());
        assertEquals("60", found.get("r1").headers().get("x-date"));
        assertEquals("0", found.get("r2").headers().get("x-date"));
        assertEquals(1, found.get("r3").body().length);
        assertEquals(418, found.get("r4").status());
        assertEquals(0, found.get("r4").body().length);
        assertEquals("/elsewhere", found.get("r5").headers().get("location"));
    }

    @ParameterizedTest
    @MethodSource("containers")
    void attributesAreOfOneRequest(String name) throws Exception {
        container = Container.of(name, "");
        container.filter("outer", by((request, response, chain) -> {
            request.setAttribute("outer", "o");
            chain.doFilter(request, response);
            seen.add("outer is " + request.getAttribute("outer") + ", mine is " + request.getAttribute("mine"));
        }), "/odata/$batch", DispatcherType.REQUEST);
        container.filter("batch", usual(), "/odata/$batch", DispatcherType.REQUEST);
        startWithFilter("");
        Map<String, Answer> found = answers(get("attribute"), get("attribute"));
        for (String id : new String[] {"r0", "r1"}) {
            assertEquals("{x-after=settrue, x-before=nullofalse}", found.get(id).headers().toString());
        }
        for (int i = 0; i < 400 && seen.size() < 3; i++) {
            Thread.sleep(20); // the response is there before the filter has ended
        }
        assertTrue(seen.contains("outer is o, mine is null"), seen.toString());
    }

    @ParameterizedTest
    @MethodSource("containers")
    void failuresAreAnswers(String name) throws Exception {
        start(name);
        assertEquals("[500, 500, 500, 500, 204]", statuses(answers(get("panic"), get("broken"), get("overflow"), get("async"), get("x"))));
        assertEquals("[400, 204]", statuses(answers(get("a%zz"), get("x"))));
    }

    @ParameterizedTest
    @MethodSource("containers")
    void requestsOutsideOfTheFolderAreNotSent(String name) throws Exception {
        for (String contextPath : new String[] {"", "/app"}) {
            start(name, contextPath, usual());
            seen.clear();
            String below = "{\"id\":\"below\",\"method\":\"get\",\"url\":\"$r8/x\",\"dependsOn\":[\"r8\"]}";
            Map<String, Answer> found = answers(get("../out"), get("/other"), get("%2e%2e/out"), get("%252e%252e/out"), get("..%5cout"),
                get("http://elsewhere/odata/x"), get("//elsewhere/odata/x"), get("x/../../out"), "{\"id\":\"ID\",\"method\":\"post\",\"url\":\"away\"}",
                below);
            assertEquals("[404, 404, 404, 404, 404, 404, 404, 404, 201, 404]", statuses(found));
            assertEquals(List.of("POST away"), seen);
            stop();
        }
    }

    private static String withHeader(String name, String value) {
        return "{\"id\":\"ID\",\"method\":\"get\",\"url\":\"x\",\"headers\":{\"" + name + "\":\"" + value + "\"}}";
    }

    @ParameterizedTest
    @MethodSource("containers")
    void headersThatDoNotPass(String name) throws Exception {
        start(name, "", usual().allow("x-dry-run"));
        Map<String, Answer> found = answers(withHeader("X-Forwarded-For", "1"), withHeader("Authorization", "you"), withHeader("Cookie", "a=b"),
            withHeader("accept", "a\\nb"), withHeader("accept", "a\\u0000"), withHeader("X-Dry-Run", "1"), withHeader("User-Agent", "it"));
        assertEquals("[400, 400, 400, 400, 400, 204, 204]", statuses(found));
        assertTrue(text(found.get("r0").body()).contains("HeaderNotAllowed"));
        assertEquals(List.of("GET x", "GET x"), seen);
    }

    /** Its thread is interrupted, and no other one: what comes next is answered. */
    @ParameterizedTest
    @MethodSource("containers")
    void aServletThatHangsIsInterrupted(String name) throws Exception {
        List<String> ended = Collections.synchronizedList(new ArrayList<>());
        start(name, "", new BatchFilter("/odata/$batch", (group, body) -> {
            try {
                body.run();
            } catch (RuntimeException error) {
                ended.add("rolled back");
                throw error;
            }
        }).timeout(Duration.ofSeconds(1)));
        String post = "{\"id\":\"ID\",\"method\":\"post\",\"url\":\"hang\",\"atomicityGroup\":\"g\"}";
        assertEquals("[504, 200, 504, 200, 204]", statuses(answers(get("hang"), get("slow"), post, get("deaf"), get("x"))));
        assertEquals(List.of("rolled back"), ended);
        assertEquals("[200, 200]", statuses(answers(get("slow"), get("slow"))));
    }

    /** What has no memory is answered 503, but a write keeps its status; all is given back at the end. */
    @ParameterizedTest
    @MethodSource("containers")
    void batchesTakeNoMoreMemoryThanTheyMay(String name) throws Exception {
        start(name, "", usual().memory(70_000));
        String write = "{\"id\":\"ID\",\"method\":\"delete\",\"url\":\"long\"}";
        for (int i = 0; i < 3; i++) {
            Map<String, Answer> found = answers(get("endless"), get("long"), get("long"), write, get("x"));
            assertEquals("[503, 200, 503, 200, 204]", statuses(found));
            assertEquals("true 1 0", (found.get("r1").body().length >= 60_000) + " " + found.get("r2").headers().get("retry-after") + " " + found.get("r3").body().length);
        }
        HttpResponse<byte[]> busy = posted(root + "$batch", "application/json", "{\"requests\":[" + get("x") + "]}" + " ".repeat(70_000));
        assertEquals("503 1", busy.statusCode() + " " + busy.headers().firstValue("Retry-After").orElse(""));
        assertEquals(200, posted(root + "$batch", "application/json", "{\"requests\":[" + get("x") + "]}" + " ".repeat(60_000)).statusCode());
    }

    @ParameterizedTest
    @MethodSource("containers")
    void whatIsNoBatchIsRefused(String name) throws Exception {
        start(name, "", usual().limit(2).maxBytes(1000));
        String url = root + "$batch", json = "application/json", one = "{\"requests\":[" + get("x") + "]}";
        assertEquals(200, posted(url, json, one).statusCode());
        assertEquals(415, posted(url, "text/plain", one).statusCode());
        assertEquals(415, posted(url, json, one, "Content-Encoding", "gzip").statusCode());
        assertEquals(501, posted(url, json, one, "Repeatability-Request-ID", "7").statusCode());
        assertEquals(413, posted(url, json, "{\"requests\":[" + get("x") + "]}" + " ".repeat(1000)).statusCode());
        assertEquals(413, posted(url, json, " ".repeat(300_000)).statusCode());
        assertEquals(413, posted(url, json, "{\"requests\":[" + get("x") + "," + get("y").replace("ID", "b") + "," + get("z").replace("ID", "c") + "]}").statusCode());
        HttpResponse<byte[]> refused = posted(url, json, "{\"requests\":[" + get("x") + "," + get("y") + "]}");
        assertEquals(400, refused.statusCode());
        assertTrue(text(refused.body()).startsWith("{\"error\":{\"code\":\"F30\",\"message\":\""), text(refused.body()));
        assertEquals("4.01", refused.headers().firstValue("OData-Version").get());
        HttpResponse<byte[]> got = http.send(HttpRequest.newBuilder(URI.create(url)).build(), HttpResponse.BodyHandlers.ofByteArray());
        assertEquals("405 POST", got.statusCode() + " " + got.headers().firstValue("Allow").orElse(""));
        assertEquals(204, posted(root + "x", json, "").statusCode());
    }

    @ParameterizedTest
    @MethodSource("containers")
    void withoutATransactionGroupsAreRefused(String name) throws Exception {
        start(name, "", new BatchFilter("/odata/$batch", null));
        assertEquals(501, posted(root + "$batch", "application/json", "{\"requests\":[{\"id\":\"a\",\"method\":\"delete\",\"url\":\"A\",\"atomicityGroup\":\"g\"}]}").statusCode());
    }

    @ParameterizedTest
    @MethodSource("containers")
    void aBodyWithoutEndIsCutOff(String name) throws Exception {
        start(name, "", usual().maxBytes(100_000));
        String endless = "{\"id\":\"ID\",\"method\":\"delete\",\"url\":\"endless\"}";
        Map<String, Answer> found = answers(get("endless"), endless, get("echo"), get("long"), get("long"));
        assertEquals("[507, 200, 200, 200, 507]", statuses(found));
        assertEquals(0, found.get("r1").body().length);
        assertTrue(seen.contains("DELETE has written all") && !seen.contains("GET has written all"), seen.toString());
    }

    @ParameterizedTest
    @MethodSource("containers")
    void aDeadlineEndsABatch(String name) throws Exception {
        start(name, "", usual().deadline(Duration.ofMillis(250)));
        String found = statuses(answers(Collections.nCopies(10, get("slow")).toArray(new String[0])));
        assertTrue(found.startsWith("[200, ") && found.endsWith(", 424]"), found);
    }

    @ParameterizedTest
    @MethodSource("containers")
    void aNestedBatchIsRefused(String name) throws Exception {
        container = Container.of(name, "");
        container.filter("batch", usual(), "/odata/*", BOTH);
        startWithFilter("");
        String inner = "{\"id\":\"ID\",\"method\":\"post\",\"url\":\"URL\",\"body\":{\"requests\":[]}}";
        for (String url : new String[] {"%24batch;x=1", "a/..;/$batch"}) {
            HttpResponse<byte[]> response = posted(root + "$batch", "application/json", "{\"requests\":[" + inner.replace("URL", url) + "]}");
            assertTrue(response.statusCode() == 400 || Odb.responses(response.body()).get("ID").status() >= 400, text(response.body()));
        }
    }

    /** A filter that counts what it sees, and forbids one URL. */
    private Filter guard(String name) {
        return by((request, response, chain) -> {
            seen.add(name + " sees " + request.getRequestURI().replaceAll(".*/", ""));
            if (request.getRequestURI().endsWith("secret")) {
                response.setStatus(403);
            } else {
                chain.doFilter(request, response);
            }
        });
    }

    @ParameterizedTest
    @MethodSource("containers")
    void aFilterSeesRequestsIfItIsMappedWithForward(String name) throws Exception {
        for (boolean isForward : new boolean[] {true, false}) {
            seen.clear();
            container = Container.of(name, "");
            container.filter("batch", usual(), "/odata/$batch", DispatcherType.REQUEST);
            container.filter("guard", guard("guard"), "/*", isForward ? BOTH : new DispatcherType[] {DispatcherType.REQUEST});
            startWithFilter("");
            assertEquals(isForward ? "[403, 403, 204]" : "[204, 204, 204]", statuses(answers(get("secret"), get("secret"), get("x"))));
            assertEquals(isForward, seen.contains("guard sees x"), seen.toString());
            assertEquals(!isForward, seen.contains("GET secret"), seen.toString());
            stop();
        }
    }

    /** Why requests are forwarded: a chain that is called twice may skip the filters after it. */
    @ParameterizedTest
    @MethodSource("containers")
    void allFiltersSeeEachRequest(String name) throws Exception {
        container = Container.of(name, "");
        container.filter("batch", usual(), "/odata/$batch", DispatcherType.REQUEST);
        container.filter("twice", by((request, response, chain) -> {
            chain.doFilter(request, response);
            if (request.getRequestURI().endsWith("twice")) {
                chain.doFilter(request, response);
            }
        }), "/*", DispatcherType.REQUEST);
        container.filter("guard", guard("guard"), "/*", BOTH);
        startWithFilter("");
        http.send(HttpRequest.newBuilder(URI.create(root + "twice")).build(), HttpResponse.BodyHandlers.ofByteArray());
        long called = seen.stream().filter("GET twice"::equals).count(), guarded = seen.stream().filter("guard sees twice"::equals).count();
        assertEquals(2, called);
        assertEquals(name.startsWith("Tomcat") ? 1 : 2, guarded, "the trap is another one now");
        answers(get("a"), get("b"), get("c"));
        assertEquals(3, seen.stream().filter(it -> it.matches("guard sees [abc]")).count(), seen.toString());
    }

    @ParameterizedTest
    @MethodSource("containers")
    void theFilterSaysHowItIsMapped(String name) throws Exception {
        Handler handler = new Handler() {
            @Override
            public void publish(LogRecord record) {
                seen.add(record.getMessage());
            }

            @Override
            public void flush() {}

            @Override
            public void close() {}
        };
        Logger log = Logger.getLogger("odb_batch");
        log.addHandler(handler);
        container = Container.of(name, "");
        container.filter("login", guard("login"), "/*", BOTH);
        container.filter("batch", usual(), "/odata/$batch", DispatcherType.REQUEST);
        startWithFilter("");
        log.removeHandler(handler);
        assertTrue(seen.stream().anyMatch(it -> it.startsWith("answers batches at /odata/$batch.") && it.contains("with FORWARD, too")
            && it.contains("Other filters: [login")), seen.toString());
    }

    /** A client that leaves: its batch is performed, and the next one is answered. */
    @ParameterizedTest
    @MethodSource("containers")
    void aClientMayLeave(String name) throws Exception {
        start(name);
        String batch = "{\"requests\":[" + get("slow") + "," + get("last").replace("ID", "b") + "]}";
        try (Socket socket = new Socket(InetAddress.getLoopbackAddress(), URI.create(root).getPort()); OutputStream out = socket.getOutputStream()) {
            out.write(("POST /odata/$batch HTTP/1.1\r\nHost: localhost\r\nContent-Type: application/json\r\nContent-Length: " + batch.length() + "\r\n\r\n" + batch)
                .getBytes(StandardCharsets.UTF_8));
            out.flush();
        } catch (IOException error) {
            throw new UncheckedIOException(error);
        }
        for (int i = 0; i < 400 && !seen.contains("GET last"); i++) {
            Thread.sleep(50);
        }
        assertTrue(seen.contains("GET last"), seen.toString());
        assertEquals("[204]", statuses(answers(get("x"))));
    }

    /** A body that is cut: its batch is not performed. */
    @ParameterizedTest
    @MethodSource("containers")
    void aCutBatchIsNotPerformed(String name) throws Exception {
        start(name);
        try (Socket socket = new Socket(InetAddress.getLoopbackAddress(), URI.create(root).getPort())) {
            String batch = "{\"requests\":[" + get("x") + "]}";
            socket.getOutputStream().write(("POST /odata/$batch HTTP/1.1\r\nHost: localhost\r\nContent-Type: application/json\r\nContent-Length: 1000\r\n\r\n" + batch)
                .getBytes(StandardCharsets.UTF_8));
        }
        Thread.sleep(300);
        assertEquals(List.of(), seen);
    }

    @ParameterizedTest
    @MethodSource("containers")
    void stopsAtAnErrorUnlessItIsToContinue(String name) throws Exception {
        start(name);
        String batch = "{\"requests\":[" + get("error") + "," + get("x").replace("ID", "b") + "]}";
        assertEquals("[418, 424]", statuses(Odb.responses(posted(root + "$batch", "application/json", batch).body())));
        HttpResponse<byte[]> response = posted(root + "$batch", "application/json", batch, "Prefer", "odata.continue-on-error=\"true\"");
        assertEquals("[418, 204]", statuses(Odb.responses(response.body())));
        assertEquals("continue-on-error", response.headers().firstValue("Preference-Applied").get());
        assertEquals("[418, 424]", statuses(Odb.responses(posted(root + "$batch", "application/json", batch, "Prefer", "continue-on-error=false").body())));
    }
}
