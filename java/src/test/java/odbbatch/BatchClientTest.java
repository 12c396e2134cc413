package odbbatch;

import static odbbatch.Texts.bytes;
import static odbbatch.Texts.text;
import static org.junit.jupiter.api.Assertions.assertEquals;
import static org.junit.jupiter.api.Assertions.assertFalse;
import static org.junit.jupiter.api.Assertions.assertThrows;
import static org.junit.jupiter.api.Assertions.assertTrue;

import com.sun.net.httpserver.HttpExchange;
import com.sun.net.httpserver.HttpServer;
import java.io.IOException;
import java.io.OutputStream;
import java.net.InetAddress;
import java.net.InetSocketAddress;
import java.net.URI;
import java.net.http.HttpClient;
import java.net.http.HttpTimeoutException;
import java.time.Duration;
import java.util.ArrayList;
import java.util.Collections;
import java.util.List;
import java.util.Map;
import java.util.concurrent.ExecutorService;
import java.util.concurrent.Executors;
import java.util.concurrent.atomic.AtomicInteger;
import org.junit.jupiter.api.AfterEach;
import org.junit.jupiter.api.BeforeEach;
import org.junit.jupiter.api.Test;
import org.junit.jupiter.api.Timeout;

/** The client, over a service of this process that answers well, and one that does not. */
@Timeout(60)
class BatchClientTest {
    private final HttpClient http = HttpClient.newHttpClient();
    private final ExecutorService threads = Executors.newCachedThreadPool();
    private final List<List<String>> parts = Collections.synchronizedList(new ArrayList<>()); // what each has sent, by ids
    private final List<String> seen = Collections.synchronizedList(new ArrayList<>());
    private volatile String received; // headers of the last part
    private HttpServer server;
    private BatchClient client;

    @BeforeEach
    void start() throws IOException {
        server = HttpServer.create(new InetSocketAddress(InetAddress.getLoopbackAddress(), 0), 0);
        server.setExecutor(threads);
        server.start();
        client = new BatchClient(http, URI.create("http://localhost:" + server.getAddress().getPort() + "/odata/$batch")).timeout(Duration.ofSeconds(10));
    }

    @AfterEach
    void stop() {
        server.stop(0);
        threads.shutdownNow();
    }

    private interface Handler {
        void handle(HttpExchange exchange, byte[] batch) throws Exception;
    }

    private void serve(Handler handler) {
        server.createContext("/odata/", exchange -> {
            byte[] batch = exchange.getRequestBody().readAllBytes();
            List<String> ids = new ArrayList<>();
            Odb.requests(batch).forEach(it -> ids.add(it.id()));
            parts.add(ids);
            received = exchange.getRequestHeaders().getFirst("X-A") + " " + exchange.getRequestHeaders().get("Prefer") + " "
                + exchange.getRequestHeaders().getFirst("Content-Type");
            try {
                handler.handle(exchange, batch);
            } catch (Exception error) {
                seen.add(error.toString());
            }
            exchange.close();
        });
    }

    private static void reply(HttpExchange exchange, int status, byte[] body) throws IOException {
        exchange.sendResponseHeaders(status, body.length == 0 ? -1 : body.length);
        exchange.getResponseBody().write(body);
    }

    /** Answers batches well: each POST creates what its id says. */
    private void serveWell() {
        AtomicInteger number = new AtomicInteger();
        serve((exchange, batch) -> reply(exchange, 200, BatchPerformer.of(batch, URI.create("http://localhost/odata/")).perform(request -> {
            seen.add(request.id() + " " + request.url() + " " + request.headers().getOrDefault("if-match", ""));
            return request.method().equals("POST") ? Answer.of(201, Map.of(request.id().equals("o") ? "OData-EntityId" : "location", "/odata/E(" + request.id() + ")", "etag", "W/\"" + number.incrementAndGet() + "\""), null)
                : request.url().endsWith("Busy") ? Answer.of(503) : request.url().endsWith("Wrong") ? Answer.of(404) : Answer.of(200, Map.of(), bytes("{\"x\":1.50}"));
        }, (group, body) -> body.run())));
    }

    @Test
    void sendsOneDocument() {
        serveWell();
        Batch batch = new Batch();
        Batch.Name order = batch.post("Orders", "{}").add();
        Batch.Name list = batch.get(order + "/Lines").add();
        BatchResults results = client.header("X-A", "7").header("Prefer", "return=minimal").send(batch);
        assertEquals("7 [return=minimal, continue-on-error] application/json", received);
        assertEquals(List.of(List.of("1", "2")), parts);
        assertEquals("{\"x\":1.50}", text(results.require(list).body()));
        assertEquals("/odata/E(1)", results.get("1").headers().get("location"));
        assertTrue(results.error().isEmpty());
        assertEquals("{\"requests\":[]}", text(results.rest()));
        assertThrows(java.util.NoSuchElementException.class, () -> results.get("no"));
    }

    @Test
    void sendsParts() {
        serveWell();
        Batch batch = new Batch();
        Batch.Name order = batch.post("Orders", "{}").id("o").add();
        Batch.Name paid = batch.group(() -> {
            for (int i = 0; i < 3; i++) {
                batch.post(order + "/Lines", "{}").ifMatch(order).add();
            }
        });
        batch.get("Wrong").id("w").add();
        batch.get(order).after(paid).id("list").add();
        batch.get("A").after(new Batch.Name[] {batch.get("Wrong").id("w2").add()}).id("skipped").add();
        assertThrows(IllegalArgumentException.class, () -> client.limit(2).send(batch));
        assertEquals(List.of(), parts);
        BatchResults results = client.limit(3).send(batch);
        assertEquals(List.of(List.of("o"), List.of("2", "3", "4"), List.of("w", "list", "w2")), parts);
        assertTrue(seen.contains("2 http://localhost/odata/E(o)/Lines W/\"1\""), seen.toString());
        assertTrue(seen.contains("list http://localhost/odata/E(o) "), seen.toString());
        assertEquals("{o=201, 2=201, 3=201, 4=201, w=404, list=200, w2=404, skipped=424}", shown(results));
        assertEquals("w 404 ", assertThrows(IllegalStateException.class, () -> results.require(new BatchNames().name("w"))).getMessage());
    }

    /** Names of requests of any batch. */
    private static final class BatchNames {
        Batch.Name name(String id) {
            return new Batch().get("A").id(id).add();
        }
    }

    private static String shown(BatchResults results) {
        Map<String, Integer> found = new java.util.LinkedHashMap<>();
        results.all().forEach((id, answer) -> found.put(id, answer.status()));
        return found.toString();
    }

    @Test
    void whatIsLeftIsSentAgain() {
        serveWell();
        Batch batch = new Batch();
        Batch.Name order = batch.post("Orders", "{}").id("o").add();
        batch.get("Busy").after(order).id("busy").add();
        batch.patch(order, "{}").ifMatch(order).after(batch.get("Busy").id("b2").add()).id("mark").add();
        BatchResults results = client.send(batch);
        assertEquals("{o=201, busy=503, b2=503, mark=424}", shown(results));
        assertEquals("{\"requests\":[{\"id\":\"busy\",\"method\":\"get\",\"url\":\"Busy\"},{\"id\":\"b2\",\"method\":\"get\",\"url\":\"Busy\"},"
            + "{\"body\":{},\"dependsOn\":[\"b2\"],\"headers\":{\"content-type\":\"application/json\",\"if-match\":\"W/\\\"1\\\"\"},\"id\":\"mark\",\"method\":\"patch\",\"url\":\"/odata/E(o)\"}]}",
            text(results.rest()));
        assertEquals("{busy=503, b2=503, mark=424}", shown(client.send(results.rest())));
    }

    @Test
    void aPartThatFailsEndsTheBatch() {
        AtomicInteger count = new AtomicInteger();
        for (Object[] it : new Object[][] {
            {401, "{r0=200, r1=401, r2=424}", IOException.class}, {500, "{r0=200, r1=500, r2=424}", IOException.class},
            {0, "{r0=200, r1=502, r2=424}", IOException.class}, {1, "{r0=200, r1=502, r2=424}", FaultException.class},
            {2, "{r0=200, r1=502, r2=424}", FaultException.class}}) {
            count.set(0);
            parts.clear();
            serve((exchange, batch) -> {
                int status = (Integer) it[0];
                if (count.getAndIncrement() == 0) {
                    reply(exchange, 200, BatchPerformer.of(batch, URI.create("http://h/")).perform(request -> Answer.of(200)));
                } else if (status > 2) {
                    reply(exchange, status, bytes("{\"error\":{}}"));
                } else if (status > 0) {
                    reply(exchange, 200, bytes(status == 1 ? "<html>" : "{\"responses\":[{\"id\":\"other\",\"status\":200}]}"));
                } else {
                    exchange.sendResponseHeaders(200, 100); // and no body
                }
            });
            BatchResults results = client.limit(1).send(Texts.many(3, ""));
            assertEquals(it[1], shown(results));
            assertTrue(((Class<?>) it[2]).isInstance(results.error().get()), results.error().toString());
            assertEquals(2, parts.size());
            int left = (Integer) it[0] == 401 || (Integer) it[0] == 500 ? 1 : 2; // reads without an answer may be sent again
            assertEquals(left, Odb.check(results.rest()).requests());
            server.removeContext("/odata/");
        }
    }

    @Test
    void aServiceThatHangsTakesTheTimeout() {
        for (boolean hasHead : new boolean[] {false, true}) {
            serve((exchange, batch) -> {
                if (hasHead) {
                    exchange.sendResponseHeaders(200, 0);
                    exchange.getResponseBody().write('{');
                    exchange.getResponseBody().flush();
                }
                Thread.sleep(20_000);
            });
            long begun = System.nanoTime();
            BatchResults results = client.timeout(Duration.ofMillis(300)).send(Texts.many(2, ""));
            assertTrue(System.nanoTime() - begun < 5_000_000_000L);
            assertEquals("{r0=504, r1=504}", shown(results));
            assertTrue(results.error().get() instanceof HttpTimeoutException, results.error().toString());
            server.removeContext("/odata/");
        }
    }

    @Test
    void aBodyWithoutEndIsCutOff() throws Exception {
        AtomicInteger written = new AtomicInteger();
        serve((exchange, batch) -> {
            exchange.sendResponseHeaders(200, 0);
            OutputStream body = exchange.getResponseBody();
            for (byte[] part = new byte[65_536]; written.get() < 4000; written.incrementAndGet()) {
                body.write(part);
            }
        });
        BatchResults results = client.send(Texts.many(1, ""));
        assertEquals("{r0=502}", shown(results));
        assertTrue(results.error().get().getMessage().contains("more than 16777216 bytes"), results.error().toString());
        Thread.sleep(200);
        assertTrue(written.get() < 2000, () -> written + " parts were taken");
    }

    @Test
    void anInterruptEndsTheBatch() throws Exception {
        for (boolean hasHead : new boolean[] {false, true}) {
            parts.clear();
            serve((exchange, batch) -> {
                if (hasHead) {
                    exchange.sendResponseHeaders(200, 0);
                    exchange.getResponseBody().write('{');
                    exchange.getResponseBody().flush();
                }
                Thread.sleep(20_000);
            });
            List<Object> found = Collections.synchronizedList(new ArrayList<>());
            Thread thread = new Thread(() -> {
                BatchResults results = client.limit(1).send(Texts.many(2, ""));
                found.add(Thread.interrupted());
                found.add(shown(results));
            });
            thread.start();
            while (parts.isEmpty()) {
                Thread.sleep(10);
            }
            Thread.sleep(200);
            thread.interrupt();
            thread.join(5_000);
            assertFalse(thread.isAlive());
            assertEquals(List.of(true, "{r0=504, r1=424}"), found);
            server.removeContext("/odata/");
        }
    }

    @Test
    void aStatusThatIsNotFinalIsNone() {
        serve((exchange, batch) -> reply(exchange, 200, bytes("{\"responses\":[{\"id\":\"r0\",\"status\":100}]}")));
        BatchResults results = client.send(Texts.many(1, ""));
        assertEquals("{r0=100}", shown(results));
        assertEquals(1, Odb.check(results.rest()).requests());
        assertEquals("{}", shown(client.send(Texts.many(0, ""))));
    }

    @Test
    void nobodyListens() {
        server.stop(0);
        BatchResults results = client.send(Texts.many(1, ""));
        assertEquals("{r0=502}", shown(results));
        assertTrue(results.error().get() instanceof java.net.ConnectException, results.error().toString());
    }

    @Test
    void stopsWithTheService() {
        serve((exchange, batch) -> {
            seen.add(String.valueOf(exchange.getRequestHeaders().getFirst("Prefer")));
            reply(exchange, 200, bytes("{\"responses\":[{\"id\":\"r0\",\"status\":200},{\"id\":\"r1\",\"status\":404}]}"));
        });
        BatchResults results = client.limit(3).mode(Mode.STOP).send(Texts.many(5, ""));
        assertEquals("{r0=200, r1=404, r2=424, r3=424, r4=424}", shown(results));
        assertEquals(List.of("null"), seen);
        assertEquals(1, parts.size());
        assertTrue(results.error().isEmpty());
        assertEquals(3, Odb.check(results.rest()).requests());
    }

    @Test
    void anETagThatIsMissingEndsTheBatch() {
        serve((exchange, batch) -> reply(exchange, 200, BatchPerformer.of(batch, URI.create("http://h/")).perform(request -> Answer.of(200))));
        Batch batch = new Batch();
        Batch.Name first = batch.get("A").add();
        batch.delete("B").ifMatch(first).add();
        BatchResults results = client.limit(1).send(batch);
        assertEquals("{1=200, 2=424}", shown(results));
        assertEquals("F91", ((FaultException) results.error().get()).code());
        assertEquals("F91", assertThrows(FaultException.class, results::rest).code());
    }

    @Test
    void aLocationThatIsMissingEndsTheBatch() {
        serve((exchange, batch) -> reply(exchange, 200, BatchPerformer.of(batch, URI.create("http://h/")).perform(request -> Answer.of(201))));
        Batch batch = new Batch();
        Batch.Name first = batch.post("A", "{}").add();
        batch.get(first + "/B").add();
        BatchResults results = client.limit(1).send(batch);
        assertEquals("{1=201, 2=424}", shown(results));
        assertEquals("F90", ((FaultException) results.error().get()).code());
    }

    @Test
    void anEmptyLocationIsNone() {
        for (String place : new String[] {"", "/odata/A(1)"}) {
            serve((exchange, batch) -> reply(exchange, 200, BatchPerformer.of(batch, URI.create("http://localhost/odata/")).perform(request -> {
                seen.add(request.url());
                return Answer.of(201, Map.of("Location", "", "OData-EntityId", place), null);
            })));
            Batch batch = new Batch();
            Batch.Name first = batch.post("A", "{}").add();
            batch.get(first + "/B").add();
            BatchResults results = client.limit(1).send(batch);
            assertEquals(place.isEmpty() ? "{1=201, 2=424}" : "{1=201, 2=201}", shown(results));
            assertEquals(!place.isEmpty(), results.error().isEmpty());
            if (place.isEmpty()) {
                assertEquals("F90", assertThrows(FaultException.class, results::rest).code());
            }
            server.removeContext("/odata/");
        }
        assertEquals(List.of("http://localhost/odata/A", "http://localhost/odata/A", "http://localhost/odata/A(1)/B"), seen);
    }

    @Test
    void aRequestHasBounds() throws Exception {
        server.createContext("/slow", exchange -> {
            exchange.sendResponseHeaders(200, 0);
            exchange.getResponseBody().flush();
            try {
                Thread.sleep(20_000);
            } catch (InterruptedException error) {
                exchange.close();
            }
        });
        URI base = URI.create("http://localhost:" + server.getAddress().getPort() + "/");
        byte[] batch = bytes("{\"requests\":[{\"id\":\"a\",\"method\":\"get\",\"url\":\"slow\"},{\"id\":\"b\",\"method\":\"get\",\"url\":\"a%zz\"},"
            + "{\"id\":\"c\",\"method\":\"get\",\"url\":\"none\",\"headers\":{\"Host\":\"evil\",\"X-A\":\"1\"}},"
            + "{\"id\":\"d\",\"method\":\"get\",\"url\":\"none\",\"headers\":{\"X-A\":\"1\\n2\"}}]}");
        byte[] response = BatchPerformer.of(batch, base).perform(request -> request.send(http, Duration.ofMillis(300)));
        assertEquals("a504 b400 c404 d400", Texts.statuses(batch, response));
    }
}
