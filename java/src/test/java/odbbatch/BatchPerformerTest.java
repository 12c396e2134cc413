package odbbatch;

import static odbbatch.Texts.USUAL;
import static odbbatch.Texts.bytes;
import static odbbatch.Texts.many;
import static odbbatch.Texts.statuses;
import static odbbatch.Texts.text;
import static org.junit.jupiter.api.Assertions.assertEquals;
import static org.junit.jupiter.api.Assertions.assertFalse;
import static org.junit.jupiter.api.Assertions.assertThrows;
import static org.junit.jupiter.api.Assertions.assertTrue;

import java.io.IOException;
import java.net.URI;
import java.util.ArrayList;
import java.util.Collections;
import java.util.List;
import java.util.Map;
import java.util.concurrent.AbstractExecutorService;
import java.util.concurrent.CompletableFuture;
import java.util.concurrent.ConcurrentHashMap;
import java.util.concurrent.CountDownLatch;
import java.util.concurrent.ExecutorService;
import java.util.concurrent.Executors;
import java.util.concurrent.TimeUnit;
import java.util.concurrent.TimeoutException;
import java.util.concurrent.atomic.AtomicBoolean;
import java.util.concurrent.atomic.AtomicInteger;
import org.junit.jupiter.api.Test;
import org.junit.jupiter.api.Timeout;

/** Batches that a function performs, with a width of 1 and of 8. */
@Timeout(60)
class BatchPerformerTest {
    static final URI BASE = URI.create("https://host/odata/");
    static final Answer CREATED = Answer.of(201, Map.of("Location", "/odata/Books(7)", "ETag", "\"7\""), null);

    static BatchPerformer usual(int width) {
        return BatchPerformer.of(USUAL, BASE).width(width);
    }

    static final Object[][] PERFORMED = {
        {Map.of(), "a200 b200 p200 q200 z200", "begin commit"},
        {Map.of("q", 409), "a200 b200 p424 q409 z424", "begin rollback"},
        {Map.of("p", 409), "a200 b200 p409 q424 z424", "begin rollback"},
        {Map.of("a", 1, "q", 1), "a500 b424 p424 q500 z424", "begin rollback"},
        {Map.of("a", 2, "q", 3), "a502 b424 p424 q504 z424", "begin rollback"},
        {Map.of("a", 4, "q", 5), "a503 b424 p424 q502 z424", "begin rollback"},
        {Map.of("a", 6, "q", 7), "a500 b424 p424 q500 z424", "begin rollback"},
    };

    /** What the requests of a table are answered: a status, or an exception by its number. */
    static Answer answered(int status) throws Exception {
        switch (status) {
            case 1:
                throw new IllegalStateException("an error");
            case 2:
                throw new IOException("broken");
            case 3:
                throw new TimeoutException();
            case 4:
                throw new RefusalException(503, "Busy", "try again", null, Map.of("retry-after", "1"));
            case 5:
                return Answer.of(700);
            case 6:
                return null;
            case 7:
                throw new StackOverflowError();
            default:
                return Answer.of(status, Map.of("Location", "/odata/Books(7)"), null);
        }
    }

    @SuppressWarnings("unchecked")
    @Test
    void answersWhatSendReturnsOrThrows() throws Exception {
        for (Object[] it : PERFORMED) {
            for (int width : new int[] {1, 8}) {
                List<String> log = Collections.synchronizedList(new ArrayList<>());
                ThreadLocal<String> bound = new ThreadLocal<>();
                Map<String, String> sent = new ConcurrentHashMap<>();
                byte[] response = usual(width).perform(request -> {
                    sent.put(request.id(), request.url());
                    assertEquals(request.group().orElse(null), bound.get());
                    return answered(((Map<String, Integer>) it[0]).getOrDefault(request.id(), 200));
                }, (group, body) -> logged(log, bound, group, body));
                assertEquals(it[1], statuses(USUAL, response));
                assertEquals(it[2], String.join(" ", log));
                assertEquals("https://host/odata/Books(7)/Pages", sent.getOrDefault("b", "https://host/odata/Books(7)/Pages"));
            }
        }
    }

    private static void logged(List<String> log, ThreadLocal<String> bound, String group, Runnable body) {
        log.add("begin");
        bound.set(group);
        try {
            body.run();
            log.add("commit");
        } catch (RuntimeException error) {
            log.add("rollback");
            throw error;
        } finally {
            bound.remove();
        }
    }

    @Test
    void bodiesPassByteForByte() throws Exception {
        byte[] batch = bytes("{\"requests\":[{\"id\":\"a\",\"method\":\"post\",\"url\":\"A\",\"body\":{\"price\": 9.990}},"
            + "{\"id\":\"t\",\"method\":\"put\",\"url\":\"T\",\"headers\":{\"content-type\":\"text/plain\"},\"body\":\"\\u00e9\\n\"},"
            + "{\"id\":\"i\",\"method\":\"put\",\"url\":\"I\",\"headers\":{\"content-type\":\"image/png\"},\"body\":\"-_8\"},"
            + "{\"id\":\"j\",\"method\":\"get\",\"url\":\"J\"},{\"id\":\"k\",\"method\":\"get\",\"url\":\"K\"}]}");
        Map<String, PreparedRequest> seen = new ConcurrentHashMap<>();
        byte[] response = BatchPerformer.of(batch, BASE).perform(request -> {
            seen.put(request.id(), request);
            switch (request.id()) {
                case "j":
                    return Answer.of(200, Map.of("content-type", "application/json"), bytes("\ufeff[0.10]"));
                case "k":
                    return Answer.of(200, Map.of("content-type", "application/json", "Set-Cookie", "a=b"), bytes("{not JSON"));
                default:
                    return Answer.of(200, Map.of("Content-Type", request.headers().get("content-type")), request.body());
            }
        });
        assertEquals("{\"price\": 9.990}", text(seen.get("a").body()));
        assertEquals("\u00e9\n", text(seen.get("t").body()));
        assertEquals(2, seen.get("i").body().length);
        Map<String, Answer> found = Odb.responses(response);
        assertEquals("{\"price\": 9.990}", text(found.get("a").body()));
        assertEquals("\u00e9\n", text(found.get("t").body()));
        assertEquals(2, found.get("i").body().length);
        assertEquals("[0.10]", text(found.get("j").body()));
        assertEquals("\"{not JSON\"", text(found.get("k").body()));
        assertEquals(Map.of("content-type", "application/json"), found.get("k").headers());
    }

    @Test
    void aBodyThatIsTooLongIsNotShown() throws Exception {
        byte[] batch = bytes("{\"requests\":[{\"id\":\"a\",\"method\":\"get\",\"url\":\"A\"},{\"id\":\"b\",\"method\":\"delete\",\"url\":\"B\"},"
            + "{\"id\":\"c\",\"method\":\"get\",\"url\":\"A\"}]}");
        byte[] response = BatchPerformer.of(batch, BASE).perform(request -> {
            byte[] body = new byte[Odb.MAX_BYTES + (request.id().equals("c") ? 0 : 1)];
            java.util.Arrays.fill(body, (byte) (request.id().equals("c") ? 1 : ' '));
            return Answer.of(200, Map.of(), body);
        });
        assertEquals("a507 b200 c200", statuses(batch, response));
        assertEquals(0, Odb.responses(response).get("c").body().length);
    }

    @Test
    void referencesStandForUrlsAndTags() throws Exception {
        byte[] batch = bytes("{\"requests\":[{\"id\":\"a\",\"method\":\"post\",\"url\":\"A\"},{\"id\":\"n\",\"method\":\"post\",\"url\":\"A\"},"
            + "{\"id\":\"b\",\"method\":\"patch\",\"url\":\"$a\",\"dependsOn\":[\"a\"],\"headers\":{\"If-Match\":\"$a\"},\"body\":{}},"
            + "{\"id\":\"c\",\"method\":\"get\",\"url\":\"$n/C\",\"dependsOn\":[\"n\"]},"
            + "{\"id\":\"d\",\"method\":\"get\",\"url\":\"D\",\"dependsOn\":[\"n\"],\"headers\":{\"If-None-Match\":\"$n\"}},"
            + "{\"id\":\"e\",\"method\":\"get\",\"url\":\"$d/E\",\"dependsOn\":[\"b\"]},"
            + "{\"id\":\"f\",\"method\":\"get\",\"url\":\"E\",\"headers\":{\"If-None-Match\":\"$g\"}},{\"id\":\"g\",\"method\":\"get\",\"url\":\"E\"},"
            + "{\"id\":\"h\",\"method\":\"get\",\"url\":\"../out\"},{\"id\":\"i\",\"method\":\"get\",\"url\":\"https://evil/odata/A\"}]}");
        byte[] valid = bytes(text(batch).replace("\"$d/E\",\"dependsOn\":[\"b\"]", "\"$b/E\",\"dependsOn\":[\"b\"]"));
        Map<String, String> seen = new ConcurrentHashMap<>();
        byte[] response = BatchPerformer.of(valid, BASE).perform(request -> {
            seen.put(request.id(), request.url() + " " + request.headers().getOrDefault("if-match", ""));
            return request.id().equals("a") ? CREATED : Answer.of(200);
        });
        assertEquals("a201 n200 b200 c424 d424 e200 f400 g200 h404 i404", statuses(valid, response));
        assertEquals("https://host/odata/Books(7) \"7\"", seen.get("b"));
        assertEquals("https://host/odata/Books(7)/E ", seen.get("e"));
        assertTrue(text(response).contains("\"NoLocation\"") && text(response).contains("\"NoETag\""), text(response));
    }

    @Test
    void anEmptyLocationIsShownAndIsNone() throws Exception {
        byte[] batch = bytes("{\"requests\":[{\"id\":\"a\",\"method\":\"post\",\"url\":\"A\"},{\"id\":\"b\",\"method\":\"get\",\"url\":\"$a/x\",\"dependsOn\":[\"a\"]},"
            + "{\"id\":\"c\",\"method\":\"get\",\"url\":\"C\",\"dependsOn\":[\"a\"],\"headers\":{\"If-Match\":\"$a\"}}]}");
        byte[] response = BatchPerformer.of(batch, BASE).perform(request -> Answer.of(201, Map.of("Location", "", "ETag", ""), null));
        assertEquals("a201 b424 c424", statuses(batch, response));
        assertTrue(text(response).contains("\"location\":\"\""), text(response));
    }

    @Test
    void aBaseHasToBeOne() {
        for (String base : new String[] {"https://host/odata", "/odata/", "https://host/odata/?x=/", "https://me@host/"}) {
            assertThrows(IllegalArgumentException.class, () -> BatchPerformer.of(many(1, ""), URI.create(base)).perform(it -> CREATED), base);
        }
        assertThrows(IllegalArgumentException.class, () -> BatchPerformer.of(many(1, ""), BASE).roots(URI.create("https://other/")).perform(it -> CREATED));
    }

    @Test
    void whatCannotBePerformedIsNotSent() {
        AtomicInteger count = new AtomicInteger();
        BatchPerformer.Send send = request -> Answer.of(200 + 0 * count.incrementAndGet());
        assertEquals(501, assertThrows(RefusalException.class, () -> usual(1).perform(send)).answer().status());
        assertEquals(413, assertThrows(RefusalException.class, () -> usual(1).limit(4).perform(send, (group, body) -> body.run())).answer().status());
        assertThrows(FaultException.class, () -> BatchPerformer.of(bytes("{}"), BASE).perform(send));
        assertEquals(0, count.get());
    }

    @Test
    void aCommitThatFailsIsTheAnswerToTheLast() throws Exception {
        for (int width : new int[] {1, 8}) {
            byte[] response = usual(width).perform(request -> CREATED, (group, body) -> {
                body.run();
                throw new RefusalException(503, "Busy", "try again");
            });
            assertEquals("a201 b201 p424 q503 z424", statuses(USUAL, response));
        }
    }

    @Test
    void aTransactionThatDoesNotBeginIsTheAnswerToTheFirst() throws Exception {
        for (boolean isThrown : new boolean[] {true, false}) {
            byte[] response = usual(1).perform(request -> CREATED, (group, body) -> {
                if (isThrown) {
                    throw new IOException("no database");
                }
            });
            assertEquals(isThrown ? "a201 b201 p502 q424 z424" : "a201 b201 p500 q424 z424", statuses(USUAL, response));
        }
    }

    @Test
    void aTransactionThatRunsItsBodyTwiceFails() throws Exception {
        byte[] response = usual(1).perform(request -> CREATED, (group, body) -> {
            body.run();
            body.run();
        });
        assertEquals("a201 b201 p424 q500 z424", statuses(USUAL, response));
    }

    @Test
    void whatNeedsAGroupStartsAfterItsCommit() throws Exception {
        for (int width : new int[] {1, 8}) {
            AtomicBoolean isCommitted = new AtomicBoolean();
            byte[] response = usual(width).perform(request -> {
                assertTrue(!request.id().equals("z") || isCommitted.get());
                return CREATED;
            }, (group, body) -> {
                body.run();
                Thread.sleep(20);
                isCommitted.set(true);
            });
            assertEquals("a201 b201 p201 q201 z201", statuses(USUAL, response));
        }
    }

    @Test
    void stopsAfterAnError() throws Exception {
        for (int width : new int[] {1, 8}) {
            AtomicInteger count = new AtomicInteger();
            byte[] batch = many(1000, "");
            byte[] response = BatchPerformer.of(batch, BASE).mode(Mode.STOP).width(width).perform(request -> Answer.of(count.incrementAndGet() == 5 ? 500 : 200));
            assertTrue(count.get() < 5 + 2 * width, () -> count + " were sent");
            assertEquals(1, Odb.match(batch, response, Mode.STOP, 1).values().stream().filter(it -> it == 500).count());
        }
    }

    @Test
    void stopsWhenItIsAsked() throws Exception {
        for (int width : new int[] {1, 8}) {
            AtomicInteger count = new AtomicInteger();
            byte[] batch = many(1000, "");
            byte[] response = BatchPerformer.of(batch, BASE).width(width).stop(() -> count.get() >= 10).perform(request -> Answer.of(200 + 0 * count.incrementAndGet()));
            assertTrue(count.get() < 10 + width, () -> count + " were sent");
            assertTrue(Odb.match(batch, response, Mode.CONTINUE, 0).values().stream().filter(it -> it == 424).count() > 900);
        }
    }

    @Test
    void tenThousandAnswersAtOnce() throws Exception {
        byte[] apart = many(10_000, "");
        byte[] group = many(10_000, "\"atomicityGroup\":\"g\",");
        for (int width : new int[] {1, 8, 100}) {
            assertEquals(10_000, Odb.match(apart, BatchPerformer.of(apart, BASE).width(width).perform(it -> Answer.of(204)), Mode.CONTINUE, 1).size());
            byte[] response = BatchPerformer.of(group, BASE).width(width).perform(it -> Answer.of(204), (name, body) -> body.run());
            assertEquals(10_000, Odb.match(group, response, Mode.CONTINUE, 1).size());
        }
    }

    @Test
    void asManyAtOnceAsTheWidth() throws Exception {
        for (int width : new int[] {1, 3, 8}) {
            AtomicInteger now = new AtomicInteger(), most = new AtomicInteger();
            BatchPerformer.of(many(600, ""), BASE).width(width).perform(request -> {
                most.accumulateAndGet(now.incrementAndGet(), Math::max);
                Thread.sleep(1);
                now.decrementAndGet();
                return Answer.of(200);
            });
            assertEquals(width, most.get());
        }
    }

    /** Between two requests of a group fewer requests are running than units: no other unit may begin then. */
    @Test
    void asManyGroupsAtOnceAsTheWidth() throws Exception {
        StringBuilder text = new StringBuilder();
        for (int i = 0; i < 600; i++) {
            text.append(i == 0 ? "" : ",").append("{\"id\":\"r" + i + "\",\"atomicityGroup\":\"g" + i / 3 + "\",\"method\":\"delete\",\"url\":\"A\"}");
        }
        byte[] batch = bytes("{\"requests\":[" + text + "]}");
        for (int width : new int[] {1, 3, 8}) {
            AtomicInteger now = new AtomicInteger(), most = new AtomicInteger();
            byte[] response = BatchPerformer.of(batch, BASE).width(width).perform(request -> {
                Thread.sleep(1);
                return Answer.of(204);
            }, (group, body) -> {
                most.accumulateAndGet(now.incrementAndGet(), Math::max);
                body.run();
                now.decrementAndGet();
            });
            assertEquals(600, Odb.match(batch, response, Mode.CONTINUE, 1).values().stream().filter(it -> it == 204).count());
            assertEquals(width, most.get());
        }
    }

    @Test
    void aPoolMayBeFullOrShutDown() throws Exception {
        ExecutorService full = Executors.newFixedThreadPool(1);
        CountDownLatch end = new CountDownLatch(1);
        full.execute(() -> assertTrue(waited(end)));
        ExecutorService ended = Executors.newFixedThreadPool(4);
        ended.shutdownNow();
        byte[] batch = many(100, "");
        for (ExecutorService pool : List.of(full, ended)) {
            byte[] response = BatchPerformer.of(batch, BASE).width(8).pool(pool).perform(it -> Answer.of(204));
            assertEquals(100, Odb.match(batch, response, Mode.CONTINUE, 1).size());
        }
        end.countDown();
        full.shutdown();
        assertTrue(full.awaitTermination(10, TimeUnit.SECONDS));
    }

    @Test
    void aPoolMayFail() throws Exception {
        byte[] batch = many(100, "");
        BatchPerformer few = BatchPerformer.of(batch, BASE).width(8).pool(failing(new OutOfMemoryError("unable to create native thread")));
        assertEquals(100, Odb.match(batch, few.perform(it -> Answer.of(204)), Mode.CONTINUE, 1).size());
        IllegalStateException broken = new IllegalStateException("broken");
        BatchPerformer none = BatchPerformer.of(batch, BASE).width(8).pool(failing(broken));
        assertEquals(broken, assertThrows(IllegalStateException.class, () -> none.perform(it -> Answer.of(204))));
    }

    /** A pool that throws. */
    private static ExecutorService failing(Throwable error) {
        return new AbstractExecutorService() {
            @Override
            public void execute(Runnable task) {
                if (error instanceof Error) {
                    throw (Error) error;
                }
                throw (RuntimeException) error;
            }

            @Override
            public void shutdown() {}

            @Override
            public List<Runnable> shutdownNow() {
                return List.of();
            }

            @Override
            public boolean isShutdown() {
                return false;
            }

            @Override
            public boolean isTerminated() {
                return false;
            }

            @Override
            public boolean awaitTermination(long timeout, TimeUnit unit) {
                return false;
            }
        };
    }

    private static boolean waited(CountDownLatch latch) {
        try {
            return latch.await(30, TimeUnit.SECONDS);
        } catch (InterruptedException error) {
            return false;
        }
    }

    @Test
    void isInterrupted() throws Exception {
        for (int width : new int[] {1, 8}) {
            AtomicInteger count = new AtomicInteger(), busy = new AtomicInteger();
            CountDownLatch begun = new CountDownLatch(20);
            CompletableFuture<Throwable> ended = new CompletableFuture<>();
            Thread thread = new Thread(() -> ended.complete(assertThrows(Throwable.class, () ->
                BatchPerformer.of(many(1000, ""), BASE).width(width).perform(request -> {
                    count.incrementAndGet();
                    busy.incrementAndGet();
                    begun.countDown();
                    try {
                        Thread.sleep(begun.getCount() > 0 ? 2 : 30_000);
                    } finally {
                        busy.decrementAndGet();
                    }
                    return Answer.of(200);
                }))));
            thread.start();
            begun.await();
            thread.interrupt();
            assertTrue(ended.get(5, TimeUnit.SECONDS) instanceof InterruptedException, () -> String.valueOf(ended.join()));
            assertEquals(0, busy.get());
            assertTrue(count.get() <= 20 + width, () -> count + " were sent");
        }
    }

    @Test
    void anInterruptRollsBack() throws Exception {
        byte[] group = many(100, "\"atomicityGroup\":\"g\",");
        for (int width : new int[] {1, 8}) {
            List<String> log = Collections.synchronizedList(new ArrayList<>());
            CountDownLatch begun = new CountDownLatch(3);
            CompletableFuture<Throwable> ended = new CompletableFuture<>();
            Thread thread = new Thread(() -> ended.complete(assertThrows(Throwable.class, () ->
                BatchPerformer.of(group, BASE).width(width).perform(request -> {
                    begun.countDown();
                    Thread.sleep(20);
                    return Answer.of(200);
                }, (name, body) -> logged(log, new ThreadLocal<>(), name, body)))));
            thread.start();
            begun.await();
            thread.interrupt();
            assertTrue(ended.get(5, TimeUnit.SECONDS) instanceof InterruptedException);
            assertEquals(List.of("begin", "rollback"), log);
            assertTrue(begun.getCount() == 0);
        }
    }

    @Test
    void threadsOfThePoolAreNotLeftInterrupted() throws Exception {
        ExecutorService pool = Executors.newFixedThreadPool(4);
        CountDownLatch begun = new CountDownLatch(4);
        Thread thread = new Thread(() -> assertThrows(InterruptedException.class, () ->
            BatchPerformer.of(many(100, ""), BASE).width(4).pool(pool).perform(request -> {
                begun.countDown();
                Thread.sleep(10_000);
                return Answer.of(200);
            })));
        thread.start();
        begun.await();
        thread.interrupt();
        thread.join(5_000);
        assertFalse(thread.isAlive());
        for (int i = 0; i < 4; i++) {
            assertFalse(pool.submit(() -> Thread.currentThread().isInterrupted()).get());
        }
        pool.shutdown();
    }

    @Test
    void aFunctionThatFailsEndsTheBatch() {
        for (int width : new int[] {1, 8}) {
            AtomicInteger count = new AtomicInteger();
            IllegalStateException error = assertThrows(IllegalStateException.class, () -> BatchPerformer.of(many(100, ""), BASE).width(width).stop(() -> {
                if (count.get() > 5) {
                    throw new IllegalStateException("the stop");
                }
                return false;
            }).perform(request -> Answer.of(200 + 0 * count.incrementAndGet())));
            assertEquals("the stop", error.getMessage());
        }
    }
}
