package odbbatch;

import static odbbatch.Texts.bytes;
import static odbbatch.Texts.many;
import static odbbatch.Texts.text;
import static org.junit.jupiter.api.Assertions.assertEquals;
import static org.junit.jupiter.api.Assertions.assertThrows;
import static org.junit.jupiter.api.Assertions.assertTrue;

import java.io.IOException;
import java.nio.file.Files;
import java.nio.file.Path;
import java.util.ArrayList;
import java.util.List;
import java.util.Map;
import java.util.NoSuchElementException;
import java.util.Optional;
import java.util.concurrent.atomic.AtomicInteger;
import java.util.concurrent.atomic.AtomicReference;
import org.junit.jupiter.api.Test;

/** Live runs: what they refuse, their memory, and threads. Tries compares their answers. */
class LiveRunTest {
    static int resident() throws IOException {
        return Files.readAllLines(Path.of("/proc/self/status")).stream().filter(it -> it.startsWith("VmRSS"))
            .map(it -> Integer.parseInt(it.split("\\s+")[1])).findFirst().get();
    }

    static void forget() {
        new LiveRun(Texts.USUAL, Mode.CONTINUE, 8).start("a");
    }

    static void collect() throws InterruptedException {
        for (int i = 0; i < 100 && LiveRun.OPEN.get() > 0; i++) {
            System.gc();
            Thread.sleep(20);
        }
    }

    @Test
    void forgottenRunsAreFreed() throws Exception {
        for (int i = 0; i < 1000; i++) {
            forget();
        }
        collect();
        int before = resident();
        for (int i = 0; i < 10_000; i++) {
            forget();
            if (i % 1000 == 0) {
                System.gc();
            }
        }
        collect();
        assertEquals(0, LiveRun.OPEN.get());
        assertTrue(resident() < before + 250_000, () -> "memory has grown from " + before + " KiB");
    }

    @Test
    void aRefusedRunIsNotOpened() throws Exception {
        collect();
        assertThrows(FaultException.class, () -> new LiveRun(bytes("{}"), Mode.CONTINUE, 8));
        assertEquals(0, LiveRun.OPEN.get());
    }

    @Test
    void closingTwiceIsClosingOnce() {
        LiveRun run = new LiveRun(Texts.USUAL, Mode.CONTINUE, 8);
        int before = LiveRun.OPEN.get();
        run.close();
        run.close();
        assertEquals(before - 1, LiveRun.OPEN.get());
        assertThrows(IllegalStateException.class, run::ready);
        assertThrows(IllegalStateException.class, run::response);
    }

    @Test
    void aUnitStartsAsAWhole() {
        try (LiveRun run = new LiveRun(Texts.USUAL, Mode.CONTINUE, 8)) {
            run.startUnit("q");
            assertEquals(List.of("p", "q"), run.running());
        }
    }

    @Test
    void refusesWhatMayNotCome() {
        try (LiveRun run = new LiveRun(Texts.USUAL, Mode.CONTINUE, 1)) {
            RefusedException early = assertThrows(RefusedException.class, () -> run.start("b"));
            assertEquals("S4 Waiting b", early.getMessage());
            assertEquals("b", early.id());
            assertTrue(early.explanation().startsWith("Something that the request depends on"), early.explanation());
            run.start("a");
            assertEquals("S5", assertThrows(RefusedException.class, () -> run.startUnit("p")).code());
            assertEquals("P1", assertThrows(RefusedException.class, () -> run.report("b", 200, null, null)).code());
            assertEquals("P2", assertThrows(RefusedException.class, () -> run.report("a", -5, null, null)).code());
            FaultException fault = assertThrows(FaultException.class, () -> run.report("a", 200, Map.of(), bytes("{")));
            assertEquals("F02 NotJson report", fault.getMessage());
            assertTrue(fault.fault().line().isEmpty());
            assertEquals("F66", assertThrows(FaultException.class, run::undone).code());
            assertEquals("F66", assertThrows(FaultException.class, run::response).code());
            assertThrows(NoSuchElementException.class, () -> run.start("no"));
        }
    }

    @Test
    void givesPartsThatGoOn() {
        try (LiveRun run = new LiveRun(Texts.USUAL, Mode.CONTINUE, 8)) {
            assertThrows(IllegalArgumentException.class, () -> run.part(0));
            assertThrows(IllegalArgumentException.class, () -> run.part(1));
            LiveRun.Part first = run.part(3).get();
            assertEquals(List.of("a", "b"), first.ids().subList(0, 2));
            for (String id : first.ids()) {
                run.startUnit(id);
                run.report(id, 201, Map.of("location", "/Books(7)"), null);
            }
            LiveRun.Part second = run.part(3).get();
            assertEquals(List.of("p", "q", "z"), second.ids());
            assertEquals(3, Odb.check(second.document()).requests());
            assertEquals(Optional.empty(), run.part(3));
        }
        byte[] pair = bytes("{\"requests\":[{\"id\":\"a\",\"method\":\"post\",\"url\":\"A\"},{\"id\":\"b\",\"method\":\"get\",\"url\":\"$a/B\",\"dependsOn\":[\"a\"]}]}");
        try (LiveRun run = new LiveRun(pair, Mode.CONTINUE, 8)) {
            run.part(1);
            run.start("a");
            run.report("a", 201, null, null);
            assertEquals("F90", assertThrows(FaultException.class, () -> run.part(1)).code());
        }
    }

    @Test
    void repeatsBodies() {
        byte[] batch = many(1, "");
        try (LiveRun run = new LiveRun(batch, Mode.CONTINUE, 8)) {
            run.start("r0");
            run.report("r0", 200, Map.of("A", "\u00e9\"\\\n"), bytes("[0.10,  1e99]"));
            assertEquals("{\"responses\":[{\"body\":[0.10,  1e99],\"headers\":{\"a\":\"\u00e9\\\"\\\\\\n\"},\"id\":\"r0\",\"status\":200}]}", text(run.response()));
        }
    }

    @Test
    void threadsShareARun() throws Exception {
        byte[] batch = many(4000, "");
        LiveRun run = new LiveRun(batch, Mode.CONTINUE, 10_000);
        AtomicInteger started = new AtomicInteger();
        List<Thread> threads = new ArrayList<>();
        for (int i = 0; i < 16; i++) {
            threads.add(new Thread(() -> {
                for (List<String> ready; !(ready = run.ready()).isEmpty();) {
                    ready.forEach(id -> startAndReport(run, id, started));
                }
            }));
        }
        threads.forEach(Thread::start);
        for (Thread it : threads) {
            it.join(60_000);
        }
        assertEquals(4000, started.get());
        assertEquals(4000, Odb.match(batch, run.response(), Mode.CONTINUE, 1).size());
        run.close();
    }

    private static void startAndReport(LiveRun run, String id, AtomicInteger started) {
        try {
            run.start(id);
        } catch (RefusedException error) {
            return; // another thread has started it
        }
        started.incrementAndGet();
        run.report(id, 200, null, bytes("{}"));
    }

    @Test
    void closesUnderBusyThreads() throws Exception {
        long begun = System.nanoTime();
        AtomicReference<Throwable> wrong = new AtomicReference<>();
        for (int i = 0; i < 200; i++) {
            LiveRun run = new LiveRun(many(50, ""), Mode.CONTINUE, 8);
            List<Thread> threads = new ArrayList<>();
            for (int k = 0; k < 8; k++) {
                boolean isClosing = k == 3;
                threads.add(new Thread(() -> callUntilClosed(run, isClosing, wrong)));
            }
            threads.forEach(Thread::start);
            for (Thread it : threads) {
                it.join(60_000);
                assertTrue(!it.isAlive(), "a thread does not see that the run is closed");
            }
        }
        assertEquals(null, wrong.get());
        assertTrue(System.nanoTime() - begun < 60_000_000_000L, "closing waits for busy threads");
    }

    private static void callUntilClosed(LiveRun run, boolean isClosing, AtomicReference<Throwable> wrong) {
        try {
            if (isClosing) {
                run.close();
            }
            for (;;) {
                run.ready();
            }
        } catch (IllegalStateException closed) {
            return;
        } catch (Throwable error) {
            wrong.set(error);
        }
    }
}
