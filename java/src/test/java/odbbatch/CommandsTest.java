package odbbatch;

import static odbbatch.Texts.bytes;
import static odbbatch.Texts.text;
import static org.junit.jupiter.api.Assertions.assertEquals;
import static org.junit.jupiter.api.Assertions.assertFalse;
import static org.junit.jupiter.api.Assertions.assertThrows;
import static org.junit.jupiter.api.Assertions.assertTrue;

import java.util.List;
import java.util.Map;
import java.util.Optional;
import org.junit.jupiter.api.Test;

/** Calls of the library beside the worked cases, which Tries compares. */
class CommandsTest {
    @Test
    void aFaultSaysWhere() {
        byte[] batch = bytes("{\"requests\": [\n  {\"id\":\"a\",\"method\":\"get\",\"url\":\"A\",\"dependsOn\":[\"a\"]}]}");
        FaultException error = assertThrows(FaultException.class, () -> Odb.check(batch));
        assertEquals("F41 ForwardName /requests/0", error.getMessage());
        assertEquals(2, error.fault().line().getAsInt());
        assertEquals(3, error.fault().column().getAsInt());
        assertTrue(error.explanation().startsWith("The request depends on itself"), error.explanation());
        assertFalse(error.explanation().contains("refused:"), error.explanation());
        assertEquals("F02", assertThrows(FaultException.class, () -> Odb.check(new byte[0])).code());
        assertEquals("F02", Odb.faults(new byte[0]).get(0).code());
    }

    @Test
    void aFaultOfASecondDocumentIsThere() {
        FaultException error = assertThrows(FaultException.class, () -> Odb.match(Texts.USUAL, bytes("\n\n [1]"), Mode.CONTINUE, 0));
        assertEquals(3, error.fault().line().getAsInt());
        assertEquals(3, error.fault().offset().getAsInt());
    }

    @Test
    void manyFaultsAreFoundInOneScan() {
        List<Fault> faults = Odb.faults(Texts.many(10_000, "\"atomicityGroup\":1,"));
        assertEquals(10_000, faults.size());
        assertEquals("/requests/9999", faults.get(9_999).place());
        assertTrue(faults.get(9_999).offset().getAsInt() > 400_000);
    }

    @Test
    void explainsCodes() {
        assertTrue(Odb.explain("S4").startsWith("S4 Waiting "), Odb.explain("S4"));
        assertEquals("", Odb.explain("F99"));
        assertEquals("", Odb.explain(""));
    }

    @Test
    void anOptionOutOfRangeIsRefused() {
        assertThrows(IllegalArgumentException.class, () -> Odb.run(Texts.USUAL, bytes("{\"events\":[]}"), Mode.CONTINUE, 0));
        assertThrows(IllegalArgumentException.class, () -> new LiveRun(Texts.USUAL, Mode.CONTINUE, 10_001));
        assertThrows(IllegalArgumentException.class, () -> Odb.names("no such list"));
    }

    @Test
    void headersOfRequestsAreRead() {
        byte[] batch = bytes("{\"requests\":[{\"id\":\"a\",\"method\":\"get\",\"url\":\"A\",\"headers\":"
            + "{\"X-Odd\":\"a\\\"\\\\\\u00e9\\ud83d\\ude00,}\",\"Accept\":\"\"}},{\"id\":\"b\",\"method\":\"get\",\"url\":\"A\"}]}");
        List<Odb.Request> requests = Odb.requests(batch);
        assertEquals(Map.of("x-odd", "a\"\\\u00e9\ud83d\ude00,}", "accept", ""), requests.get(0).headers());
        assertEquals(Map.of(), requests.get(1).headers());
        assertEquals(Optional.empty(), requests.get(0).reference());
        assertEquals(Optional.of("a"), Odb.requests(Texts.USUAL).get(1).reference());
        assertEquals("/Pages", Odb.requests(Texts.USUAL).get(1).rest());
    }

    @Test
    void responsesAreRead() {
        Map<String, Answer> found = Odb.responses(bytes("{\"responses\": [{\"id\":\"b\",\"status\":201,\"headers\":{\"ETag\":\"7\",\"X\":\"1\"},"
            + "\"body\":{\"a\":[\",]}\",1.50]}},{\"id\":\"a\",\"status\":404,\"headers\":{\"Retry-After\":5},\"body\":null},"
            + "{\"id\":\"t\",\"status\":200,\"headers\":{\"content-type\":\"text/plain\"},\"body\":\"a\\n\\u00e9\"},"
            + "{\"id\":\"u\",\"status\":200,\"headers\":{\"content-type\":\"text/plain;charset=iso-8859-1\"},\"body\":\"\\u00e9\"},"
            + "{\"id\":\"v\",\"status\":200,\"headers\":{\"content-type\":\"image/png\"},\"body\":\"-_8\"},"
            + "{\"id\":\"w\",\"status\":200,\"headers\":{\"content-type\":\"image/png\"},\"body\":{\"x\":1}}]}"));
        assertEquals(List.of("b", "a", "t", "u", "v", "w"), List.copyOf(found.keySet()));
        assertEquals("{\"a\":[\",]}\",1.50]}", text(found.get("b").body()));
        assertEquals(Map.of("etag", "7", "x", "1"), found.get("b").headers());
        assertEquals(0, found.get("a").body().length);
        assertEquals("a\n\u00e9", text(found.get("t").body()));
        assertEquals(1, found.get("u").body().length);
        assertEquals(2, found.get("v").body().length);
        assertEquals("{\"x\":1}", text(found.get("w").body()));
    }

    @Test
    void writesJson() {
        assertEquals("\"a\\\"\\\\\\u000a\\u0000\u00e9\"", Bodies.quoted("a\"\\\n\u0000\u00e9"));
        assertEquals("a\"\\\n\u0000\u00e9\u2028", Bodies.string(bytes(Bodies.quoted("a\"\\\n\u0000\u00e9\u2028"))));
        for (String other : new String[] {"", "1", "null", "{\"a\":\"b\"}", "\"a", "\"a\",\"b\":\"c\"", "\"a\"}"}) {
            assertEquals(null, Bodies.string(bytes(other)), other);
        }
    }
}
