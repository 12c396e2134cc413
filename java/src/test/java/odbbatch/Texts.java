package odbbatch;

import java.nio.charset.StandardCharsets;

/** Batches of the tests. */
final class Texts {
    /** A request that refers to another one, a group, and a request that depends on the group. */
    static final byte[] USUAL = bytes("{\"requests\":[{\"id\":\"a\",\"method\":\"post\",\"url\":\"Books\",\"body\":{\"price\":9.990}},"
        + "{\"id\":\"b\",\"method\":\"get\",\"url\":\"$a/Pages\",\"dependsOn\":[\"a\"]},"
        + "{\"id\":\"p\",\"method\":\"patch\",\"url\":\"Books(1)\",\"atomicityGroup\":\"g\",\"body\":{}},"
        + "{\"id\":\"q\",\"method\":\"delete\",\"url\":\"Books(2)\",\"atomicityGroup\":\"g\"},"
        + "{\"id\":\"z\",\"method\":\"get\",\"url\":\"Books\",\"dependsOn\":[\"g\"]}]}");

    private Texts() {}

    static byte[] bytes(String text) {
        return text.getBytes(StandardCharsets.UTF_8);
    }

    static String text(byte[] bytes) {
        return new String(bytes, StandardCharsets.UTF_8);
    }

    /** A batch of requests r0, r1 and so on, with further members. */
    static byte[] many(int count, String more) {
        StringBuilder text = new StringBuilder();
        for (int i = 0; i < count; i++) {
            text.append(i == 0 ? "" : ",").append("{\"id\":\"r").append(i).append("\",\"method\":\"get\",").append(more).append("\"url\":\"A\"}");
        }
        return bytes("{\"requests\":[" + text + "]}");
    }

    /** The statuses in a response to a batch, which some run has to answer. */
    static String statuses(byte[] batch, byte[] response) {
        StringBuilder found = new StringBuilder();
        Odb.match(batch, response, Mode.CONTINUE, 1).forEach((id, status) -> found.append(id).append(status).append(' '));
        return found.toString().trim();
    }
}
