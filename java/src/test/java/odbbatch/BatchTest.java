package odbbatch;

import static odbbatch.Texts.bytes;
import static odbbatch.Texts.text;
import static org.junit.jupiter.api.Assertions.assertEquals;
import static org.junit.jupiter.api.Assertions.assertThrows;

import org.junit.jupiter.api.Test;

/** Batches that are made by calls. */
class BatchTest {
    @Test
    void writesOneDocument() {
        Batch batch = new Batch(body -> bytes("{\"Title\":\"" + body + "\"}"));
        Batch.Name book = batch.post("Books", new StringBuilder("<Solaris>")).id("book").add();
        Batch.Name lend = batch.group(() -> {
            batch.patch(book, "{\"Reader\":42}").ifMatch(book).id("mark").add();
            batch.post("Loans", "{\"Price\": 9.990}").id("loan").add();
        });
        batch.get(book).after(lend).add();
        batch.get("$loan/x").add(); // depends on the group, too
        batch.put("Pictures", new byte[] {-1, -2}).header("Content-Type", "image/png").add();
        batch.put("Notes", "a\n\u00e9").header("Content-Type", "text/plain").header("X-A", 7).add();
        assertThrows(IllegalArgumentException.class, () -> batch.group(() -> {
            batch.get("X").id("lost").add();
            throw new IllegalArgumentException();
        }));
        assertEquals(7, batch.check().requests());
        String json = "\"headers\":{\"content-type\":\"application/json\"}";
        assertEquals("{\"requests\":[{\"id\":\"book\",\"method\":\"post\",\"url\":\"Books\"," + json + ",\"body\":{\"Title\":\"<Solaris>\"}},"
            + "{\"id\":\"mark\",\"atomicityGroup\":\"g1\",\"dependsOn\":[\"book\"],\"method\":\"patch\",\"url\":\"$book\",\"headers\":{\"if-match\":\"$book\",\"content-type\":\"application/json\"},\"body\":{\"Reader\":42}},"
            + "{\"id\":\"loan\",\"atomicityGroup\":\"g1\",\"method\":\"post\",\"url\":\"Loans\"," + json + ",\"body\":{\"Price\": 9.990}},"
            + "{\"id\":\"4\",\"dependsOn\":[\"book\",\"g1\"],\"method\":\"get\",\"url\":\"$book\"},"
            + "{\"id\":\"5\",\"dependsOn\":[\"loan\",\"g1\"],\"method\":\"get\",\"url\":\"$loan/x\"},"
            + "{\"id\":\"6\",\"method\":\"put\",\"url\":\"Pictures\",\"headers\":{\"content-type\":\"image/png\"},\"body\":\"__4\"},"
            + "{\"id\":\"7\",\"method\":\"put\",\"url\":\"Notes\",\"headers\":{\"content-type\":\"text/plain\",\"x-a\":\"7\"},\"body\":\"a\\u000a\u00e9\"}]}",
            text(batch.document()));
    }

    @Test
    void namesAreFree() {
        Batch batch = new Batch();
        batch.get("A").id("1").add();
        assertEquals("2", batch.get("A").add().id());
        batch.get("A").id("g1").add();
        assertEquals("g2", batch.group(() -> batch.delete("A").add()).id());
        assertThrows(IllegalArgumentException.class, () -> batch.get("A").id("metadata"));
        assertThrows(IllegalStateException.class, () -> batch.group(() -> batch.group(() -> {})));
        assertEquals("F40", assertThrows(FaultException.class, () -> {
            batch.get("A").after(new Batch().post("B", "{}").id("other").add()).add();
            batch.check();
        }).code());
    }

    @Test
    void aBodyThatCannotBeWrittenAddsNothing() {
        Batch batch = new Batch(body -> {
            throw new java.io.IOException("no such class");
        });
        assertThrows(IllegalArgumentException.class, () -> batch.post("A", 7).add());
        assertThrows(IllegalArgumentException.class, () -> new Batch().post("A", 7).add());
        assertEquals("{\"requests\":[]}", text(batch.document()));
    }
}
