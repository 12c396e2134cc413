package odbbatch;

import static odbbatch.Texts.bytes;
import static odbbatch.Texts.text;

import java.net.URI;
import java.nio.file.Files;
import java.nio.file.Path;
import java.util.ArrayList;
import java.util.Arrays;
import java.util.List;
import java.util.Map;

/** Where requests lead by this package: reads the table that tests/support/urls.py writes, and prints the lines that it wants. */
public final class Urls {
    private Urls() {}

    /** What a word of the table stands for. */
    private static String read(String word) {
        byte[] found = new byte[word.equals("-") ? 0 : word.length() / 2];
        for (int i = 0; i < found.length; i++) {
            found[i] = (byte) Integer.parseInt(word.substring(2 * i, 2 * i + 2), 16);
        }
        return text(found);
    }

    /** What the last request of a batch is answered, and where it was sent. */
    private static String answered(String base, String[] roots, String location, byte[] batch) throws InterruptedException {
        List<String> sent = new ArrayList<>();
        Map<String, String> headers = location.isEmpty() ? Map.of() : Map.of("location", location);
        String response = text(BatchPerformer.of(batch, URI.create(base)).roots(Arrays.stream(roots).map(URI::create).toArray(URI[]::new)).perform(request -> {
            sent.add(request.url());
            return Answer.of(201, headers, null);
        }));
        String status = response.replaceFirst(".*\"status\":(\\d+).*", "$1");
        if (sent.size() < Odb.requests(batch).size()) {
            return status;
        }
        String url = sent.get(sent.size() - 1);
        for (int at = 0; at < roots.length; at++) {
            if (url.startsWith(roots[at])) {
                return status + " " + at + " " + url.substring(roots[at].length());
            }
        }
        return status + " " + url + " is below no root";
    }

    public static void main(String[] words) throws Exception {
        for (String line : Files.readAllLines(Path.of(words[0]))) {
            String[] found = line.split(" ");
            System.out.println(answered(read(found[0]), read(found[1]).split(" "), read(found[2]), bytes(read(found[3]))));
        }
    }
}
