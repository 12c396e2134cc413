package odbbatch;

import static odbbatch.Texts.bytes;
import static odbbatch.Texts.text;

import java.io.ByteArrayOutputStream;
import java.nio.ByteBuffer;
import java.nio.ByteOrder;
import java.nio.file.Files;
import java.nio.file.Path;
import java.security.MessageDigest;
import java.util.ArrayList;
import java.util.Arrays;
import java.util.HashMap;
import java.util.List;
import java.util.Map;
import java.util.TreeMap;
import java.util.function.Supplier;

/**
 * The worked cases and random live runs by this package: prints the lines of tests/support/languages.py. Arguments: {@code pages FOLDER},
 * {@code runs FOLDER RUNS}; or {@code names LIST ..}, which prints lists of names.
 */
public final class Tries {
    private Tries() {}

    private static final class Call {
        final int[] numbers = new int[8];
        byte[] batch;
        byte[] second;
    }

    private static List<Call> calls(String folder) throws Exception {
        ByteBuffer data = ByteBuffer.wrap(Files.readAllBytes(Path.of(folder, "calls"))).order(ByteOrder.LITTLE_ENDIAN);
        List<Call> found = new ArrayList<>();
        while (data.hasRemaining()) {
            Call it = new Call();
            for (int i = 0; i < 8; i++) {
                it.numbers[i] = data.getInt();
            }
            it.batch = new byte[it.numbers[6]];
            it.second = new byte[it.numbers[7]];
            data.get(it.batch).get(it.second);
            found.add(it);
        }
        return found;
    }

    private static String located(Fault it) {
        return "fault " + it + " " + it.line().getAsInt() + " " + it.column().getAsInt() + " " + it.offset().getAsInt() + "\n";
    }

    /** What the program prints of a command, made of typed values. */
    private static String answered(Call it) {
        int[] n = it.numbers;
        Mode mode = Mode.values()[n[1]];
        StringBuilder out = new StringBuilder();
        switch (n[0]) {
            case 0:
                Odb.Counts counts = Odb.check(it.batch);
                return "ok " + counts.requests() + " requests " + counts.groups() + " groups\n";
            case 1:
                Odb.plan(it.batch).forEach(p -> out.append(p.position() + " " + p.id() + " level " + p.level() + " group " + p.group().orElse("*")
                    + " needs " + (p.needs().isEmpty() ? "*" : String.join(",", p.needs())) + "\n"));
                return out.toString();
            case 2:
                return text(Odb.canon(it.batch)) + "\n";
            case 3:
                Map<String, Integer> found = Odb.match(it.batch, it.second, mode, n[5]);
                out.append("ok " + found.size() + " responses\n");
                found.forEach((id, status) -> out.append(id + " " + status + "\n"));
                return out.toString();
            case 4:
                return text(Odb.run(it.batch, it.second, mode, n[2])) + "\n";
            case 5:
                Odb.Replayed replayed = Odb.replay(it.batch, it.second, mode, n[2], Order.values()[n[3]], n[4] == 1);
                replayed.steps().forEach(step -> out.append(step + "\n"));
                return out + text(replayed.response()) + "\n";
            default:
                return text(Odb.rest(it.batch, it.second, mode)) + "\n";
        }
    }

    private static byte[] requested(byte[] batch) {
        Map<String, Integer> at = new HashMap<>();
        ByteArrayOutputStream out = new ByteArrayOutputStream();
        for (Odb.Request it : Odb.requests(batch)) {
            at.put(it.id(), at.size());
            StringBuilder headers = new StringBuilder();
            new TreeMap<>(it.headers()).forEach((name, value) -> headers.append(name + ":" + value + ";"));
            for (String part : Arrays.asList(it.id(), it.method(), it.url(), it.rest(), headers.toString(), it.group().orElse(""))) {
                out.writeBytes(bytes((part.isEmpty() ? "-" : part) + "|"));
            }
            out.writeBytes(it.body() == null ? bytes("-") : it.body());
            out.writeBytes(bytes("|" + it.reference().map(at::get).orElse(-1) + "\n"));
        }
        return out.toByteArray();
    }

    private static String digest(byte[] text) {
        try {
            StringBuilder found = new StringBuilder();
            for (byte it : MessageDigest.getInstance("SHA-256").digest(text)) {
                found.append(String.format("%02x", it));
            }
            return found.toString();
        } catch (java.security.NoSuchAlgorithmException error) {
            throw new IllegalStateException(error);
        }
    }

    private static final int[] STATUSES = {200, 201, 204, 299, 300, 404, 409, 500, 599, 199, 600, 0};
    private static final List<Map<String, String>> HEADERS = Arrays.asList(null, Map.of("etag", "7"), Map.of("A", "1", "a", "2"));
    private static final String[] BODIES = {"", "null", "{\"a\":[1,2]}", "\"x\"", "{", "1.5", "[0.10, 1e999]"};

    /** A live run whose steps a source of numbers chooses, and notes of what each call returns. */
    private static final class Driven {
        private final StringBuilder notes = new StringBuilder();
        private int state;
        private LiveRun run;

        private int next(int limit) {
            state = state * 1664525 + 1013904223;
            return (state >>> 8) % limit;
        }

        private void note(String text) {
            notes.append(text).append('\n');
        }

        private void tried(Supplier<String> call) {
            try {
                note(call.get());
            } catch (OdbException error) {
                note(error.code() + " " + error.name());
            }
        }

        private void tried(Runnable call) {
            tried(() -> {
                call.run();
                return "ok";
            });
        }

        /** Notes what is listed, and returns one of it, or any id. */
        private String chosen(List<String> listed) {
            note(String.join(",", listed));
            return listed.isEmpty() || next(8) == 0 ? run.ids().get(next(run.ids().size())) : listed.get(next(listed.size()));
        }

        private void step() {
            if (next(3) > 0) {
                String id = chosen(run.ready());
                tried(() -> run.start(id));
            } else {
                String id = chosen(run.nextUnit());
                tried(() -> run.startUnit(id));
            }
            String other = chosen(run.running());
            if (next(3) > 0) {
                int status = STATUSES[next(12)];
                Map<String, String> headers = HEADERS.get(next(3));
                byte[] body = bytes(BODIES[next(7)]);
                tried(() -> run.report(other, status, headers, body));
            }
            note(run.state(other).ordinal() + " " + run.status(other));
            if (next(50) == 0) {
                run.stop();
            }
            if (next(16) == 0) {
                tried(() -> text(run.response()));
            }
        }

        String drive(int number, List<byte[]> accepted) {
            state = number;
            byte[] batch = accepted.get(next(accepted.size()));
            Mode mode = Mode.values()[next(2)];
            try (LiveRun own = new LiveRun(batch, mode, 1 + next(5))) {
                run = own;
                note(String.join(",", run.ids()));
                for (int step = 0; step < 60 && !run.isFinished(); step++) {
                    step();
                }
                tried(() -> text(run.response()));
                tried(() -> String.join(",", run.undone()));
            }
            return digest(bytes(notes.toString()));
        }
    }

    private interface Asked {
        byte[] answer() throws FaultException;
    }

    private static String line(int at, String what, Asked asked) {
        try {
            return at + " " + what + " 0 " + digest(asked.answer()) + "\n";
        } catch (FaultException error) {
            return at + " " + what + " 1 " + digest(bytes(located(error.fault()))) + "\n";
        }
    }

    private static String pages(List<Call> calls) {
        StringBuilder out = new StringBuilder();
        for (int at = 0; at < calls.size(); at++) {
            Call it = calls.get(at);
            out.append(line(at, "command", () -> bytes(answered(it))));
            StringBuilder all = new StringBuilder();
            Odb.faults(it.batch).forEach(fault -> all.append(located(fault)));
            out.append(at + " faults " + (all.length() == 0 ? 0 : 1) + " " + digest(bytes(all.toString())) + "\n");
            out.append(line(at, "requests", () -> requested(it.batch)));
        }
        return out.toString();
    }

    public static void main(String[] words) throws Exception {
        StringBuilder out = new StringBuilder();
        if (words[0].equals("names")) {
            for (String list : Arrays.asList(words).subList(1, words.length)) {
                out.append(list + " " + String.join(" ", Odb.names(list)) + "\n");
            }
        } else if (words[0].equals("pages")) {
            out.append(pages(calls(words[1])));
        } else {
            List<byte[]> accepted = new ArrayList<>();
            calls(words[1]).stream().map(it -> it.batch).filter(it -> it.length < 100_000 && Odb.faults(it).isEmpty()).forEach(accepted::add);
            for (int i = 0; i < Integer.parseInt(words[2]); i++) {
                out.append(i + " " + new Driven().drive(i, accepted) + "\n");
            }
        }
        System.out.print(out);
    }
}
