package odbbatch;

import static odbbatch.OdbLibrary.*;

import java.util.*;
import java.util.concurrent.ConcurrentHashMap;
import java.util.regex.*;
import java.util.stream.*;

/**
 * Checks, plans, matches, runs and replays batches of requests in JSON (OASIS OData JSON Format 4.01, section 19). A document is the bytes of
 * UTF-8, at most 16,777,216 of them. Any number of threads may call at once. Each call takes O(n log n) time for n bytes of documents, and
 * throws an {@link OutOfMemoryError} if the library cannot allocate.
 */
public final class Odb {
    /** The greatest width: how many requests may run at once. */
    public static final int MAX_WIDTH = 10_000;
    /** How many requests a batch may have. */
    public static final int MAX_REQUESTS = 10_000;
    /** How many bytes a document, or the body of a report, may have. */
    public static final int MAX_BYTES = 16_777_216;

    private static final Map<String, List<String>> NAMES = new ConcurrentHashMap<>();

    private Odb() {}

    /**
     * The version of the library that was loaded.
     *
     * @return as 200 for 0.2.0
     */
    public static int version() { return odb_version(); }

    /** How many requests and groups a batch has. */
    public static final class Counts {
        private final String[] words;

        private Counts(String line) { words = line.trim().split(" "); }

        /**
         * How many requests it has.
         *
         * @return a number from 0 to 10,000
         */
        public int requests() { return Integer.parseInt(words[1]); }

        /**
         * How many groups it has.
         *
         * @return a number from 0 to 10,000
         */
        public int groups() { return Integer.parseInt(words[3]); }
    }

    /** A request with what it depends on. */
    public static final class PlannedRequest {
        private final String[] words;

        private PlannedRequest(String line) { words = line.split(" "); }

        /**
         * Its position in the batch.
         *
         * @return a number from 0
         */
        public int position() { return Integer.parseInt(words[0]); }

        /**
         * Its id.
         *
         * @return the id
         */
        public String id() { return words[1]; }

        /**
         * Its level: requests of one level may run side by side.
         *
         * @return 0 if it depends on nothing
         */
        public int level() { return Integer.parseInt(words[3]); }

        /**
         * Its atomicity group.
         *
         * @return the name of the group
         */
        public Optional<String> group() { return words[5].equals("*") ? Optional.empty() : Optional.of(words[5]); }

        /**
         * The ids and groups that it depends on.
         *
         * @return each once
         */
        public List<String> needs() { return words[7].equals("*") ? List.of() : List.of(words[7].split(",")); }
    }

    /** A request of a batch, as it is to be sent. Each call reads what it returns anew. */
    public static final class Request {
        private final Written found;
        private final int at;
        private final byte[] document;

        private Request(Written found, int at, byte[] document) { this.found = found; this.at = at; this.document = document; }

        /** The requests that a call has listed of a document. */
        static List<Request> all(Written found, byte[] document) {
            return IntStream.range(0, found.count).mapToObj(i -> new Request(found, OF_REQUEST * i, document)).collect(Collectors.toUnmodifiableList());
        }

        /**
         * Its id.
         *
         * @return the id
         */
        public String id() { return found.part(at); }

        /**
         * Its method.
         *
         * @return in upper case, as POST
         */
        public String method() { return found.part(at + 2); }

        /**
         * Its URL, as the batch has it.
         *
         * @return the URL
         */
        public String url() { return found.part(at + 4); }

        /**
         * The request that the URL refers to.
         *
         * @return its id
         */
        public Optional<String> reference() {
            return found.numbers[at + 16] == NONE ? Optional.empty() : Optional.of(found.part(OF_REQUEST * (int) found.numbers[at + 16]));
        }

        /**
         * What follows that id in the URL.
         *
         * @return as /Lines of $a/Lines; the whole URL if it refers to no request
         */
        public String rest() { return found.part(at + 6); }

        /**
         * Its headers.
         *
         * @return the values by the names in lower case; the caller may change the map
         */
        public Map<String, String> headers() {
            return found.numbers[at + 9] <= 2 ? new LinkedHashMap<>() : OdbLibrary.headers(found.part(found.text, at + 8));
        }

        /**
         * Its atomicity group.
         *
         * @return the name of the group
         */
        public Optional<String> group() { return Optional.ofNullable(found.part(at + 10)); }

        /**
         * What it depends on.
         *
         * @return ids and groups, as a plan has them
         */
        public List<String> needs() {
            String names = found.part(at + 12);
            return names.isEmpty() ? List.of() : List.of(names.split(","));
        }

        /**
         * Its body.
         *
         * @return a copy of the bytes in the document; null if it has none
         */
        public byte[] body() { return found.part(document, at + 14); }
    }

    /** What a replay did. */
    public static final class Replayed {
        private final List<String> lines;

        private Replayed(List<String> lines) { this.lines = lines; }

        /**
         * The response document.
         *
         * @return JSON without a newline
         */
        public byte[] response() { return bytes(lines.get(lines.size() - 1)); }

        /**
         * The steps, if a trace was asked for.
         *
         * @return start ID, report ID STATUS or undo ID
         */
        public List<String> steps() { return lines.subList(0, lines.size() - 1); }
    }

    /**
     * Checks a batch.
     *
     * @param batch the batch
     * @return how many requests and groups it has
     * @throws FaultException it is refused
     */
    public static Counts check(byte[] batch) {
        return new Counts(writeOver(batch, null, (to, room, length) -> odb_check_as(some(batch), batch.length, 0, to, room, length, SEED)).string());
    }

    /**
     * Finds all faults of the first phase that has any, with where they are.
     *
     * @param batch the batch
     * @return none if it is accepted
     */
    public static List<Fault> faults(byte[] batch) {
        Written found = list(batch.length + 256, OF_FAULT, batch.length / 32 + 1, (text, room, length, numbers, most, count) ->
            odb_faults(some(batch), batch.length, text, room, length, numbers, most, count, SEED));
        if (found.status != REFUSED) { settle(found.status); }
        List<Fault> faults = new ArrayList<>();
        for (int at = 0; at < OF_FAULT * found.count; at += OF_FAULT) {
            faults.add(new Fault(found.part(at), found.part(at + 2), found.part(at + 4), null, Arrays.copyOfRange(found.numbers, at + 6, at + OF_FAULT)));
        }
        return faults;
    }

    /**
     * Plans a batch.
     *
     * @param batch the batch
     * @return its requests in order, with what each depends on
     * @throws FaultException it is refused
     */
    public static List<PlannedRequest> plan(byte[] batch) {
        Written found = writeOver(batch, null, (text, room, length) -> odb_plan_as(some(batch), batch.length, 0, text, room, length, SEED));
        return found.lines().stream().map(PlannedRequest::new).collect(Collectors.toList());
    }

    /**
     * Makes the canonical text of a batch, which is one text for all ways to write it.
     *
     * @param batch the batch
     * @return the text without a newline
     * @throws FaultException it is refused
     */
    public static byte[] canon(byte[] batch) {
        return writeOver(batch, null, (to, room, length) -> odb_canon_as(some(batch), batch.length, 0, to, room, length, SEED)).withoutNewline();
    }

    /**
     * Matches the response document of a service against a batch.
     *
     * @param batch the batch
     * @param responses the response document
     * @param mode STOP if the service stops at its first error: what it left out is 424 then
     * @param strictness 1 if some run has to answer these statuses, too; 2 if some run may that starts groups as one; else 0
     * @return the status of each request by its id, in the order of the batch
     * @throws FaultException a document is refused, or they do not fit
     */
    public static Map<String, Integer> match(byte[] batch, byte[] responses, Mode mode, int strictness) {
        List<String> lines = writeOver(batch, responses, (text, room, length) -> odb_match_with(some(batch), batch.length,
            some(responses), responses.length, mode.ordinal(), strictness, 0, text, room, length, SEED)).lines();
        Map<String, Integer> found = new LinkedHashMap<>();
        for (String line : lines.subList(1, lines.size())) { found.put(line.split(" ")[0], Integer.valueOf(line.split(" ")[1])); }
        return found;
    }

    /**
     * Writes what may be sent again by the responses of a service, as a batch of its own.
     *
     * @param batch the batch
     * @param responses the response document
     * @param mode as in match
     * @return a batch; one without requests if nothing may
     * @throws FaultException a document is refused, they do not fit, or a Location (F90) or an ETag (F91) is missing
     */
    public static byte[] rest(byte[] batch, byte[] responses, Mode mode) {
        return writeOver(batch, responses, (text, room, length) -> odb_rest(some(batch), batch.length,
            some(responses), responses.length, mode.ordinal(), 0, text, room, length, SEED)).withoutNewline();
    }

    /**
     * Runs a batch by recorded events. {@link LiveRun} is a run on its way.
     *
     * @param batch the batch
     * @param events the document of events
     * @param mode what an error does
     * @param width how many requests may run at once, from 1 to 10,000
     * @return the response document
     * @throws FaultException a document is refused, or the run is not finished (F66)
     */
    public static byte[] run(byte[] batch, byte[] events, Mode mode, int width) {
        return writeOver(batch, events, (text, room, length) -> odb_run_as(some(batch), batch.length,
            some(events), events.length, mode.ordinal(), width, 0, text, room, length, SEED)).withoutNewline();
    }

    /**
     * Replays a batch by recorded outcomes.
     *
     * @param batch the batch
     * @param outcomes the document of outcomes
     * @param mode what an error does
     * @param width how many requests may run at once, from 1 to 10,000
     * @param order which step comes next
     * @param hasTrace whether the steps are asked for
     * @return the response and the steps
     * @throws FaultException a document is refused, or an outcome is missing
     */
    public static Replayed replay(byte[] batch, byte[] outcomes, Mode mode, int width, Order order, boolean hasTrace) {
        return new Replayed(writeOver(batch, outcomes, (text, room, length) -> odb_replay_as(some(batch), batch.length,
            some(outcomes), outcomes.length, mode.ordinal(), width, order.ordinal(), hasTrace ? 1 : 0, 0, text, room, length, SEED)).lines());
    }

    /**
     * Lists what is to be sent of each request of a batch.
     *
     * @param batch the batch
     * @return its requests in order
     * @throws FaultException it is refused
     */
    public static List<Request> requests(byte[] batch) {
        return Request.all(listOver(batch, null, OF_REQUEST, (text, room, length, numbers, most, count) ->
            odb_requests(some(batch), batch.length, text, room, length, numbers, most, count, SEED)), batch);
    }

    /**
     * Lists the responses in the document of a service; they need not fit any batch.
     *
     * @param document the response document
     * @return what each request was answered by its id, in order. Headers that are no object of strings are left out
     * @throws FaultException the document is refused
     */
    public static Map<String, Answer> responses(byte[] document) {
        Written found = listOver(document, null, OF_RESPONSE, (text, room, length, numbers, most, count) ->
            odb_responses(some(document), document.length, text, room, length, numbers, most, count));
        Map<String, Answer> responses = new LinkedHashMap<>();
        for (int at = 0; at < OF_RESPONSE * found.count; at += OF_RESPONSE) {
            byte[] object = found.part(document, at + 4), body = found.part(document, at + 6);
            Map<String, String> headers = object == null || headers(object) == null ? Map.of() : headers(object);
            responses.put(found.part(at), Answer.of((int) found.numbers[at + 8], headers, body == null ? null : Bodies.toWire(body, headers)));
        }
        return responses;
    }

    /**
     * Explains a code.
     *
     * @param code the code, as F41 or S4
     * @return what {@code odb_batch explain} prints, without the newline at its end; empty for another text
     */
    public static String explain(String code) {
        byte[] bytes = bytes(code);
        return write(1024, (text, room, length) -> odb_explain(some(bytes), bytes.length, text, room, length)).string();
    }

    /** What a code means: its explanation between the first line and the examples. */
    static String meaning(String code) {
        String text = explain(code);
        return text.substring(text.indexOf('\n') + 1, text.indexOf("\nrefused: "));
    }

    /**
     * Lists names that the library treats apart, as the headers {@code not_inherited} or the {@code reserved_ids} (odb_constants). The
     * text of the library has each list once, and plain names without escapes: no reader of JSON is needed.
     *
     * @param list the member that has them
     * @return the names
     */
    public static List<String> names(String list) {
        return NAMES.computeIfAbsent(list, member -> {
            Matcher found = Pattern.compile("\"" + member + "\":\\[\"([^\\]]*)\"]").matcher(write(4096, OdbLibrary::odb_constants).string());
            if (!found.find()) { throw new IllegalArgumentException("the library has no list " + member); }
            return List.of(found.group(1).split("\",\\s*\""));
        });
    }
}
