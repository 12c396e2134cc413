package odbbatch;

import com.sun.jna.*;
import java.nio.charset.StandardCharsets;
import java.security.SecureRandom;
import java.util.*;

/** The functions of odb_batch.h, by JNA's direct mapping. A size_t is a long: there is no library for processes of 32 bits. */
final class OdbLibrary {
    static final int DONE = 0, REFUSED = 1, WRONG_OPTION = 2, OUT_OF_MEMORY = 4, SMALL_BUFFER = 5;
    static final int UNREADABLE = 31, OUTSIDE = 32, NO_LOCATION = 33;
    /** Where a part starts that a request does not have. */
    static final long NONE = -1;
    /** How many numbers the structures have: a part is a start and a length. */
    static final int OF_FAULT = 10, OF_REQUEST = 17, OF_RESPONSE = 9, OF_HEADER = 4;
    /** The version that this package is made for; the library may have another patch. */
    static final int MAJOR = 0, MINOR = 2;
    /** Drawn once, and kept secret: nobody can choose names that make a call slow. */
    static final long SEED = new SecureRandom().nextLong();

    /** As the loader asks for it. */
    private static final String NAME = "odb_batch";
    /** How much longer than its documents a text is thought to be; and how short a request or a response may be in a document. */
    private static final int MORE = 256, SHORTEST = 32;

    static {
        if (Native.SIZE_T_SIZE != 8) { throw new UnsatisfiedLinkError("odb_batch needs a process of 64 bits"); }
        // before all functions are bound at once: an older library is refused by its version, not by a name that it lacks
        int found = loaded().getFunction("odb_version").invokeInt(new Object[0]) / 100;
        if (found != 100 * MAJOR + MINOR) {
            String versions = found / 100 + "." + found % 100 + ", and this package needs " + MAJOR + "." + MINOR;
            throw new UnsatisfiedLinkError("the library of odb_batch has version " + versions);
        }
        Native.register(OdbLibrary.class, NAME);
    }

    private static NativeLibrary loaded() {
        try {
            return NativeLibrary.getInstance(NAME, OdbLibrary.class.getClassLoader());
        } catch (UnsatisfiedLinkError error) {
            String places = Platform.RESOURCE_PREFIX + "/ of the class path, in jna.library.path or where the loader looks";
            throw new UnsatisfiedLinkError("the library of odb_batch is not in " + places);
        }
    }

    static native int odb_version();
    static native int odb_check_as(byte[] a, long aSize, int form, byte[] text, long room, long[] length, long seed);
    static native int odb_plan_as(byte[] a, long aSize, int form, byte[] text, long room, long[] length, long seed);
    static native int odb_canon_as(byte[] a, long aSize, int form, byte[] text, long room, long[] length, long seed);
    static native int odb_match_with(byte[] a, long aSize, byte[] b, long bSize, int mode, int strict, int form, byte[] text, long room, long[] length, long seed);
    static native int odb_rest(byte[] a, long aSize, byte[] b, long bSize, int mode, int form, byte[] text, long room, long[] length, long seed);
    static native int odb_run_as(byte[] a, long aSize, byte[] b, long bSize, int mode, int width, int form, byte[] text, long room, long[] length, long seed);
    static native int odb_replay_as(byte[] a, long aSize, byte[] b, long bSize, int mode, int width, int order, int trace, int form, byte[] text, long room, long[] length, long seed);
    static native int odb_explain(byte[] code, long size, byte[] text, long room, long[] length);
    static native int odb_constants(byte[] text, long room, long[] length);
    static native int odb_where(byte[] document, long size, byte[] place, long placeSize, long[] position);
    static native int odb_faults(byte[] a, long aSize, byte[] text, long room, long[] length, long[] faults, long most, long[] count, long seed);
    static native int odb_requests(byte[] a, long aSize, byte[] text, long room, long[] length, long[] requests, long most, long[] count, long seed);
    static native int odb_responses(byte[] a, long aSize, byte[] text, long room, long[] length, long[] responses, long most, long[] count);
    static native int odb_headers(byte[] a, long aSize, byte[] text, long room, long[] length, long[] pairs, long most, long[] count);
    static native int odb_resolve(byte[] base, long baseSize, byte[] roots, long rootsSize, byte[] url, long urlSize, byte[] sent, long sentSize, byte[] location, long locationSize, int post, byte[] text, long room, long[] length);
    static native int odb_run_open_requests(byte[] a, long aSize, byte[] b, long bSize, int mode, int width, Pointer run, byte[] text, long room, long[] length, long[] requests, long most, long[] count, long seed);
    static native int odb_run_ready(Pointer run, int[] positions, long most, long[] count);
    static native int odb_run_running(Pointer run, int[] positions, long most, long[] count);
    static native int odb_run_undone(Pointer run, int[] positions, long most, long[] count);
    static native int odb_run_next_unit(Pointer run, int[] positions, long most, long[] count);
    static native int odb_run_part(Pointer run, byte[] a, long aSize, int limit, byte[] text, long room, long[] length, int[] positions, long most, long[] count, long seed);
    static native int odb_run_start(Pointer run, int position);
    static native int odb_run_start_unit(Pointer run, int position);
    static native int odb_run_state(Pointer run, int position, int[] state, int[] status);
    static native int odb_run_report(Pointer run, int position, int status, byte[] headers, long headersSize, byte[] body, long bodySize);
    static native int odb_report_fault(byte[] headers, long headersSize, byte[] body, long bodySize, byte[] text, long room, long[] length);
    static native int odb_run_finished(Pointer run);
    static native int odb_run_response(Pointer run, byte[] text, long room, long[] length);
    static native void odb_run_stop(Pointer run);
    static native void odb_run_close(Pointer run);

    /** A call that writes a text. */
    interface Writing { int write(byte[] text, long room, long[] length); }

    /** A call that also lists structures, as their numbers. */
    interface Listing { int list(byte[] text, long room, long[] length, long[] numbers, long most, long[] count); }

    /** What a call has returned, written and listed. */
    static final class Written {
        final int status, count;
        final byte[] text;
        final long[] numbers;

        private Written(int status, byte[] text, long[] numbers, int count) {
            this.status = status; this.text = text; this.numbers = numbers; this.count = count;
        }

        /** This, if the call is done; else throws what it returns, as the fault of one of two documents. */
        Written required(byte[] batch, byte[] second) {
            if (status == REFUSED) { throw new FaultException(Fault.of(string().trim(), batch, second)); }
            settle(status);
            return this;
        }

        String string() { return new String(text, StandardCharsets.UTF_8); }

        List<String> lines() { return text.length == 0 ? List.of() : List.of(string().split("\n")); }

        byte[] withoutNewline() { return Arrays.copyOf(text, text.length - 1); }

        /** The part of the text whose start and length are the numbers there; null if there is none. */
        String part(int at) {
            return numbers[at] == NONE ? null : new String(text, (int) numbers[at], (int) numbers[at + 1], StandardCharsets.UTF_8);
        }

        /** The same of a document. */
        byte[] part(byte[] document, int at) {
            return numbers[at] == NONE ? null : Arrays.copyOfRange(document, (int) numbers[at], (int) (numbers[at] + numbers[at + 1]));
        }
    }

    /** Calls a function that lists structures of so many numbers, again if there was too little room; room and most are guesses. */
    static Written list(int room, int width, int most, Listing call) {
        long[] length = new long[1], count = new long[1];
        for (;;) {
            byte[] text = new byte[Math.max(room, 1)];
            long[] numbers = new long[width * most];
            int status = call.list(text, text.length, length, numbers, most, count);
            if (status != SMALL_BUFFER) { return new Written(status, Arrays.copyOf(text, (int) length[0]), numbers, (int) count[0]); }
            room = Math.max(room, Math.toIntExact(length[0])); most = Math.max(most, (int) count[0]);
        }
    }

    /** Calls a function that writes a text. */
    static Written write(int room, Writing call) {
        return list(room, 0, 1, (text, size, length, numbers, most, count) -> call.write(text, size, length));
    }

    /** What a call has listed over a batch and perhaps a second document; throws what else it returns. */
    static Written listOver(byte[] batch, byte[] second, int width, Listing call) {
        int most = Math.min(batch.length / SHORTEST + 1, Odb.MAX_REQUESTS);
        return list(batch.length + (second == null ? 0 : second.length) + MORE, width, most, call).required(batch, second);
    }

    /** What a call has written over them; throws what else it returns. */
    static Written writeOver(byte[] batch, byte[] second, Writing call) {
        return listOver(batch, second, 0, (text, room, length, numbers, most, count) -> call.write(text, room, length));
    }

    /** The headers of a JSON object by their names in lower case; null if it is not an object of strings. */
    static Map<String, String> headers(byte[] json) {
        Written found = list(json.length + 1, OF_HEADER, json.length / 6 + 1, (text, room, length, pairs, most, count) ->
            odb_headers(some(json), json.length, text, room, length, pairs, most, count));
        if (found.status == REFUSED) { return null; }
        settle(found.status);
        Map<String, String> headers = new LinkedHashMap<>();
        for (int at = 0; at < OF_HEADER * found.count; at += OF_HEADER) { headers.put(found.part(at), found.part(at + 2)); }
        return headers;
    }

    /** Bytes to pass: an empty array may become no pointer, which the library does not take. */
    static byte[] some(byte[] bytes) { return bytes.length == 0 ? new byte[1] : bytes; }

    static byte[] bytes(String text) { return text.getBytes(StandardCharsets.UTF_8); }

    /** Throws what a call returns but that it is done. */
    static void settle(int status) {
        if (status == OUT_OF_MEMORY) { throw new OutOfMemoryError("odb_batch ran out of memory"); }
        if (status == WRONG_OPTION) { throw new IllegalArgumentException("an option, as the width, has a value that it may not have"); }
        if (status != DONE) { throw new IllegalStateException("odb_batch returned the status " + status); }
    }
}
