package odbbatch;

import static odbbatch.OdbLibrary.*;

import com.sun.jna.*;
import java.lang.ref.*;
import java.util.*;
import java.util.concurrent.atomic.AtomicInteger;
import java.util.concurrent.locks.ReentrantLock;
import java.util.function.Supplier;
import java.util.stream.Collectors;

/**
 * A run whose caller performs the requests: it starts those that are ready, and reports what each was answered. Any number of threads may use
 * one, one at a time in a call. Close it; one that is forgotten is closed when it is collected. A closed one throws IllegalStateException, an
 * unknown id NoSuchElementException.
 */
public final class LiveRun implements AutoCloseable {
    /** What has become of a request. */
    public enum State {
        /** It may not start yet. */ WAITING, /** It may start now. */ READY, /** It has started and not reported. */ RUNNING,
        /** It has reported a status. */ REPORTED, /** It never starts any more. */ SKIPPED, /** It has to be undone. */ UNDONE
    }

    /** A part of a batch: requests that may be sent together, as a batch of their own. */
    public static final class Part {
        private final byte[] document;
        private final List<String> ids;

        private Part(byte[] document, List<String> ids) { this.document = document; this.ids = ids; }

        /**
         * The batch to send.
         *
         * @return a document that the check accepts
         */
        public byte[] document() { return document; }

        /**
         * Its requests.
         *
         * @return the ids in the order of the batch
         */
        public List<String> ids() { return ids; }
    }

    private static final byte[] NO_EVENTS = bytes("{\"events\":[]}");
    private static final Cleaner CLEANER = Cleaner.create();
    static final AtomicInteger OPEN = new AtomicInteger(); // runs that are not closed, for tests

    private final ReentrantLock lock = new ReentrantLock(); // not synchronized, which would pin a virtual thread before Java 24
    private final Handle handle = new Handle();
    private final Cleaner.Cleanable cleanable = CLEANER.register(this, handle);
    private final byte[] batch;
    private final List<Odb.Request> requests;
    private final List<String> ids = new ArrayList<>();
    private final Map<String, Integer> positions = new HashMap<>();
    private final int[] listed;
    private int size;
    private volatile boolean isClosing; // the lock is not fair: busy threads would keep close waiting for seconds

    /** The place of the handle. It must not refer to its run, which would never be collected. */
    private static final class Handle implements Runnable {
        final Memory at = new Memory(8);
        boolean isOpen;

        @Override public void run() {
            if (isOpen) {
                isOpen = false;
                odb_run_close(at.getPointer(0));
                OPEN.decrementAndGet();
            }
        }
    }

    /**
     * Opens the run of a batch.
     *
     * @param batch the batch, which must not change while the run is open
     * @param mode what an error does
     * @param width how many requests may run at once, from 1 to 10,000
     * @throws FaultException it is refused
     */
    public LiveRun(byte[] batch, Mode mode, int width) { this(batch, mode, width, NO_EVENTS); }

    /**
     * Opens the run of a batch after recorded events.
     *
     * @param batch the batch, which must not change while the run is open
     * @param mode what an error does
     * @param width how many requests may run at once, from 1 to 10,000
     * @param events the document of events
     * @throws FaultException a document is refused, or an event may not come
     */
    public LiveRun(byte[] batch, Mode mode, int width, byte[] events) {
        Written found = listOver(batch, events, OF_REQUEST, (text, room, length, numbers, most, count) ->
            odb_run_open_requests(some(batch), batch.length, some(events), events.length, mode.ordinal(), width, handle.at,
                text, room, length, numbers, most, count, SEED));
        handle.isOpen = true; OPEN.incrementAndGet();
        this.batch = batch; requests = Odb.Request.all(found, batch);
        for (Odb.Request request : requests) {
            positions.put(request.id(), ids.size());
            ids.add(request.id());
        }
        listed = new int[ids.size() + 1]; size = batch.length + events.length;
    }

    /** Calls a function over the open run, by one thread at a time; the run is not collected meanwhile. */
    private <T> T call(Supplier<T> function) {
        if (isClosing) { throw new IllegalStateException("the run is closed"); }
        lock.lock();
        try {
            if (!handle.isOpen) { throw new IllegalStateException("the run is closed"); }
            return function.get();
        } finally {
            lock.unlock();
            Reference.reachabilityFence(this);
        }
    }

    private interface Listing { int list(Pointer run, int[] positions, long most, long[] count); }

    private List<String> listed(Listing call, boolean isSorted) {
        return call(() -> {
            long[] count = new long[1];
            settle(call.list(handle.at, listed, listed.length, count));
            if (isSorted) { Arrays.sort(listed, 0, (int) count[0]); }
            return idsOf((int) count[0]);
        });
    }

    private List<String> idsOf(int count) { return Arrays.stream(listed, 0, count).mapToObj(ids::get).collect(Collectors.toList()); }

    /**
     * What is to be sent of each request.
     *
     * @return in the order of the batch
     */
    public List<Odb.Request> requests() { return requests; }

    /**
     * The requests.
     *
     * @return the ids in the order of the batch
     */
    public List<String> ids() { return Collections.unmodifiableList(ids); }

    /**
     * Those that may start now.
     *
     * @return the ids in the order of the batch
     */
    public List<String> ready() { return listed(OdbLibrary::odb_run_ready, true); }

    /**
     * Those that have started and not reported yet.
     *
     * @return the ids in the order of the batch
     */
    public List<String> running() { return listed(OdbLibrary::odb_run_running, true); }

    /**
     * Those of the finished run that have to be undone, since another request of their group has failed.
     *
     * @return the ids, from the last to the first
     * @throws FaultException the run is not finished (F66)
     */
    public List<String> undone() {
        if (!isFinished()) { response(); } // throws why
        return listed(OdbLibrary::odb_run_undone, false);
    }

    /**
     * The first unit that may begin: a group, or a request without one.
     *
     * @return the ids in order; none if no unit may begin now
     */
    public List<String> nextUnit() { return listed(OdbLibrary::odb_run_next_unit, false); }

    /**
     * The next part of the batch: requests that were in none before, and that depend on what is in it or has succeeded. Once it is answered,
     * start its units one after another by {@link #startUnit}, and report their requests. A reference to an earlier part is replaced by
     * the Location or the ETag that was reported; the part ends before the first unit for which there is none.
     *
     * @param limit how many requests it may have, from 1
     * @return the part; none if nothing may be sent now
     * @throws FaultException no Location of use (F90) or no ETag (F91) was reported for the first unit that may begin: start and report it
     * @throws IllegalArgumentException a group has more requests than the limit
     */
    public Optional<Part> part(int limit) {
        if (limit < 1) { throw new IllegalArgumentException("the limit must be a whole number above 0, not " + limit); }
        return call(() -> {
            Written found = list(batch.length + 256, 0, 1, (text, room, length, numbers, most, count) -> odb_run_part(
                handle.at, some(batch), batch.length, limit, text, room, length, listed, listed.length, count, SEED));
            if (found.status == WRONG_OPTION) { throw new IllegalArgumentException("a group has more requests than " + limit); }
            found.required(batch, null);
            return found.count == 0 ? Optional.empty() : Optional.of(new Part(found.text, idsOf(found.count)));
        });
    }

    /**
     * Whether no event may come any more.
     *
     * @return true if the run is finished
     */
    public boolean isFinished() { return call(() -> odb_run_finished(handle.at)) == 1; }

    /** Lets nothing start any more: what is running is reported as before, and what has not started is answered 424. */
    public void stop() { call(() -> { odb_run_stop(handle.at); return null; }); }

    /**
     * The state of a request.
     *
     * @param id its id
     * @return its state
     */
    public State state(String id) { return State.values()[stateAndStatus(id)[0]]; }

    /**
     * The status of a request.
     *
     * @param id its id
     * @return what it has reported or, once the run is finished, is answered; 0 if neither
     */
    public int status(String id) { return stateAndStatus(id)[1]; }

    private int[] stateAndStatus(String id) {
        int[] state = new int[1], status = new int[1];
        settle(call(() -> odb_run_state(handle.at, positionOf(id), state, status)));
        return new int[] {state[0], status[0]};
    }

    /**
     * Starts a request: call it just before that is sent.
     *
     * @param id its id
     * @throws RefusedException it may not start, by the first of the causes S1 to S5
     */
    public void start(String id) { RefusedException.settle(tryStart(id), id); }

    int tryStart(String id) { return call(() -> odb_run_start(handle.at, positionOf(id))); }

    /**
     * Starts all members of the group of a request together, or the request alone.
     *
     * @param id its id
     * @throws RefusedException they may not start, by the first of the causes S1 to S5
     */
    public void startUnit(String id) { RefusedException.settle(tryStartUnit(id), id); }

    int tryStartUnit(String id) { return call(() -> odb_run_start_unit(handle.at, positionOf(id))); }

    /**
     * Reports what a running request was answered. Report one without any answer, too, as 502 or 504: the run waits for it.
     *
     * @param id its id
     * @param status the status, from 200 to 599
     * @param headers the headers that the response shows; null for none
     * @param body the text of a body, which the response repeats byte for byte: JSON that nests at most 124 deep; null for none
     * @throws RefusedException the report may not come, by one of the causes P1 and P2
     * @throws FaultException headers or body are refused
     */
    public void report(String id, int status, Map<String, String> headers, byte[] body) {
        byte[] heads = headers == null ? new byte[0] : bytes(Bodies.object(headers)), text = body == null ? new byte[0] : body;
        int end = call(() -> {
            int found = odb_run_report(handle.at, positionOf(id), Math.max(status, 0), some(heads), heads.length, some(text), text.length);
            if (found == DONE) { size += heads.length + text.length; }
            return found;
        });
        if (end == REFUSED) { throw whyRefused(heads, text); }
        RefusedException.settle(end, id);
    }

    /** Why headers or a body are refused. */
    private static FaultException whyRefused(byte[] heads, byte[] body) {
        Fault fault = Fault.of(write(256, (text, room, length) -> odb_report_fault(
            some(heads), heads.length, some(body), body.length, text, room, length)).string().trim(), null, null);
        return new FaultException(new Fault(fault.code(), fault.name(), "report", null, null));
    }

    /**
     * The response document of the finished run.
     *
     * @return JSON without a newline
     * @throws FaultException the run is not finished (F66)
     */
    public byte[] response() {
        return call(() -> write(size + 256, (text, room, length) -> odb_run_response(handle.at, text, room, length)))
            .required(null, null).withoutNewline();
    }

    /** Frees the run, if it is not closed yet; a call that another thread is in ends first. */
    @Override public void close() {
        isClosing = true;
        lock.lock();
        try {
            cleanable.clean();
        } finally {
            lock.unlock();
        }
    }

    private int positionOf(String id) {
        Integer found = positions.get(id);
        if (found == null) { throw new NoSuchElementException("no request has the id " + id); }
        return found;
    }
}
