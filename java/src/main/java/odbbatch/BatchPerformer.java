package odbbatch;

import java.lang.System.Logger;
import java.lang.System.Logger.Level;
import java.net.URI;
import java.util.*;
import java.util.concurrent.*;
import java.util.concurrent.atomic.AtomicReference;
import java.util.function.BooleanSupplier;

/**
 * Performs a batch by a function that sends one request. It blocks, so a thread performs it, which may be a virtual one.
 *
 * <pre>{@code
 * byte[] response = BatchPerformer.of(batch, URI.create("https://host/odata/")).width(8)
 *     .perform(request -> request.send(client, Duration.ofSeconds(30)),
 *              (group, body) -> template.executeWithoutResult(status -> body.run()));
 * }</pre>
 */
public final class BatchPerformer {
    /** Sends a request. */
    public interface Send {
        /**
         * Sends a request, and waits for the answer. It has to end by itself if none comes.
         *
         * @param request the request
         * @return what it is answered
         * @throws Exception an answer, too: that of a RefusalException, 504 for a timeout, 502 for another IOException, else 500
         */
        Answer send(PreparedRequest request) throws Exception;
    }

    /** Performs a group in a transaction. */
    public interface Transaction {
        /**
         * Begins a transaction, runs the body once, in this thread, and commits. If the body throws, rolls back and throws on.
         *
         * @param group the name of the group
         * @param body sends the requests of the group
         * @throws Exception the transaction cannot begin, or cannot be committed: the answer to the request that is open, as in Send
         */
        void perform(String group, Runnable body) throws Exception;
    }

    /** Thrown by the body of a transaction, which is rolled back by it: a request of the group has failed. */
    public static final class GroupFailedException extends RuntimeException {
        private static final long serialVersionUID = 1;

        GroupFailedException(String group) { super(group, null, false, false); }
    }

    private static final Logger LOG = System.getLogger("odb_batch");

    private final byte[] batch;
    private final URI base;
    private List<URI> roots = List.of();
    private Mode mode = Mode.CONTINUE;
    private int width = 1, limit = Odb.MAX_REQUESTS;
    private ExecutorService pool;
    private BooleanSupplier isStopping = () -> false;

    private BatchPerformer(byte[] batch, URI base) { this.batch = batch; this.base = base; }

    /**
     * The performance of a batch.
     *
     * @param batch the batch
     * @param base the absolute URL that URLs are relative to, which ends with /. Requests that lead out of it are answered 404 and not sent
     * @return a performance with a width of 1
     */
    public static BatchPerformer of(byte[] batch, URI base) { return new BatchPerformer(batch, base); }

    /**
     * Where requests may lead, if not to the base alone.
     *
     * @param roots absolute URLs that end with /
     * @return this performance
     */
    public BatchPerformer roots(URI... roots) { this.roots = List.of(roots); return this; }

    /**
     * What an error does.
     *
     * @param mode CONTINUE, which is the default, or STOP
     * @return this performance
     */
    public BatchPerformer mode(Mode mode) { this.mode = mode; return this; }

    /**
     * How many units are performed at once; a unit is a group, or a request without one. With 1 all happens in the thread of the caller.
     *
     * @param width a number from 1, which is the default, to 10,000
     * @return this performance
     */
    public BatchPerformer width(int width) { this.width = width; return this; }

    /**
     * How many requests the batch may have.
     *
     * @param limit a number from 1 to 10,000, which is the default
     * @return this performance
     */
    public BatchPerformer limit(int limit) { this.limit = limit; return this; }

    /**
     * Where units are performed with a width above 1, as Executors.newVirtualThreadPerTaskExecutor() of Java 21. Without it threads are made
     * for this batch. A pool with few threads must not be that of the caller, which would wait for itself.
     *
     * @param pool the pool, which is not shut down
     * @return this performance
     */
    public BatchPerformer pool(ExecutorService pool) { this.pool = pool; return this; }

    /**
     * Is asked before a unit begins. Once it is true nothing more starts, and what has not started is answered 424: for a deadline, a client
     * that has gone, and a process that ends.
     *
     * @param isStopping is asked by several threads, if the width is above 1
     * @return this performance
     */
    public BatchPerformer stop(BooleanSupplier isStopping) { this.isStopping = isStopping; return this; }

    /**
     * Performs the batch without transactions.
     *
     * @param send sends a request; with a width above 1 in several threads at once
     * @return the response document
     * @throws InterruptedException as below
     */
    public byte[] perform(Send send) throws InterruptedException { return perform(send, null); }

    /**
     * Performs the batch. The requests of a group are sent one after another by one thread, in its transaction, which begins once the group
     * needs nothing more from outside, and is over before the last one is reported.
     *
     * @param send sends a request; with a width above 1 in several threads at once
     * @param transaction performs a group in a transaction; null if groups are refused
     * @return the response document
     * @throws InterruptedException the thread was interrupted: nothing more started, what was out was interrupted and has ended, and open
     *     transactions were rolled back
     * @throws FaultException the batch is refused; nothing was sent
     * @throws RefusalException it has too many requests (413), or groups without transactions (501); nothing was sent
         */
    public byte[] perform(Send send, Transaction transaction) throws InterruptedException {
        try (LiveRun run = new LiveRun(batch, mode, width)) {
            if (run.ids().size() > limit) { throw new RefusalException(413, "BatchTooLong", "A batch may have " + limit + " requests"); }
            if (transaction == null && run.requests().stream().anyMatch(it -> it.group().isPresent())) {
                throw new RefusalException(501, "NoGroups", "Atomicity groups are not supported here");
            }
            ExecutorService threads = pool == null && width > 1 ? Executors.newCachedThreadPool() : pool;
            try {
                new Work(run, send, transaction, width == 1 ? Runnable::run : threads).perform();
            } finally {
                if (threads != pool) { threads.shutdown(); }
            }
            return run.response();
        }
    }

    /** A batch on its way. The thread of the caller begins units, and performs those that no other thread takes. */
    private final class Work {
        private final LiveRun run;
        private final References references;
        private final Send send;
        private final Transaction transaction;
        private final Executor threads;
        private final Queue<List<String>> pending = new ConcurrentLinkedQueue<>(); // units that no thread performs yet
        private final Semaphore ended = new Semaphore(0);
        private final Set<Thread> busy = new HashSet<>(); // and a lock over it and isOver, in which nothing blocks
        private boolean isOver;
        private volatile Throwable failure;

        Work(LiveRun run, Send send, Transaction transaction, Executor threads) {
            this.run = run; this.send = send; this.transaction = transaction; this.threads = threads;
            references = new References(run.requests(), base, roots);
        }

        /** Performs all units. However it ends, those that are out are interrupted and awaited: send must not go on over a closed run. */
        void perform() throws InterruptedException {
            Thread caller = Thread.currentThread();
            int out = 0, patience = 20; // for how many milliseconds other threads may leave a unit
            try {
                while (failure == null) {
                    List<String> unit = out < width ? begin() : null;
                    if (unit == null && out == 0) { break; }
                    if (unit != null) {
                        submit(unit, caller);
                        out++;
                    } else if (ended.tryAcquire(patience, TimeUnit.MILLISECONDS)) {
                        out--;
                    } else if (performPending(caller)) {
                        patience = 0;
                    } else {
                        ended.acquire();
                        out--;
                    }
                }
            } finally {
                synchronized (busy) {
                    isOver = true;
                    busy.forEach(Thread::interrupt);
                }
                while (performPending(caller)) { continue; }
                ended.acquireUninterruptibly(out);
            }
            if (failure instanceof Error) { throw (Error) failure; }
            if (failure != null) { throw (RuntimeException) failure; }
        }

        /** Starts the first request of the first unit that may begin, else nextUnit would return it again; null if none may now. */
        private List<String> begin() {
            if (isStopping.getAsBoolean()) { run.stop(); }
            List<String> unit = run.nextUnit();
            return unit.isEmpty() || run.tryStart(unit.get(0)) != OdbLibrary.DONE ? null : unit; // meanwhile an error may have stopped the run
        }

        private void submit(List<String> unit, Thread caller) {
            pending.add(unit);
            try {
                threads.execute(() -> performPending(caller));
            } catch (RejectedExecutionException | OutOfMemoryError error) { // as of a system with no more threads
                LOG.log(Level.WARNING, "the pool takes no more units, so fewer threads perform them");
            }
        }

        /** Performs a unit that no thread performs yet; returns whether there was one. */
        private boolean performPending(Thread caller) {
            List<String> ids = pending.poll();
            if (ids == null) { return false; }
            Thread thread = Thread.currentThread();
            boolean isBegun;
            synchronized (busy) { isBegun = !isOver && busy.add(thread); }
            try {
                if (isBegun) { unit(ids); }
            } catch (RuntimeException | Error thrown) {
                failure = thrown;
            }
            synchronized (busy) { busy.remove(thread); }
            if (thread != caller) { Thread.interrupted(); } // the next task of this thread is another's
            ended.release();
            return true;
        }

        /** Performs a unit whose first request has started. */
        private void unit(List<String> ids) {
            String first = ids.get(0);
            references.of(first).group().ifPresentOrElse(group -> group(group, ids), () -> report(first, sent(first)));
        }

        /** Performs a group in its transaction. Its last request is reported after the commit: what needs the group starts then. */
        private void group(String group, List<String> ids) {
            AtomicReference<String> open = new AtomicReference<>(ids.get(0));
            AtomicReference<Answer> last = new AtomicReference<>();
            Throwable error = null;
            try {
                transaction.perform(group, () -> last.set(members(group, ids, open)));
                if (last.get() == null && open.get() != null) { error = new IllegalStateException("the transaction has not performed the group"); }
            } catch (Exception | Error thrown) {
                error = thrown;
            }
            if (open.get() != null) {
                report(open.get(), error == null ? last.get() : failed("the group " + group, error));
            } else if (error != null && !(error instanceof GroupFailedException)) {
                LOG.log(Level.ERROR, "the group " + group + " could not be rolled back", error);
            }
        }

        /** Sends the requests of a group; returns the answer to the last one, which is not reported yet. */
        private Answer members(String group, List<String> ids, AtomicReference<String> open) {
            for (String id : ids) {
                if (!id.equals(open.get())) { run.start(id); }
                open.set(id);
                if (Thread.currentThread().isInterrupted()) { throw new CancellationException("the batch is cancelled"); }
                Answer answer = sent(id);
                if (answer.isSuccess() && id.equals(ids.get(ids.size() - 1))) { return answer; }
                open.set(null);
                report(id, answer);
                if (!answer.isSuccess()) { throw new GroupFailedException(group); }
            }
            return null;
        }

        /** What a request is answered, whatever happens. */
        private Answer sent(String id) {
            try {
                Answer answer = send.send(references.prepared(id));
                return answer.status() >= 200 && answer.status() <= 599 ? answer : Answer.of(502, answer.headers(), answer.body());
            } catch (Exception | Error error) {
                return failed("the request " + id, error);
            }
        }

        private Answer failed(String what, Throwable error) {
            if (error instanceof InterruptedException) { Thread.currentThread().interrupt(); }
            if (!(error instanceof RefusalException)) { LOG.log(Level.ERROR, what + " failed", error); }
            return RefusalException.answerTo(error);
        }

        /** Reports an answer: a body that is not JSON though its answer claims it as a string, and one that is too long not at all. */
        private void report(String id, Answer answer) {
            references.keep(id, answer);
            Map<String, String> headers = new TreeMap<>(answer.headers());
            headers.keySet().removeAll(Odb.names("not_shown"));
            byte[] body = Bodies.toJson(answer.body(), answer.headers());
            if (body.length > Odb.MAX_BYTES) {
                LOG.log(Level.ERROR, "the body of the answer to " + id + " has more than " + Odb.MAX_BYTES + " bytes");
                boolean isRead = references.of(id).method().equals("GET");
                report(id, isRead ? RefusalException.TOO_LONG : Answer.of(answer.status(), answer.headers(), null));
                return;
            }
            try {
                run.report(id, answer.status(), headers.isEmpty() ? null : headers, body);
            } catch (FaultException error) {
                LOG.log(Level.WARNING, "the answer to " + id + " has a body that is not JSON");
                byte[] text = Bodies.asString(answer.body(), Map.of());
                run.report(id, answer.status(), headers.isEmpty() ? null : headers, text.length > Odb.MAX_BYTES ? null : text);
            }
        }
    }
}
