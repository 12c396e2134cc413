package odbbatch.servlet;

import java.io.*;
import java.lang.System.Logger;
import java.lang.System.Logger.Level;
import java.net.*;
import java.time.Duration;
import java.util.*;
import java.util.concurrent.*;
import java.util.concurrent.atomic.AtomicLong;
import javax.servlet.*;
import javax.servlet.http.*;
import odbbatch.*;

/**
 * Answers POST to one path as a batch: the servlets and filters of the application answer its requests, in the same thread, one after another.
 *
 * <p>Map it to that path alone, before all other filters, with {@code DispatcherType.REQUEST}. Map every filter that checks requests, as a
 * login, with {@code DispatcherType.FORWARD}, too: one that is mapped with REQUEST alone, the default, does not see the requests of a batch,
 * and lets all of them through. Security constraints of web.xml never see them, since they do not apply to what is forwarded. The API of
 * servlets does not show how filters are mapped, so test it: send a URL that is forbidden in a batch.
 *
 * <pre>{@code
 * context.addFilter("batch", new BatchFilter("/odata/$batch", transaction)).addMappingForUrlPatterns(null, false, "/odata/$batch");
 * context.addFilter("login", login).addMappingForUrlPatterns(EnumSet.of(DispatcherType.REQUEST, DispatcherType.FORWARD), true, "/*");
 * }</pre>
 *
 * <p>URLs are relative to the folder of that path, and may not leave it. Servlets may not be asynchronous in a batch, cookies that they set
 * are dropped, and request attributes that one request sets are not seen by another.
 */
public final class BatchFilter implements Filter {
    private static final Logger LOG = System.getLogger("odb_batch");
    private static final String INNER = "odbbatch.inner"; // the attribute of a request of a batch

    private final String path;
    private final BatchPerformer.Transaction transaction;
    private final Set<String> allowed = new TreeSet<>();
    private final AtomicLong room = new AtomicLong(268_435_456);
    private int limit = 1000, maxBytes = Odb.MAX_BYTES;
    private Duration timeout = Duration.ofSeconds(30), deadline = Duration.ofDays(1);
    private ScheduledThreadPoolExecutor timer;

    /**
     * A filter for a path of batches.
     *
     * @param path the path in the application, as /odata/$batch
     * @param transaction performs a group in a transaction of its thread; null if batches with groups are answered 501
     */
    public BatchFilter(String path, BatchPerformer.Transaction transaction) { this.path = path; this.transaction = transaction; }

    /**
     * How many requests a batch may have; one with more is answered 413.
     *
     * @param limit a number from 1 to 10,000; without it 1,000
     * @return this filter
     */
    public BatchFilter limit(int limit) { this.limit = limit; return this; }

    /**
     * How many bytes a batch may have, else it is answered 413, and its answers together: over this a GET is answered 507, and a write keeps
     * its status, but loses its body.
     *
     * @param maxBytes a number from 1 to 16,777,216, which is the default
     * @return this filter
     */
    public BatchFilter maxBytes(int maxBytes) { this.maxBytes = maxBytes; return this; }

    /**
     * How many bytes all batches may have at once, with the bodies of their answers: over this a batch, and a GET in one, is answered 503, and
     * a write keeps its status, but loses its body. Bodies are copied, so a process needs four times as much.
     *
     * @param memory a number of at least maxBytes; without it 268,435,456
     * @return this filter
     */
    public BatchFilter memory(long memory) { room.set(memory); return this; }

    /**
     * How long a request of a batch may take. Then its thread is interrupted, and if it ends by an exception, it is answered 504: a servlet that
     * ignores interrupts holds its batch. An interrupt closes the channel of a file that the thread reads.
     *
     * @param timeout a duration; without it 30 seconds
     * @return this filter
     */
    public BatchFilter timeout(Duration timeout) { this.timeout = timeout; return this; }

    /**
     * How long a batch may take. Then nothing more starts, what has not started is answered 424, and what runs is waited for.
     *
     * @param deadline a duration; without it a day
     * @return this filter
     */
    public BatchFilter deadline(Duration deadline) { this.deadline = deadline; return this; }

    /**
     * Headers that a request of a batch may have for itself, beside those of OData and of usual clients. Another one is answered 400.
     *
     * @param names the names in lower case
     * @return this filter
     */
    public BatchFilter allow(String... names) { allowed.addAll(Set.of(names)); return this; }

    /** Logs how the filter and the others have to be mapped. Without the library the application does not start. */
    @Override public void init(FilterConfig config) {
        timer = new ScheduledThreadPoolExecutor(1); timer.setRemoveOnCancelPolicy(true);
        Set<String> others = new TreeSet<>(config.getServletContext().getFilterRegistrations().keySet());
        others.remove(config.getFilterName());
        LOG.log(Level.INFO, "answers batches at " + path + ". Map this filter to that path alone, before all others, with DispatcherType.REQUEST,"
            + " and each filter that checks requests with FORWARD, too, or it does not see those of batches, as constraints of web.xml never do."
            + " Other filters: " + others + ". Library: " + Odb.version());
    }

    @Override public void destroy() { timer.shutdownNow(); }

    @Override public void doFilter(ServletRequest given, ServletResponse response, FilterChain chain) throws IOException, ServletException {
        HttpServletRequest request = (HttpServletRequest) given;
        HttpServletResponse to = (HttpServletResponse) response;
        if (!path.equals(request.getServletPath() + (request.getPathInfo() == null ? "" : request.getPathInfo()))) {
            chain.doFilter(given, response);
            return;
        }
        try (Room taken = new Room(room, maxBytes)) {
            Answer answer = answered(request, to, taken);
            to.setStatus(answer.status());
            to.setHeader("OData-Version", "4.01");
            answer.headers().forEach(to::setHeader);
            to.setContentLength(answer.body().length);
            to.getOutputStream().write(answer.body());
        }
    }

    private Answer answered(HttpServletRequest request, HttpServletResponse response, Room taken) throws IOException {
        try {
            HeaderPolicy policy = new HeaderPolicy(request, allowed);
            require(request, policy);
            ByteArrayOutputStream batch = new ByteArrayOutputStream();
            for (byte[] part; (part = request.getInputStream().readNBytes(65_536)).length > 0; batch.writeBytes(part)) {
                require(part.length <= maxBytes - batch.size(), 413, "TooLong", "A batch may have " + maxBytes + " bytes", Map.of());
                RefusalException why = taken.take(part.length, false);
                if (why != null) { throw why; }
            }
            URI[] roots = roots(request);
            long end = System.nanoTime() + deadline.toNanos();
            byte[] found = BatchPerformer.of(batch.toByteArray(), roots[0]).roots(roots).mode(policy.mode()).limit(limit)
                .stop(() -> System.nanoTime() - end >= 0).perform(it -> dispatched(request, response, policy, taken, it), transaction);
            Map<String, String> headers = new TreeMap<>(Map.of("content-type", "application/json"));
            if (policy.mode() == Mode.CONTINUE) { headers.put("preference-applied", "continue-on-error"); }
            return Answer.of(200, headers, found);
        } catch (FaultException error) {
            String message = error.name() + ": " + error.explanation().replaceAll("\\s+", " ");
            return new RefusalException(400, error.code(), message, error.fault().place(), Map.of()).answer();
        } catch (RefusalException error) {
            return error.answer();
        } catch (InterruptedException error) {
            Thread.currentThread().interrupt();
            return new RefusalException(503, "Stopped", "The server ends").answer();
        }
    }

    /** Throws the refusal of a request that carries no batch that can be performed here. */
    private void require(HttpServletRequest request, HeaderPolicy policy) {
        String type = String.valueOf(request.getContentType()).split(";", 2)[0].trim(), method = request.getMethod();
        require(request.getAttribute(INNER) == null, 400, "NestedBatch", "A batch has no batches", Map.of());
        require(method.equals("POST"), 405, "NotAllowed", method + " does not apply to a batch", Map.of("allow", "POST"));
        require(type.equalsIgnoreCase("application/json"), 415, "BadMediaType", "A batch is in application/json", Map.of("accept", "application/json"));
        require(policy.outer("content-encoding").matches("(?i)(identity)?"), 415, "BadEncoding", "A batch is not compressed", Map.of("accept-encoding", "identity"));
        require(!policy.isRepeatable(), 501, "NotRepeatable", "Batches are not kept, so none can be repeated", Map.of("repeatability-result", "rejected"));
    }

    private static void require(boolean isSo, int status, String code, String message, Map<String, String> headers) {
        if (!isSo) { throw new RefusalException(status, code, message, null, headers); }
    }

    /** The folder of the batch as URLs of both schemes, that of the request first. A proxy in front may add https. */
    private URI[] roots(HttpServletRequest request) {
        StringBuffer url = request.getRequestURL();
        String origin = url.substring(0, url.length() - request.getRequestURI().length());
        String folder = origin.substring(origin.indexOf("://")) + request.getContextPath() + path.substring(0, path.lastIndexOf('/') + 1);
        try {
            URI https = new URI("https" + folder), http = new URI("http" + folder);
            return origin.startsWith("https:") ? new URI[] {https, http} : new URI[] {http, https};
        } catch (URISyntaxException error) {
            throw new RefusalException(400, "BadHost", "The host is not a name with a port");
        }
    }

    /** How many bytes a batch and its answers may take, of those that all batches of a filter may. One thread uses it, and closes it at the end. */
    static final class Room implements AutoCloseable {
        private final AtomicLong ofAll;
        private long forAnswers, taken;

        Room(AtomicLong ofAll, long forAnswers) { this.ofAll = ofAll; this.forAnswers = forAnswers; }

        /** Takes bytes, of an answer or of the batch itself; returns why there are not as many, or null. */
        RefusalException take(int count, boolean isOfAnswer) {
            if (isOfAnswer && count > forAnswers) { return new RefusalException(507, "TooLong", "The answer is too long for a batch"); }
            if (ofAll.addAndGet(-count) < 0) {
                ofAll.addAndGet(count);
                return new RefusalException(503, "Busy", "Other batches have taken the memory", null, Map.of("retry-after", "1"));
            }
            forAnswers -= isOfAnswer ? count : 0;
            taken += count;
            return null;
        }

        /** Gives back bytes of an answer. */
        void give(int count) {
            ofAll.addAndGet(count);
            forAnswers += count;
            taken -= count;
        }

        @Override public void close() { ofAll.addAndGet(taken); }
    }

    /** Interrupts this thread once the time of a request is over, unless it is closed before. */
    private final class Limit implements AutoCloseable {
        private final Future<?> end;
        private Thread thread = Thread.currentThread(); // null once it is interrupted

        Limit() { synchronized (this) { end = timer.schedule(this::interrupt, timeout.toNanos(), TimeUnit.NANOSECONDS); } }

        private synchronized void interrupt() {
            if (!end.isCancelled()) { thread.interrupt(); thread = null; }
        }

        synchronized boolean isOver() { return thread == null; }

        @Override public synchronized void close() {
            end.cancel(false);
            if (isOver()) { Thread.interrupted(); } // so it is not that of what comes next
        }
    }

    private Answer dispatched(HttpServletRequest outer, HttpServletResponse response, HeaderPolicy policy, Room taken, PreparedRequest request)
            throws Exception {
        String target = request.url().substring(request.url().indexOf('/', request.url().indexOf("://") + 3)); // a path, and perhaps a query
        require(!target.matches(".*%(?![0-9A-Fa-f]{2}).*"), 400, "BadUrl", "The URL has a % without two digits", Map.of());
        KeptResponse kept = new KeptResponse(response, taken, request.method().equals("GET"));
        InnerRequest inner = new InnerRequest(outer, request, policy.headers(request.headers()));
        inner.setAttribute(INNER, true);
        RequestDispatcher dispatcher = outer.getRequestDispatcher(target.substring(outer.getContextPath().length()));
        if (dispatcher == null) { throw new RefusalException(404, "NotFound", "Nothing answers " + target); }
        try (Limit limit = new Limit()) {
            try {
                dispatcher.forward(inner, kept);
            } catch (Exception error) {
                if (limit.isOver()) { throw new RefusalException(504, "Timeout", "No answer came in time"); }
                throw error instanceof IOException ? new ServletException(error) : error; // it is none of the connection to a client
            }
        }
        return kept.answer();
    }
}
