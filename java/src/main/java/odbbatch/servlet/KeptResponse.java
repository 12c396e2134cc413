package odbbatch.servlet;

import java.io.*;
import java.time.*;
import java.time.format.DateTimeFormatter;
import java.util.*;
import java.util.regex.*;
import javax.servlet.*;
import javax.servlet.http.*;
import odbbatch.*;

/** A response to a request of a batch, which keeps what is written. Nothing of it reaches the response to the batch. */
final class KeptResponse extends HttpServletResponseWrapper {
    private static final Pattern CHARSET = Pattern.compile("(?i);\\s*charset=\"?([\\w.:-]+)");

    private final Map<String, String> headers = new TreeMap<>(String.CASE_INSENSITIVE_ORDER);
    private final ByteArrayOutputStream body = new ByteArrayOutputStream();
    private final ServletOutputStream stream = new Kept();
    private final BatchFilter.Room room;
    private final boolean isRead;
    private PrintWriter writer;
    private RefusalException why; // there was no room
    private int status = 200;
    private boolean isSent;

    /** Keeps a body for which there is room. If there is none for the answer to a read, who writes it gets an exception; else it is dropped. */
    KeptResponse(HttpServletResponse outer, BatchFilter.Room room, boolean isRead) { super(outer); this.room = room; this.isRead = isRead; }

    /** What was written; throws why it is too long. */
    Answer answer() {
        flushBuffer();
        if (why != null && isRead) { throw why; }
        return Answer.of(status, headers, body.toByteArray());
    }

    private final class Kept extends ServletOutputStream {
        @Override public boolean isReady() { return true; }

        @Override public void setWriteListener(WriteListener listener) {
            throw new IllegalStateException("a request of a batch is not asynchronous");
        }

        @Override public void write(int it) { write(new byte[] {(byte) it}, 0, 1); }

        @Override public void write(byte[] from, int at, int size) {
            if (isSent) { return; }
            why = why == null ? room.take(size, true) : why;
            if (why == null) { body.write(from, at, size); } else { drop(); }
            if (why != null && isRead) { throw why; }
        }
    }

    @Override public ServletOutputStream getOutputStream() { return stream; }

    @Override public PrintWriter getWriter() throws IOException {
        if (writer == null) { writer = new PrintWriter(new OutputStreamWriter(stream, getCharacterEncoding())); }
        return writer;
    }

    @Override public void flushBuffer() { if (writer != null) { writer.flush(); } }

    private void drop() { room.give(body.size()); body.reset(); }

    @Override public void resetBuffer() { flushBuffer(); drop(); }

    @Override public void reset() { resetBuffer(); headers.clear(); setStatus(200); }

    @Override public boolean isCommitted() { return isSent; }

    @Override public void setStatus(int status) { this.status = isSent ? this.status : status; }

    /**
     * As in version 5 of the API and before.
     *
     * @param status the status
     * @param message is dropped
     * @deprecated as there
     */
    @Deprecated public void setStatus(int status, String message) { setStatus(status); }

    @Override public int getStatus() { return status; }

    @Override public void sendError(int status) { sendError(status, null); }

    @Override public void sendError(int status, String message) { reset(); setStatus(status); isSent = true; }

    @Override public void sendRedirect(String location) { sendError(302); setHeader("Location", location); }

    @Override public void setHeader(String name, String value) { headers.compute(name, (key, old) -> value); }

    @Override public void addHeader(String name, String value) {
        headers.compute(name, (key, old) -> value == null ? old : old == null ? value : old + ", " + value);
    }

    @Override public void setIntHeader(String name, int value) { setHeader(name, String.valueOf(value)); }

    @Override public void addIntHeader(String name, int value) { addHeader(name, String.valueOf(value)); }

    @Override public void setDateHeader(String name, long date) { setHeader(name, shown(date)); }

    @Override public void addDateHeader(String name, long date) { addHeader(name, shown(date)); }

    private static String shown(long date) { return DateTimeFormatter.RFC_1123_DATE_TIME.format(Instant.ofEpochMilli(date).atZone(ZoneOffset.UTC)); }

    @Override public String getHeader(String name) { return headers.get(name); }

    @Override public Collection<String> getHeaders(String name) { return headers.containsKey(name) ? List.of(getHeader(name)) : List.of(); }

    @Override public Collection<String> getHeaderNames() { return headers.keySet(); }

    @Override public boolean containsHeader(String name) { return headers.containsKey(name); }

    @Override public void setContentType(String type) { setHeader("Content-Type", type); }

    @Override public String getContentType() { return getHeader("Content-Type"); }

    @Override public void setCharacterEncoding(String charset) {}

    @Override public String getCharacterEncoding() {
        Matcher found = CHARSET.matcher(String.valueOf(getContentType()));
        return found.find() ? found.group(1) : "UTF-8";
    }

    @Override public void setContentLength(int length) {}

    @Override public void setContentLengthLong(long length) {}

    @Override public void setLocale(Locale locale) {}

    @Override public void addCookie(Cookie cookie) {}
}
