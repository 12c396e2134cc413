package odbbatch.servlet;

import java.io.*;
import java.nio.charset.StandardCharsets;
import java.time.*;
import java.time.format.DateTimeFormatter;
import java.util.*;
import javax.servlet.*;
import javax.servlet.http.*;
import odbbatch.PreparedRequest;

/** A request of a batch, as servlets read it. What it does not say is that of the request that carries the batch. */
final class InnerRequest extends HttpServletRequestWrapper {
    private final PreparedRequest request;
    private final Map<String, String> headers;
    private final Map<String, Object> attributes = new HashMap<>(); // a null stands for one that is removed
    private final ServletInputStream body;

    InnerRequest(HttpServletRequest outer, PreparedRequest request, Map<String, String> headers) {
        super(outer);
        this.request = request; this.headers = headers; body = new Body(request.body());
    }

    private static final class Body extends ServletInputStream {
        private final ByteArrayInputStream bytes;

        Body(byte[] given) { bytes = new ByteArrayInputStream(given); }

        @Override public boolean isFinished() { return bytes.available() == 0; }

        @Override public boolean isReady() { return true; }

        @Override public void setReadListener(ReadListener listener) { throw notAsynchronous(); }

        @Override public int read() { return bytes.read(); }

        @Override public int read(byte[] to, int at, int size) { return bytes.read(to, at, size); }
    }

    private static IllegalStateException notAsynchronous() { return new IllegalStateException("a request of a batch is not asynchronous"); }

    @Override public boolean isAsyncSupported() { return false; }

    @Override public AsyncContext startAsync() { throw notAsynchronous(); }

    @Override public AsyncContext startAsync(ServletRequest request, ServletResponse response) { throw notAsynchronous(); }

    @Override public String getMethod() { return request.method(); }

    @Override public StringBuffer getRequestURL() { return new StringBuffer(request.url().split("\\?", 2)[0]); }

    @Override public String getQueryString() { return request.url().contains("?") ? request.url().split("\\?", 2)[1] : null; }

    @Override public ServletInputStream getInputStream() { return body; }

    @Override public BufferedReader getReader() { return new BufferedReader(new InputStreamReader(body, StandardCharsets.UTF_8)); }

    @Override public String getCharacterEncoding() { return "UTF-8"; }

    @Override public int getContentLength() { return request.body().length; }

    @Override public long getContentLengthLong() { return request.body().length; }

    @Override public String getContentType() { return getHeader("content-type"); }

    @Override public String getHeader(String name) { return headers.get(name); }

    @Override public Enumeration<String> getHeaders(String name) {
        return Collections.enumeration(headers.containsKey(name) ? List.of(headers.get(name)) : List.of());
    }

    @Override public Enumeration<String> getHeaderNames() { return Collections.enumeration(headers.keySet()); }

    @Override public int getIntHeader(String name) { return headers.containsKey(name) ? Integer.parseInt(getHeader(name)) : -1; }

    @Override public long getDateHeader(String name) {
        if (!headers.containsKey(name)) { return -1; }
        try {
            return ZonedDateTime.parse(getHeader(name), DateTimeFormatter.RFC_1123_DATE_TIME).toInstant().toEpochMilli();
        } catch (DateTimeException error) {
            throw new IllegalArgumentException(name + " is not a date", error);
        }
    }

    @Override public Object getAttribute(String name) { return attributes.containsKey(name) ? attributes.get(name) : super.getAttribute(name); }

    @Override public void setAttribute(String name, Object value) { attributes.put(name, value); }

    @Override public void removeAttribute(String name) { attributes.put(name, null); }

    @Override public Enumeration<String> getAttributeNames() {
        Set<String> names = new TreeSet<>(Collections.list(super.getAttributeNames()));
        names.addAll(attributes.keySet());
        names.removeIf(name -> getAttribute(name) == null);
        return Collections.enumeration(names);
    }
}
