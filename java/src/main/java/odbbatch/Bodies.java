package odbbatch;

import static odbbatch.OdbLibrary.*;

import java.io.ByteArrayOutputStream;
import java.nio.*;
import java.nio.charset.*;
import java.util.*;
import java.util.regex.*;
import java.util.stream.Collectors;

/**
 * Bodies between the wire and a batch (OData JSON Format 4.01, sections 19.1 and 19.5): JSON as it is, a text as a string, and any other in
 * base64url.
 */
final class Bodies {
    private static final Pattern CHARSET = Pattern.compile(";\\s*charset=\"?([\\w.:-]+)", Pattern.CASE_INSENSITIVE);
    private static final Pattern CONTROL = Pattern.compile("[\\x00-\\x1f]");

    private static String mediaType(Map<String, String> headers) {
        return headers.getOrDefault("content-type", "").split(";", 2)[0].trim().toLowerCase(Locale.ROOT);
    }

    private static boolean isJson(String kind) { return kind.isEmpty() || kind.equals("application/json") || kind.endsWith("+json"); }

    /** The character set of a text; throws IllegalArgumentException if there is none of the name. */
    private static Charset charset(Map<String, String> headers) {
        Matcher found = CHARSET.matcher(headers.getOrDefault("content-type", ""));
        return found.find() ? Charset.forName(found.group(1)) : StandardCharsets.UTF_8;
    }

    /** The bytes on the wire of a body in a document; its text, if its media type asks for a string and it is none. */
    static byte[] toWire(byte[] text, Map<String, String> headers) {
        String kind = mediaType(headers);
        String value = isJson(kind) ? null : string(text);
        if (value == null) { return text; }
        if (kind.startsWith("text/")) {
            try {
                ByteBuffer found = charset(headers).newEncoder().encode(CharBuffer.wrap(value));
                return Arrays.copyOf(found.array(), found.limit());
            } catch (CharacterCodingException | IllegalArgumentException | UnsupportedOperationException error) {
                throw new RefusalException(400, "BadCharset", "The body cannot be written in its character set", "content-type", Map.of());
            }
        }
        try {
            return Base64.getUrlDecoder().decode(value.replace('+', '-').replace('/', '_'));
        } catch (IllegalArgumentException error) {
            return bytes(value);
        }
    }

    /** The text in a document of a body on the wire; empty if there is none. */
    static byte[] toJson(byte[] wire, Map<String, String> headers) {
        String kind = mediaType(headers);
        if (wire.length > 0 && kind.startsWith("text/")) { return asString(wire, headers); }
        if (wire.length > 0 && !isJson(kind)) { return bytes('"' + Base64.getUrlEncoder().withoutPadding().encodeToString(wire) + '"'); }
        boolean isMarked = wire.length > 2 && wire[0] == (byte) 0xef && wire[1] == (byte) 0xbb && wire[2] == (byte) 0xbf;
        return isMarked ? Arrays.copyOfRange(wire, 3, wire.length) : wire;
    }

    /** Bytes as a string of JSON, whatever they are: where they are not of their character set, each is a character. */
    static byte[] asString(byte[] wire, Map<String, String> headers) {
        String text;
        try {
            text = charset(headers).newDecoder().decode(ByteBuffer.wrap(wire)).toString();
        } catch (CharacterCodingException | IllegalArgumentException error) {
            text = new String(wire, StandardCharsets.ISO_8859_1);
        }
        return bytes(quoted(text));
    }

    /** A string of JSON. */
    static String quoted(String text) {
        String plain = text.replace("\\", "\\\\").replace("\"", "\\\"");
        return '"' + CONTROL.matcher(plain).replaceAll(found -> "\\\\u00" + found.group().charAt(0) / 16 + Character.forDigit(found.group().charAt(0) % 16, 16)) + '"';
    }

    /** An object of strings. */
    static String object(Map<String, String> members) {
        return members.entrySet().stream().map(it -> quoted(it.getKey()) + ":" + quoted(it.getValue())).collect(Collectors.joining(",", "{", "}"));
    }

    /** Texts and bytes, one after another. */
    static byte[] joined(Object... parts) {
        ByteArrayOutputStream found = new ByteArrayOutputStream();
        for (Object part : parts) { found.writeBytes(part instanceof byte[] ? (byte[]) part : bytes(part.toString())); }
        return found.toByteArray();
    }

    /** The value of a string of JSON; null if it is something else. */
    static String string(byte[] text) {
        Map<String, String> found = text.length > 0 && text[0] == '"' ? headers(joined("{\"\":", text, "}")) : null;
        return found == null || found.size() != 1 ? null : found.get(""); // "x","y":"z" is no string
    }
}
