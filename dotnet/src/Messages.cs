using System;
using System.Collections.Generic;
using System.IO;
using System.Linq;
using System.Net.Http;
using System.Text;
using System.Threading;
using System.Threading.Tasks;
using System.Xml;

namespace OdbBatch {
    /// <summary>What messages have in common.</summary>
    internal static class Messages {
        /// <summary>The names of headers of an answer that a response does not show, and of those that clients set by themselves.</summary>
        internal static readonly HashSet<string> NotShown = new HashSet<string>(Odb.Names("not_shown")),
            OfConnection = new HashSet<string>(NotShown.Concat(Odb.Names("of_connection")));

        /// <summary>Headers by their names in lower case; several of one name are joined by commas (RFC 9110, section 5.2).</summary>
        internal static Dictionary<string, string> Lowered(IEnumerable<KeyValuePair<string, string>> headers) =>
            (headers ?? new KeyValuePair<string, string>[0]).GroupBy(it => it.Key.ToLowerInvariant(), it => it.Value).ToDictionary(it => it.Key, it => string.Join(", ", it));

        /// <summary>The headers of a message and its content.</summary>
        internal static IEnumerable<KeyValuePair<string, string>> Of(System.Net.Http.Headers.HttpHeaders message, HttpContent content) =>
            message.Concat((IEnumerable<KeyValuePair<string, IEnumerable<string>>>)content?.Headers ?? new KeyValuePair<string, IEnumerable<string>>[0])
                .SelectMany(it => it.Value.Select(value => new KeyValuePair<string, string>(it.Key, value)));

        /// <summary>Awaits a task; once a token is cancelled only for a while, since not everything heeds it. Then the task goes on by
        /// itself.</summary>
        internal static async Task<T> EndAsync<T>(Task<T> task, TimeSpan grace, CancellationToken cancellation) {
            var isOver = new TaskCompletionSource<bool>(TaskCreationOptions.RunContinuationsAsynchronously);
            using (cancellation.Register(() => isOver.TrySetResult(true)))
                if (!task.IsCompleted && await Task.WhenAny(task, isOver.Task).ConfigureAwait(false) != task && await Task.WhenAny(task, Task.Delay(grace)).ConfigureAwait(false) != task) {
                    _ = task.ContinueWith(it => it.Exception, TaskContinuationOptions.OnlyOnFaulted);
                    throw new TimeoutException("a task has not ended though it was cancelled");
                }
            return await task.ConfigureAwait(false);
        }
    }

    /// <summary>What a request is answered. The body is bytes as on the wire, or null.</summary>
    public sealed class BatchAnswer {
        private byte[] text;

        /// <summary>Makes an answer.</summary>
        public BatchAnswer(int status, IEnumerable<KeyValuePair<string, string>> headers = null, byte[] body = null) {
            Status = status; Headers = Messages.Lowered(headers); Body = body;
        }

        /// <summary>The status, from 200 to 599; any other number is shown as 502.</summary>
        public int Status { get; }
        /// <summary>The headers by their names in lower case.</summary>
        public IReadOnlyDictionary<string, string> Headers { get; }
        /// <summary>The body, or null.</summary>
        public byte[] Body { get; }
        /// <summary>Whether the status is one from 200 to 299.</summary>
        public bool IsSuccess => Status >= 200 && Status <= 299;
        /// <summary>The body as it is in a response document, or null.</summary>
        internal byte[] Text => text ?? (text = Bodies.ToJson(Body, Headers));

        /// <summary>The answer itself if it is a success; else throws.</summary>
        public BatchAnswer EnsureSuccess() => IsSuccess ? this : throw new HttpRequestException(Status + " " + Encoding.UTF8.GetString(Body ?? new byte[0]));

        /// <summary>The answer that a message has. It is read to its end, but at most 16,777,216 bytes of it.</summary>
        /// <exception cref="HttpRequestException">The body is longer.</exception>
        public static async Task<BatchAnswer> ReadAsync(HttpResponseMessage message, CancellationToken cancellation = default(CancellationToken)) {
            var found = new MemoryStream();
            using (cancellation.Register(message.Dispose)) // not every stream heeds the token
                try {
                    var stream = message.Content == null ? Stream.Null : await message.Content.ReadAsStreamAsync().ConfigureAwait(false);
                    var chunk = new byte[65536];
                    for (int count; (count = await Messages.EndAsync(stream.ReadAsync(chunk, 0, chunk.Length, cancellation), TimeSpan.Zero, cancellation).ConfigureAwait(false)) > 0; found.Write(chunk, 0, count))
                        if (found.Length + count > Native.MaxDocument) throw new HttpRequestException("the body of the answer has more than " + Native.MaxDocument + " bytes");
                } catch (Exception) when (cancellation.IsCancellationRequested) { throw new OperationCanceledException(cancellation); }
            return new BatchAnswer((int)message.StatusCode, Messages.Of(message.Headers, message.Content), found.Length == 0 ? null : found.ToArray());
        }

        /// <summary>The answer as a message, for clients that are generated.</summary>
        public HttpResponseMessage ToMessage() {
            var message = new HttpResponseMessage((System.Net.HttpStatusCode)Status) { Content = new ByteArrayContent(Body ?? new byte[0]) };
            foreach (var it in Headers)
                if (!message.Headers.TryAddWithoutValidation(it.Key, it.Value)) message.Content.Headers.TryAddWithoutValidation(it.Key, it.Value);
            return message;
        }
    }

    /// <summary>An exception that stands for an answer, with the error object of OData (OData JSON Format 4.01, section 21.1).</summary>
    public sealed class RefusalException : Exception {
        /// <summary>Makes a refusal with a status from 400 to 599.</summary>
        public RefusalException(int status, string code, string message, string target = null, IEnumerable<KeyValuePair<string, string>> headers = null) : base(message) {
            if (status < 400 || status > 599) throw new ArgumentOutOfRangeException(nameof(status), "a refusal has a status from 400 to 599");
            var error = new Dictionary<string, string> { ["code"] = code, ["message"] = message };
            if (target != null) error["target"] = target;
            var given = new Dictionary<string, string>(Messages.Lowered(headers)) { ["content-type"] = "application/json" };
            Answer = new BatchAnswer(status, given, Json.Joined("{\"error\":", Json.Object(error), "}"));
        }

        /// <summary>The answer.</summary>
        public BatchAnswer Answer { get; }

        /// <summary>The answer that stands for an exception.</summary>
        internal static BatchAnswer AnswerTo(Exception error) {
            if (error is RefusalException refusal) return refusal.Answer;
            if (error is TimeoutException || error is OperationCanceledException) return new RefusalException(504, "Timeout", "No answer came in time").Answer;
            if (error is HttpRequestException || error is IOException || error is System.Net.Sockets.SocketException || error is System.Net.WebException) return new RefusalException(502, "BadGateway", "The connection broke before an answer came").Answer;
            return new RefusalException(500, "InternalError", "The request failed; the log says why").Answer;
        }
    }

    /// <summary>Bodies between the wire and a batch (OData JSON Format 4.01, sections 19.1 and 19.5): JSON as it is, a text as a string, and
    /// any other in base64url.</summary>
    internal static class Bodies {
        private static string KindOf(IReadOnlyDictionary<string, string> headers) =>
            headers.TryGetValue("content-type", out string value) ? value.Split(';')[0].Trim(' ', '\t').ToLowerInvariant() : "";

        private static bool IsText(IReadOnlyDictionary<string, string> headers) => KindOf(headers).StartsWith("text/", StringComparison.Ordinal);

        internal static bool IsJson(IReadOnlyDictionary<string, string> headers) =>
            KindOf(headers) is string kind && (kind == "" || kind == "application/json" || kind.EndsWith("+json", StringComparison.Ordinal));

        /// <summary>The encoding that a message names, or UTF-8; throws ArgumentException for one that is unknown.</summary>
        private static Encoding EncodingOf(IReadOnlyDictionary<string, string> headers) {
            string name = headers["content-type"].Split(';').Skip(1).Select(it => it.Trim(' ', '\t')).FirstOrDefault(it => it.StartsWith("charset=", StringComparison.OrdinalIgnoreCase));
            return name == null ? Native.Utf8 : Encoding.GetEncoding(name.Substring(8).Trim('"'), EncoderFallback.ExceptionFallback, DecoderFallback.ExceptionFallback);
        }

        /// <summary>Whether an exception is that of a text that is not in its character set, or not in base64.</summary>
        internal static bool IsOfEncoding(Exception error) => error is ArgumentException || error is FormatException || error is NotSupportedException;

        /// <summary>The bytes on the wire of a body in a batch; throws an exception that IsOfEncoding.</summary>
        internal static byte[] ToWire(byte[] text, IReadOnlyDictionary<string, string> headers) {
            string value = text == null || IsJson(headers) ? null : Json.String(text);
            if (value == null) return text;
            if (IsText(headers)) return EncodingOf(headers).GetBytes(value);
            value = value.TrimEnd('=').Replace('-', '+').Replace('_', '/');
            return Convert.FromBase64String(value + new string('=', (4 - value.Length % 4) % 4));
        }

        /// <summary>The same of a response, whose body may be anything: then it is the bytes of its text.</summary>
        internal static byte[] ToWireOfAny(byte[] text, IReadOnlyDictionary<string, string> headers) {
            try { return ToWire(text, headers); } catch (Exception error) when (IsOfEncoding(error)) { return Encoding.UTF8.GetBytes(Json.String(text)); }
        }

        /// <summary>The text in a batch of a body on the wire, or null. What claims to be JSON is not looked at.</summary>
        internal static byte[] ToJson(byte[] wire, IReadOnlyDictionary<string, string> headers) {
            if (wire == null || wire.Length == 0) return null;
            if (IsJson(headers)) return wire.Length >= 3 && wire[0] == 0xef && wire[1] == 0xbb && wire[2] == 0xbf ? wire.Skip(3).ToArray() : wire;
            return IsText(headers) ? ToJsonString(wire, headers) : Encoding.ASCII.GetBytes("\"" + Convert.ToBase64String(wire).TrimEnd('=').Replace('+', '-').Replace('/', '_') + "\"");
        }

        /// <summary>Bytes as a string of JSON; those that are not of their character set as Latin-1.</summary>
        internal static byte[] ToJsonString(byte[] wire, IReadOnlyDictionary<string, string> headers) {
            string text;
            try { text = (IsJson(headers) ? Native.Utf8 : EncodingOf(headers)).GetString(wire); }
            catch (Exception error) when (IsOfEncoding(error)) { text = Encoding.GetEncoding("iso-8859-1").GetString(wire); }
            return Encoding.UTF8.GetBytes(Json.Quoted(text));
        }
    }

    /// <summary>Writes strings as JSON, and reads members by the readers of the library and of .NET.</summary>
    internal static class Json {
        /// <summary>A string as JSON. A document with half of a surrogate pair is refused.</summary>
        internal static string Quoted(string text) {
            var found = new StringBuilder("\"");
            foreach (char it in text)
                if (it == '"' || it == '\\') found.Append('\\').Append(it);
                else if (it < ' ') found.Append("\\u").Append(((int)it).ToString("x4"));
                else found.Append(it);
            return found.Append('"').ToString();
        }

        /// <summary>An object of strings as JSON.</summary>
        internal static string Object(IEnumerable<KeyValuePair<string, string>> members) => "{" + string.Join(",", members.Select(it => Quoted(it.Key) + ":" + Quoted(it.Value ?? ""))) + "}";

        /// <summary>A document of texts and bytes one after another.</summary>
        internal static byte[] Joined(params Document[] parts) {
            var found = new MemoryStream();
            foreach (var it in parts) found.Write(it.Bytes, 0, it.Bytes.Length);
            return found.ToArray();
        }

        /// <summary>The value of a string of JSON; null if it is another value.</summary>
        internal static string String(byte[] text) => Native.Headers(Joined("{\"a\":", text, "}"))?["a"];

        // How deep the reader of .NET goes; else it keeps each level.
        private static readonly XmlDictionaryReaderQuotas Quotas = new XmlDictionaryReaderQuotas { MaxDepth = 128, MaxStringContentLength = int.MaxValue, MaxNameTableCharCount = int.MaxValue };

        /// <summary>The members of an object that are strings or numbers, up to one that nests too deep; none of what is no object.</summary>
        internal static Dictionary<string, string> Members(byte[] text) {
            var found = new Dictionary<string, string>();
            try {
                using (var reader = System.Runtime.Serialization.Json.JsonReaderWriterFactory.CreateJsonReader(text, Quotas)) {
                    if (reader.MoveToContent() == XmlNodeType.Element && reader.GetAttribute("type") == "object") reader.Read();
                    while (reader.Depth == 1 && reader.NodeType == XmlNodeType.Element)
                        if (reader.GetAttribute("type") is string kind && (kind == "string" || kind == "number")) found[reader.GetAttribute("item") ?? reader.LocalName] = reader.ReadElementContentAsString();
                        else reader.Skip();
                }
            } catch (XmlException) { } // not JSON
            return found;
        }
    }
}
