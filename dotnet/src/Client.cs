using System;
using System.Collections.Generic;
using System.Linq;
using System.Net.Http;
using System.Threading;
using System.Threading.Tasks;

namespace OdbBatch.Client {
    /// <summary>A request or a group of a batch.</summary>
    public abstract class Name {
        /// <summary>For those of this assembly.</summary>
        private protected Name(string id) { Id = id; }
        /// <summary>Its id.</summary>
        public string Id { get; }
    }

    /// <summary>A request of a batch. As a text it is $ and its id, for URLs: <c>$"{order}/Lines"</c>.</summary>
    public sealed class Reference : Name {
        internal Reference(string id) : base(id) { }
        /// <summary>$ and its id.</summary>
        public override string ToString() => "$" + Id;
        /// <summary>$ and its id.</summary>
        public static implicit operator string(Reference request) => request?.ToString();
    }

    /// <summary>An atomicity group of a batch.</summary>
    public sealed class Group : Name { internal Group(string id) : base(id) { } }

    /// <summary>A batch that is made by calls. A request that refers to an earlier one depends on it without further ado, and what depends
    /// on a request of a group depends on the group, too.</summary>
    public sealed class Batch {
        private readonly List<byte[]> elements = new List<byte[]>();
        private readonly Dictionary<string, string> groups = new Dictionary<string, string>(); // by each id and group its group
        private string open;
        private int made; // groups that are named by a number

        /// <summary>Writes bodies that are no bytes and no text, as <c>it => JsonSerializer.SerializeToUtf8Bytes(it)</c>.</summary>
        public Func<object, byte[]> Serializer { get; set; }

        /// <summary>Adds a GET.</summary>
        public Reference Get(string url, params Name[] after) => Add("GET", url, null, after);
        /// <summary>Adds a POST.</summary>
        public Reference Post(string url, object body, params Name[] after) => Add("POST", url, body, after);
        /// <summary>Adds a PUT.</summary>
        public Reference Put(string url, object body, params Name[] after) => Add("PUT", url, body, after);
        /// <summary>Adds a PATCH.</summary>
        public Reference Patch(string url, object body, params Name[] after) => Add("PATCH", url, body, after);
        /// <summary>Adds a DELETE.</summary>
        public Reference Delete(string url, params Name[] after) => Add("DELETE", url, null, after);

        /// <summary>Adds a message, as clients that are generated make it, without headers of the connection. Its URL is relative to the
        /// service.</summary>
        public async Task<Reference> AddAsync(HttpRequestMessage message, params Name[] after) {
            byte[] body = message.Content == null ? null : await message.Content.ReadAsByteArrayAsync().ConfigureAwait(false);
            return Add(message.Method.Method, message.RequestUri.OriginalString, body, after, Messages.Of(message.Headers, message.Content).Where(it => !Messages.OfConnection.Contains(it.Key.ToLowerInvariant())));
        }

        /// <summary>Adds a request.</summary>
        /// <param name="method">Its method.</param>
        /// <param name="url">Its URL, relative to the service, or with a reference: <c>order</c> or <c>$"{order}/Lines"</c>.</param>
        /// <param name="body">Bytes as on the wire, the text of JSON, another value for <see cref="Serializer"/>, or null.</param>
        /// <param name="after">Further requests and groups that it depends on.</param>
        /// <param name="headers">Its headers. If-Match may be a reference, which stands for an ETag.</param>
        /// <param name="id">Its id; without it that is the first free number.</param>
        /// <exception cref="ArgumentException">The body is not JSON, or no URL can refer to the id.</exception>
        public Reference Add(string method, string url, object body = null, IEnumerable<Name> after = null, IEnumerable<KeyValuePair<string, string>> headers = null, string id = null) {
            if (id != null && Odb.Names("reserved_ids").Contains(id)) throw new ArgumentException("no URL can refer to a request with the id " + id, nameof(id));
            if (method == null || url == null) throw new ArgumentNullException(method == null ? nameof(method) : nameof(url));
            id = id ?? Free("", elements.Count);
            var given = Messages.Lowered(headers);
            if (body != null && !given.ContainsKey("content-type")) given["content-type"] = "application/json";
            byte[] text = body == null ? null : Bodies.ToJson(BytesOf(body), given);
            if (text != null && Bodies.IsJson(given) && LiveRun.ReportFault("", text.Length > 0 ? text : (Document)" ") is Fault fault) throw new ArgumentException("the body is not JSON", new FaultException(fault));
            elements.Add(Element(id, open, Needs(url, given, after ?? new Name[0]), method, url, given, text));
            groups[id] = open;
            return new Reference(id);
        }

        private byte[] BytesOf(object body) =>
            body as byte[] ?? (body is string text ? Native.Utf8.GetBytes(text) : (Serializer ?? throw new ArgumentException("a body is bytes or a text, or the batch needs a Serializer"))(body));

        /// <summary>The first name that is free, of a prefix and a number above another one.</summary>
        private string Free(string prefix, int above) => Enumerable.Range(above + 1, int.MaxValue - above - 1).Select(it => prefix + it).First(it => !groups.ContainsKey(it));

        private string[] Needs(string url, Dictionary<string, string> headers, IEnumerable<Name> after) {
            var referring = References.Conditions.Where(headers.ContainsKey).Select(it => headers[it]).Concat(new[] { Uri.UnescapeDataString(url.Split('/', '?', '#')[0]) });
            var names = after.Select(it => it.Id).Concat(referring.Where(it => it.StartsWith("$", StringComparison.Ordinal)).Select(it => it.Substring(1)).Where(groups.ContainsKey)).ToArray();
            return names.Concat(names.Where(groups.ContainsKey).Select(it => groups[it])).Where(it => it != null && it != open).Distinct().ToArray();
        }

        /// <summary>The text of a request; its body is the bytes that it has.</summary>
        internal static byte[] Element(string id, string group, IReadOnlyCollection<string> needs, string method, string url, Dictionary<string, string> headers, byte[] body) =>
            Json.Joined("{\"id\":" + Json.Quoted(id) + (group == null ? "" : ",\"atomicityGroup\":" + Json.Quoted(group))
                + (needs.Count == 0 ? "" : ",\"dependsOn\":[" + string.Join(",", needs.Select(Json.Quoted)) + "]") + ",\"method\":" + Json.Quoted(method.ToLowerInvariant())
                + ",\"url\":" + Json.Quoted(url) + (headers.Count == 0 ? "" : ",\"headers\":" + Json.Object(headers)) + (body == null ? "" : ",\"body\":"), body ?? new byte[0], "}");

        /// <summary>The document of a batch of these requests.</summary>
        internal static byte[] DocumentOf(IEnumerable<byte[]> elements) =>
            Json.Joined(new Document[] { "{\"requests\":[" }.Concat(elements.SelectMany((it, i) => new Document[] { i == 0 ? "" : ",", it })).Concat(new Document[] { "]}" }).ToArray());

        /// <summary>Makes the requests that a function adds an atomicity group: all of them are performed, or none. If the function throws,
        /// none of them is added.</summary>
        public Group AddGroup(Action add, string id = null) {
            if (open != null) throw new InvalidOperationException("a group cannot be in another one");
            int begun = elements.Count;
            string name = open = id ?? Free("g", made++);
            groups[name] = name;
            try { add(); } catch {
                elements.RemoveRange(begun, elements.Count - begun);
                foreach (string it in groups.Where(it => it.Value == name).Select(it => it.Key).ToArray()) groups.Remove(it);
                throw;
            } finally { open = null; }
            return new Group(name);
        }

        /// <summary>The document of the batch.</summary>
        public byte[] ToDocument() => DocumentOf(elements);

        /// <summary>Checks the batch as it is.</summary>
        public Counts Check() => Odb.Check(ToDocument());

        /// <summary>Posts the batch, in parts if it has more requests than the limit, and returns what each request was answered.</summary>
        /// <remarks>A part has whole groups, and only requests whose dependencies have succeeded or are in it; else they are 424. In a later
        /// part $a in a URL is replaced by the URL of what a has created or returned, and in If-Match by its ETag. A part that is answered by
        /// a status that is not 2xx has that answer for each of its requests; one without an answer that fits it 504 or 502, and
        /// <see cref="BatchResults.Error"/>. After both nothing more is sent. The timeout of the client is that of each part.</remarks>
        /// <param name="client">The client.</param>
        /// <param name="url">The URL of $batch.</param>
        /// <param name="limit">How many requests the service takes in a batch, from 1 to 10,000.</param>
        /// <param name="mode">Stop, if the service stops at the first error, as it does without the preference continue-on-error.</param>
        /// <param name="cancellation">If it is cancelled, what was answered is lost.</param>
        /// <exception cref="FaultException">The batch is refused; nothing was sent.</exception>
        /// <exception cref="ArgumentException">A group has more requests than the limit; nothing was sent.</exception>
        public Task<BatchResults> SendAsync(HttpClient client, string url, int limit = Native.MaxRequests, RunMode mode = RunMode.Continue, CancellationToken cancellation = default(CancellationToken)) =>
            SendAsync(ToDocument(), client, url, limit, mode, cancellation);

        /// <summary>The same of a batch as a document, as <see cref="BatchResults.ToRest"/> returns it.</summary>
        public static async Task<BatchResults> SendAsync(Document document, HttpClient client, string url, int limit = Native.MaxRequests,
            RunMode mode = RunMode.Continue, CancellationToken cancellation = default(CancellationToken)) {
            using (var sending = new Sending(document, limit, mode))
                return await sending.AllAsync(part => PostAsync(part, client, url, mode, cancellation), cancellation).ConfigureAwait(false);
        }

        private static async Task<BatchAnswer> PostAsync(byte[] document, HttpClient client, string url, RunMode mode, CancellationToken cancellation) {
            using (var source = CancellationTokenSource.CreateLinkedTokenSource(cancellation))
            using (var message = new HttpRequestMessage(HttpMethod.Post, url) { Content = new ByteArrayContent(document) }) {
                source.CancelAfter(client.Timeout); // which the client itself keeps for the headers alone
                message.Content.Headers.TryAddWithoutValidation("Content-Type", "application/json");
                message.Headers.TryAddWithoutValidation("Accept", "application/json");
                if (mode == RunMode.Continue) message.Headers.TryAddWithoutValidation("Prefer", "continue-on-error");
                using (var answer = await client.SendAsync(message, HttpCompletionOption.ResponseHeadersRead, source.Token).ConfigureAwait(false))
                    return await BatchAnswer.ReadAsync(answer, source.Token).ConfigureAwait(false);
            }
        }
    }
}
