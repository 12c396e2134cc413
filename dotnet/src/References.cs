using System;
using System.Collections.Concurrent;
using System.Collections.Generic;
using System.Linq;

namespace OdbBatch {
    /// <summary>What the references of requests stand for (OData JSON Format 4.01, sections 19.2 and 19.3). Threads may share it: what a
    /// request refers to was answered before it starts.</summary>
    internal sealed class References {
        /// <summary>The headers in which $ and an id stand for an ETag.</summary>
        internal static readonly string[] Conditions = { "if-match", "if-none-match" };

        private readonly Dictionary<string, BatchRequest> requests;
        private readonly HashSet<string> referred;
        private readonly ConcurrentDictionary<string, string> urls = new ConcurrentDictionary<string, string>();
        private readonly ConcurrentDictionary<string, (string Place, string Tag)> answered = new ConcurrentDictionary<string, (string, string)>();
        private readonly Document root, roots;

        internal References(IReadOnlyList<BatchRequest> given, Uri root, IEnumerable<Uri> roots) {
            this.root = Checked(root);
            this.roots = string.Join("\n", (roots ?? new[] { root }).Select(Checked));
            requests = given.ToDictionary(it => it.Id);
            referred = ReferredBy(given);
        }

        /// <summary>The ids of the requests to which others refer.</summary>
        internal static HashSet<string> ReferredBy(IReadOnlyList<BatchRequest> given) =>
            new HashSet<string>(given.SelectMany(it => Conditions.Select(name => TagIn(it, name)).Concat(new[] { it.Reference })));

        private static string Checked(Uri root) =>
            root != null && root.IsAbsoluteUri && root.UserInfo + root.Query + root.Fragment == "" && root.AbsolutePath.EndsWith("/", StringComparison.Ordinal) ? root.AbsoluteUri
            : throw new ArgumentException("a base or a root must be an absolute URL that ends with / and has neither user information nor query, not " + root);

        /// <summary>What follows the $ in a condition, or null.</summary>
        internal static string TagIn(BatchRequest request, string name) =>
            request.Headers.TryGetValue(name, out string value) && value.StartsWith("$", StringComparison.Ordinal) ? value.Substring(1) : null;

        /// <summary>The first of some members that is there and not empty, or null.</summary>
        private static string First(IReadOnlyDictionary<string, string> members, params string[] names) => names.Where(members.ContainsKey).Select(it => members[it]).FirstOrDefault(it => it != "");

        /// <summary>The URL and the ETag of what an answer has created or returned, from its headers or its body; null if it has
        /// none. A URL in the body counts if it is absolute by itself or by the context (section 4.6.1).</summary>
        internal static (string Place, string Tag) FoundIn(BatchAnswer answer) {
            string place = First(answer.Headers, "location", "odata-entityid"), tag = First(answer.Headers, "etag");
            if (answer.Body == null || !Bodies.IsJson(answer.Headers) || (place != null && tag != null)) return (place, tag);
            var members = Json.Members(answer.Body);
            string id = First(members, "@id", "@odata.id"), context = First(members, "@context", "@odata.context") ?? id;
            bool isAbsolute = Uri.TryCreate(context, UriKind.Absolute, out Uri from) && from.Scheme.StartsWith("http", StringComparison.Ordinal);
            return (place ?? (id != null && isAbsolute && Uri.TryCreate(from, id, out Uri found) ? found.AbsoluteUri : null), tag ?? First(members, "@etag", "@odata.etag"));
        }

        /// <summary>Keeps what a request was answered, if others refer to it.</summary>
        internal void Keep(string id, BatchAnswer answer) {
            if (answer.IsSuccess && referred.Contains(id)) answered[id] = FoundIn(answer);
        }

        /// <summary>A request as it is sent; throws the refusal of one that cannot be.</summary>
        internal BatchRequest Prepared(BatchRequest given) {
            string url = UrlOf(given);
            var headers = given.Headers.ToDictionary(it => it.Key, it => it.Value);
            foreach (string name in Conditions.Where(it => TagIn(given, it) is string tag && requests.ContainsKey(tag))) {
                string other = TagIn(given, name);
                if (!answered.TryGetValue(other, out var found)) throw new RefusalException(400, "NoETag", other + " is not answered yet; it has to be in dependsOn", other);
                headers[name] = found.Tag ?? throw new RefusalException(424, "NoETag", other + " was answered without an ETag", other);
            }
            if (headers.Any(it => (it.Key + it.Value).Any(c => char.IsControl(c) && c != '\t'))) throw new RefusalException(400, "BadHeader", "A header has a control character");
            if (given.Body != null && !headers.ContainsKey("content-type")) headers["content-type"] = "application/json";
            try { return new BatchRequest(given, url, headers, Bodies.ToWire(given.Body, headers)); }
            catch (Exception error) when (Bodies.IsOfEncoding(error)) { throw new RefusalException(400, "BadCharset", "The body cannot be written as its Content-Type says", "content-type"); }
        }

        private string UrlOf(BatchRequest given) {
            if (urls.TryGetValue(given.Id, out string found)) return found;
            if (given.Reference == null) return urls[given.Id] = Target(given, given.Url, "", "", 0);
            BatchRequest other = requests[given.Reference];
            answered.TryGetValue(other.Id, out var answer);
            return urls[given.Id] = Target(given, given.Rest, UrlOf(other), answer.Place ?? "", other.Method == "POST" ? 1u : 0);
        }

        private string Target(BatchRequest given, Document url, Document sent, Document place, uint isPost) {
            uint status = Native.Write(Odb.Room(root) + Odb.Room(url), (byte[] to, ulong room, out ulong length) => Native.odb_resolve(
                root.At, root.Size, roots.At, roots.Size, url.At, url.Size, sent.At, sent.Size, place.At, place.Size, isPost, ref to[0], room, out length), out byte[] text);
            if (status == Native.Done) return Native.Utf8.GetString(text);
            if (status == Native.NoLocation) throw new RefusalException(424, "NoLocation", given.Reference + " was answered without the URL of what it has created", given.Reference);
            throw status == Native.Unreadable || status == Native.Outside ? new RefusalException(404, "NotFound", "The URL leads out of the service") : Native.Failure(status);
        }
    }
}
