using System;
using System.Collections.Generic;
using System.Linq;
using System.Net.Http;

namespace OdbBatch {
    /// <summary>What an error, a status from 400 to 599, does to a run.</summary>
    public enum RunMode : uint {
        /// <summary>What depends on the request is skipped.</summary>
        Continue,
        /// <summary>Nothing is started any more.</summary>
        Stop,
    }

    /// <summary>Which step of a replay comes next.</summary>
    public enum ReplayOrder : uint {
        /// <summary>By position.</summary>
        First,
        /// <summary>From the last position.</summary>
        Last,
        /// <summary>Starts all that may start.</summary>
        Wide,
    }

    /// <summary>A document: UTF-8 bytes, which are not copied, or a text. A text with half of a surrogate pair is refused (F02).</summary>
    public struct Document {
        private static readonly byte[] Aligned = new byte[8], NotUtf8 = { 0xff };
        private readonly byte[] bytes;

        private Document(byte[] bytes) => this.bytes = bytes ?? throw new ArgumentNullException("document");

        internal byte[] Bytes => bytes ?? throw new ArgumentNullException("document");
        /// <summary>What is passed: never empty, since the library takes no null.</summary>
        internal byte[] At => Bytes.Length == 0 ? Aligned : bytes;
        internal ulong Size => (ulong)Bytes.Length;

        /// <summary>The document of bytes.</summary>
        public static implicit operator Document(byte[] bytes) => new Document(bytes);
        /// <summary>The document of a text.</summary>
        public static implicit operator Document(string text) {
            try { return new Document(text == null ? null : Native.Utf8.GetBytes(text)); } catch (System.Text.EncoderFallbackException) { return new Document(NotUtf8); }
        }
    }

    /// <summary>How many requests and groups a batch has.</summary>
    public struct Counts {
        internal Counts(string[] words) { Requests = int.Parse(words[1]); Groups = int.Parse(words[3]); }
        /// <summary>How many requests it has.</summary>
        public int Requests { get; }
        /// <summary>How many groups it has.</summary>
        public int Groups { get; }
    }

    /// <summary>A request with what it depends on.</summary>
    public sealed class PlannedRequest {
        internal PlannedRequest(string[] words) {
            Position = int.Parse(words[0]); Id = words[1]; Level = int.Parse(words[3]); Group = words[5] == "*" ? null : words[5];
            Needs = words[7] == "*" ? new string[0] : words[7].Split(',');
        }

        /// <summary>Its position in the batch, from 0.</summary>
        public int Position { get; }
        /// <summary>Its id.</summary>
        public string Id { get; }
        /// <summary>0 if it depends on nothing. Requests of one level may run side by side.</summary>
        public int Level { get; }
        /// <summary>Its group, or null.</summary>
        public string Group { get; }
        /// <summary>The ids and groups that it depends on.</summary>
        public IReadOnlyList<string> Needs { get; }
    }

    /// <summary>A request, as the batch has it; or as it is sent: then its URL is absolute and in ASCII, references are replaced, and the body
    /// is bytes on the wire.</summary>
    public sealed class BatchRequest {
        private static readonly IReadOnlyDictionary<string, string> Empty = new System.Collections.ObjectModel.ReadOnlyDictionary<string, string>(new Dictionary<string, string>());
        private static readonly string[] None = new string[0], ByLength = { "", "", "", "GET", "POST", "PATCH", "DELETE" };

        private BatchRequest(int position, Native.Request it, Native.Words text, byte[] document, BatchRequest[] before, Dictionary<string, IReadOnlyDictionary<string, string>> known, ref string last) {
            Position = (uint)position; Id = text[it.Id]; Method = text.Like(ByLength[(int)Math.Min(it.Method.Length, 6)], it.Method); Url = text[it.Url]; Group = text[it.Group]; Body = Native.Slice(document, it.Body);
            Reference = it.Reference == Native.None ? null : before[it.Reference].Id;
            Rest = Reference == null ? Url : text[it.Rest]; Needs = it.Needs.Length == 0 ? None : text[it.Needs].Split(',');
            if (it.Headers.Length > 2) last = text.Like(last, it.Headers); // which many requests have alike
            Headers = it.Headers.Length <= 2 ? Empty : known.TryGetValue(last, out var found) ? found : known[last] = Native.Headers(last);
        }

        internal BatchRequest(BatchRequest of, string url, IReadOnlyDictionary<string, string> headers, byte[] body) {
            Id = of.Id; Method = of.Method; Group = of.Group; Needs = of.Needs; Url = Rest = url; Headers = headers; Body = body;
        }

        internal uint Position { get; }
        /// <summary>Its id.</summary>
        public string Id { get; }
        /// <summary>Its method in upper case.</summary>
        public string Method { get; }
        /// <summary>Its URL.</summary>
        public string Url { get; }
        /// <summary>The id of the request that the URL refers to, or null.</summary>
        public string Reference { get; }
        /// <summary>The part of the URL after that id, else the whole URL.</summary>
        public string Rest { get; }
        /// <summary>Its headers by their names in lower case.</summary>
        public IReadOnlyDictionary<string, string> Headers { get; }
        /// <summary>Its group, or null.</summary>
        public string Group { get; }
        /// <summary>The ids and groups that it depends on, as a plan has them.</summary>
        public IReadOnlyList<string> Needs { get; }
        /// <summary>The bytes of its body, or null.</summary>
        public byte[] Body { get; }

        /// <summary>The message for an HttpClient, without headers that belong to the connection.</summary>
        public HttpRequestMessage ToMessage() {
            var message = new HttpRequestMessage(new HttpMethod(Method), Url) { Content = Body == null ? null : new ByteArrayContent(Body) };
            foreach (var it in Headers.Where(it => !Messages.OfConnection.Contains(it.Key)))
                if (!message.Headers.TryAddWithoutValidation(it.Key, it.Value)) message.Content?.Headers.TryAddWithoutValidation(it.Key, it.Value);
            return message;
        }

        internal static BatchRequest[] All(Native.Request[] parts, int count, byte[] text, byte[] document) {
            var found = new BatchRequest[count]; var words = new Native.Words(text);
            var known = new Dictionary<string, IReadOnlyDictionary<string, string>>(); string last = "{}";
            for (int i = 0; i < found.Length; i++) found[i] = new BatchRequest(i, parts[i], words, document, found, known, ref last);
            return found;
        }
    }

    /// <summary>A response of a service, as its document has it.</summary>
    public sealed class BatchResponse {
        internal BatchResponse(Native.Response it, Native.Words text, byte[] document) {
            Id = text[it.Id]; Group = text[it.Group]; Status = (int)it.Status; Body = Native.Slice(document, it.Body);
            byte[] headers = Native.Slice(document, it.Headers);
            Headers = headers == null ? new Dictionary<string, string>() : Native.Headers(headers) ?? Messages.Lowered(Json.Members(headers));
        }

        /// <summary>The id of its request.</summary>
        public string Id { get; }
        /// <summary>The group, or null.</summary>
        public string Group { get; }
        /// <summary>The status, from 100 to 599.</summary>
        public int Status { get; }
        /// <summary>The headers by their names in lower case; without those that are neither a string nor a number.</summary>
        public IReadOnlyDictionary<string, string> Headers { get; }
        /// <summary>The bytes of the body as the document has them, or null.</summary>
        public byte[] Body { get; }
    }

    /// <summary>A step of a replay.</summary>
    public struct ReplayStep {
        internal ReplayStep(string[] words) { Kind = words[0]; Id = words[1]; Status = words.Length > 2 ? int.Parse(words[2]) : (int?)null; }
        /// <summary>start, report or undo.</summary>
        public string Kind { get; }
        /// <summary>The id of the request.</summary>
        public string Id { get; }
        /// <summary>The status of a report.</summary>
        public int? Status { get; }
    }
}
