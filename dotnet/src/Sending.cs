using System;
using System.Collections.Generic;
using System.Linq;
using System.Threading;
using System.Threading.Tasks;

namespace OdbBatch.Client {
    /// <summary>What the requests of a batch were answered, by their ids, in the order of the batch. 424 is also that of a request that was
    /// not sent or undone, since another one has failed.</summary>
    public sealed class BatchResults : IEnumerable<KeyValuePair<string, BatchAnswer>> {
        private readonly IReadOnlyList<string> ids;
        private readonly Dictionary<string, BatchAnswer> answers;
        private readonly Func<byte[]> rest;

        internal BatchResults(IReadOnlyList<string> ids, Dictionary<string, BatchAnswer> answers, Func<byte[]> rest, Exception error) {
            this.ids = ids; this.answers = answers; this.rest = rest; Error = error;
        }

        /// <summary>Why a part was not answered, or null.</summary>
        public Exception Error { get; }
        /// <summary>What a request was answered.</summary>
        public BatchAnswer this[Reference request] => answers[request.Id];
        /// <summary>What the request with an id was answered.</summary>
        public BatchAnswer this[string id] => answers[id];

        /// <summary>The document of what failed for now and may be sent again (429, 503 and 424; also 408, 502 and 504 of a GET, PUT or
        /// DELETE), with the same ids; one of no requests if nothing may.</summary>
        /// <exception cref="FaultException">A request refers to one that was answered without a Location of use, F90, or without an ETag,
        /// F91.</exception>
        public byte[] ToRest() => rest();

        /// <inheritdoc/>
        public IEnumerator<KeyValuePair<string, BatchAnswer>> GetEnumerator() => ids.Select(it => new KeyValuePair<string, BatchAnswer>(it, answers[it])).GetEnumerator();
        System.Collections.IEnumerator System.Collections.IEnumerable.GetEnumerator() => GetEnumerator();
    }

    /// <summary>A batch on its way in parts, which the library cuts. It reads the batch for each part, so one with many requests is cut into
    /// longer parts first, each a batch of its own.</summary>
    internal sealed class Sending : IDisposable {
        private readonly Document document;
        private readonly LiveRun run;
        private readonly RunMode mode;
        private readonly int limit, most;
        private readonly HashSet<string> referred;
        private readonly ILookup<string, BatchRequest> units;
        private readonly Dictionary<string, BatchAnswer> answers;
        private readonly Dictionary<string, (string Place, string Tag)> found = new Dictionary<string, (string, string)>();
        private Exception error;
        private bool isOver; // a part was not answered as a batch, and nothing more is sent

        internal Sending(Document document, int limit, RunMode mode) {
            this.document = document; this.limit = limit; this.mode = mode;
            run = new LiveRun(document, mode);
            referred = References.ReferredBy(run.Requests);
            answers = run.Ids.ToDictionary(it => it, it => new BatchAnswer(424)); // until they are answered
            most = run.Ids.Count <= Math.Max(1000, 4 * limit) ? limit : (int)Math.Sqrt((double)run.Ids.Count * limit);
            units = run.Requests.ToLookup(it => it.Group ?? it.Id);
            if (units.Any(it => it.Count() > limit)) throw new ArgumentException("a group has more requests than the limit of " + limit, nameof(limit));
        }

        public void Dispose() { run.Dispose(); }

        internal async Task<BatchResults> AllAsync(Func<byte[], Task<BatchAnswer>> post, CancellationToken cancellation) {
            for (var part = NextPart(); part.Ids.Count > 0; part = NextPart()) {
                var answered = new Dictionary<string, BatchAnswer>();
                byte[] sent = part.Ids.Count == run.Ids.Count ? document.Bytes : part.Document;
                await (part.Ids.Count > limit ? InPartsAsync(sent, post, answered, cancellation) : ExchangeAsync(sent, post, answered, cancellation)).ConfigureAwait(false);
                foreach (var it in answered) answers[it.Key] = it.Value;
                foreach (var unit in part.Ids.Select(run.GetRequest).GroupBy(it => it.Group ?? it.Id)) Take(unit.ToArray());
                if (isOver) run.Stop();
            }
            return new BatchResults(run.Ids, answers, Rest, error);
        }

        /// <summary>The next part. What refers to an answer without a URL of use or an ETag is answered 424, and is in none.</summary>
        private (IReadOnlyList<string> Ids, byte[] Document) NextPart() {
            while (true) try { return run.NextPart(most); } catch (FaultException problem) {
                int first = int.Parse(problem.Fault.Place.Substring(problem.Fault.Place.LastIndexOf('/') + 1), System.Globalization.CultureInfo.InvariantCulture);
                Refuse(run.Requests[first], problem.Code == "F90" ? "NoLocation" : "NoETag");
                if (mode == RunMode.Continue) foreach (var it in run.Requests.Skip(first + 1)) if (LackOf(it) is string code) Refuse(it, code);
            }
        }

        /// <summary>What a request refers to that was answered without it, or null.</summary>
        private string LackOf(BatchRequest request) {
            if (request.Reference != null && found.TryGetValue(request.Reference, out var at) && at.Place == null) return "NoLocation";
            return References.Conditions.Any(name => References.TagIn(request, name) is string other && found.TryGetValue(other, out var of) && of.Tag == null) ? "NoETag" : null;
        }

        /// <summary>Answers the unit of a request that cannot be sent, if it may start.</summary>
        private void Refuse(BatchRequest request, string code) {
            if (run.TryStartUnit(request.Id) != Native.Done) return;
            var refusal = new RefusalException(424, code, "What " + request.Id + " refers to was answered without " + (code == "NoETag" ? "an ETag" : "a URL of use"));
            foreach (var it in units[request.Group ?? request.Id]) { answers[it.Id] = refusal.Answer; run.Report(it.Id, 424); }
        }

        private async Task InPartsAsync(byte[] sent, Func<byte[], Task<BatchAnswer>> post, Dictionary<string, BatchAnswer> answered, CancellationToken cancellation) {
            using (var inner = new Sending(sent, limit, mode)) {
                foreach (var it in await inner.AllAsync(post, cancellation).ConfigureAwait(false)) answered[it.Key] = it.Value;
                (error, isOver) = (inner.error, inner.isOver);
            }
        }

        /// <summary>Posts a part, and finds what its requests are answered.</summary>
        private async Task ExchangeAsync(byte[] sent, Func<byte[], Task<BatchAnswer>> post, Dictionary<string, BatchAnswer> answered, CancellationToken cancellation) {
            BatchAnswer whole;
            try {
                whole = await post(sent).ConfigureAwait(false);
                if (whole.IsSuccess) {
                    byte[] response = Bodies.ToJson(whole.Body, new Dictionary<string, string>()) ?? new byte[0];
                    Odb.Match(sent, response, mode);
                    foreach (var it in Odb.Responses(response)) answered[it.Id] = new BatchAnswer(it.Status, it.Headers, Bodies.ToWireOfAny(it.Body, it.Headers));
                    return;
                }
            } catch (Exception problem) when (!cancellation.IsCancellationRequested && (problem is FaultException || RefusalException.AnswerTo(problem).Status != 500)) {
                error = problem;
                whole = problem is FaultException ? new RefusalException(502, "BadGateway", "The answer does not fit the batch").Answer : RefusalException.AnswerTo(problem);
            }
            foreach (var it in Odb.Requests(sent)) answered[it.Id] = whole;
            isOver = true;
        }

        /// <summary>Reports what the requests of a unit were answered, unless what it needs has failed.</summary>
        private void Take(BatchRequest[] unit) {
            foreach (var it in unit.Where(it => answers[it.Id].IsSuccess && referred.Contains(it.Id))) found[it.Id] = FoundIn(it, answers[it.Id]);
            if (run.TryStartUnit(unit[0].Id) != Native.Done) return;
            // A 424 beside a 3xx is no error: it is that of a member that was undone.
            int least = unit.Select(it => answers[it.Id]).Where(it => !it.IsSuccess).Select(it => it.Status).DefaultIfEmpty(424).Min();
            foreach (var it in unit) {
                int status = answers[it.Id].Status == 424 ? least : answers[it.Id].Status;
                run.Report(it.Id, status >= 200 ? status : 502, Recorded(it.Id));
            }
        }

        /// <summary>The URL and the ETag of what a request has created or returned. Without another URL it is its own, but after a POST; one that
        /// no request may have is none.</summary>
        private (string Place, string Tag) FoundIn(BatchRequest request, BatchAnswer answer) {
            var (place, tag) = References.FoundIn(answer);
            string own = (request.Reference == null ? request.Url : found[request.Reference].Place is string other ? other + request.Rest : null)?.Split('?', '#')[0];
            if (string.IsNullOrEmpty(place)) place = request.Method == "POST" ? null : own;
            else if (own != null && place[0] != '/' && !Uri.TryCreate(place, UriKind.Absolute, out Uri absolute)) place = own.Substring(0, own.LastIndexOf('/') + 1) + place;
            bool isOfUse = (place = place?.Split('?', '#')[0].TrimEnd('/')) != null && Odb.TryCheck("{\"requests\":[{\"id\":\"a\",\"method\":\"get\",\"url\":" + Json.Quoted(place) + "}]}", out var _, out var fault);
            return (isOfUse ? place : null, tag);
        }

        /// <summary>The URL and the ETag of what a request has created or returned, as headers.</summary>
        private Dictionary<string, string> Recorded(string id) {
            var headers = new Dictionary<string, string>();
            if (!found.TryGetValue(id, out var at)) return headers;
            if (at.Place != null) headers["location"] = at.Place; if (at.Tag != null) headers["etag"] = at.Tag;
            return headers;
        }

        /// <summary>What may be sent again, with references to what is done replaced.</summary>
        private byte[] Rest() {
            var responses = run.Requests.Select(it => "{\"id\":" + Json.Quoted(it.Id) + ",\"status\":" + answers[it.Id].Status
                + (it.Group == null ? "" : ",\"atomicityGroup\":" + Json.Quoted(it.Group)) + ",\"headers\":" + Json.Object(Recorded(it.Id)) + "}");
            return Odb.Rest(document, "{\"responses\":[" + string.Join(",", responses) + "]}");
        }
    }
}
