using System;
using System.Collections.Generic;
using System.Linq;
using System.Text;

namespace OdbBatch {
    /// <summary>Checks, plans, matches, runs and replays batches of requests in JSON (OASIS OData JSON Format 4.01, section 19). Any
    /// number of threads may call at once. A document that is refused is a <see cref="FaultException"/>.</summary>
    public static class Odb {
        /// <summary>The greatest width, and the default.</summary>
        public const int MaxWidth = 10000;

        /// <summary>The version of the library, as 200 for 0.2.0.</summary>
        public static int Version() => (int)Native.odb_version();

        /// <summary>Checks a batch.</summary>
        public static Counts Check(Document batch) => TryCheck(batch, out Counts counts, out Fault fault) ? counts : throw new FaultException(fault);

        /// <summary>Checks a batch; returns whether it is accepted, else its first fault.</summary>
        public static bool TryCheck(Document batch, out Counts counts, out Fault fault) {
            uint status = Native.Write(128, (byte[] to, ulong room, out ulong length) =>
                Native.odb_check_as(ref batch.At[0], batch.Size, 0, ref to[0], room, out length, Native.Seed), out byte[] text);
            fault = Native.FaultIn(status, text, batch, batch);
            counts = fault == null ? new Counts(Encoding.UTF8.GetString(text).Split(' ')) : default(Counts);
            return fault == null;
        }

        /// <summary>All faults of the first phase that has any, with where they are, found in one scan; none if the batch is
        /// accepted.</summary>
        public static IReadOnlyList<Fault> Faults(Document batch) {
            uint status = Native.List(Room(batch), Likely(batch), (byte[] to, ulong room, out ulong length, Native.FoundFault[] items, ulong most, out ulong count) =>
                Native.odb_faults(batch.At, batch.Size, ref to[0], room, out length, ref items[0], most, out count, Native.Seed), out byte[] text, out Native.FoundFault[] found, out int many);
            if (status != Native.Done && status != Native.Refused) throw Native.Failure(status);
            var words = new Native.Words(text);
            return found.Take(many).Select(it => new Fault(words[it.Code], words[it.Name], words[it.Place], () => it.Position)).ToArray();
        }

        /// <summary>The requests of a batch in order, with what each depends on.</summary>
        public static IReadOnlyList<PlannedRequest> Plan(Document batch) =>
            Lines(Native.Answer(Room(batch), batch, batch, (byte[] to, ulong room, out ulong length) =>
                Native.odb_plan_as(batch.At, batch.Size, 0, ref to[0], room, out length, Native.Seed))).Select(line => new PlannedRequest(line.Split(' '))).ToArray();

        /// <summary>The canonical text of a batch, without a newline.</summary>
        public static byte[] Canon(Document batch) =>
            Trimmed(Native.Answer(Room(batch), batch, batch, (byte[] to, ulong room, out ulong length) =>
                Native.odb_canon_as(batch.At, batch.Size, 0, ref to[0], room, out length, Native.Seed)));

        /// <summary>Matches the response document of a service against a batch; returns the status of each request, in the order of the
        /// batch.</summary>
        /// <param name="batch">The batch.</param>
        /// <param name="responses">The response document.</param>
        /// <param name="mode">Stop, if the service stops at the first error: then a missing response is 424.</param>
        /// <param name="strict">Whether some finished run has to answer these statuses.</param>
        /// <param name="units">With strict: whether a run will do that starts each group as one.</param>
        public static IReadOnlyList<KeyValuePair<string, int>> Match(Document batch, Document responses, RunMode mode = RunMode.Continue, bool strict = false, bool units = false) =>
            Lines(Native.Answer(Room(batch), batch, responses, (byte[] to, ulong room, out ulong length) =>
                Native.odb_match_with(batch.At, batch.Size, responses.At, responses.Size, (uint)mode, strict ? units ? 2u : 1u : 0u, 0, ref to[0], room, out length, Native.Seed)))
                .Skip(1).Select(line => line.Split(' ')).Select(it => new KeyValuePair<string, int>(it[0], int.Parse(it[1]))).ToArray();

        /// <summary>What may be sent again by the responses of a service, as a batch of its own.</summary>
        public static byte[] Rest(Document batch, Document responses, RunMode mode = RunMode.Continue) =>
            Trimmed(Native.Answer(Room(batch) + Room(responses), batch, responses, (byte[] to, ulong room, out ulong length) =>
                Native.odb_rest(batch.At, batch.Size, responses.At, responses.Size, (uint)mode, 0, ref to[0], room, out length, Native.Seed)));

        /// <summary>Runs a batch by recorded events; returns the response document. <see cref="LiveRun"/> is a run on its way.</summary>
        public static byte[] Run(Document batch, Document events, RunMode mode = RunMode.Continue, int width = MaxWidth) =>
            Trimmed(Native.Answer(Room(batch) + Room(events), batch, events, (byte[] to, ulong room, out ulong length) =>
                Native.odb_run_as(batch.At, batch.Size, events.At, events.Size, (uint)mode, (uint)width, 0, ref to[0], room, out length, Native.Seed)));

        /// <summary>Replays a batch by recorded outcomes; returns the response document, and the steps if a trace is asked for.</summary>
        public static (byte[] Response, IReadOnlyList<ReplayStep> Steps) Replay(Document batch, Document outcomes,
            RunMode mode = RunMode.Continue, int width = MaxWidth, ReplayOrder order = ReplayOrder.First, bool trace = false) {
            string[] lines = Lines(Native.Answer(Room(batch) + Room(outcomes), batch, outcomes, (byte[] to, ulong room, out ulong length) =>
                Native.odb_replay_as(batch.At, batch.Size, outcomes.At, outcomes.Size, (uint)mode, (uint)width, (uint)order, trace ? 1u : 0u, 0, ref to[0], room, out length, Native.Seed)));
            var steps = lines.Take(lines.Length - 1).Select(line => new ReplayStep(line.Split(' '))).ToArray();
            return (Encoding.UTF8.GetBytes(lines[lines.Length - 1]), steps);
        }

        /// <summary>What is to be sent of each request of a batch, in its order.</summary>
        public static IReadOnlyList<BatchRequest> Requests(Document batch) {
            uint status = Native.List(Room(batch), Likely(batch), (byte[] to, ulong room, out ulong length, Native.Request[] items, ulong most, out ulong count) =>
                Native.odb_requests(ref batch.At[0], batch.Size, ref to[0], room, out length, ref items[0], most, out count, Native.Seed), out byte[] text, out Native.Request[] found, out int many);
            Native.Require(status, text, batch, batch);
            return BatchRequest.All(found, many, text, batch.Bytes);
        }

        /// <summary>The responses in the document of a service, in its order. They need not fit any batch.</summary>
        public static IReadOnlyList<BatchResponse> Responses(Document document) {
            uint status = Native.List(Room(document), Likely(document), (byte[] to, ulong room, out ulong length, Native.Response[] items, ulong most, out ulong count) =>
                Native.odb_responses(document.At, document.Size, ref to[0], room, out length, ref items[0], most, out count), out byte[] text, out Native.Response[] found, out int many);
            Native.Require(status, text, document, document);
            var words = new Native.Words(text);
            return found.Take(many).Select(it => new BatchResponse(it, words, document.Bytes)).ToArray();
        }

        /// <summary>What a code means, as F41 or S4: its name and places, what it means, and an example; empty for another text.</summary>
        public static string Explain(string code) {
            Document given = code;
            Native.Write(2048, (byte[] to, ulong room, out ulong length) => Native.odb_explain(given.At, given.Size, ref to[0], room, out length), out byte[] text);
            return Encoding.UTF8.GetString(text);
        }

        /// <summary>The lines of an explanation that say what a code means.</summary>
        internal static string Meaning(string code) =>
            string.Join("\n", Explain(code).Split('\n').Skip(1).TakeWhile(it => !it.StartsWith("refused: ", StringComparison.Ordinal)));

        /// <summary>A list of names in the constants of the library.</summary>
        internal static string[] Names(string list) {
            Native.Write(4096, (byte[] to, ulong room, out ulong length) => Native.odb_constants(ref to[0], room, out length), out byte[] text);
            string found = Encoding.UTF8.GetString(text), begin = "\"" + list + "\":[";
            int at = found.IndexOf(begin, StringComparison.Ordinal) + begin.Length;
            return found.Substring(at, found.IndexOf(']', at) - at).Split('"').Where((it, i) => i % 2 == 1).ToArray();
        }

        /// <summary>A guess of how long a text is that is made of a document; a longer one takes a second call.</summary>
        internal static int Room(Document document) => document.Bytes.Length + 256;

        /// <summary>A guess of how many requests, responses or faults a document has; more take a second call.</summary>
        internal static int Likely(Document document) => Math.Min(document.Bytes.Length / 32 + 1, Native.MaxRequests);

        private static string[] Lines(byte[] text) => text.Length == 0 ? new string[0] : Encoding.UTF8.GetString(text, 0, text.Length - 1).Split('\n');

        /// <summary>A text without its newline.</summary>
        internal static byte[] Trimmed(byte[] text) => new ArraySegment<byte>(text, 0, text.Length - 1).ToArray();
    }
}
