using System;
using System.Collections.Generic;
using System.Linq;

namespace OdbBatch {
    /// <summary>What has become of a request.</summary>
    public enum RequestState : uint {
        /// <summary>It may not start yet.</summary>
        Waiting,
        /// <summary>It may start now.</summary>
        Ready,
        /// <summary>It has started and not reported.</summary>
        Running,
        /// <summary>It has reported a status.</summary>
        Reported,
        /// <summary>It never starts any more.</summary>
        Skipped,
        /// <summary>The run is finished, and the request has to be undone.</summary>
        Undone,
    }

    /// <summary>A run whose caller performs the requests. Any number of threads may use one. Dispose it; one that is forgotten is closed
    /// when it is collected. An id that no request has is a KeyNotFoundException, a run that is closed an
    /// ObjectDisposedException.</summary>
    public sealed class LiveRun : IDisposable {
        private readonly object gate = new object();
        private readonly RunHandle handle = new RunHandle();
        private readonly Document batch;
        private readonly Dictionary<string, BatchRequest> byId;
        private BatchRequest last; // that was asked for, which often is the next one, too
        private readonly uint[] listed;
        private int size;

        /// <summary>Opens the run of a batch.</summary>
        /// <param name="batch">The batch. Do not change its bytes while the run is open.</param>
        /// <param name="mode">What an error does.</param>
        /// <param name="width">How many requests may run at once, from 1 to 10,000.</param>
        /// <param name="events">What has happened before, as a document of at most 16,777,216 bytes; null for nothing.</param>
        /// <exception cref="FaultException">A document is refused, or an event may not come.</exception>
        public LiveRun(Document batch, RunMode mode = RunMode.Continue, int width = Odb.MaxWidth, byte[] events = null) {
            Document happened = events ?? (Document)"{\"events\":[]}";
            this.batch = batch; size = batch.Bytes.Length + happened.Bytes.Length;
            try {
                uint status = Native.List(Odb.Room(batch), Odb.Likely(batch), (byte[] to, ulong room, out ulong length, Native.Request[] items, ulong most, out ulong count) =>
                    Native.odb_run_open_requests(batch.At, batch.Size, happened.At, happened.Size, (uint)mode, (uint)width, handle, ref to[0], room, out length, ref items[0], most, out count, Native.Seed),
                    out byte[] text, out Native.Request[] found, out int many);
                Native.Require(status, text, batch, happened);
                Requests = BatchRequest.All(found, many, text, batch.Bytes);
            } catch { handle.Dispose(); throw; }
            Ids = Requests.Select(it => it.Id).ToArray();
            byId = Requests.ToDictionary(it => it.Id); listed = new uint[Ids.Count + 1];
        }

        private delegate uint Listing(RunHandle run, ref uint positions, ulong most, out ulong count);

        private string[] List(Listing call, bool isSorted) {
            lock (gate) {
                Settle(call(handle, ref listed[0], (ulong)listed.Length, out ulong count), "");
                if (isSorted) Array.Sort(listed, 0, (int)count);
                return listed.Take((int)count).Select(it => Ids[(int)it]).ToArray();
            }
        }

        /// <summary>What is to be sent of the requests, in the order of the batch.</summary>
        public IReadOnlyList<BatchRequest> Requests { get; }
        /// <summary>The ids of the requests, in the order of the batch.</summary>
        public IReadOnlyList<string> Ids { get; }
        /// <summary>What is to be sent of a request.</summary>
        public BatchRequest GetRequest(string id) {
            BatchRequest it = last;
            if (it == null || !ReferenceEquals(it.Id, id)) it = byId.TryGetValue(id, out it) ? it : throw new KeyNotFoundException("no request has the id " + id);
            return last = it;
        }

        /// <summary>Those that may start now, in the order of the batch.</summary>
        public IReadOnlyList<string> GetReady() => List(Native.odb_run_ready, true);
        /// <summary>Those that have started and not reported yet, in the order of the batch.</summary>
        public IReadOnlyList<string> GetRunning() => List(Native.odb_run_running, true);
        /// <summary>Those of the finished run that have to be undone, in this order.</summary>
        /// <exception cref="FaultException">The run is not finished (F66).</exception>
        public IReadOnlyList<string> GetUndone() => List(Native.odb_run_undone, false);
        /// <summary>The first unit that may begin, a group or a request without one; empty if no unit may. Start and report its requests one
        /// after another, as in a transaction, or all by <see cref="StartUnit"/>.</summary>
        public IReadOnlyList<string> NextUnit() => List(Native.odb_run_next_unit, false);

        /// <summary>Whether no event may come any more, so that there is a response.</summary>
        public bool IsFinished { get { lock (gate) return Native.odb_run_finished(handle) == 1; } }

        /// <summary>Lets nothing start any more. What is running is reported as before, and what has not started is answered 424.</summary>
        public void Stop() { lock (gate) Native.odb_run_stop(handle); }

        /// <summary>The state of a request, and the status that it has reported or, once the run is finished, is answered; or 0.</summary>
        public (RequestState State, int Status) GetState(string id) {
            uint state, status, position = PositionOf(id);
            lock (gate) Settle(Native.odb_run_state(handle, position, out state, out status), id);
            return ((RequestState)state, (int)status);
        }

        /// <summary>Starts a request: call it just before that is sent.</summary>
        /// <exception cref="RefusedException">It may not start, by the first of the causes S1 to S5.</exception>
        public void Start(string id) { Settle(TryStart(id), id); }

        internal uint TryStart(string id) { uint position = PositionOf(id); lock (gate) return Native.odb_run_start(handle, position); }

        /// <summary>Starts all members of the group of a request together, or the request alone.</summary>
        /// <exception cref="RefusedException">They may not start, by the first of the causes S1 to S5.</exception>
        public void StartUnit(string id) { Settle(TryStartUnit(id), id); }

        internal uint TryStartUnit(string id) { uint position = PositionOf(id); lock (gate) return Native.odb_run_start_unit(handle, position); }

        /// <summary>The next part of the batch: requests that may be sent together as a batch of their own, and none of which was in a part
        /// before. What they depend on is in the part or has succeeded; in a URL $a is replaced by the Location that was reported for a, in
        /// If-Match or If-None-Match by the ETag, and the part ends before the first unit for which there is none. Once it is answered, start its units by <see cref="StartUnit"/>, in order,
        /// and report their requests.</summary>
        /// <param name="limit">How many requests it may have, from 1 to 10,000.</param>
        /// <returns>The ids and the document; of no ids if nothing may be sent now.</returns>
        /// <exception cref="FaultException">No Location of use, F90, or no ETag, F91, was reported for the first unit that may begin: start and
        /// report that one.</exception>
        /// <exception cref="ArgumentException">A group has more requests than the limit.</exception>
        public (IReadOnlyList<string> Ids, byte[] Document) NextPart(int limit = Odb.MaxWidth) {
            lock (gate) {
                uint status = Native.List(Odb.Room(batch), Ids.Count, (byte[] to, ulong room, out ulong length, uint[] items, ulong most, out ulong count) =>
                    Native.odb_run_part(handle, batch.At, batch.Size, (uint)limit, ref to[0], room, out length, ref items[0], most, out count, Native.Seed), out byte[] text, out uint[] found, out int many);
                if (status == Native.WrongOption) throw new ArgumentException("a group has more requests than a part may have, or the bytes of the batch have changed");
                Native.Require(status, text, batch, batch);
                return (found.Take(many).Select(it => Ids[(int)it]).ToArray(), text);
            }
        }

        /// <summary>Reports what a running request was answered.</summary>
        /// <param name="id">The id.</param>
        /// <param name="status">The status, from 200 to 599.</param>
        /// <param name="headers">The headers that the response shows, or null.</param>
        /// <param name="body">The JSON text of the body, which the response repeats byte for byte; null or empty for none.</param>
        /// <exception cref="RefusedException">The report may not come, by P1 or P2.</exception>
        /// <exception cref="FaultException">Headers or body are refused; the request is still running.</exception>
        public void Report(string id, int status, IEnumerable<KeyValuePair<string, string>> headers = null, byte[] body = null) {
            uint position = PositionOf(id), end;
            Document heads = headers == null ? (Document)Array.Empty<byte>() : Json.Object(headers), text = body ?? Array.Empty<byte>();
            lock (gate) {
                end = Native.odb_run_report(handle, position, (uint)status, ref heads.At[0], heads.Size, ref text.At[0], text.Size);
                if (end == Native.Done) size += heads.Bytes.Length + text.Bytes.Length;
            }
            if (end == Native.Refused) throw new FaultException(ReportFault(heads, text));
            Settle(end, id);
        }

        /// <summary>Why headers or a body are refused, or null.</summary>
        internal static Fault ReportFault(Document headers, Document body) {
            uint status = Native.Write(64, (byte[] to, ulong room, out ulong length) =>
                Native.odb_report_fault(headers.At, headers.Size, body.At, body.Size, ref to[0], room, out length), out byte[] text);
            return Native.FaultIn(status, text, headers, body) is Fault fault ? Fault.OfRun(fault.Code, fault.Name, "report") : null;
        }

        /// <summary>The response document of the finished run.</summary>
        /// <exception cref="FaultException">The run is not finished (F66).</exception>
        public byte[] GetResponse() {
            lock (gate) {
                Settle(Native.Write(size + 64, (byte[] to, ulong room, out ulong length) => Native.odb_run_response(handle, ref to[0], room, out length), out byte[] text), "");
                return Odb.Trimmed(text);
            }
        }

        /// <summary>Frees the run. A call that another thread is in ends first.</summary>
        public void Dispose() { handle.Dispose(); }

        private uint PositionOf(string id) => GetRequest(id).Position;

        private static void Settle(uint status, string id) {
            if (status == Native.Refused) throw new FaultException(Fault.OfRun("F66", "Unfinished", "events"));
            if (status != Native.Done) throw (Exception)RefusedException.Of(status, id) ?? Native.Failure(status);
        }
    }
}
