using System;
using System.Collections.Generic;
using System.Linq;
using System.Net.Http;
using System.Threading;
using System.Threading.Tasks;

namespace OdbBatch {
    /// <summary>Sends a request. It must not block its thread. An exception is an answer, too: that of a <see cref="RefusalException"/>, 504
    /// for a timeout, 502 for a broken connection, and else 500.</summary>
    public delegate Task<BatchAnswer> BatchSend(BatchRequest request, CancellationToken cancellation);

    /// <summary>Performs a group in a transaction: begins one, calls <paramref name="body"/> once and awaits it, and commits; if it throws,
    /// rolls back and throws on. What is set in an AsyncLocal, or a TransactionScope with flow, reaches the requests of the group.</summary>
    public delegate Task BatchTransaction(string group, Func<Task> body, CancellationToken cancellation);

    /// <summary>Options of a performance.</summary>
    public sealed class PerformOptions {
        /// <summary>What an error does.</summary>
        public RunMode Mode { get; set; } = RunMode.Continue;
        /// <summary>How many units are performed at once, from 1 to 10,000.</summary>
        public int Width { get; set; } = 8;
        /// <summary>How many requests the batch may have.</summary>
        public int Limit { get; set; } = Native.MaxRequests;
        /// <summary>What URLs are relative to: an absolute URL with a slash at its end.</summary>
        public Uri BaseAddress { get; set; }
        /// <summary>Where requests may lead: below one of these, or else below the base. Others are answered 404.</summary>
        public IReadOnlyList<Uri> Roots { get; set; }
        /// <summary>Without it a batch with groups is refused: 501.</summary>
        public BatchTransaction Transaction { get; set; }
        /// <summary>How long a request may take; then its token is cancelled, and it is answered 504.</summary>
        public TimeSpan Timeout { get; set; } = TimeSpan.FromSeconds(100);
        /// <summary>Once it is cancelled nothing more starts, and the rest is answered 424.</summary>
        public CancellationToken Stopping { get; set; }
        /// <summary>Takes each exception that is shown as 500, 502 or 504.</summary>
        public Action<Exception, string> Log { get; set; } = (error, what) => System.Diagnostics.Trace.TraceError("odb_batch: " + what + ": " + error);
    }

    /// <summary>Performs batches by a function that sends one request.</summary>
    public static class BatchPerformer {
        /// <summary>Sends requests by a client, whose handler should not follow redirects: they may lead anywhere.</summary>
        public static BatchSend SendBy(HttpClient client) => async (request, cancellation) => {
            using (var message = request.ToMessage())
            using (var answer = await client.SendAsync(message, HttpCompletionOption.ResponseHeadersRead, cancellation).ConfigureAwait(false))
                return await BatchAnswer.ReadAsync(answer, cancellation).ConfigureAwait(false);
        };

        /// <summary>Performs a batch; returns the response document.</summary>
        /// <remarks>The requests of a group are sent one after another in its transaction, which begins once the group needs nothing more
        /// from outside, and is over before the last one is reported. If the token is cancelled nothing more starts, open transactions are
        /// rolled back, what is out is awaited for five seconds, and the task is cancelled.</remarks>
        /// <exception cref="FaultException">The batch is refused; nothing was sent.</exception>
        /// <exception cref="RefusalException">It has too many requests (413), or groups without transactions (501).</exception>
        public static async Task<byte[]> PerformAsync(Document batch, BatchSend send, PerformOptions options, CancellationToken cancellation = default(CancellationToken)) {
            using (var run = new LiveRun(batch, options.Mode, options.Width)) {
                if (run.Ids.Count > options.Limit) throw new RefusalException(413, "BatchTooLong", "A batch may have " + options.Limit + " requests");
                if (options.Transaction == null && run.Requests.Any(it => it.Group != null)) throw new RefusalException(501, "NoGroups", "Atomicity groups are not supported here");
                await new Performance(run, send, options, cancellation).AllAsync().ConfigureAwait(false);
                cancellation.ThrowIfCancellationRequested();
                return run.GetResponse();
            }
        }

        private sealed class GroupFailedException : Exception { }

        private sealed class Performance {
            // How long a request that was cancelled may take to end.
            private static readonly TimeSpan Grace = TimeSpan.FromSeconds(5);
            private readonly LiveRun run;
            private readonly References references;
            private readonly BatchSend send;
            private readonly PerformOptions options;
            private readonly CancellationToken cancellation;
            private readonly SemaphoreSlim ended = new SemaphoreSlim(0); // not Task.WhenAny, which looks at all that are out
            private volatile Exception bug;

            internal Performance(LiveRun run, BatchSend send, PerformOptions options, CancellationToken cancellation) {
                references = new References(run.Requests, options.BaseAddress, options.Roots);
                this.run = run; this.send = send ?? throw new ArgumentNullException(nameof(send)); this.options = options; this.cancellation = cancellation;
            }

            internal async Task AllAsync() {
                for (int isOut = 0; ;) {
                    while (isOut < options.Width && Next() is IReadOnlyList<string> unit)
                        if (run.TryStart(unit[0]) == Native.Done) { // else an error has stopped the run meanwhile
                            isOut++;
                            _ = UnitAsync(unit); // ends by the semaphore
                        }
                    if (isOut == 0) break;
                    await ended.WaitAsync().ConfigureAwait(false);
                    isOut--;
                }
                if (bug != null) throw new InvalidOperationException("a unit could not be performed", bug);
            }

            /// <summary>The next unit that may begin, or null.</summary>
            private IReadOnlyList<string> Next() {
                if (cancellation.IsCancellationRequested || options.Stopping.IsCancellationRequested || bug != null) run.Stop();
                var unit = run.NextUnit();
                return unit.Count > 0 ? unit : null;
            }

            private async Task UnitAsync(IReadOnlyList<string> ids) {
                try {
                    BatchRequest first = run.GetRequest(ids[0]);
                    if (first.Group == null) Report(first.Id, await SentAsync(first).ConfigureAwait(false));
                    else await GroupAsync(first.Group, ids).ConfigureAwait(false);
                } catch (Exception error) { bug = error; } finally { ended.Release(); }
            }

            private async Task GroupAsync(string group, IReadOnlyList<string> ids) {
                var members = new Members(this, ids);
                Exception reason = null;
                try { await options.Transaction(group, members.BeginAsync, cancellation).ConfigureAwait(false); } catch (Exception error) { reason = error; }
                Exception failed = await members.EndAsync().ConfigureAwait(false);
                reason = reason ?? failed ?? (members.Last == null ? new InvalidOperationException("the transaction has not called its body") : null);
                if (reason != null && !(reason is GroupFailedException || reason is RefusedException || reason is RefusalException)) options.Log?.Invoke(reason, "the group " + group);
                if (members.Open != null) Report(members.Open, reason == null ? members.Last : RefusalException.AnswerTo(reason));
            }

            /// <summary>The requests of a group, which are sent one after another. The last one is not reported before the commit.</summary>
            private sealed class Members {
                private readonly Performance performance;
                private readonly IReadOnlyList<string> ids;
                private Task body;

                internal Members(Performance performance, IReadOnlyList<string> ids) { this.performance = performance; this.ids = ids; Open = ids[0]; }

                /// <summary>The request that has started and is not reported, or null.</summary>
                internal string Open { get; private set; }
                /// <summary>What the last one was answered.</summary>
                internal BatchAnswer Last { get; private set; }

                internal Task BeginAsync() => body == null ? body = AllAsync() : throw new InvalidOperationException("the transaction has called its body twice");

                /// <summary>Waits until nothing of the group is out; returns what has failed in it, or null.</summary>
                internal async Task<Exception> EndAsync() {
                    if (body == null) return null;
                    bool isAwaited = body.IsCompleted;
                    try { await body.ConfigureAwait(false); } catch (Exception error) { return error; }
                    return isAwaited ? null : new InvalidOperationException("the transaction has not awaited its body");
                }

                private async Task AllAsync() {
                    foreach (string id in ids) {
                        if (id != ids[0]) { performance.run.Start(id); Open = id; }
                        performance.cancellation.ThrowIfCancellationRequested();
                        BatchAnswer answer = await performance.SentAsync(performance.run.GetRequest(id)).ConfigureAwait(false);
                        performance.cancellation.ThrowIfCancellationRequested();
                        if (id == ids[ids.Count - 1] && answer.IsSuccess) { Last = answer; return; }
                        Open = null;
                        performance.Report(id, answer);
                        if (!answer.IsSuccess) throw new GroupFailedException();
                    }
                }
            }

            /// <summary>What a request is answered, as it is shown.</summary>
            private async Task<BatchAnswer> SentAsync(BatchRequest request) {
                try {
                    BatchAnswer answer = await AnsweredAsync(references.Prepared(request)).ConfigureAwait(false) ?? throw new InvalidOperationException("send has returned null");
                    if (answer.Status < 200 || answer.Status > 599) answer = new BatchAnswer(502, answer.Headers, answer.Body);
                    if (answer.Text == null || answer.Text.Length <= Native.MaxDocument) return answer;
                    if (request.Method == "GET") throw new RefusalException(507, "TooLong", "The answer is too long for a batch");
                    options.Log?.Invoke(new InvalidOperationException("the answer is too long for a batch, and its body is left out"), "the request " + request.Id);
                    return new BatchAnswer(answer.Status, answer.Headers);
                } catch (Exception error) {
                    if (!(error is RefusalException)) options.Log?.Invoke(error, "the request " + request.Id);
                    return RefusalException.AnswerTo(error);
                }
            }

            private async Task<BatchAnswer> AnsweredAsync(BatchRequest request) {
                using (var source = CancellationTokenSource.CreateLinkedTokenSource(cancellation)) {
                    source.CancelAfter(options.Timeout);
                    return await Messages.EndAsync(send(request, source.Token), Grace, source.Token).ConfigureAwait(false);
                }
            }

            /// <summary>Reports an answer; a body that is not JSON though its answer claims it as a string.</summary>
            private void Report(string id, BatchAnswer answer) {
                references.Keep(id, answer);
                var shown = answer.Headers.Where(it => !Messages.NotShown.Contains(it.Key) && !(it.Key + it.Value).Any(char.IsSurrogate)).ToArray();
                var headers = shown.Length == 0 ? null : shown;
                try { run.Report(id, answer.Status, headers, answer.Text); } catch (FaultException error) {
                    options.Log?.Invoke(error, "the body of the answer to " + id);
                    byte[] text = Bodies.ToJsonString(answer.Body, answer.Headers);
                    run.Report(id, answer.Status, headers, text.Length <= Native.MaxDocument ? text : null);
                }
            }
        }
    }
}
