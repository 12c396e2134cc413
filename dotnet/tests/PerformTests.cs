using System;
using System.Collections.Concurrent;
using System.Collections.Generic;
using System.IO;
using System.Linq;
using System.Net.Http;
using System.Text;
using System.Threading;
using System.Threading.Tasks;
using NUnit.Framework;
using OdbBatch;

[TestFixture]
public class PerformTests {
    private static readonly Uri Base = new Uri("https://host/odata/");
    private readonly ConcurrentQueue<string> log = new ConcurrentQueue<string>();

    [SetUp]
    public void Forget() { string it; while (log.TryDequeue(out it)) { } }

    private PerformOptions Options(int width = 8, BatchTransaction transaction = null) => new PerformOptions {
        Width = width, BaseAddress = Base, Transaction = transaction ?? ((group, body, cancellation) => body()), Log = (error, what) => log.Enqueue(what + ": " + error.Message),
    };

    private static Task<BatchAnswer> Answer(int status, string name = null, string value = null, string body = null) =>
        Task.FromResult(new BatchAnswer(status, name == null ? null : Given.Header(name, value), body == null ? null : Given.Bytes(body)));

    private string Performed(Document batch, BatchSend send, PerformOptions options = null) => Given.Statuses(batch, Given.Awaited(BatchPerformer.PerformAsync(batch, send, options ?? Options())));

    /// <summary>The response to one request, by what send returns.</summary>
    private string Shown(Func<BatchRequest, Task<BatchAnswer>> send, string request = "\"method\":\"get\",\"url\":\"A\"") =>
        Given.Text(Given.Awaited(BatchPerformer.PerformAsync(Given.One(request), (it, cancellation) => send(it), Options())));

    [TestCase("", "a200 b200 p200 q200 z200", "begin commit")]
    [TestCase("q409", "a200 b200 p424 q409 z424", "begin rollback")]
    [TestCase("p304", "a200 b200 p304 q424 z424", "begin rollback")]
    [TestCase("a1 q1", "a500 b424 p424 q500 z424", "begin rollback")]
    public void Performs(string given, string wanted, string ended) {
        var answers = given.Split(new[] { ' ' }, StringSplitOptions.RemoveEmptyEntries).ToDictionary(it => it.Substring(0, 1), it => int.Parse(it.Substring(1)));
        foreach (int width in new[] { 1, 8 }) {
            var sent = new ConcurrentDictionary<string, string>();
            var steps = new List<string>();
            var scope = new AsyncLocal<string>();
            var options = Options(width, async (group, body, cancellation) => {
                steps.Add("begin");
                scope.Value = group;
                try { await body(); } catch { steps.Add("rollback"); throw; }
                steps.Add("commit");
            });
            Assert.AreEqual(wanted, Performed(Given.Usual, async (request, cancellation) => {
                await Task.Yield();
                Assert.AreEqual(request.Group, scope.Value);
                sent[request.Id] = request.Method + " " + request.Url + " " + (request.Body == null ? "" : Given.Text(request.Body));
                int status;
                if (!answers.TryGetValue(request.Id, out status)) status = 200;
                return status == 1 ? throw new InvalidDataException("an error") : new BatchAnswer(status, Given.Header("Location", "/odata/Books(7)"));
            }, options));
            Assert.AreEqual(ended, string.Join(" ", steps));
            Assert.AreEqual("POST https://host/odata/Books {\"price\":9.990}", sent["a"]);
            if (sent.ContainsKey("b")) Assert.AreEqual("GET https://host/odata/Books(7)/Pages ", sent["b"]);
        }
    }

    [Test]
    public void A_commit_that_fails_is_the_answer_to_the_last_request() {
        var options = Options(transaction: async (group, body, cancellation) => { await body(); throw new RefusalException(503, "Busy", "try again", headers: Given.Header("Retry-After", "1")); });
        Assert.AreEqual("a200 b200 p424 q503 z424", Performed(Given.Usual, (it, c) => Answer(200, "location", "/odata/B"), options));
        CollectionAssert.IsEmpty(log);
        options = Options(transaction: async (group, body, cancellation) => { await body(); throw new InvalidDataException("no disk"); });
        Assert.AreEqual("a200 b200 p424 q500 z424", Performed(Given.Usual, (it, c) => Answer(200, "location", "/odata/B"), options));
        Assert.AreEqual("the group g: no disk", log.Single());
    }

    [Test]
    public void A_transaction_has_to_call_its_body_once_and_await_it() {
        BatchSend send = async (it, c) => { await Task.Delay(20); return new BatchAnswer(200, Given.Header("location", "/odata/B")); };
        Assert.AreEqual("a200 b200 p500 q424 z424", Performed(Given.Usual, send, Options(transaction: (group, body, c) => Task.FromResult(0))));
        Assert.AreEqual("a200 b200 p424 q500 z424", Performed(Given.Usual, send, Options(transaction: async (group, body, c) => { await body(); await body(); })));
        Assert.AreEqual("a200 b200 p424 q500 z424", Performed(Given.Usual, send, Options(transaction: (group, body, c) => { body(); return Task.FromResult(0); })));
        Assert.AreEqual("a200 b200 p503 q424 z424", Performed(Given.Usual, send, Options(transaction: (group, body, c) => throw new RefusalException(503, "Busy", "later"))));
        Assert.AreEqual("a200 b200 p424 q409 z424", Performed(Given.Usual, (it, c) => it.Id == "q" ? Answer(409) : send(it, c), Options(transaction: async (group, body, c) => { try { await body(); } catch { } })));
    }

    [Test]
    public void An_exception_is_an_answer() {
        var errors = new Dictionary<int, Exception> { [500] = new InvalidDataException(), [502] = new HttpRequestException(), [504] = new TaskCanceledException(), [429] = new RefusalException(429, "Busy", "a \"b\"") };
        foreach (var it in errors) {
            StringAssert.Contains("\"status\":" + it.Key + "}", Shown(async request => { await Task.Yield(); throw it.Value; }));
            StringAssert.Contains("\"status\":" + it.Key + "}", Shown(request => throw it.Value));
        }
        StringAssert.Contains("{\"error\":{\"code\":\"Busy\",\"message\":\"a \\\"b\\\"\"}}", Shown(request => throw errors[429]));
        StringAssert.Contains("\"status\":500}", Shown(request => Task.FromResult<BatchAnswer>(null)));
        StringAssert.Contains("\"status\":500}", Shown(request => null));
        StringAssert.Contains("\"status\":502}", Shown(request => Answer(99)));
        Assert.Throws<ArgumentOutOfRangeException>(() => new RefusalException(200, "x", "y"));
        var options = Options();
        options.Log = (error, what) => throw new InvalidDataException("no log");
        Assert.Throws<InvalidOperationException>(() => Performed(Given.Usual, (it, c) => throw new InvalidDataException(), options));
    }

    [TestCase(1)]
    [TestCase(8)]
    public void Is_cancelled_in_the_middle(int width) {
        int begun = 0, over = 0;
        using (var source = new CancellationTokenSource()) {
            var task = BatchPerformer.PerformAsync(Given.Many(1000), async (request, cancellation) => {
                if (Interlocked.Increment(ref begun) == 20) source.CancelAfter(1);
                try { await Task.Delay(begun < 20 ? 1 : 100000, cancellation); } finally { Interlocked.Increment(ref over); }
                return new BatchAnswer(200);
            }, Options(width), source.Token);
            Assert.Catch<OperationCanceledException>(() => Given.Awaited(task));
            Assert.IsTrue(task.IsCanceled);
            Assert.Less(begun, 40);
            Assert.AreEqual(begun, over);
        }
    }

    [Test]
    public void A_group_is_rolled_back_if_it_is_cancelled() {
        var steps = new ConcurrentQueue<string>();
        using (var source = new CancellationTokenSource()) {
            var options = Options(transaction: async (group, body, c) => { try { await body(); steps.Enqueue("commit"); } catch (OperationCanceledException) { steps.Enqueue("rollback"); throw; } });
            var task = BatchPerformer.PerformAsync(Given.Usual, (it, c) => { if (it.Id == "q") source.Cancel(); return Answer(200, "location", "/odata/B"); }, options, source.Token);
            Assert.Catch<OperationCanceledException>(() => Given.Awaited(task));
            Assert.AreEqual("rollback", steps.Single());
        }
    }

    [Test]
    public void Is_stopped() {
        using (var source = new CancellationTokenSource()) {
            var options = Options(1);
            options.Stopping = source.Token;
            string wanted = "r0200 r1200 " + string.Join(" ", Enumerable.Range(2, 8).Select(i => "r" + i + "424"));
            Assert.AreEqual(wanted, Performed(Given.Many(10), async (it, c) => { await Task.Yield(); if (it.Id == "r1") source.Cancel(); return new BatchAnswer(200); }, options));
        }
    }

    [Test]
    public void Stops_at_an_error() {
        var options = Options(1);
        options.Mode = RunMode.Stop;
        Assert.AreEqual("r0200 r1404 r2424", Performed(Given.Many(3), (it, c) => Answer(it.Id == "r1" ? 404 : 200), options));
    }

    [Test]
    public void A_service_that_hangs_is_given_up() {
        var options = Options(3);
        options.Timeout = TimeSpan.FromMilliseconds(50);
        var begun = DateTime.UtcNow;
        var never = new TaskCompletionSource<BatchAnswer>();
        Assert.AreEqual("r0504 r1504 r2200", Performed(Given.Many(3), async (it, c) => {
            if (it.Id == "r0") await Task.Delay(-1, c);
            return it.Id == "r1" ? await never.Task : new BatchAnswer(200); // which heeds no token
        }, options));
        Assert.Less((DateTime.UtcNow - begun).TotalSeconds, 20);
        Assert.IsTrue(log.Any(it => it.EndsWith("has not ended though it was cancelled")));
        never.SetException(new InvalidDataException("too late"));
    }

    [Test]
    public void Answers_that_are_there_at_once_do_not_nest() {
        foreach (string batch in new[] { Given.Many(10000), Given.Many(10000).Replace("\"url\"", "\"atomicityGroup\":\"g\",\"url\"") })
            foreach (int width in new[] { 1, 8 })
                Assert.AreEqual(10000, Performed(batch, (it, c) => Answer(204), Options(width)).Split(' ').Length);
    }

    [Test]
    public void Limits_and_groups_are_refused_before_anything_is_sent() {
        var options = Options();
        options.Limit = 4;
        Assert.AreEqual(413, Assert.Throws<RefusalException>(() => Performed(Given.Usual, null, options)).Answer.Status);
        options = new PerformOptions { BaseAddress = Base };
        Assert.AreEqual(501, Assert.Throws<RefusalException>(() => Performed(Given.Usual, null, options)).Answer.Status);
        Assert.Throws<FaultException>(() => Performed("{}", null, options));
        foreach (string it in new[] { "https://host/odata", "https://user@host/", "https://host/?x", "https://host/#x" })
            Assert.Throws<ArgumentException>(() => Performed(Given.Many(1), null, new PerformOptions { BaseAddress = new Uri(it) }), it);
        Assert.Throws<ArgumentException>(() => Performed(Given.Many(1), null, new PerformOptions()));
        Assert.Throws<ArgumentNullException>(() => Performed(Given.Many(1), null));
    }

    [TestCase("Books?$filter=a eq 'b c'&x=%20", "https://host/odata/Books?$filter=a%20eq%20%27b%20c%27&x=%20")]
    [TestCase("/odata/A", "https://host/odata/A")]
    [TestCase("//host/odata/A", "https://host/odata/A")]
    [TestCase("http://other/A", null)]
    [TestCase("../admin", null)]
    [TestCase("a/%2e%2e/%2e%2e/admin", null)]
    [TestCase("/admin", null)]
    public void Requests_stay_below_the_roots(string url, string wanted) {
        string sent = null, shown = Shown(it => { sent = it.Url; return Answer(200); }, "\"method\":\"get\",\"url\":\"" + url + "\"");
        if (wanted == null) StringAssert.Contains("\"status\":404}", shown);
        Assert.AreEqual(wanted, sent?.Replace("'", "%27"));
    }

    [Test]
    public void Roots_may_be_others() {
        var options = Options();
        options.Roots = new[] { new Uri("https://host/odata/"), new Uri("http://other:81/x/") };
        const string batch = "{\"requests\":[{\"id\":\"a\",\"method\":\"get\",\"url\":\"A\"},{\"id\":\"b\",\"method\":\"get\",\"url\":\"http://other:81/x/B\"},{\"id\":\"c\",\"method\":\"get\",\"url\":\"http://other:81/y\"}]}";
        Assert.AreEqual("a200 b200 c404", Performed(batch, (it, c) => Answer(200), options));
        options.Roots = new[] { new Uri("http://other:81/x/") };
        Assert.AreEqual("a404 b200 c404", Performed(batch, (it, c) => Answer(200), options));
    }

    [Test]
    public void References_are_replaced() {
        const string batch = "{\"requests\":[{\"id\":\"a\",\"method\":\"METHOD\",\"url\":\"Books(1)?x=1\"},"
            + "{\"id\":\"b\",\"method\":\"get\",\"url\":\"$a/Pages\",\"dependsOn\":[\"a\"]},"
            + "{\"id\":\"c\",\"method\":\"patch\",\"url\":\"$a\",\"dependsOn\":[\"a\"],\"headers\":{\"If-Match\":\"$a\"},\"body\":{}}]}";
        Func<string, string, string, string, string> sent = (method, name, value, body) => {
            var found = new SortedDictionary<string, string>();
            string statuses = Performed(batch.Replace("METHOD", method), (it, c) => {
                string tag;
                lock (found) found[it.Id] = it.Url.Replace("https://host/odata/", "") + (it.Headers.TryGetValue("if-match", out tag) ? " " + tag : "");
                return it.Id == "a" ? Answer(200, name, value, body) : Answer(200);
            }, Options(1));
            return statuses + ": " + string.Join(", ", found.Values);
        };
        Assert.AreEqual("a200 b200 c200: Books(1)?x=1, Books(1)/Pages, Books(1) W/\"7\"", sent("get", "ETag", "W/\"7\"", null));
        Assert.AreEqual("a200 b200 c424: Books(1)?x=1, B(2)/Pages", sent("post", "Location", "/odata/B(2)", null));
        Assert.AreEqual("a200 b200 c424: Books(1)?x=1, B(3)/Pages", sent("post", "OData-EntityId", "B(3)", "[]").Replace("Books(1)/B", "B"));
        Assert.AreEqual("a200 b424 c424: Books(1)?x=1", sent("post", null, null, "{\"@odata.etag\":\"8\"}"));
        Assert.AreEqual("a200 b404 c404: Books(1)?x=1", sent("post", "Location", "https://other/", null));
        Assert.AreEqual("a200 b424 c424: Books(1)?x=1", sent("post", "Location", "", null));
        Assert.AreEqual("a200 b200 c200: Books(1)?x=1, B(4)/Pages, B(4) \"9\"",
            sent("post", null, null, "{\"x\":{\"@id\":\"no\"},\"@odata.context\":\"https://host/odata/$metadata#B/$entity\",\"@odata.id\":\"B(4)\",\"@odata.etag\":\"\\u00229\\\"\"}"));
        Assert.AreEqual("a200 b200 c200: Books(1)?x=1, B(5)/Pages, B(5) 9", sent("post", null, null, "{\"@id\":\"https://host/odata/B(5)\",\"@etag\":\"9\"}"));
        Assert.AreEqual("a200 b424 c424: Books(1)?x=1", sent("post", null, null, "{\"a\":" + new string('[', 1000000) + new string(']', 1000000) + ",\"@etag\":\"9\"}"));
        // A relative URL without a context, which may be relative to anything, is none.
        Assert.AreEqual("a200 b424 c424: Books(1)?x=1", sent("post", null, null, "{\"@id\":\"/odata/B(5)\"}"));
    }

    [Test]
    public void No_header_has_a_second_line() {
        foreach (string value in new[] { "a\\nX: 1", "a\\r\\nX: 1", "\\u0000" })
            foreach (string header in new[] { "\"x\":\"" + value + "\"", "\"" + value + "\":\"x\"" })
                StringAssert.Contains("BadHeader", Shown(it => Answer(200), "\"method\":\"get\",\"url\":\"A\",\"headers\":{" + header + "}"));
        const string batch = "{\"requests\":[{\"id\":\"a\",\"method\":\"get\",\"url\":\"A\"},{\"id\":\"b\",\"method\":\"delete\",\"url\":\"A\",\"dependsOn\":[\"a\"],\"headers\":{\"If-Match\":\"$a\"}}]}";
        Assert.AreEqual("a200 b400", Performed(batch, (it, c) => Answer(200, null, null, "{\"@etag\":\"1\\nX: 1\"}")));
    }

    [TestCase("text/plain", "gr\u00fcn", "\"gr\u00fcn\"")]
    [TestCase("text/plain; charset=iso-8859-1", "gr\u00fcn", "\"gr\u00c3\u00bcn\"")]
    [TestCase("text/plain; charset=nothing", "a\"b\\\n", "\"a\\\"b\\\\\\u000a\"")]
    [TestCase("image/png", "a?>", "\"YT8-\"")]
    [TestCase("image/png", "a", "\"YQ\"")]
    [TestCase("application/json", "\ufeff{\"a\": 1.50}", "{\"a\": 1.50}")]
    [TestCase("application/problem+json", "[1]", "[1]")]
    [TestCase("application/json", "{broken", "\"{broken\"")]
    [TestCase("application/json", "", null)]
    public void Bodies_of_answers(string type, string body, string wanted) {
        string shown = Shown(it => Answer(200, "Content-Type", type, body));
        if (wanted == null) StringAssert.DoesNotContain("body", shown);
        else StringAssert.Contains("\"body\":" + wanted + ",", shown);
    }

    [TestCase("application/json", "{ \"a\": 1.50 }", "{ \"a\": 1.50 }")]
    [TestCase("text/plain;charset=utf-8", "\"gr\\u00fcn\\n\"", "gr\u00fcn\n")]
    [TestCase("image/png", "\"YT8-\"", "a?>")]
    [TestCase("image/png", "\"YQ\"", "a")]
    [TestCase("image/png", "\"YWI=\"", "ab")]
    [TestCase("text/plain;charset=nothing", "\"a\"", null)]
    public void Bodies_of_requests(string type, string body, string wanted) {
        string sent = null;
        string shown = Shown(it => { sent = Given.Text(it.Body); return Answer(200); }, "\"method\":\"post\",\"url\":\"A\",\"headers\":{\"Content-Type\":\"" + type + "\"},\"body\":" + body);
        Assert.AreEqual(wanted, sent);
        if (wanted == null) StringAssert.Contains("BadCharset", shown);
    }

    [Test]
    public void Odd_answers_are_shown_as_far_as_they_can_be() {
        var long1 = new BatchAnswer(201, null, Given.Bytes("\"" + new string('x', 16777216) + "\""));
        StringAssert.Contains("\"status\":507}", Shown(it => Task.FromResult(long1)));
        Assert.AreEqual("{\"responses\":[{\"id\":\"a\",\"status\":201}]}", Shown(it => Task.FromResult(long1), "\"method\":\"post\",\"url\":\"A\""));
        string deep = new string('[', 125) + new string(']', 125);
        StringAssert.Contains("\"body\":\"" + deep + "\"", Shown(it => Answer(200, null, null, deep)));
        var headers = new Dictionary<string, string> { ["Set-Cookie"] = "s", ["A"] = "1", ["a"] = "2", ["B"] = "\ud800", ["C"] = null };
        Assert.AreEqual("{\"responses\":[{\"headers\":{\"a\":\"1, 2\",\"c\":\"\"},\"id\":\"a\",\"status\":200}]}", Shown(it => Task.FromResult(new BatchAnswer(200, headers))));
    }
}

[TestFixture]
public class MessageTests {
    /// <summary>A body without end, or one that never comes.</summary>
    private sealed class Endless : Stream {
        private readonly bool hangs;
        internal Endless(bool hangs) { this.hangs = hangs; }
        public override int Read(byte[] buffer, int offset, int count) => count;
        public override Task<int> ReadAsync(byte[] buffer, int offset, int count, CancellationToken cancellation) => hangs ? new TaskCompletionSource<int>().Task : Task.FromResult(count);
        public override bool CanRead => true;
        public override bool CanSeek => false;
        public override bool CanWrite => false;
        public override long Length => throw new NotSupportedException();
        public override long Position { get => 0; set => throw new NotSupportedException(); }
        public override void Flush() { }
        public override long Seek(long offset, SeekOrigin origin) => throw new NotSupportedException();
        public override void SetLength(long value) { }
        public override void Write(byte[] buffer, int offset, int count) { }
    }

    [Test]
    public void A_body_without_end_is_refused() {
        var message = new HttpResponseMessage { Content = new StreamContent(new Endless(false)) };
        StringAssert.Contains("16777216", Assert.Throws<HttpRequestException>(() => Given.Awaited(BatchAnswer.ReadAsync(message))).Message);
    }

    [Test]
    public void A_body_that_never_comes_is_given_up() {
        using (var source = new CancellationTokenSource(50)) {
            var message = new HttpResponseMessage { Content = new StreamContent(new Endless(true)) };
            Assert.Catch<OperationCanceledException>(() => Given.Awaited(BatchAnswer.ReadAsync(message, source.Token)));
        }
    }

    [Test]
    public void Messages_have_all_headers_but_those_of_the_connection() {
        BatchRequest sent = null;
        string batch = Given.One("\"method\":\"post\",\"url\":\"A\",\"headers\":{\"Accept\":\"a/b\",\"X-A\":\"1\",\"Content-Type\":\"text/plain\",\"Host\":\"evil\",\"Content-Length\":\"1\",\"Transfer-Encoding\":\"chunked\"},\"body\":\"x\"");
        Given.Awaited(BatchPerformer.PerformAsync(batch, (it, c) => { sent = it; return Task.FromResult(new BatchAnswer(200)); }, new PerformOptions { BaseAddress = new Uri("http://host/") }));
        var message = sent.ToMessage();
        Assert.AreEqual("accept=a/b x-a=1", string.Join(" ", message.Headers.Select(it => it.Key.ToLowerInvariant() + "=" + string.Join(",", it.Value)).OrderBy(it => it)));
        Assert.AreEqual("text/plain", message.Content.Headers.ContentType.ToString());
        Assert.AreEqual("x", message.Content.ReadAsStringAsync().Result);
        var answer = Given.Awaited(BatchAnswer.ReadAsync(new BatchAnswer(201, new Dictionary<string, string> { ["ETag"] = "\"7\"", ["Content-Type"] = "a/b" }, Given.Bytes("x")).ToMessage()));
        Assert.AreEqual("201 \"7\" a/b x", answer.Status + " " + answer.Headers["etag"] + " " + answer.Headers["content-type"] + " " + Given.Text(answer.Body));
        Assert.IsNull(Given.Awaited(BatchAnswer.ReadAsync(new HttpResponseMessage())).Body);
    }
}
