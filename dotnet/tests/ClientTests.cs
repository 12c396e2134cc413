using System;
using System.Collections.Generic;
using System.IO;
using System.Linq;
using System.Net;
using System.Net.Http;
using System.Text;
using System.Threading;
using System.Threading.Tasks;
using NUnit.Framework;
using OdbBatch;
using OdbBatch.Client;

[TestFixture]
public class ClientTests {
    /// <summary>A service in memory: keeps what it is posted, and answers by a function.</summary>
    private sealed class Service : HttpMessageHandler {
        private readonly Func<string, CancellationToken, Task<HttpResponseMessage>> answer;
        internal readonly List<string> Posted = new List<string>();
        internal readonly List<string> Preferences = new List<string>();

        internal Service(Func<string, string> answer) : this((posted, c) => Task.FromResult(Message(200, answer(posted)))) { }
        internal Service(Func<string, CancellationToken, Task<HttpResponseMessage>> answer) { this.answer = answer; }

        internal static HttpResponseMessage Message(int status, string body) =>
            new HttpResponseMessage((HttpStatusCode)status) { Content = new ByteArrayContent(Given.Bytes(body)) };

        protected override async Task<HttpResponseMessage> SendAsync(HttpRequestMessage request, CancellationToken cancellation) {
            Posted.Add(await request.Content.ReadAsStringAsync());
            Preferences.Add(string.Join(",", request.Headers.Where(it => it.Key == "Prefer").SelectMany(it => it.Value)));
            return await answer(Posted[Posted.Count - 1], cancellation);
        }
    }

    private static BatchResults Sent(Document batch, Service service, int limit = 10000, RunMode mode = RunMode.Continue) =>
        Given.Awaited(Batch.SendAsync(batch, new HttpClient(service), "http://host/$batch", limit, mode));

    private static string Statuses(BatchResults results) => string.Join(" ", results.Select(it => it.Key + it.Value.Status));

    private static string Successes(BatchResults results) => string.Join(" ", results.Where(it => it.Value.IsSuccess).Select(it => it.Key));

    private static string Responses(params string[] responses) => "{\"responses\":[" + string.Join(",", responses) + "]}";

    private static string Response(string id, int status, string members = "") => "{\"id\":\"" + id + "\",\"status\":" + status + members + "}";

    [Test]
    public void A_batch_is_made_by_calls() {
        var batch = new Batch { Serializer = it => Given.Bytes("{\"Title\":\"" + it.GetType().GetProperty("Title").GetValue(it) + "\"}") };
        var book = batch.Add("POST", "Books", new { Title = "Solaris" }, id: "book");
        var lend = batch.AddGroup(() => {
            batch.Add("PATCH", book, "{\"Reader\":42}", headers: Given.Header("If-Match", book), id: "mark");
            batch.Add("POST", "Loans", "{\"Price\": 9.990, \"a\":\"<\u00fc\ud83d\ude00\"}", id: "loan");
        });
        batch.Get(book, lend);
        batch.Get("$loan/x"); // depends on the group, too
        Assert.Throws<InvalidDataException>(() => batch.AddGroup(() => { batch.Get("X"); throw new InvalidDataException(); }));
        Assert.Throws<InvalidOperationException>(() => batch.AddGroup(() => batch.AddGroup(() => { })));
        Assert.AreEqual(5, batch.Check().Requests);
        Assert.AreEqual("{\"requests\":[{\"id\":\"book\",\"method\":\"post\",\"url\":\"Books\",\"headers\":{\"content-type\":\"application/json\"},\"body\":{\"Title\":\"Solaris\"}},"
            + "{\"id\":\"mark\",\"atomicityGroup\":\"g1\",\"dependsOn\":[\"book\"],\"method\":\"patch\",\"url\":\"$book\",\"headers\":{\"if-match\":\"$book\",\"content-type\":\"application/json\"},\"body\":{\"Reader\":42}},"
            + "{\"id\":\"loan\",\"atomicityGroup\":\"g1\",\"method\":\"post\",\"url\":\"Loans\",\"headers\":{\"content-type\":\"application/json\"},\"body\":{\"Price\": 9.990, \"a\":\"<\u00fc\ud83d\ude00\"}},"
            + "{\"id\":\"4\",\"dependsOn\":[\"g1\",\"book\"],\"method\":\"get\",\"url\":\"$book\"},"
            + "{\"id\":\"5\",\"dependsOn\":[\"loan\",\"g1\"],\"method\":\"get\",\"url\":\"$loan/x\"}]}", Given.Text(batch.ToDocument()));
        Assert.AreEqual("{\"requests\":[]}", Given.Text(new Batch().ToDocument()));
    }

    [Test]
    public void Bodies_are_json_or_what_their_type_says() {
        foreach (string body in new[] { "1,\"dependsOn\":[]", "1},{\"id\":\"x\",\"method\":\"get\",\"url\":\"A\"", "{", "", " ", "\ufeff", "\"\ud800\"", "1 2", "01" })
            if (body != "") Assert.Catch<ArgumentException>(() => new Batch().Post("A", body), body);
        Assert.Throws<ArgumentException>(() => new Batch().Post("A", new object()));
        Assert.Throws<ArgumentException>(() => new Batch().Add("GET", "A", id: "metadata"));
        Assert.Throws<ArgumentNullException>(() => new Batch().Get((Reference)null));
        Assert.Throws<ArgumentNullException>(() => new Batch().Add(null, "A"));
        var batch = new Batch();
        batch.Post("A", " [1.50] ");
        batch.Add("POST", "A", Given.Bytes("gr\u00fcn\n"), headers: Given.Header("Content-Type", "text/plain"));
        batch.Add("POST", "A", Given.Bytes("a?>"), headers: Given.Header("Content-Type", "image/png"));
        var requests = Odb.Requests(batch.ToDocument());
        Assert.AreEqual("[1.50] \"gr\u00fcn\\u000a\" \"YT8-\"", string.Join(" ", requests.Select(it => Given.Text(it.Body))));
        batch.Get("A\ud800");
        Assert.AreEqual("F02", Assert.Throws<FaultException>(() => batch.Check()).Code);
    }

    [Test]
    public void Messages_of_generated_clients_are_added() {
        var message = new HttpRequestMessage(HttpMethod.Put, new Uri("Books(1)?x=a b", UriKind.Relative)) { Content = new StringContent("{\"a\":1}", Encoding.UTF8, "application/json") };
        message.Headers.TryAddWithoutValidation("X-A", "1");
        message.Headers.TryAddWithoutValidation("Host", "host");
        var batch = new Batch();
        Given.Awaited(batch.AddAsync(message, batch.Get("A")));
        Assert.AreEqual("{\"id\":\"2\",\"dependsOn\":[\"1\"],\"method\":\"put\",\"url\":\"Books(1)?x=a b\",\"headers\":{\"x-a\":\"1\",\"content-type\":\"application/json; charset=utf-8\"},\"body\":{\"a\":1}}",
            Given.Text(batch.ToDocument()).Split(new[] { "}," }, 2, StringSplitOptions.None)[1].TrimEnd(']', '}') + "}}");
    }

    [Test]
    public void Results_have_bodies_as_on_the_wire() {
        var service = new Service(it => "\ufeff" + Responses(Response("a", 201, ",\"headers\":{\"Location\":\"Books(7)\"},\"body\":{\"a\":[\",]}\",1.50]}"),
            Response("b", 200, ",\"headers\":{\"Content-Type\":\"text/plain\"},\"body\":\"gr\\u00fcn\""), Response("p", 424, ",\"atomicityGroup\":\"g\""),
            Response("q", 503, ",\"atomicityGroup\":\"g\",\"headers\":{\"Content-Type\":\"image/png\"},\"body\":\"YT8-\""), Response("z", 424, ",\"headers\":{\"Content-Type\":\"image/png\"},\"body\":\"!\"")));
        var results = Sent(Given.Usual, service);
        Assert.AreEqual(Given.Usual, service.Posted.Single());
        Assert.AreEqual("continue-on-error", service.Preferences.Single());
        Assert.AreEqual("a201 b200 p424 q503 z424", Statuses(results));
        Assert.AreEqual("{\"a\":[\",]}\",1.50]} gr\u00fcn  a?> !", string.Join(" ", results.Select(it => Given.Text(it.Value.Body ?? new byte[0]))));
        Assert.AreEqual("503 a?>", Assert.Throws<HttpRequestException>(() => results["q"].EnsureSuccess()).Message);
        Assert.AreEqual(201, results["a"].EnsureSuccess().Status);
        Assert.Throws<KeyNotFoundException>(() => { var it = results["x"]; });
        Assert.IsNull(results.Error);
        CollectionAssert.AreEqual(new[] { "p", "q", "z" }, Odb.Requests(results.ToRest()).Select(it => it.Id));
    }

    private const string Chain = "{\"requests\":[{\"id\":\"a\",\"method\":\"post\",\"url\":\"Books\",\"body\":{\"x\":1.50}},{\"id\":\"n\",\"method\":\"get\",\"url\":\"N\"},"
        + "{\"id\":\"b\",\"method\":\"get\",\"url\":\"$a/Pages?y=1\",\"dependsOn\":[\"a\",\"n\"]},"
        + "{\"id\":\"c\",\"method\":\"patch\",\"url\":\"$a\",\"atomicityGroup\":\"g\",\"dependsOn\":[\"a\"],\"headers\":{\"If-Match\":\"$a\"},\"body\":{}},"
        + "{\"id\":\"d\",\"method\":\"get\",\"url\":\"$b/First\",\"atomicityGroup\":\"g\",\"dependsOn\":[\"b\"]},"
        + "{\"id\":\"e\",\"method\":\"get\",\"url\":\"E\",\"dependsOn\":[\"g\"]}]}";

    /// <summary>Answers each request of a batch by its id, or 200.</summary>
    private static Service By(Dictionary<string, string> answers) => new Service(posted =>
        Responses(Odb.Requests(posted).Select(it => {
            string members;
            answers.TryGetValue(it.Id, out members);
            string group = it.Group == null ? "" : ",\"atomicityGroup\":\"" + it.Group + "\"";
            return members == null ? Response(it.Id, 200, group) : "{\"id\":\"" + it.Id + "\"" + group + "," + members + "}";
        }).ToArray()));

    [Test]
    public void A_long_batch_is_sent_in_parts() {
        var service = By(new Dictionary<string, string> { ["a"] = "\"status\":201,\"headers\":{\"Location\":\"Books(7)\",\"ETag\":\"\\\"1\\\"\"}" });
        Assert.AreEqual("a201 n200 b200 c200 d200 e200", Statuses(Sent(Chain, service, 2)));
        CollectionAssert.AreEqual(new[] {
            "{\"requests\":[{\"body\":{\"x\":1.50},\"id\":\"a\",\"method\":\"post\",\"url\":\"Books\"},{\"id\":\"n\",\"method\":\"get\",\"url\":\"N\"}]}",
            "{\"requests\":[{\"id\":\"b\",\"method\":\"get\",\"url\":\"Books(7)/Pages?y=1\"}]}",
            "{\"requests\":[{\"atomicityGroup\":\"g\",\"body\":{},\"headers\":{\"if-match\":\"\\\"1\\\"\"},\"id\":\"c\",\"method\":\"patch\",\"url\":\"Books(7)\"},"
                + "{\"atomicityGroup\":\"g\",\"id\":\"d\",\"method\":\"get\",\"url\":\"Books(7)/Pages/First\"}]}",
            "{\"requests\":[{\"id\":\"e\",\"method\":\"get\",\"url\":\"E\"}]}" }, service.Posted);
        Assert.Throws<ArgumentException>(() => Sent(Chain, service, 1)); // the group has two
        Assert.Throws<ArgumentException>(() => Sent(Chain, service, 0));
        Assert.Throws<FaultException>(() => Sent("{}", service));
        Assert.AreEqual(0, Sent("{\"requests\":[]}", service).Count());
        Assert.AreEqual(4, service.Posted.Count);
    }

    [TestCase("\"status\":201", "a201 n200 b424 c424 d424 e424", "NoLocation")] // without a Location
    [TestCase("\"status\":201,\"headers\":{\"Location\":\"$batch\"}", "a201 n200 b424 c424 d424 e424", "NoLocation")]
    [TestCase("\"status\":201,\"headers\":{\"Location\":\"x/$batch\"}", "a201 n200 b424 c424 d424 e424", "NoLocation")]
    [TestCase("\"status\":201,\"headers\":{\"Location\":\"$n\"}", "a201 n200 b424 c424 d424 e424", "NoLocation")]
    [TestCase("\"status\":201,\"headers\":{\"Location\":\"Books(7)\"}", "a201 n200 b200 c424 d424 e424", "NoETag")]
    [TestCase("\"status\":201,\"body\":{\"@id\":\"http://host/Books(8)\",\"@etag\":\"2\"}", "a201 n200 b200 c200 d200 e200", null)]
    [TestCase("\"status\":409", "a409 n200 b424 c424 d424 e424", null)]
    [TestCase("\"status\":304", "a304 n200 b424 c424 d424 e424", null)]
    public void What_refers_to_nothing_is_not_sent(string answer, string wanted, string code) {
        var results = Sent(Chain, By(new Dictionary<string, string> { ["a"] = answer }), 2);
        Assert.AreEqual(wanted, Statuses(results));
        Assert.AreEqual(code != null, results.Any(it => it.Value.Body != null && Given.Text(it.Value.Body).Contains(code ?? "No")));
        Assert.IsNull(results.Error);
        if (code != null) Assert.AreEqual(code == "NoLocation" ? "F90" : "F91", Assert.Throws<FaultException>(() => results.ToRest()).Code);
        else Assert.AreEqual("{\"requests\":[]}", Given.Text(results.ToRest()));
        // Where it is in the part of what it refers to, that is for the service.
        Assert.AreEqual(wanted.StartsWith("a201") ? null : "F75", (Sent(Chain, By(new Dictionary<string, string> { ["a"] = answer }), 5).Error as FaultException)?.Code);
    }

    [TestCase("", "a201 b200 c424", null)] // nobody but the service knows where a is, and so b
    [TestCase(",\"headers\":{\"Location\":\"C\"}", "a201 b200 c200", "A/C/x/y")] // relative to the URL of a
    [TestCase(",\"headers\":{\"Location\":\"/C/\"}", "a201 b200 c200", "/C/x/y")]
    [TestCase(",\"headers\":{\"Location\":\"http://host/C?d\"}", "a201 b200 c200", "http://host/C/x/y")]
    [TestCase(",\"headers\":{\"Location\":\"\"}", "a201 b200 c424", null)]
    [TestCase(",\"headers\":{\"Location\":\"\",\"OData-EntityId\":\"\"}", "a201 b200 c424", null)]
    [TestCase(",\"headers\":{\"Location\":\"\",\"OData-EntityId\":\"/C\"}", "a201 b200 c200", "/C/x/y")]
    public void Urls_of_what_was_created(string members, string wanted, string url) {
        const string batch = "{\"requests\":[{\"id\":\"a\",\"method\":\"post\",\"url\":\"A/B?c=1\"},{\"id\":\"b\",\"method\":\"get\",\"url\":\"$a/x\",\"dependsOn\":[\"a\"]},{\"id\":\"c\",\"method\":\"get\",\"url\":\"$b/y\",\"dependsOn\":[\"b\"]}]}";
        var service = By(new Dictionary<string, string> { ["a"] = "\"status\":201" + members });
        Assert.AreEqual(wanted, Statuses(Sent(batch, service, 2)));
        Assert.AreEqual(url, service.Posted.Count == 1 ? null : Odb.Requests(service.Posted[1])[0].Url);
    }

    [Test]
    public void Nothing_is_sent_after_an_error_in_mode_stop() {
        foreach (int wanted in new[] { 1, 5 }) {
            var service = By(new Dictionary<string, string> { ["r1"] = "\"status\":404" });
            var results = Sent(Given.Many(10), service, 2, wanted == 1 ? RunMode.Stop : RunMode.Continue);
            Assert.AreEqual(wanted, service.Posted.Count);
            Assert.AreEqual(wanted == 1 ? 8 : 0, results.Count(it => it.Value.Status == 424));
            Assert.AreEqual(wanted == 1 ? "" : "continue-on-error", service.Preferences[0]);
        }
        // A service that stops leaves out what comes later.
        Assert.AreEqual("r0404 r1424 r2424", Statuses(Sent(Given.Many(3), new Service(it => Responses(Response("r0", 404))), mode: RunMode.Stop)));
        Assert.AreEqual("r0502 r1502 r2502", Statuses(Sent(Given.Many(3), new Service(it => Responses(Response("r0", 404))))));
    }

    [Test]
    public void In_mode_stop_an_undone_member_is_no_error_and_what_cannot_be_sent_is_one() {
        string group = "{\"requests\":[{\"id\":\"a\",\"method\":\"get\",\"url\":\"A\",\"atomicityGroup\":\"g\"},{\"id\":\"b\",\"method\":\"get\",\"url\":\"A\",\"atomicityGroup\":\"g\"},{\"id\":\"c\",\"method\":\"get\",\"url\":\"A\"}]}";
        var service = By(new Dictionary<string, string> { ["a"] = "\"status\":304", ["b"] = "\"status\":424" });
        Assert.AreEqual("a304 b424 c200", Statuses(Sent(group, service, 2, RunMode.Stop)));
        string refused = "{\"requests\":[{\"id\":\"a\",\"method\":\"post\",\"url\":\"A\"},{\"id\":\"b\",\"method\":\"get\",\"url\":\"B\"},{\"id\":\"c\",\"method\":\"get\",\"url\":\"$a\",\"dependsOn\":[\"a\"]},{\"id\":\"d\",\"method\":\"get\",\"url\":\"A\"}]}";
        foreach (RunMode mode in new[] { RunMode.Stop, RunMode.Continue }) {
            var results = Sent(refused, By(new Dictionary<string, string> { ["a"] = "\"status\":201" }), 2, mode);
            Assert.AreEqual("a201 b200 c424 d" + (mode == RunMode.Stop ? 424 : 200), Statuses(results));
            StringAssert.Contains("NoLocation", Given.Text(results["c"].Body));
        }
    }

    [Test]
    public void A_very_long_batch_is_cut_twice() {
        var batch = new Batch();
        for (int i = 0; i < 700; i++) {
            var order = batch.Post("Orders", "{}");
            batch.AddGroup(() => { batch.Get(order + "/Lines"); batch.Add("DELETE", order, headers: Given.Header("If-Match", order)); });
        }
        var service = new Service(it => Responses(Odb.Requests(it).Select(request => Response(request.Id, 200, ",\"headers\":{\"Location\":\"L/" + request.Id + "\",\"ETag\":\"1\"}"
            + (request.Group == null ? "" : ",\"atomicityGroup\":\"" + request.Group + "\""))).ToArray()));
        var results = Sent(batch.ToDocument(), service, 4);
        Assert.IsTrue(results.All(it => it.Value.IsSuccess));
        Assert.AreEqual(2100, results.Count());
        Assert.LessOrEqual(service.Posted.Max(it => Odb.Requests(it).Count), 4);
        Assert.AreEqual(2100, service.Posted.Sum(it => Odb.Requests(it).Count));
        var broken = new Service((it, c) => throw new HttpRequestException("reset"));
        results = Sent(batch.ToDocument(), broken, 4);
        Assert.AreEqual("reset", results.Error?.Message);
        Assert.AreEqual(1, broken.Posted.Count);
    }

    [Test]
    public void A_part_may_be_answered_as_a_whole() {
        int posted = 0;
        var service = new Service((it, c) => Task.FromResult(++posted == 1 ? Service.Message(200, Responses(Response("r0", 200), Response("r1", 503))) : Service.Message(429, "wait")));
        var results = Sent(Given.Many(6), service, 2);
        Assert.AreEqual("r0200 r1503 r2429 r3429 r4424 r5424", Statuses(results));
        Assert.AreEqual("wait", Given.Text(results["r2"].Body));
        Assert.IsNull(results.Error);
        Assert.AreEqual(2, posted);
        CollectionAssert.AreEqual(new[] { "r1", "r2", "r3", "r4", "r5" }, Odb.Requests(results.ToRest()).Select(it => it.Id));
        Assert.AreEqual("r1200 r2200 r3200 r4200 r5200", Statuses(Sent(results.ToRest(), By(new Dictionary<string, string>()))));
    }

    [TestCase("<html>")]
    [TestCase("")]
    [TestCase("{\"responses\":[]}")]
    [TestCase("{\"responses\":[{\"id\":\"r0\",\"status\":200},{\"id\":\"r0\",\"status\":200}]}")]
    [TestCase("{\"responses\":[{\"id\":\"r0\",\"status\":200},{\"id\":\"x\",\"status\":200}]}")]
    public void An_answer_that_is_not_the_response_is_an_error(string body) {
        var results = Sent(Given.Many(2), new Service(it => body), 2);
        Assert.AreEqual("r0502 r1502", Statuses(results));
        Assert.IsInstanceOf<FaultException>(results.Error);
    }

    [Test]
    public void A_broken_or_a_hanging_service_is_an_error() {
        var results = Sent(Given.Many(2), new Service((it, c) => throw new HttpRequestException("reset")), 1);
        Assert.AreEqual("r0502 r1424", Statuses(results));
        Assert.AreEqual("reset", results.Error.Message);
        Assert.AreEqual(2, Odb.Check(results.ToRest()).Requests); // GETs
        var hanging = new HttpClient(new Service(async (it, c) => { await Task.Delay(-1, c); return null; })) { Timeout = TimeSpan.FromMilliseconds(50) };
        Assert.AreEqual("r0504 r1424", Statuses(Given.Awaited(Batch.SendAsync(Given.Many(2), hanging, "http://host/$batch", 1))));
        using (var source = new CancellationTokenSource(50)) {
            var client = new HttpClient(new Service(async (it, c) => { await Task.Delay(-1, c); return null; }));
            Assert.Catch<OperationCanceledException>(() => Given.Awaited(Batch.SendAsync(Given.Many(2), client, "http://host/$batch", cancellation: source.Token)));
        }
        // A client that cannot send at all is no answer.
        Assert.Catch<InvalidOperationException>(() => Given.Awaited(Batch.SendAsync(Given.Many(2), new HttpClient(), "$batch")));
    }

    /// <summary>A random batch: groups, dependencies, references by URL and by ETag, which are all listed.</summary>
    private static string RandomBatch(Random random) {
        var requests = new List<string>();
        var groups = new Dictionary<string, string>();
        string group = null;
        for (int left = 0, i = 0; i < 2 + random.Next(8) || left > 0; i++, left--) {
            if (left <= 0) group = random.Next(3) == 0 ? "g" + i : null;
            if (left <= 0) left = group == null ? 1 : 1 + random.Next(3);
            string id = "r" + i, url = "A/" + id, headers = "", other = "r" + random.Next(i + 1);
            var needs = groups.Keys.Where(it => random.Next(4) == 0).ToList();
            if (other != id && random.Next(2) == 0) { url = "$" + other + "/x"; needs.Add(other); }
            other = "r" + random.Next(i + 1);
            if (other != id && random.Next(3) == 0) { headers = ",\"headers\":{\"If-Match\":\"$" + other + "\"}"; needs.Add(other); }
            var names = needs.Concat(needs.Select(it => groups[it]).Where(it => it != null && it != group)).Distinct().Select(it => "\"" + it + "\"");
            string method = new[] { "get", "post", "put", "delete" }[random.Next(4)];
            requests.Add("{\"id\":\"" + id + (group == null ? "" : "\",\"atomicityGroup\":\"" + group) + "\",\"dependsOn\":[" + string.Join(",", names)
                + "],\"method\":\"" + method + "\",\"url\":\"" + url + "\"" + headers + "}");
            groups[id] = group;
        }
        return "{\"requests\":[" + string.Join(",", requests) + "]}";
    }

    /// <summary>Performs a batch, each request by its id and a number alone, and notes what is sent.</summary>
    private static string Answered(string batch, int number, SortedDictionary<string, string> sent) {
        BatchSend send = (request, cancellation) => {
            var random = new Random(number * 1000 + int.Parse(request.Id.Substring(1)));
            string tag;
            lock (sent) sent.Add(request.Id, request.Url + (request.Headers.TryGetValue("if-match", out tag) ? " " + tag : ""));
            var headers = new Dictionary<string, string>();
            if (random.Next(4) > 0) headers["Location"] = "/odata/L/" + request.Id;
            if (random.Next(4) > 0) headers["ETag"] = "\"" + request.Id + "\"";
            return Task.FromResult(new BatchAnswer(new[] { 200, 201, 204, 200, 204, 304, 409, 503 }[random.Next(8)], headers));
        };
        var options = new PerformOptions { BaseAddress = new Uri("http://host/odata/"), Width = 1, Transaction = (group, body, c) => body() };
        return Given.Text(Given.Awaited(BatchPerformer.PerformAsync(batch, send, options)));
    }

    [Test]
    public void A_batch_in_parts_is_answered_as_the_whole() {
        int compared = 0;
        for (int number = 0; number < 300; number++) {
            string batch = RandomBatch(new Random(number));
            Counts counts;
            Fault fault;
            Assert.IsTrue(Odb.TryCheck(batch, out counts, out fault), fault + " " + batch);
            int longest = Odb.Requests(batch).GroupBy(it => it.Group ?? it.Id).Max(it => it.Count());
            SortedDictionary<string, string> whole = new SortedDictionary<string, string>(), parts = new SortedDictionary<string, string>();
            string wanted = Successes(Sent(batch, new Service(it => Answered(it, number, whole))));
            for (int limit = longest; limit <= counts.Requests; limit++) {
                parts.Clear();
                var results = Sent(batch, new Service(it => Answered(it, number, parts)), limit);
                Assert.IsNull(results.Error);
                Assert.AreEqual(wanted, Successes(results), batch);
                CollectionAssert.IsSubsetOf(parts, whole, batch); // of a group that cannot succeed nothing is sent
                compared++;
            }
        }
        Assert.Greater(compared, 500);
    }

    [Test]
    public void The_rest_has_etags_of_what_is_done() {
        var answers = new Dictionary<string, string> { ["a"] = "\"status\":201,\"headers\":{\"Location\":\"Books(7)\",\"ETag\":\"1\"}", ["c"] = "\"status\":429", ["d"] = "\"status\":424", ["e"] = "\"status\":424" };
        var results = Sent(Chain, By(answers));
        Assert.AreEqual("a201 n200 b200 c429 d424 e424", Statuses(results));
        StringAssert.StartsWith("{\"requests\":[{\"atomicityGroup\":\"g\",\"body\":{},\"headers\":{\"if-match\":\"1\"},\"id\":\"c\",\"method\":\"patch\",\"url\":\"Books(7)\"}", Given.Text(results.ToRest()));
        answers["a"] = "\"status\":201,\"headers\":{\"Location\":\"Books(7)\"}";
        Assert.AreEqual("F91", Assert.Throws<FaultException>(() => Sent(Chain, By(answers)).ToRest()).Code);
        answers["a"] = "\"status\":201";
        Assert.AreEqual("F90", Assert.Throws<FaultException>(() => Sent(Chain, By(answers)).ToRest()).Code);
    }
}
