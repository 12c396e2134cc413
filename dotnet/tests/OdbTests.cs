using System;
using System.Collections.Concurrent;
using System.Collections.Generic;
using System.IO;
using System.Linq;
using System.Net.Http;
using System.Reflection;
using System.Text;
using System.Threading;
using System.Threading.Tasks;
using NUnit.Framework;
using OdbBatch;

/// <summary>What the tests share.</summary>
public static class Given {
    public const string Usual = "{\"requests\":[{\"id\":\"a\",\"method\":\"post\",\"url\":\"Books\",\"body\":{\"price\":9.990}},"
        + "{\"id\":\"b\",\"method\":\"get\",\"url\":\"$a/Pages\",\"dependsOn\":[\"a\"]},"
        + "{\"id\":\"p\",\"method\":\"patch\",\"url\":\"Books(1)\",\"atomicityGroup\":\"g\",\"body\":{}},"
        + "{\"id\":\"q\",\"method\":\"delete\",\"url\":\"Books(2)\",\"atomicityGroup\":\"g\"},"
        + "{\"id\":\"z\",\"method\":\"get\",\"url\":\"Books\",\"dependsOn\":[\"g\"]}]}";

    // No test waits longer for what has to come.
    public const int Patience = 60000;

    public static string Many(int count) => "{\"requests\":[" + string.Join(",", Enumerable.Range(0, count).Select(i => "{\"id\":\"r" + i + "\",\"method\":\"get\",\"url\":\"A\"}")) + "]}";

    public static string One(string members) => "{\"requests\":[{\"id\":\"a\"," + members + "}]}";

    public static string Text(byte[] bytes) => Encoding.UTF8.GetString(bytes);

    public static byte[] Bytes(string text) => Encoding.UTF8.GetBytes(text);

    public static Dictionary<string, string> Header(string name, string value) => new Dictionary<string, string> { [name] = value };

    /// <summary>The result of a task, which has to end in time.</summary>
    public static T Awaited<T>(Task<T> task) {
        try { Assert.IsTrue(task.Wait(Patience), "the task has not ended"); } catch (AggregateException) { }
        return task.GetAwaiter().GetResult();
    }

    public static string Statuses(Document batch, byte[] response) => string.Join(" ", Odb.Match(batch, response, strict: true).Select(it => it.Key + it.Value));
}

[TestFixture]
public class CommandTests {
    [Test]
    public void A_fault_has_its_place_and_what_it_means() {
        var error = Assert.Throws<FaultException>(() => Odb.Check("{\"requests\": [\n  {\"id\":\"a\",\"method\":\"get\",\"url\":\"A\",\"dependsOn\":[\"a\"]}]}"));
        Assert.AreEqual("F41 ForwardName /requests/0 2 3 17", error.Fault + " " + error.Fault.Line + " " + error.Fault.Column + " " + error.Fault.Offset);
        StringAssert.StartsWith("The request depends on itself", error.Explanation);
        StringAssert.EndsWith("depends on, or remove a dependency of the cycle.", error.Fault.Explanation);
        Assert.AreEqual("F41 ForwardName /requests/0", error.Message);
        StringAssert.StartsWith("S4 Waiting /events/N\n", Odb.Explain("S4"));
        Assert.AreEqual("", Odb.Explain("F00"));
        Assert.AreEqual("", Odb.Explain(""));
    }

    [Test]
    public void Odd_documents_are_refused() {
        Assert.AreEqual("F02", Assert.Throws<FaultException>(() => Odb.Check("{\"requests\":[\"\ud800\"]}")).Code);
        Assert.AreEqual("F02", Assert.Throws<FaultException>(() => Odb.Check(new byte[0])).Code);
        Assert.AreEqual("F02", Assert.Throws<FaultException>(() => Odb.Check("")).Code);
        Assert.Throws<ArgumentNullException>(() => Odb.Check((string)null));
        Assert.Throws<ArgumentNullException>(() => Odb.Check((byte[])null));
        Assert.Throws<ArgumentNullException>(() => Odb.Check(default(Document)));
        Assert.Throws<ArgumentException>(() => Odb.Run(Given.Usual, "{\"events\":[]}", width: 0));
        Assert.Throws<ArgumentException>(() => Odb.Run(Given.Usual, "{\"events\":[]}", (RunMode)7));
        Assert.AreEqual(0, Odb.Requests("{\"requests\":[]}").Count);
        Assert.AreEqual(5, Odb.Check(Given.Usual).Requests);
    }

    [Test]
    public void All_faults_are_found_at_once() {
        string many = "{\"requests\":[" + string.Join(",", Enumerable.Repeat("\n1", 9999)) + "]}";
        var faults = Odb.Faults(many);
        Assert.AreEqual(9999, faults.Count);
        Assert.AreEqual("F10 NotRequestObject /requests/9998 10000 1", faults[9998] + " " + faults[9998].Line + " " + faults[9998].Column);
        Counts counts;
        Fault fault;
        Assert.IsFalse(Odb.TryCheck(many, out counts, out fault));
        Assert.AreEqual(faults[0].ToString() + faults[0].Offset, fault.ToString() + fault.Offset);
    }

    [Test]
    public void Headers_are_pairs() {
        var request = Odb.Requests(Given.One("\"method\":\"get\",\"url\":\"A\",\"headers\":{\"X-\\u00dc\":\"a\\n\\ud83d\\ude00\",\"B\":\"\"}"))[0];
        Assert.AreEqual("x-\u00dc=a\n\ud83d\ude00;b=", string.Join(";", request.Headers.OrderByDescending(it => it.Key).Select(it => it.Key + "=" + it.Value)));
        var response = Odb.Responses("{\"responses\":[{\"id\":\"1\",\"status\":200,\"headers\":{\"ETag\":\"7\",\"A\":5,\"B\":{\"c\":[1]},\"D\":null,\"E\":\"f\"},\"body\":{\"x\":1.50}}]}")[0];
        Assert.AreEqual("a=5;e=f;etag=7", string.Join(";", response.Headers.OrderBy(it => it.Key).Select(it => it.Key + "=" + it.Value)));
        Assert.AreEqual("{\"x\":1.50}", Given.Text(response.Body));
        Assert.AreEqual("F70", Assert.Throws<FaultException>(() => Odb.Responses("{}")).Code);
    }
}

[TestFixture]
public class LiveRunTests {
    [Test]
    public void Refused_calls_say_why() {
        using (var run = new LiveRun(Given.Usual)) {
            var refused = Assert.Throws<RefusedException>(() => run.Start("b"));
            Assert.AreEqual("S4 Waiting b b", refused.Message + " " + refused.Id);
            Assert.AreEqual("P1", Assert.Throws<RefusedException>(() => run.Report("a", 200)).Code);
            run.Start("a");
            Assert.AreEqual("S1", Assert.Throws<RefusedException>(() => run.Start("a")).Code);
            Assert.AreEqual("P2", Assert.Throws<RefusedException>(() => run.Report("a", 600)).Code);
            Assert.AreEqual("P2", Assert.Throws<RefusedException>(() => run.Report("a", -1)).Code);
            Assert.AreEqual("F02", Assert.Throws<FaultException>(() => run.Report("a", 200, null, Given.Bytes("{"))).Code);
            Assert.AreEqual("F02", Assert.Throws<FaultException>(() => run.Report("a", 200, Given.Header("x", "\ud800"))).Code);
            Assert.AreEqual("F64", Assert.Throws<FaultException>(() => run.Report("a", 200, new Dictionary<string, string> { ["A"] = "1", ["a"] = "2" })).Code);
            var unfinished = Assert.Throws<FaultException>(() => run.GetResponse());
            Assert.AreEqual("F66 Unfinished events", unfinished.Message + unfinished.Fault.Line);
            Assert.AreEqual("F66", Assert.Throws<FaultException>(() => run.GetUndone()).Code);
            Assert.Throws<KeyNotFoundException>(() => run.Start("x"));
            Assert.AreEqual(RequestState.Running, run.GetState("a").State);
        }
        Assert.AreEqual("F40", Assert.Throws<FaultException>(() => new LiveRun(Given.One("\"method\":\"get\",\"url\":\"A\",\"dependsOn\":[\"b\"]"))).Code);
        Assert.Throws<ArgumentException>(() => new LiveRun(Given.Usual, width: 10001));
        Assert.AreEqual(0, new LiveRun("{\"requests\":[]}").GetReady().Count);
    }

    [Test]
    public void A_run_goes_on_after_its_events() {
        using (var run = new LiveRun(Given.Usual, events: Given.Bytes("{\"events\":[{\"start\":\"a\"},{\"report\":\"a\",\"status\":201}]}"))) {
            CollectionAssert.AreEqual(new[] { "b", "p", "q" }, run.GetReady());
            run.Stop();
            Assert.IsTrue(run.IsFinished);
            Assert.AreEqual("a201 b424 p424 q424 z424", Given.Statuses(Given.Usual, run.GetResponse()));
        }
    }

    [Test]
    public void A_run_is_cut_into_parts() {
        using (var run = new LiveRun(Given.Usual)) {
            CollectionAssert.AreEqual(new[] { "a", "b" }, run.NextPart(2).Ids);
            run.StartUnit("a");
            run.Report("a", 201, Given.Header("location", "/Books(7)"));
            run.StartUnit("b");
            run.Report("b", 200);
            var part = run.NextPart(2);
            CollectionAssert.AreEqual(new[] { "p", "q" }, part.Ids);
            Assert.AreEqual(1, Odb.Check(part.Document).Groups);
            Assert.AreEqual(0, run.NextPart(2).Ids.Count);
            Assert.Throws<ArgumentException>(() => run.NextPart(1));
            Assert.Throws<ArgumentException>(() => run.NextPart(0));
        }
        using (var run = new LiveRun(Given.Usual)) {
            run.Start("a");
            run.Report("a", 201);
            Assert.AreEqual("F90", Assert.Throws<FaultException>(() => run.NextPart(2)).Code);
        }
    }

    private static int Open() => (int)typeof(Odb).Assembly.GetType("OdbBatch.RunHandle").GetField("Open", BindingFlags.NonPublic | BindingFlags.Static).GetValue(null);

    private static int Resident() => int.Parse(File.ReadAllLines("/proc/self/status").First(it => it.StartsWith("VmRSS")).Split(new[] { ' ', '\t' }, StringSplitOptions.RemoveEmptyEntries)[1]);

    private static readonly byte[] Hundred = Given.Bytes(Given.Many(100));

    private static void Forget() { new LiveRun(Hundred).Start("r1"); }

    private static void Collect() { for (int i = 0; i < 10; i++) { GC.Collect(); GC.WaitForPendingFinalizers(); } }

    [Test]
    public void Forgotten_runs_are_closed() {
        for (int i = 0; i < 200; i++) Forget();
        Collect();
        int before = Resident();
        for (int i = 0; i < 10000; i++) {
            Forget();
            if (i % 500 == 0) GC.Collect();
        }
        Collect();
        Assert.Less(Resident(), before + 30000); // all of them take over 100 MB
        // One that an address on a stack still names stays: the collector of Mono is conservative there.
        Assert.Less(Open(), 100);
    }

    [Test]
    public void Sixteen_threads_use_one_run() {
        var run = new LiveRun(Given.Many(4000));
        int started = 0;
        InThreads(16, k => {
            for (var ready = run.GetReady(); ready.Count > 0; ready = run.GetReady())
                foreach (string id in ready) {
                    try { run.Start(id); } catch (RefusedException) { continue; }
                    Interlocked.Increment(ref started);
                    run.Report(id, 200, null, Given.Bytes("{}"));
                }
        });
        Assert.AreEqual(4000, started);
        for (int i = 0; i < 10; i++)
            using (var other = new LiveRun(Given.Many(10000))) {
                InThreads(16, k => {
                    foreach (string id in other.Ids.Where((it, at) => at % 16 == k)) { other.Start(id); other.Report(id, 204); }
                });
                Assert.IsTrue(other.IsFinished);
                Assert.AreEqual(0, other.GetRunning().Count);
            }
        Assert.IsTrue(Odb.Match(Given.Many(4000), run.GetResponse(), strict: true).All(it => it.Value == 200));
        run.Dispose();
        run.Dispose();
        Assert.Throws<ObjectDisposedException>(() => run.GetReady());
        Assert.Throws<ObjectDisposedException>(() => run.Report("r1", 200));
        Assert.Throws<ObjectDisposedException>(() => run.NextPart());
    }

    [Test]
    public void A_run_is_closed_under_busy_threads() {
        for (int i = 0; i < 200; i++) {
            var run = new LiveRun(Given.Many(50));
            InThreads(8, k => {
                if (k == 3) run.Dispose();
                try { for (;;) { run.GetReady(); run.GetState("r1"); } } catch (ObjectDisposedException) { }
            });
        }
    }

    /// <summary>Calls a function in several threads, which have to end in time, and rethrows what one throws.</summary>
    private static void InThreads(int count, Action<int> call) {
        var errors = new ConcurrentQueue<Exception>();
        var threads = Enumerable.Range(0, count).Select(k => new Thread(() => { try { call(k); } catch (Exception error) { errors.Enqueue(error); } }) { IsBackground = true }).ToList();
        threads.ForEach(it => it.Start());
        var end = DateTime.UtcNow.AddMilliseconds(Given.Patience);
        foreach (var it in threads) Assert.IsTrue(it.Join(TimeSpan.FromMilliseconds(Math.Max(0, (end - DateTime.UtcNow).TotalMilliseconds))), "a thread has not ended");
        CollectionAssert.IsEmpty(errors);
    }
}
