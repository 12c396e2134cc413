// Sends a batch to a service that misbehaves, by the client, by the driver, and by a client that gives up: Hardy URL
using System;
using System.Linq;
using System.Net.Http;
using System.Threading;
using OdbBatch;
using OdbBatch.Client;

public static class Hardy {
    private static HttpClient NewClient() => new HttpClient(new HttpClientHandler { AllowAutoRedirect = false });

    private static string One(string url) => "{\"requests\":[{\"id\":\"a\",\"method\":\"get\",\"url\":\"" + url + "\"}]}";

    private static string GivenUp(string url) {
        using (var source = new CancellationTokenSource(300))
            try {
                Batch.SendAsync(One("A"), NewClient(), url, cancellation: source.Token).Wait();
                return "ended";
            } catch (AggregateException error) when (error.InnerException is OperationCanceledException) { return "cancelled"; }
    }

    public static void Main(string[] words) {
        foreach (string path in new[] { "hangs", "hangs_in_the_body", "drips", "hangs_up", "hangs_up_in_the_body", "has_no_end", "redirects" }) {
            bool isSlow = path == "hangs" || path == "hangs_in_the_body" || path == "drips";
            var client = NewClient();
            client.Timeout = TimeSpan.FromMilliseconds(isSlow ? 700 : 60000);
            var results = Batch.SendAsync(One("A"), client, words[0] + path).Result;
            var options = new PerformOptions { BaseAddress = new Uri(words[0]), Timeout = client.Timeout, Log = (error, what) => { } };
            var response = BatchPerformer.PerformAsync(One(path), BatchPerformer.SendBy(NewClient()), options).Result;
            Console.WriteLine(path + " " + results["a"].Status + " " + Odb.Responses(response).Single().Status + (isSlow ? " " + GivenUp(words[0] + path) : ""));
        }
    }
}
