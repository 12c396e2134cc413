// Lends a book of the lending library of examples/service, by its $batch and then request by request: Lends URL
using System;
using System.Collections.Generic;
using System.Linq;
using System.Net.Http;
using System.Text;
using System.Threading.Tasks;
using OdbBatch;
using OdbBatch.Client;

public static class Lends {
    private static Batch Lending(string id, int reader) {
        var batch = new Batch();
        var book = batch.Add("POST", "Books", "{\"Id\":\"" + id + "\",\"Title\":\"Solaris\",\"Price\":9.990}", id: "book");
        var lend = batch.AddGroup(() => {
            batch.Add("PATCH", book, "{\"Reader\":" + reader + "}", headers: new Dictionary<string, string> { ["If-Match"] = book }, id: "mark");
            batch.Add("POST", "Loans", "{\"Book\":\"" + id + "\",\"Reader\":" + reader + "}", id: "loan");
        }, "lend");
        batch.Add("GET", book, after: new Name[] { lend }, id: "lent");
        return batch;
    }

    private static string Statuses(IEnumerable<KeyValuePair<string, int>> statuses) => string.Join(" ", statuses.Select(it => it.Key + it.Value));

    public static void Main(string[] words) {
        string batch = words[0] + "$batch";
        using (var client = new HttpClient(new HttpClientHandler { AllowAutoRedirect = false }) { Timeout = TimeSpan.FromSeconds(60) }) {
            foreach (int limit in new[] { 2, 4 }) { // the second time there is the book
                var results = Lending("solaris", 42).SendAsync(client, batch, limit).Result;
                Console.WriteLine(Statuses(results.Select(it => new KeyValuePair<string, int>(it.Key, it.Value.Status))) + " " + results.Error);
                Console.WriteLine(Encoding.UTF8.GetString(results["lent"].Body ?? new byte[0]) + " " + Odb.Check(results.ToRest()).Requests);
            }
            var options = new PerformOptions { BaseAddress = new Uri(words[0]), Transaction = (group, body, cancellation) => body() };
            var document = Lending("pirx", 7).ToDocument();
            var response = BatchPerformer.PerformAsync(document, BatchPerformer.SendBy(client), options).Result;
            Console.WriteLine(Statuses(Odb.Match(document, response, strict: true)));
            Console.WriteLine(Encoding.UTF8.GetString(Odb.Responses(response)[3].Body));
            var errors = Batch.SendAsync(document, client, words[0] + "nothing").Result;
            Console.WriteLine(Statuses(errors.Select(it => new KeyValuePair<string, int>(it.Key, it.Value.Status))) + " " + errors.Error);
            errors = Batch.SendAsync(document, client, "http://127.0.0.1:1/$batch").Result;
            Console.WriteLine(Statuses(errors.Select(it => new KeyValuePair<string, int>(it.Key, it.Value.Status))) + " " + errors.Error.GetType().Name);
        }
    }
}
