// Where requests lead by the package: reads the table that tests/support/urls.py writes, and prints the lines that it wants.
using System;
using System.Collections.Generic;
using System.IO;
using System.Linq;
using System.Text;
using System.Text.RegularExpressions;
using System.Threading.Tasks;
using OdbBatch;

public static class Urls {
    /// <summary>What a word of the table stands for.</summary>
    private static string Read(string word) =>
        word == "-" ? "" : Encoding.UTF8.GetString(Enumerable.Range(0, word.Length / 2).Select(i => Convert.ToByte(word.Substring(2 * i, 2), 16)).ToArray());

    /// <summary>What the last request of a batch is answered, and where it was sent.</summary>
    private static string Answered(string root, Uri[] roots, string location, string batch) {
        var sent = new List<string>();
        var headers = new Dictionary<string, string>();
        if (location != "") headers["location"] = location;
        var options = new PerformOptions { BaseAddress = new Uri(root), Roots = roots };
        string response = Encoding.UTF8.GetString(BatchPerformer.PerformAsync(batch, (request, _) => {
            sent.Add(request.Url);
            return Task.FromResult(new BatchAnswer(201, headers));
        }, options).Result);
        var statuses = Regex.Matches(response, "\"status\":(\\d+)");
        string status = statuses[statuses.Count - 1].Groups[1].Value;
        if (sent.Count < statuses.Count) return status;
        string url = sent[sent.Count - 1];
        int at = Array.FindIndex(roots, it => url.StartsWith(it.AbsoluteUri, StringComparison.Ordinal));
        return at < 0 ? status + " " + url + " is below no root" : status + " " + at + " " + url.Substring(roots[at].AbsoluteUri.Length);
    }

    public static void Main(string[] words) {
        foreach (string line in File.ReadLines(words[0])) {
            string[] found = line.Split(' ').Select(Read).ToArray();
            Console.WriteLine(Answered(found[0], found[1].Split(' ').Select(it => new Uri(it)).ToArray(), found[2], found[3]));
        }
    }
}
