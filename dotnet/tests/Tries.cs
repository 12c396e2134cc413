// The worked cases and random live runs by the package: prints the lines of tests/support/languages.py.
//   Tries pages|runs FOLDER [RUNS]
using System;
using System.Collections.Generic;
using System.IO;
using System.Linq;
using System.Security.Cryptography;
using System.Text;
using OdbBatch;

public static class Tries {
    private sealed class Call { public int[] Numbers; public byte[] Batch, Second; }

    private static IEnumerable<Call> Calls(string path) {
        byte[] data = File.ReadAllBytes(path);
        for (int at = 0; at < data.Length;) {
            var numbers = Enumerable.Range(0, 8).Select(i => BitConverter.ToInt32(data, at + 4 * i)).ToArray();
            yield return new Call { Numbers = numbers, Batch = Slice(data, at + 32, numbers[6]), Second = Slice(data, at + 32 + numbers[6], numbers[7]) };
            at += 32 + numbers[6] + numbers[7];
        }
    }

    private static byte[] Slice(byte[] data, int start, int length) {
        var found = new byte[length];
        Buffer.BlockCopy(data, start, found, 0, length);
        return found;
    }

    private static string Located(Fault fault) => "fault " + fault + " " + fault.Line + " " + fault.Column + " " + fault.Offset + "\n";

    private static KeyValuePair<int, byte[]> Tried(Func<byte[]> call) {
        try { return new KeyValuePair<int, byte[]>(0, call()); }
        catch (FaultException error) { return new KeyValuePair<int, byte[]>(1, Encoding.UTF8.GetBytes(Located(error.Fault))); }
    }

    private static string Of(byte[] text) => Encoding.UTF8.GetString(text);

    private static string Answered(Call it) {
        int[] n = it.Numbers;
        var mode = (RunMode)n[1];
        switch (n[0]) {
            case 0: { var counts = Odb.Check(it.Batch); return "ok " + counts.Requests + " requests " + counts.Groups + " groups\n"; }
            case 1:
                return string.Concat(Odb.Plan(it.Batch).Select(p => p.Position + " " + p.Id + " level " + p.Level + " group " + (p.Group ?? "*")
                    + " needs " + (p.Needs.Count == 0 ? "*" : string.Join(",", p.Needs)) + "\n"));
            case 2: return Of(Odb.Canon(it.Batch)) + "\n";
            case 3: {
                var found = Odb.Match(it.Batch, it.Second, mode, n[5] > 0, n[5] == 2);
                return "ok " + found.Count + " responses\n" + string.Concat(found.Select(s => s.Key + " " + s.Value + "\n"));
            }
            case 4: return Of(Odb.Run(it.Batch, it.Second, mode, n[2])) + "\n";
            case 5: {
                var found = Odb.Replay(it.Batch, it.Second, mode, n[2], (ReplayOrder)n[3], n[4] == 1);
                return string.Concat(found.Steps.Select(s => s.Kind + " " + s.Id + (s.Status == null ? "" : " " + s.Status) + "\n")) + Of(found.Response) + "\n";
            }
            default: return Of(Odb.Rest(it.Batch, it.Second, mode)) + "\n";
        }
    }

    private static byte[] Requested(byte[] batch) {
        var found = Odb.Requests(batch);
        var at = new Dictionary<string, int>();
        var output = new MemoryStream();
        Action<byte[]> write = bytes => output.Write(bytes, 0, bytes.Length);
        foreach (var it in found) {
            at[it.Id] = at.Count;
            string heads = string.Concat(it.Headers.Keys.OrderBy(k => k, StringComparer.Ordinal).Select(k => k + ":" + it.Headers[k] + ";"));
            foreach (string part in new[] { it.Id, it.Method, it.Url, it.Rest, heads, it.Group })
                write(Encoding.UTF8.GetBytes((string.IsNullOrEmpty(part) ? "-" : part) + "|"));
            write(it.Body ?? new[] { (byte)'-' });
            write(Encoding.UTF8.GetBytes("|" + (it.Reference == null ? -1 : at[it.Reference]) + "\n"));
        }
        return output.ToArray();
    }

    private static string Digest(byte[] text) { using (var sha = SHA256.Create()) return string.Concat(sha.ComputeHash(text).Select(b => b.ToString("x2"))); }
    private static string Digest(string text) => Digest(Encoding.UTF8.GetBytes(text));

    private static readonly int[] Statuses = { 200, 201, 204, 299, 300, 404, 409, 500, 599, 199, 600, 0 };
    private static readonly Dictionary<string, string>[] Headers =
        { null, new Dictionary<string, string> { ["etag"] = "7" }, new Dictionary<string, string> { ["A"] = "1", ["a"] = "2" } };
    private static readonly string[] Bodies = { "", "null", "{\"a\":[1,2]}", "\"x\"", "{", "1.5", "[0.10, 1e999]" };

    private sealed class Driver {
        private uint state;
        private readonly StringBuilder notes = new StringBuilder();
        private LiveRun run;

        private int Next(int limit) { state = unchecked(state * 1664525u + 1013904223u); return (int)((state >> 8) % (uint)limit); }
        private void Note(string text) { notes.Append(text).Append('\n'); }
        private void Tried(Action call) { Tried(() => { call(); return "ok"; }); }

        private void Tried(Func<string> call) {
            try { Note(call()); } catch (OdbException error) { Note(error.Code + " " + error.Name); }
        }

        private IReadOnlyList<string> Listed(IReadOnlyList<string> listed) { Note(string.Join(",", listed)); return listed; }
        private string Chosen(IReadOnlyList<string> listed) => listed.Count == 0 || Next(8) == 0 ? run.Ids[Next(run.Ids.Count)] : listed[Next(listed.Count)];

        internal string Drive(int number, List<byte[]> accepted) {
            state = (uint)number;
            byte[] batch = accepted[Next(accepted.Count)];
            var mode = (RunMode)Next(2);
            using (run = new LiveRun(batch, mode, 1 + Next(5))) {
                Listed(run.Ids);
                for (int step = 0; step < 60 && !run.IsFinished; step++) Step();
                Tried(() => Of(run.GetResponse()));
                Tried(() => string.Join(",", run.GetUndone()));
            }
            return Digest(notes.ToString());
        }

        private void Step() {
            if (Next(3) > 0) { string id = Chosen(Listed(run.GetReady())); Tried(() => run.Start(id)); }
            else { string id = Chosen(Listed(run.NextUnit())); Tried(() => run.StartUnit(id)); }
            string other = Chosen(Listed(run.GetRunning()));
            if (Next(3) > 0) {
                int status = Statuses[Next(12)], heads = Next(3), body = Next(7);
                Tried(() => run.Report(other, status, Headers[heads], Encoding.UTF8.GetBytes(Bodies[body])));
            }
            var found = run.GetState(other);
            Note((uint)found.State + " " + found.Status);
            if (Next(50) == 0) run.Stop();
            if (Next(16) == 0) Tried(() => Of(run.GetResponse()));
        }
    }

    public static void Main(string[] words) {
        var output = new StringBuilder();
        var accepted = new List<byte[]>();
        int at = 0;
        foreach (Call it in Calls(words[1] + "/calls")) {
            var faults = Odb.Faults(it.Batch);
            if (faults.Count == 0 && it.Batch.Length < 100000) accepted.Add(it.Batch);
            if (words[0] == "pages") {
                var found = Tried(() => Encoding.UTF8.GetBytes(Answered(it)));
                output.Append(at + " command " + found.Key + " " + Digest(found.Value) + "\n");
                output.Append(at + " faults " + (faults.Count > 0 ? 1 : 0) + " " + Digest(string.Concat(faults.Select(Located))) + "\n");
                found = Tried(() => Requested(it.Batch));
                output.Append(at + " requests " + found.Key + " " + Digest(found.Value) + "\n");
            }
            at++;
        }
        if (words[0] == "runs") for (int i = 0; i < int.Parse(words[2]); i++) output.Append(i + " " + new Driver().Drive(i, accepted) + "\n");
        Console.Out.Write(output);
    }
}
