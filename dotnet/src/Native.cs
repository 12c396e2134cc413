using System;
using System.Collections.Generic;
using System.Linq;
using System.Runtime.InteropServices;
using System.Security.Cryptography;
using System.Text;
using System.Threading;
using Microsoft.Win32.SafeHandles;

namespace OdbBatch {
    /// <summary>The functions of odb_batch.h. Sizes are ulong: there is no library for processes of 32 bits. Arrays are pinned during a
    /// call and not copied: most that are read as they are, the others by their first element, which mono passes in less time. None may be
    /// empty, since the library takes no null.</summary>
    internal static class Native {
        // libodb_batch.so, odb_batch.dll or libodb_batch.dylib: beside the assembly, or in runtimes/RID/native of the package.
        private const string Library = "odb_batch";

        private const uint Major = 0, Minor = 2;
        internal const uint Done = 0, Refused = 1, WrongOption = 2, OutOfMemory = 4, SmallBuffer = 5, Unreadable = 31, Outside = 32, NoLocation = 33;
        internal const ulong None = ulong.MaxValue;
        /// <summary>How many bytes a document has, and how many requests a batch, at most.</summary>
        internal const int MaxDocument = 16777216, MaxRequests = 10000;

        [DllImport(Library)] internal static extern uint odb_version();
        [DllImport(Library)] internal static extern uint odb_check_as(ref byte batch, ulong size, uint form, ref byte text, ulong room, out ulong length, ulong seed);
        [DllImport(Library)] internal static extern uint odb_plan_as(byte[] batch, ulong size, uint form, ref byte text, ulong room, out ulong length, ulong seed);
        [DllImport(Library)] internal static extern uint odb_canon_as(byte[] batch, ulong size, uint form, ref byte text, ulong room, out ulong length, ulong seed);
        [DllImport(Library)] internal static extern uint odb_match_with(byte[] batch, ulong size, byte[] second, ulong secondSize, uint mode, uint strict, uint form, ref byte text, ulong room, out ulong length, ulong seed);
        [DllImport(Library)] internal static extern uint odb_rest(byte[] batch, ulong size, byte[] second, ulong secondSize, uint mode, uint form, ref byte text, ulong room, out ulong length, ulong seed);
        [DllImport(Library)] internal static extern uint odb_run_as(byte[] batch, ulong size, byte[] second, ulong secondSize, uint mode, uint width, uint form, ref byte text, ulong room, out ulong length, ulong seed);
        [DllImport(Library)] internal static extern uint odb_replay_as(byte[] batch, ulong size, byte[] second, ulong secondSize, uint mode, uint width, uint order, uint trace, uint form, ref byte text, ulong room, out ulong length, ulong seed);
        [DllImport(Library)] internal static extern uint odb_explain(byte[] code, ulong size, ref byte text, ulong room, out ulong length);
        [DllImport(Library)] internal static extern uint odb_constants(ref byte text, ulong room, out ulong length);
        [DllImport(Library)] internal static extern uint odb_where(byte[] document, ulong size, byte[] place, ulong placeSize, out Position position);
        [DllImport(Library)] internal static extern uint odb_faults(byte[] batch, ulong size, ref byte text, ulong room, out ulong length, ref FoundFault faults, ulong most, out ulong count, ulong seed);
        [DllImport(Library)] internal static extern uint odb_requests(ref byte batch, ulong size, ref byte text, ulong room, out ulong length, ref Request requests, ulong most, out ulong count, ulong seed);
        [DllImport(Library)] internal static extern uint odb_responses(byte[] document, ulong size, ref byte text, ulong room, out ulong length, ref Response responses, ulong most, out ulong count);
        [DllImport(Library)] internal static extern uint odb_report_fault(byte[] headers, ulong size, byte[] body, ulong bodySize, ref byte text, ulong room, out ulong length);
        [DllImport(Library)] internal static extern uint odb_headers(ref byte headers, ulong size, ref byte text, ulong room, out ulong length, ref Header pairs, ulong most, out ulong count);
        [DllImport(Library)] internal static extern uint odb_resolve(byte[] root, ulong rootSize, byte[] roots, ulong rootsSize, byte[] url, ulong urlSize, byte[] sent, ulong sentSize, byte[] location, ulong locationSize, uint post, ref byte text, ulong room, out ulong length);
        [DllImport(Library)] internal static extern uint odb_run_open_requests(byte[] batch, ulong size, byte[] events, ulong eventsSize, uint mode, uint width, RunHandle run, ref byte text, ulong room, out ulong length, ref Request requests, ulong most, out ulong count, ulong seed);
        [DllImport(Library)] internal static extern uint odb_run_ready(RunHandle run, ref uint positions, ulong most, out ulong count);
        [DllImport(Library)] internal static extern uint odb_run_running(RunHandle run, ref uint positions, ulong most, out ulong count);
        [DllImport(Library)] internal static extern uint odb_run_undone(RunHandle run, ref uint positions, ulong most, out ulong count);
        [DllImport(Library)] internal static extern uint odb_run_next_unit(RunHandle run, ref uint positions, ulong most, out ulong count);
        [DllImport(Library)] internal static extern uint odb_run_start(RunHandle run, uint position);
        [DllImport(Library)] internal static extern uint odb_run_start_unit(RunHandle run, uint position);
        [DllImport(Library)] internal static extern uint odb_run_part(RunHandle run, byte[] batch, ulong size, uint limit, ref byte text, ulong room, out ulong length, ref uint positions, ulong most, out ulong count, ulong seed);
        [DllImport(Library)] internal static extern uint odb_run_state(RunHandle run, uint position, out uint state, out uint status);
        [DllImport(Library)] internal static extern uint odb_run_report(RunHandle run, uint position, uint status, ref byte headers, ulong headersSize, ref byte body, ulong bodySize);
        [DllImport(Library)] internal static extern uint odb_run_finished(RunHandle run);
        [DllImport(Library)] internal static extern uint odb_run_response(RunHandle run, ref byte text, ulong room, out ulong length);
        [DllImport(Library)] internal static extern void odb_run_stop(RunHandle run);
        [DllImport(Library)] internal static extern void odb_run_close(IntPtr run);

        [StructLayout(LayoutKind.Sequential)] internal struct Position { internal ulong Line, Column, Offset, End; }
        [StructLayout(LayoutKind.Sequential)] internal struct Part { internal ulong Start, Length; }
        [StructLayout(LayoutKind.Sequential)] internal struct FoundFault { internal Part Code, Name, Place; internal Position Position; }
        [StructLayout(LayoutKind.Sequential)] internal struct Request { internal Part Id, Method, Url, Rest, Headers, Group, Needs, Body; internal ulong Reference; }
        [StructLayout(LayoutKind.Sequential)] internal struct Response { internal Part Id, Group, Headers, Body; internal ulong Status; }
        [StructLayout(LayoutKind.Sequential)] internal struct Header { internal Part Name, Value; }

        private static readonly Lazy<ulong> Drawn = new Lazy<ulong>(DrawSeed);
        internal static ulong Seed => Drawn.Value;
        /// <summary>UTF-8 that throws where it cannot encode or decode.</summary>
        internal static readonly UTF8Encoding Utf8 = new UTF8Encoding(false, true);

        private static ulong DrawSeed() {
            if (IntPtr.Size != 8) throw new PlatformNotSupportedException("odb_batch needs a process of 64 bits");
            if (odb_version() / 100 != Major * 100 + Minor) throw new DllNotFoundException("odb_batch has the version " + odb_version() + ", and this assembly needs " + Major + "." + Minor);
            var bytes = new byte[8]; using (var source = RandomNumberGenerator.Create()) source.GetBytes(bytes);
            return BitConverter.ToUInt64(bytes, 0);
        }

        internal delegate uint Writing(byte[] text, ulong room, out ulong length);
        internal delegate uint Listing<T>(byte[] text, ulong room, out ulong length, T[] items, ulong most, out ulong count);

        /// <summary>Calls a function that writes a text, again if the room was too small.</summary>
        internal static uint Write(int room, Writing call, out byte[] text) =>
            List(room, 1, (byte[] to, ulong size, out ulong length, byte[] items, ulong most, out ulong count) => { count = 0; return call(to, size, out length); }, out text, out byte[] _, out int none);

        private static class Kept<T> { [ThreadStatic] internal static T[] Items; }

        /// <summary>The same of one that lists items, too, and of how many of them. The thread uses them again for its next list.</summary>
        internal static uint List<T>(int room, int most, Listing<T> call, out byte[] text, out T[] items, out int count) {
            for (;;) {
                text = new byte[Math.Max(room, 1)]; items = Kept<T>.Items != null && most <= Kept<T>.Items.Length ? Kept<T>.Items : new T[Math.Max(most, 1)];
                if (items.Length <= 256) Kept<T>.Items = items; // to make one takes as long as a short call
                uint status = call(text, (ulong)text.Length, out ulong length, items, (ulong)items.Length, out ulong listed);
                room = checked((int)length); count = most = checked((int)listed);
                if (status == SmallBuffer) continue;
                Array.Resize(ref text, room);
                return status;
            }
        }

        /// <summary>The fault in what a call over documents has written; throws what else it has returned but that it is done.</summary>
        internal static Fault FaultIn(uint status, byte[] text, Document batch, Document second) =>
            status == Done ? null : status == Refused ? Fault.Of(Encoding.UTF8.GetString(text).TrimEnd('\n'), batch, second) : throw Failure(status);

        /// <summary>Throws what a call over documents has returned but that it is done.</summary>
        internal static void Require(uint status, byte[] text, Document batch, Document second) {
            if (FaultIn(status, text, batch, second) is Fault fault) throw new FaultException(fault);
        }

        /// <summary>The text of a call over documents; throws what else it returns.</summary>
        internal static byte[] Answer(int room, Document batch, Document second, Writing call) {
            Require(Write(room, call, out byte[] text), text, batch, second);
            return text;
        }

        internal static Exception Failure(uint status) =>
            status == OutOfMemory ? new OutOfMemoryException("odb_batch ran out of memory")
            : status == WrongOption ? new ArgumentException("an option has none of its values") : (Exception)new InvalidOperationException("odb_batch returned the status " + status);

        /// <summary>A text of the library, which is decoded once if each of its bytes is a character.</summary>
        internal struct Words {
            private readonly byte[] bytes; private readonly string text;
            internal Words(byte[] bytes) { this.bytes = bytes; text = Encoding.UTF8.GetString(bytes); }

            /// <summary>A part, or null if there is none.</summary>
            internal string this[Part part] => part.Start == None ? null
                : text.Length == bytes.Length ? text.Substring((int)part.Start, (int)part.Length) : Encoding.UTF8.GetString(bytes, (int)part.Start, (int)part.Length);

            /// <summary>A part as a text that is the same, if another one is, without a copy.</summary>
            internal string Like(string other, Part part) =>
                text.Length == bytes.Length && (ulong)other.Length == part.Length && string.CompareOrdinal(text, (int)part.Start, other, 0, other.Length) == 0 ? other : this[part];
        }

        /// <summary>The bytes of a part, or null if there is none.</summary>
        internal static byte[] Slice(byte[] text, Part part) {
            byte[] found = part.Start == None ? null : new byte[part.Length];
            if (found != null) Buffer.BlockCopy(text, (int)part.Start, found, 0, found.Length); return found;
        }

        /// <summary>The headers in an object of JSON by their names in lower case; null if it is not one of strings.</summary>
        internal static Dictionary<string, string> Headers(Document json) {
            uint status = List(json.Bytes.Length, json.Bytes.Length / 8, (byte[] to, ulong room, out ulong length, Header[] items, ulong most, out ulong count) =>
                odb_headers(ref json.At[0], json.Size, ref to[0], room, out length, ref items[0], most, out count), out byte[] text, out Header[] pairs, out int many);
            var words = new Words(text);
            return status == Done ? pairs.Take(many).ToDictionary(it => words[it.Name], it => words[it.Value]) : status == Refused ? (Dictionary<string, string>)null : throw Failure(status);
        }
    }

    /// <summary>The place of the handle of a run. P/Invoke passes its address, and keeps it while a call is on its way: neither the
    /// collector nor Dispose frees the run under a call.</summary>
    internal sealed class RunHandle : SafeHandleZeroOrMinusOneIsInvalid {
        internal static int Open; // runs that are not closed, for tests

        internal RunHandle() : base(true) {
            SetHandle(Marshal.AllocHGlobal(IntPtr.Size)); Marshal.WriteIntPtr(handle, IntPtr.Zero);
            Interlocked.Increment(ref Open);
        }

        protected override bool ReleaseHandle() {
            IntPtr run = Marshal.ReadIntPtr(handle);
            if (run != IntPtr.Zero) Native.odb_run_close(run);
            Marshal.FreeHGlobal(handle); Interlocked.Decrement(ref Open);
            return true;
        }
    }
}
