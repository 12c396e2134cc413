using System;

namespace OdbBatch {
    /// <summary>What odb_batch refuses by its rules.</summary>
    public abstract class OdbException : Exception {
        /// <summary>For those of this assembly.</summary>
        private protected OdbException(string code, string name, string where) : base(code + " " + name + " " + where) { Code = code; Name = name; }

        /// <summary>The code, as F41, S4 or P2.</summary>
        public string Code { get; }
        /// <summary>The name, as ForwardName.</summary>
        public string Name { get; }
        /// <summary>What it means, and how it is repaired.</summary>
        public string Explanation => Odb.Meaning(Code);
    }

    /// <summary>A document is refused.</summary>
    public sealed class FaultException : OdbException {
        internal FaultException(Fault fault) : base(fault.Code, fault.Name, fault.Place) => Fault = fault;
        /// <summary>The first fault of the document.</summary>
        public Fault Fault { get; }
    }

    /// <summary>A start or a report of a live run may not come. Nothing has changed.</summary>
    public sealed class RefusedException : OdbException {
        private RefusedException(string code, string id) : base(code, Odb.Explain(code).Split(' ')[1], id) => Id = id;
        /// <summary>The id of the request.</summary>
        public string Id { get; }

        /// <summary>The exception for a status from 11 to 15, which are S1 to S5, or 21 or 22, P1 and P2; null for another one.</summary>
        internal static RefusedException Of(uint status, string id) => status < 11 || status > 22 ? null : new RefusedException((status < 20 ? "S" : "P") + status % 10, id);
    }

    /// <summary>Why a document is refused. Where its place begins is looked up when it is asked for, but of <see cref="Odb.Faults"/> at once: do
    /// not change the document before.</summary>
    public sealed class Fault {
        private readonly Lazy<Native.Position?> position;

        internal Fault(string code, string name, string place, Func<Native.Position?> find) {
            Code = code; Name = name; Place = place; position = new Lazy<Native.Position?>(find);
        }

        /// <summary>The code, as F41.</summary>
        public string Code { get; }
        /// <summary>The name, as ForwardName.</summary>
        public string Name { get; }
        /// <summary>The document, as batch, or its element, as /requests/0.</summary>
        public string Place { get; }
        /// <summary>What it means, and how it is repaired.</summary>
        public string Explanation => Odb.Meaning(Code);
        /// <summary>The line in which the place begins, from 1; null for a fault that a live run has found.</summary>
        public int? Line => (int?)position.Value?.Line;
        /// <summary>The column in that line, from 1, in characters.</summary>
        public int? Column => (int?)position.Value?.Column;
        /// <summary>How many bytes of the document come before the place.</summary>
        public int? Offset => (int?)position.Value?.Offset;
        /// <summary>How many bytes of the document come before its end.</summary>
        public int? End => (int?)position.Value?.End;

        /// <summary>Code, name and place.</summary>
        public override string ToString() => Code + " " + Name + " " + Place;

        /// <summary>The fault of a line, in one of two documents.</summary>
        internal static Fault Of(string line, Document batch, Document second) {
            string[] words = line.Split(new[] { ' ' }, 4);
            Document place = words[3], document = words[3] == "batch" || words[3].StartsWith("/requests/", StringComparison.Ordinal) ? batch : second;
            return new Fault(words[1], words[2], words[3], () => {
                uint status = Native.odb_where(document.At, document.Size, place.At, place.Size, out Native.Position found);
                return status == Native.Done ? found : throw Native.Failure(status);
            });
        }

        /// <summary>A fault that a live run has found.</summary>
        internal static Fault OfRun(string code, string name, string place) => new Fault(code, name, place, () => null);
    }
}
