//go:build cgo

// Package odb checks, plans, matches, runs and replays batches of requests in JSON (OASIS OData JSON Format 4.01, section 19). It
// performs them by a function that sends one request, answers them for a handler of net/http, and builds and sends them.
//
// A document is UTF-8 JSON of at most MaxDocument bytes. One that is refused is a *Fault, which errors.As finds. A call takes O(n log n)
// time for n bytes of documents. Any number of goroutines may call the package at once.
package odb

// #include "odb_batch.h"
import "C"

import (
	"bytes"
	"encoding/json"
	"errors"
	"fmt"
	"strings"
	"unsafe"
)

// ErrOutOfMemory is returned if an allocation of the library failed.
var ErrOutOfMemory = errors.New("odb: out of memory")

// ErrOption is returned for an option, an id or a limit that is none of its values.
var ErrOption = errors.New("odb: an option is none of its values")

// ErrClosed is returned by the calls of a run that is closed.
var ErrClosed = errors.New("odb: the run is closed")

// or returns a value, or the usual one if it is that of nothing.
func or[T comparable](value, usual T) T {
	if value == *new(T) {
		return usual
	}
	return value
}

const (
	MaxWidth    = C.ODB_MAX_WIDTH    // the greatest width, and that of a Policy that has 0
	MaxRequests = C.ODB_MAX_REQUESTS // how many requests a batch may have
	MaxDocument = C.ODB_MAX_DOCUMENT // how many bytes a document may have
)

const more = 256 // how much longer than its documents a text is thought to be

// seed is drawn once, and kept secret: nobody can choose names that make a call slow. Without random bytes it is 0, which is as safe.
var seed = C.odb_seed()

// constants is what the library says of itself.
var constants = func() (found struct {
	Headers             map[string][]string
	States, Preferences []string
	ReservedIDs         []string `json:"reserved_ids"`
}) {
	text, _ := answer(4096, func(to *textOut) C.uint32_t { return C.odb_constants(to.text, to.room, &to.length) })
	_ = json.Unmarshal(text, &found)
	return found
}()

// at returns where bytes begin; the header takes nil for none.
func at(bytes []byte) *C.uint8_t {
	if len(bytes) == 0 {
		return nil
	}
	return (*C.uint8_t)(unsafe.Pointer(&bytes[0]))
}

func size(bytes []byte) C.size_t { return C.size_t(len(bytes)) }

// out is where a call writes a text and a list, whose elements have no pointers, so that C may be given them.
type out[T any] struct {
	text          *C.uint8_t
	items         *T
	room, most    C.size_t // of the text and of the list
	length, count C.size_t // what was written, or is needed
}

type textOut = out[struct{}]

// called makes a call, again if it had too little room; returns its status, the text and the list.
func called[T any](room int, call func(to *out[T]) C.uint32_t) (C.uint32_t, []byte, []T) {
	to := out[T]{room: C.size_t(room), most: C.size_t(room/32 + 1)}
	if to.most > MaxRequests {
		to.most = MaxRequests
	}
	for {
		text, items := make([]byte, to.room), make([]T, to.most)
		to.text, to.items = at(text), &items[0]
		if status := call(&to); status != C.ODB_SMALL_BUFFER {
			return status, text[:to.length], items[:to.count]
		}
		to.room, to.most = to.room+to.length, to.most+to.count
	}
}

// answer returns the text of a command over documents without the newline at its end, or why there is none.
func answer(room int, call func(to *textOut) C.uint32_t, documents ...[]byte) ([]byte, error) {
	status, text, _ := called(room, call)
	if err := failure(status, text, documents...); err != nil {
		return nil, err
	}
	return bytes.TrimSuffix(text, []byte("\n")), nil
}

// read reads what a command over documents writes as JSON.
func read[T any](call func(to *textOut) C.uint32_t, documents ...[]byte) (found T, err error) {
	text, err := answer(len(documents[0])+more, call, documents...)
	if err == nil {
		err = json.Unmarshal(text, &found)
	}
	return found, err
}

// failure returns the error for a status; text is the line of a fault, in one of the documents: the batch, and maybe a second.
func failure(status C.uint32_t, text []byte, documents ...[]byte) error {
	switch status {
	case C.ODB_DONE:
		return nil
	case C.ODB_REFUSED:
		return faultOf(text, documents)
	case C.ODB_WRONG_OPTION:
		return ErrOption
	case C.ODB_OUT_OF_MEMORY:
		return ErrOutOfMemory
	}
	return fmt.Errorf("odb: the library returned the status %d", status)
}

// Version returns the version of the library that is linked, as 200 for 0.2.0.
func Version() int { return int(C.odb_version()) }

// Explanation returns what a code means, as F41 or S4: what `odb_batch explain` prints. It is empty for any other text.
func Explanation(code string) string {
	text, _ := answer(2048, func(to *textOut) C.uint32_t {
		return C.odb_explain(at([]byte(code)), C.size_t(len(code)), to.text, to.room, &to.length)
	})
	return string(text)
}

// A Fault says why a document is refused, or why a start or a report of a live run may not come. Its text is the code, the name and the
// place.
type Fault struct {
	Code, Name string // as F41 and ForwardName; S1 to S5 of a start, as S4 and Waiting, and P1 and P2 of a report
	// The document, as batch, or its element, as /requests/0; of a run the id of the request, and events or /events/0 for what a report has.
	Place        string
	Line, Column int // where the place begins in the document, from 1, the column in characters; 0 for a run
	Offset, End  int // how many bytes are before it, and before its end
}

func (f *Fault) Error() string { return f.Code + " " + f.Name + " " + f.Place }

// Explanation returns what the fault means, and how it is repaired.
func (f *Fault) Explanation() string {
	_, text, _ := strings.Cut(Explanation(f.Code), "\n")
	text, _, _ = strings.Cut(text, "\nrefused: ")
	return text
}

// at sets where the fault is.
func (f *Fault) at(position C.odb_position) *Fault {
	f.Line, f.Column, f.Offset, f.End = int(position.line), int(position.column), int(position.offset), int(position.end)
	return f
}

// faultOf returns the fault of a line `fault CODE NAME PLACE`, or of its JSON, in one of the documents.
func faultOf(text []byte, documents [][]byte) *Fault {
	found := struct{ Fault Fault }{}
	if json.Unmarshal(text, &found) != nil {
		words := strings.SplitN(strings.TrimSpace(string(text)), " ", 4)
		found.Fault = Fault{Code: words[1], Name: words[2], Place: words[3]}
	}
	place, position := found.Fault.Place, C.odb_position{}
	if len(documents) > 0 {
		in := documents[0]
		if place != "batch" && !strings.HasPrefix(place, "/requests/") {
			in = documents[len(documents)-1]
		}
		C.odb_where(at(in), size(in), at([]byte(place)), C.size_t(len(place)), &position)
	}
	return found.Fault.at(position)
}

// Faults returns all faults of the first phase that has any, in one scan; none if the batch is accepted.
func Faults(batch []byte) (faults []*Fault, err error) {
	status, line, found := called(len(batch)+more, func(to *out[C.odb_fault]) C.uint32_t {
		return C.odb_faults(at(batch), size(batch), to.text, to.room, &to.length, to.items, to.most, &to.count, seed)
	})
	if status != C.ODB_REFUSED {
		return nil, failure(status, line)
	}
	text := string(line)
	for _, it := range found {
		faults = append(faults, (&Fault{Code: part(text, it.code), Name: part(text, it.name), Place: part(text, it.place)}).at(it.position))
	}
	return faults, nil
}

// part returns the part of a text or a document; it is empty if there is none.
func part[T string | []byte](text T, of C.odb_part) (none T) {
	if of.start == C.ODB_NONE {
		return none
	}
	return text[of.start : of.start+of.length]
}

// Mode is what an error, a status from 400 to 599, does to a run.
type Mode uint32

const (
	Continue Mode = C.ODB_CONTINUE // what depends on the request is skipped
	Stop     Mode = C.ODB_STOP     // nothing starts any more
)

// Order is which step of a replay comes next.
type Order uint32

const (
	First Order = C.ODB_FIRST // finish each request before the next one starts, by position
	Last  Order = C.ODB_LAST  // the same from the last position
	Wide  Order = C.ODB_WIDE  // start all that may start, then report the first
)

// Policy is how a run goes on. Its zero value is the default.
type Policy struct {
	Mode  Mode
	Width int // how many requests may run at once, from 1 to MaxWidth; 0 is MaxWidth
}

func (p Policy) width() C.uint32_t { return number(or(p.Width, MaxWidth)) }

// number returns a number for the library, which refuses 0 as a width, a limit or a status; so it does others that are none.
func number(value int) C.uint32_t {
	if value < 0 || value > MaxWidth {
		return 0
	}
	return C.uint32_t(value)
}

// Counts says how many requests and groups a batch has.
type Counts struct{ Requests, Groups int }

// Check checks a batch.
func Check(batch []byte) (Counts, error) {
	return read[Counts](func(to *textOut) C.uint32_t {
		return C.odb_check_as(at(batch), size(batch), C.ODB_JSON, to.text, to.room, &to.length, seed)
	}, batch)
}

// PlannedRequest is a request with what it depends on.
type PlannedRequest struct {
	ID    string
	Level int      // requests of one level may run side by side
	Group string   // empty if it has none
	Needs []string // ids and groups
}

// Plan returns the requests of a batch in order.
func Plan(batch []byte) ([]PlannedRequest, error) {
	found, err := read[struct{ Requests []PlannedRequest }](func(to *textOut) C.uint32_t {
		return C.odb_plan_as(at(batch), size(batch), C.ODB_JSON, to.text, to.room, &to.length, seed)
	}, batch)
	return found.Requests, err
}

// Canon returns the canonical text of a batch, which is one text for all documents of the same batch, without a newline.
func Canon(batch []byte) ([]byte, error) {
	return answer(len(batch)+more, func(to *textOut) C.uint32_t {
		return C.odb_canon_as(at(batch), size(batch), C.ODB_LINES, to.text, to.room, &to.length, seed)
	}, batch)
}

// MatchOptions says what kind of service has answered. Its zero value is the default.
type MatchOptions struct {
	Mode   Mode // Stop for one that stops at its first error
	Strict bool // whether some finished run has to answer the statuses, too
	Units  bool // whether that run may also send a group as one, as StartUnit does; for Strict alone
}

// Match matches the response document of a service against a batch; returns ids and statuses in the order of the batch.
func Match(batch, responses []byte, options MatchOptions) ([]Result, error) {
	found, err := read[struct{ Responses []Result }](func(to *textOut) C.uint32_t {
		return C.odb_match_with(at(batch), size(batch), at(responses), size(responses), C.uint32_t(options.Mode),
			bit[options.Strict]*(1+bit[options.Units]), C.ODB_JSON, to.text, to.room, &to.length, seed)
	}, batch, responses)
	return found.Responses, err
}

// bit has the numbers of the library for whether something is.
var bit = map[bool]C.uint32_t{true: 1}

// Rest returns what may be sent again by the responses of a service, as a batch of its own. If nothing may, it has no requests.
func Rest(batch, responses []byte, mode Mode) ([]byte, error) {
	return answer(len(batch)+len(responses)+more, func(to *textOut) C.uint32_t {
		return C.odb_rest(at(batch), size(batch), at(responses), size(responses), C.uint32_t(mode), C.ODB_LINES, to.text, to.room, &to.length, seed)
	}, batch, responses)
}

// Run runs a batch by recorded events; returns the response document. A run on its way is a LiveRun.
func Run(batch, events []byte, policy Policy) ([]byte, error) {
	return answer(len(batch)+len(events)+more, func(to *textOut) C.uint32_t {
		return C.odb_run_as(at(batch), size(batch), at(events), size(events), C.uint32_t(policy.Mode), policy.width(), C.ODB_LINES,
			to.text, to.room, &to.length, seed)
	}, batch, events)
}

// Replay replays a batch by recorded outcomes; returns the response document and the steps, as `start a`, `report a 200` and `undo a`.
func Replay(batch, outcomes []byte, policy Policy, order Order) (response []byte, steps []string, err error) {
	text, err := answer(2*len(batch)+len(outcomes)+more, func(to *textOut) C.uint32_t {
		return C.odb_replay_as(at(batch), size(batch), at(outcomes), size(outcomes), C.uint32_t(policy.Mode), policy.width(),
			C.uint32_t(order), 1, C.ODB_LINES, to.text, to.room, &to.length, seed)
	}, batch, outcomes)
	lines := strings.Split(string(text), "\n")
	return []byte(lines[len(lines)-1]), lines[:len(lines)-1], err
}

// Request is a request of a batch, as it is to be sent.
type Request struct {
	ID, Method, URL string            // the method in upper case
	Reference       string            // the id of the request that the URL refers to, or empty
	Rest            string            // what follows that reference in the URL, else the whole URL
	Headers         map[string]string // names in lower case; nil if it has none
	Group           string            // empty if it has none
	Body            []byte            // the bytes of the document, or those on the wire if it is sent; nil if it has none
	position        C.uint32_t
}

// Requests returns what is to be sent of each request of a batch. Bodies are slices of the document, without a copy.
func Requests(batch []byte) ([]Request, error) {
	status, text, found := called(len(batch)+more, func(to *out[C.odb_request]) C.uint32_t {
		return C.odb_requests(at(batch), size(batch), to.text, to.room, &to.length, to.items, to.most, &to.count, seed)
	})
	return requestsOf(batch, string(text), found), failure(status, text, batch)
}

func requestsOf(batch []byte, text string, found []C.odb_request) []Request {
	requests := make([]Request, len(found))
	for i, it := range found {
		requests[i] = Request{part(text, it.id), part(text, it.method), part(text, it.url), "", part(text, it.rest), nil,
			part(text, it.group), part(batch, it.body), C.uint32_t(i)}
		if it.reference != C.ODB_NONE {
			requests[i].Reference = requests[it.reference].ID
		}
		if it.headers.length > 2 { // else {}
			_ = json.Unmarshal([]byte(part(text, it.headers)), &requests[i].Headers)
		}
	}
	return requests
}

// Responses returns the responses in the document of a service, in its order; they need not fit a batch. Headers are as they are
// written, and bodies are slices of the document.
func Responses(document []byte) (responses []Result, err error) {
	status, text, found := called(len(document)+more, func(to *out[C.odb_response]) C.uint32_t {
		return C.odb_responses(at(document), size(document), to.text, to.room, &to.length, to.items, to.most, &to.count)
	})
	for _, it := range found {
		answer := Answer{int(it.status), nil, part(document, it.body)}
		_ = json.Unmarshal(part(document, it.headers), &answer.Headers) // what is not a text is empty
		responses = append(responses, Result{string(part(text, it.id)), string(part(text, it.group)), answer})
	}
	return responses, failure(status, text, document)
}
