//go:build cgo

package odb

// #include "odb_batch.h"
import "C"

import (
	"bytes"
	"context"
	"encoding/base64"
	"encoding/json"
	"errors"
	"fmt"
	"log"
	"mime"
	"net"
	"net/http"
	"runtime"
	"runtime/debug"
	"strings"
	"sync"
	"time"
	"unicode/utf8"
)

// Answer is what a request is answered. The body is bytes as they are on the wire.
type Answer struct {
	Status  int               `json:"status"`            // from 200 to 599; any other number is shown as 502
	Headers map[string]string `json:"headers,omitempty"` // names in lower case; nil for none
	Body    []byte            `json:"-"`
}

// OK returns whether the status is one from 200 to 299.
func (a Answer) OK() bool { return 200 <= a.Status && a.Status <= 299 }

// Refusal is an error that stands for an answer: return it from a SendFunc or a TransactionFunc.
type Refusal struct {
	Status  int               `json:"-"` // from 400 to 599
	Code    string            `json:"code"`
	Message string            `json:"message"`
	Target  string            `json:"target,omitempty"` // what it is about, or empty
	Headers map[string]string `json:"-"`                // more headers of the answer, names in lower case
}

func (r *Refusal) Error() string { return fmt.Sprintf("odb: %d %s: %s", r.Status, r.Code, r.Message) }

// answerTo returns the answer that stands for an error, with the error object of OData (OData JSON Format 4.01, section 21.1).
func answerTo(err error) Answer {
	var network net.Error
	refusal := &Refusal{Status: 500, Code: "InternalError", Message: "The request failed; the log says why"}
	if errors.As(err, &network) && network.Timeout() { // as of a context whose deadline is over
		refusal = &Refusal{Status: 504, Code: "Timeout", Message: "No answer came in time"}
	} else if network != nil || errors.Is(err, http.ErrAbortHandler) {
		refusal = &Refusal{Status: 502, Code: "BadGateway", Message: "The connection broke before an answer came"}
	}
	errors.As(err, &refusal)
	body, _ := encoded(map[string]any{"error": refusal})
	return Answer{refusal.Status, joined(map[string]string{"content-type": "application/json"}, refusal.Headers), body}
}

// whole returns an answer with a final status, and with names of headers in lower case.
func (a Answer) whole() Answer {
	if a.Headers = joined(a.Headers); a.Status < 200 || a.Status > 599 {
		a.Status = 502
	}
	return a
}

// place returns the URL of what a request has created or returned by the headers of its answer; it is empty if they have none.
func place(of map[string]string) string { return or(of["location"], of["odata-entityid"]) }

// SendFunc sends a request, whose URL, headers and body are as on the wire, and returns what it is answered. It has to end soon after
// ctx is done. An error is an answer, too: that of a *Refusal, 504 for a timeout, 502 for another error of the network, and else 500.
type SendFunc func(ctx context.Context, request *Request) (Answer, error)

// TransactionFunc performs a group in a transaction: it begins one, calls do once with a context that has it, and commits if do
// returns nil, else rolls back and returns the error.
type TransactionFunc func(ctx context.Context, group string, do func(ctx context.Context) error) error

// Options of a performance. The zero value is the default.
type Options struct {
	Policy                      // a width of 0 is 1 here
	Base        string          // the absolute URL that URLs are relative to, which ends with /; http://localhost/ if it is empty
	Roots       []string        // where requests may lead, absolute URLs that end with /; the base if it is nil. Others are answered 404
	Limit       int             // how many requests the batch may have; MaxRequests if it is 0
	Timeout     time.Duration   // for how long an answer is waited for, or for ever if it is 0; then ctx of the SendFunc is done
	Transaction TransactionFunc // without it a batch with groups is refused: 501
	Stop        func() bool     // once it returns true nothing more starts, and the rest is answered 424
	Log         *log.Logger     // gets what a response does not say, as the stack of a panic; log.Default() if it is nil
}

// ErrGroupFailed is what do returns to a TransactionFunc if a request of the group has failed.
var ErrGroupFailed = errors.New("odb: a request of the group has failed")

var errNotDone = errors.New("odb: a transaction has to call do once, and to wait for it")
var errTooLong = &Refusal{Status: 507, Code: "TooLong", Message: "The answer is too long for a batch"}

// performance is a batch that is performed. What a request refers to was answered before it starts (OData JSON Format 4.01, sections
// 19.2 and 19.3).
type performance struct {
	Options
	run     *LiveRun
	send    SendFunc
	mu      sync.Mutex                   // over what follows
	sent    map[string]string            // by the ids of requests where they were sent
	headers map[string]map[string]string // and those of their answers
}

// Perform performs a batch, and returns the response document. Each request goes to send once it may start, in up to Width
// goroutines at once. The requests of a group are sent one after another in its transaction, which begins once the group needs
// nothing more from outside, and is over before the last one is reported.
//
// If ctx is done nothing more starts, open transactions are rolled back, what is out is waited for, and the error is that of ctx. If
// the batch is refused the error is a *Fault or a *Refusal, and nothing was sent. The batch must not change meanwhile.
func Perform(ctx context.Context, batch []byte, send SendFunc, options Options) ([]byte, error) {
	options.Width, options.Limit, options.Log = or(options.Width, 1), or(options.Limit, MaxRequests), or(options.Log, log.Default())
	options.Base = or(options.Base, "http://localhost/")
	if options.Roots == nil {
		options.Roots = []string{options.Base}
	}
	run, err := Open(batch, nil, options.Policy)
	if err != nil {
		return nil, err
	}
	defer run.Close()
	p := &performance{Options: options, run: run, send: send, sent: map[string]string{}, headers: map[string]map[string]string{}}
	if len(run.Requests()) > p.Limit {
		return nil, &Refusal{Status: 413, Code: "BatchTooLong", Message: fmt.Sprintf("A batch may have %d requests", p.Limit)}
	} else if _, err := p.resolved("", "", "", false); err != nil {
		return nil, fmt.Errorf("%w: base and roots are absolute URLs that end with /", ErrOption)
	}
	for _, it := range run.Requests() {
		if it.Group != "" && p.Transaction == nil {
			return nil, &Refusal{Status: 501, Code: "NoGroups", Message: "Atomicity groups are not supported here"}
		}
	}
	if p.units(ctx); ctx.Err() != nil {
		return nil, ctx.Err()
	}
	return run.Response()
}

// units performs all units, each in a goroutine, and returns once all of them are over.
func (p *performance) units(ctx context.Context) {
	ended := make(chan bool)
	for out := 0; ; {
		if ctx.Err() != nil || p.Stop != nil && p.Stop() {
			_ = p.run.Stop()
		}
		unit, _ := p.run.NextUnit()
		switch {
		case out < p.Width && len(unit) > 0 && p.run.Start(unit[0]) == nil: // so that it does not begin twice
			out++
			go func() { p.unit(ctx, unit); ended <- true }()
			runtime.Gosched() // what has begun goes before what begins now
		case out == 0:
			return
		default:
			<-ended
			out--
		}
	}
}

// unit performs a group, or a request without one, whose first request has started. The last request of a group is reported after the
// commit: so what needs the group starts later, and that request is answered a commit that fails.
func (p *performance) unit(ctx context.Context, ids []string) {
	group := p.run.Request(ids[0]).Group
	if group == "" {
		p.report(ids[0], p.answer(ctx, ids[0]))
		return
	}
	var once sync.Once
	over := make(chan bool, 1) // has an element once do is over
	open, last, failure := ids[0], Answer{}, errNotDone
	err := guarded(func() error {
		return p.Transaction(ctx, group, func(ctx context.Context) error {
			found := errNotDone // what a second call returns
			once.Do(func() {
				open, last, failure = p.members(ctx, ids)
				found = failure
				over <- true
			})
			return found
		})
	})
	isEarly := len(over) == 0
	once.Do(func() {}) // lets no call begin, and waits for one that has
	if err == nil && (isEarly || failure != nil) {
		err = fmt.Errorf("%v, but returned nil after: %v", errNotDone, failure)
	}
	if err != nil {
		last = p.failure(err, "the group "+group)
	}
	if open != "" {
		p.report(open, last.whole())
	}
}

// members performs the requests of a group, and reports them but for the last one if it succeeds. It returns the request that has
// started and is not reported, if there is one, and what it was answered.
func (p *performance) members(ctx context.Context, ids []string) (open string, answer Answer, err error) {
	for i := 0; ; i++ {
		if i > 0 && p.run.Start(ids[i]) != nil {
			return "", answer, ErrGroupFailed
		} else if ctx.Err() != nil {
			return ids[i], answer, ctx.Err()
		}
		answer = p.answer(ctx, ids[i])
		if i == len(ids)-1 && answer.OK() {
			return ids[i], answer, ctx.Err()
		} else if p.report(ids[i], answer); !answer.OK() {
			return "", answer, ErrGroupFailed
		}
	}
}

// answer sends a request, and returns what it is answered.
func (p *performance) answer(ctx context.Context, id string) (answer Answer) {
	ctx, cancel := context.WithTimeout(ctx, or(p.Timeout, 1<<63-1))
	defer cancel()
	err := guarded(func() error {
		request, err := p.prepared(id)
		if err == nil {
			answer, err = p.send(ctx, request)
		}
		if len(answer.Body) > MaxDocument && request.Method == "GET" {
			err = errTooLong
		}
		return err
	})
	if err != nil {
		answer = p.failure(err, "the request "+id)
	}
	return answer.whole()
}

// failure returns the answer that stands for an error, and logs one of which the response does not say all.
func (p *performance) failure(err error, what string) Answer {
	if !errors.Is(err, ErrGroupFailed) && !errors.As(err, new(*Refusal)) {
		p.Log.Printf("odb: %s: %v", what, err)
	}
	return answerTo(err)
}

// guarded returns the error of a function, also for a panic: one in a goroutine would end the process.
func guarded(call func() error) (err error) {
	defer func() {
		if value := recover(); value == http.ErrAbortHandler {
			err = http.ErrAbortHandler
		} else if value != nil {
			err = fmt.Errorf("panic: %v\n%s", value, debug.Stack())
		}
	}()
	return call()
}

// report reports an answer; a body that is not JSON though its answer claims it as a string, and one that is too long not at all.
func (p *performance) report(id string, answer Answer) {
	p.mu.Lock()
	p.headers[id] = answer.Headers
	p.mu.Unlock()
	for _, name := range constants.Headers["not_shown"] {
		delete(answer.Headers, name)
	}
	if err := p.run.Report(id, answer.Status, answer.Headers, toJSON(answer.Body, answer.Headers["content-type"])); err != nil {
		p.Log.Printf("odb: the body of the answer to %s: %v", id, err)
		if p.run.Report(id, answer.Status, answer.Headers, asText(answer.Body)) != nil {
			_ = p.run.Report(id, answer.Status, answer.Headers, nil)
		}
	}
}

// conditions are the headers in which $ and an id stand for an ETag.
var conditions = []string{"if-match", "if-none-match"}

// prepared returns a request as it is sent, or a *Refusal.
func (p *performance) prepared(id string) (*Request, error) {
	p.mu.Lock()
	defer p.mu.Unlock()
	request := *p.run.Request(id)
	to := or(p.run.Request(request.Reference), &Request{})
	url, err := p.resolved(request.Rest, p.sent[to.ID], place(p.headers[to.ID]), to.Method == "POST")
	if err == nil {
		request.URL, p.sent[id], request.Headers = url, url, joined(request.Headers)
		err = p.tag(request.Headers)
	}
	if err != nil {
		return nil, err
	}
	if request.Body != nil && request.Headers["content-type"] == "" {
		request.Headers["content-type"] = "application/json"
	}
	request.Body, err = toWire(request.Body, request.Headers["content-type"])
	return &request, err
}

// tag puts ETags in place of $ and an id in the conditions of a request; without one it is refused.
func (p *performance) tag(headers map[string]string) error {
	for _, name := range conditions {
		id := strings.TrimPrefix(headers[name], "$")
		if id == headers[name] || p.run.Request(id) == nil {
			continue
		}
		if headers[name] = p.headers[id]["etag"]; headers[name] == "" {
			return &Refusal{Status: 424, Code: "NoETag", Message: id + " was answered without an ETag", Target: id}
		}
	}
	return nil
}

// resolved asks the library where a request is sent.
func (p *performance) resolved(url, sent, location string, isPost bool) (string, error) {
	base, roots, own, from, place := []byte(p.Base), []byte(strings.Join(p.Roots, "\n")), []byte(url), []byte(sent), []byte(location)
	status, text, _ := called(len(base)+len(own)+len(from)+len(place)+more, func(to *textOut) C.uint32_t {
		return C.odb_resolve(at(base), size(base), at(roots), size(roots), at(own), size(own), at(from), size(from), at(place),
			size(place), bit[isPost], to.text, to.room, &to.length)
	})
	if status == C.ODB_UNREADABLE || status == C.ODB_OUTSIDE {
		return "", &Refusal{Status: 404, Code: "NotFound", Message: "The URL leads out of the service"}
	} else if status == C.ODB_NO_LOCATION {
		return "", &Refusal{Status: 424, Code: "NoLocation", Message: "What it refers to was answered without the URL of what it has created"}
	}
	return string(text), failure(status, nil)
}

// mediaType returns whether a Content-Type is that of JSON or of a text, and its character set.
func mediaType(contentType string) (isJSON, isText bool, charset string) {
	kind, more, _ := mime.ParseMediaType(contentType)
	isJSON = kind == "" || kind == "application/json" || strings.HasSuffix(kind, "+json")
	return isJSON, strings.HasPrefix(kind, "text/"), strings.ToLower(more["charset"])
}

// toWire returns the bytes on the wire of a body in a batch (OData JSON Format 4.01, section 19.1): JSON as it is, a text, or what
// base64url stands for.
func toWire(text []byte, contentType string) ([]byte, error) {
	var value string
	isJSON, isText, charset := mediaType(contentType)
	if text == nil || isJSON {
		return text, nil
	} else if err := json.Unmarshal(text, &value); err != nil {
		return nil, err
	} else if !isText {
		return base64.RawURLEncoding.DecodeString(strings.TrimRight(value, "="))
	} else if charset != "" && charset != "utf-8" && charset != "us-ascii" {
		return nil, &Refusal{Status: 400, Code: "BadCharset", Message: "The body cannot be written in " + charset, Target: "content-type"}
	}
	return []byte(value), nil
}

// toJSON returns the text in a batch or a response of a body on the wire; nil if it is empty.
func toJSON(wire []byte, contentType string) []byte {
	isJSON, isText, _ := mediaType(contentType)
	if len(wire) == 0 {
		return nil
	} else if isJSON {
		return bytes.TrimPrefix(wire, []byte("\xef\xbb\xbf"))
	} else if isText {
		return asText(wire)
	}
	return []byte(`"` + base64.RawURLEncoding.EncodeToString(wire) + `"`)
}

// asText returns bytes as a string of JSON; if they are not in UTF-8 each byte is a character.
func asText(wire []byte) []byte {
	if !utf8.Valid(wire) {
		characters := make([]rune, len(wire))
		for i, it := range wire {
			characters[i] = rune(it)
		}
		wire = []byte(string(characters))
	}
	text, _ := encoded(string(wire))
	return text
}

// encoded returns the JSON of a value, with < and > and & as they are.
func encoded(value any) ([]byte, error) {
	var text bytes.Buffer
	encoder := json.NewEncoder(&text)
	encoder.SetEscapeHTML(false)
	err := encoder.Encode(value)
	return bytes.TrimSuffix(text.Bytes(), []byte("\n")), err
}

// isOne returns whether a name is one of some, or begins with one of some prefixes.
func isOne(name string, of, prefixes []string) (is bool) {
	for _, it := range of {
		is = is || it == name
	}
	for _, it := range prefixes {
		is = is || strings.HasPrefix(name, it)
	}
	return is
}

// joined returns headers with their names in lower case, of which later ones come first.
func joined(all ...map[string]string) map[string]string {
	found := map[string]string{}
	for _, headers := range all {
		for name, value := range headers {
			found[strings.ToLower(name)] = value
		}
	}
	return found
}
