//go:build cgo

package odb

import (
	"bytes"
	"context"
	"encoding/json"
	"fmt"
	"io"
	"net/http"
	"net/url"
	"strings"
)

// Batch is a batch that is made by calls. Its zero value is an empty one. A request that refers to an earlier one depends on it
// without further ado, and what depends on a request of a group depends on the group, too. Document returns what is wrong, as a body
// that is not JSON. One goroutine at a time may use it.
type Batch struct {
	elements []element
	groups   map[string]string // by the id of each request
	group    string            // that to which requests are added
	err      error
}

// element is a request in the document of a batch.
type element struct {
	ID      string            `json:"id"`
	Group   string            `json:"atomicityGroup,omitempty"`
	After   []string          `json:"dependsOn,omitempty"`
	Method  string            `json:"method"`
	URL     string            `json:"url"`
	Headers map[string]string `json:"headers,omitempty"`
	Body    any               `json:"body,omitempty"`
	given   []string          // what is to be in After
}

// Reference is the id of a request of a batch. As a text it is $ and its id, for URLs: fmt.Sprint(order, "/Lines").
type Reference string

func (r Reference) String() string { return "$" + string(r) }

// Group is the name of an atomicity group of a batch.
type Group string

// With is an option of a request: After, Header, IfMatch or ID.
type With func(*element)

// After adds dependencies: each a Reference, a Group, or the name of one.
func After(named ...any) With {
	return func(e *element) {
		for _, it := range named {
			e.given = append(e.given, strings.TrimPrefix(fmt.Sprint(it), "$"))
		}
	}
}

// Header sets a header.
func Header(name, value string) With {
	return func(e *element) { e.Headers[strings.ToLower(name)] = value }
}

// IfMatch has a request performed only if the entity has the ETag that another request was answered.
func IfMatch(request Reference) With { return Header("if-match", request.String()) }

// ID gives a request an id; without it that is its number in the batch.
func ID(id string) With { return func(e *element) { e.ID = id } }

// Get adds a GET.
func (b *Batch) Get(url any, with ...With) Reference { return b.Add("GET", url, nil, with...) }

// Post adds a POST.
func (b *Batch) Post(url, body any, with ...With) Reference { return b.Add("POST", url, body, with...) }

// Put adds a PUT.
func (b *Batch) Put(url, body any, with ...With) Reference { return b.Add("PUT", url, body, with...) }

// Patch adds a PATCH.
func (b *Batch) Patch(url, body any, w ...With) Reference { return b.Add("PATCH", url, body, w...) }

// Delete adds a DELETE.
func (b *Batch) Delete(url any, with ...With) Reference { return b.Add("DELETE", url, nil, with...) }

// Add adds a request. The target is a URL, or the Reference to a request; the body is bytes as they are on the wire, or a value
// that Document writes by encoding/json, or nil for none. Bytes are JSON, unless a Content-Type says otherwise.
func (b *Batch) Add(method string, target, body any, with ...With) Reference {
	e := element{ID: fmt.Sprint(len(b.elements) + 1), Method: strings.ToLower(method), URL: fmt.Sprint(target), Group: b.group,
		Headers: map[string]string{}}
	for _, option := range with {
		option(&e)
	}
	if isOne(e.ID, constants.ReservedIDs, nil) {
		b.err = fmt.Errorf("%w: no URL can refer to a request with the id %s", ErrOption, e.ID)
	}
	if e.Body = body; body != nil {
		e.Headers["content-type"] = or(e.Headers["content-type"], "application/json")
	}
	if wire, ok := body.([]byte); ok {
		e.Body = json.RawMessage(toJSON(wire, e.Headers["content-type"]))
	}
	segment, _ := url.PathUnescape(e.URL[:strings.IndexAny(e.URL+"/", "/?#")]) // which may be a reference, as the conditions
	for _, text := range []string{segment, e.Headers["if-match"], e.Headers["if-none-match"]} {
		if _, known := b.groups[strings.TrimPrefix(text, "$")]; known && strings.HasPrefix(text, "$") {
			e.given = append(e.given, text[1:])
		}
	}
	b.depend(&e, e.given)
	if b.elements = append(b.elements, e); b.groups == nil {
		b.groups = map[string]string{}
	}
	b.groups[e.ID] = e.Group
	return Reference(e.ID)
}

// depend adds dependencies, each once, and the groups of what is in one.
func (b *Batch) depend(e *element, after []string) {
	for _, name := range after {
		if name != "" && name != e.Group && !isOne(name, e.After, nil) {
			e.After = append(e.After, name)
			b.depend(e, []string{b.groups[name]})
		}
	}
}

// Group makes the requests that a function adds an atomicity group: all of them are performed, or none.
func (b *Batch) Group(add func()) Group {
	if b.group != "" {
		b.err = fmt.Errorf("%w: a group cannot be in another one", ErrOption)
	}
	b.group = fmt.Sprint("g", len(b.elements)+1)
	defer func() { b.group = "" }()
	add()
	return Group(b.group)
}

// Document returns the document of the batch, or an error of a call.
func (b *Batch) Document() ([]byte, error) {
	if b.err != nil {
		return nil, b.err
	}
	return encoded(map[string]any{"requests": append([]element{}, b.elements...)})
}

// Result is what a request was answered; 424 if it was not sent.
type Result struct {
	ID    string `json:"id"`
	Group string `json:"atomicityGroup,omitempty"`
	Answer
}

// JSON reads the body into a value; returns an error if the request has not succeeded.
func (r Result) JSON(value any) error {
	if !r.OK() {
		return fmt.Errorf("odb: %s was answered %d: %.1000s", r.ID, r.Status, r.Body)
	}
	return json.Unmarshal(r.Body, value)
}

// Results is what the requests of a batch were answered. Without a Location an answer has that of its OData-EntityId; without both
// what was not posted has its own URL.
type Results struct {
	document []byte
	run      *LiveRun
	answers  map[string]Result
}

// Of returns what a request was answered.
func (r *Results) Of(request Reference) Result { return r.answers[string(request)] }

// All returns what the requests were answered, in the order of the batch.
func (r *Results) All() (found []Result) {
	for _, it := range r.run.Requests() {
		found = append(found, r.answers[it.ID])
	}
	return found
}

// Rest returns the document of what failed for now and may be sent again, for Send; nil if nothing may. The error is a *Fault if
// something of it refers to a request that was answered without a Location, F90, or without an ETag, F91.
func (r *Results) Rest() ([]byte, error) {
	text, _ := encoded(map[string]any{"responses": r.All()})
	text, err := Rest(r.document, text, Continue)
	if err != nil || string(text) == `{"requests":[]}` {
		return nil, err
	}
	return text, nil
}

// Client posts batches to a service. All but its URL may be left out. Any number of goroutines may use one.
type Client struct {
	URL     string       // that of $batch
	HTTP    *http.Client // http.DefaultClient if it is nil
	Header  http.Header  // further headers of each part, as Authorization
	Mode    Mode         // Stop for a service that stops at its first error; nothing more is sent then
	Limit   int          // how many requests a part may have, from 1 to MaxRequests; 0 is MaxRequests
	MaxSize int64        // how many bytes an answer of the service may have; MaxDocument if it is 0
}

// Send posts a batch in parts of at most Limit requests, one after another, and returns what its requests were answered. A
// group is never split, and in a later part the Location and the ETag of an answer take the place of a reference.
//
// Without results the batch is refused. With an error beside them a part was not answered, or refused as a whole: its requests have that
// answer, 504 for a timeout and 502 for another failure, and what comes after it was not sent. What was answered 502 or 504 may have
// been performed.
func (c Client) Send(ctx context.Context, document []byte) (*Results, error) {
	c.HTTP, c.Limit, c.MaxSize = or(c.HTTP, http.DefaultClient), or(c.Limit, MaxRequests), or(c.MaxSize, MaxDocument)
	run, err := Open(document, nil, Policy{Mode: c.Mode})
	if err != nil {
		return nil, err
	}
	defer run.Close()
	r := &Results{document, run, map[string]Result{}}
	for _, it := range run.Requests() {
		r.answers[it.ID] = Result{it.ID, it.Group, Answer{Status: 424}}
	}
	for {
		part, ids, err := run.Part(c.Limit)
		if err != nil || len(ids) == 0 {
			return r, err
		}
		responses, err := c.exchange(ctx, part)
		for _, it := range responses { // in mode Stop a request may have none
			r.take(it)
		}
		if err != nil {
			for _, id := range ids {
				r.answers[id] = Result{id, run.Request(id).Group, answerTo(err)}
			}
			return r, err
		}
	}
}

// preferred is what a service is asked for; without it the service stops at its first error.
var preferred = map[Mode][]string{Continue: {"continue-on-error"}}

// exchange posts a part, and returns what its requests were answered.
func (c Client) exchange(ctx context.Context, part []byte) ([]Result, error) {
	post, err := http.NewRequestWithContext(ctx, "POST", c.URL, bytes.NewReader(part))
	if err != nil {
		return nil, err
	}
	post.Header = http.Header{"Content-Type": {"application/json"}, "Accept": {"application/json"}, "Prefer": preferred[c.Mode]}
	for name, values := range c.Header {
		post.Header[name] = values
	}
	answer, err := c.HTTP.Do(post)
	if err != nil {
		return nil, err
	}
	defer answer.Body.Close()
	text, err := io.ReadAll(io.LimitReader(answer.Body, c.MaxSize+1))
	switch {
	case answer.StatusCode >= 400:
		return nil, &Refusal{answer.StatusCode, "Refused", fmt.Sprintf("%.1000s", text), "", nil}
	case err == nil && int64(len(text)) > c.MaxSize:
		err = fmt.Errorf("the answer has more than %d bytes", c.MaxSize)
	case err == nil:
		_, err = Match(part, text, MatchOptions{Mode: c.Mode})
	}
	if err != nil {
		return nil, &url.Error{Op: "Post", URL: c.URL, Err: err} // which is answered 502, or 504
	}
	return Responses(text)
}

// take notes what a request was answered, as bytes on the wire. One that may not start, since others have failed, is skipped by the run.
func (r *Results) take(it Result) {
	it.Answer = it.whole()
	if body, err := toWire(it.Body, it.Headers["content-type"]); err == nil {
		it.Body = body
	}
	request, found := r.run.Request(it.ID), place(it.Headers)
	if found == "" && request.Method != "POST" {
		own, _, _ := strings.Cut(place(r.answers[request.Reference].Headers)+request.Rest, "?")
		found = strings.TrimSuffix(own, "/")
	}
	if found != "" { // an empty Location is none
		it.Headers["location"] = found
	}
	r.answers[it.ID] = it
	_ = r.run.StartUnit(it.ID)
	_ = r.run.Report(it.ID, it.Status, it.Headers, nil)
}
