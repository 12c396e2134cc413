//go:build cgo

package odb

import (
	"bytes"
	"context"
	"errors"
	"fmt"
	"io"
	"mime"
	"net/http"
	"net/url"
	"regexp"
	"strings"
	"sync"
	"time"
)

// HandlerOptions of a $batch. The zero value answers /$batch.
type HandlerOptions struct {
	Options          // Base, Roots and Mode are those of each batch; a Limit of 0 is 1,000, a Timeout of 0 is 30 seconds
	Path    string   // where batches are posted; /$batch if it is empty
	Root    string   // what the path of each request begins with, which ends with /; the folder of Path if it is empty
	Allowed []string // further headers that requests of a batch may have, in lower case
	MaxSize int64    // how many bytes a batch may have, and its answers together; MaxDocument if it is 0
	Memory  int64    // how many bytes all batches may have at once, with their answers, at least MaxSize; 268,435,456 if it is 0
}

// Handler answers POST of the path with batches, whose requests next answers in this process; anything else goes to next. So what
// next is made of sees each request of a batch, as a login has to, while what is around Handler sees the batch alone.
//
//	http.ListenAndServe(":8080", odb.Handler(mux, odb.HandlerOptions{Path: "/odata/$batch"}))
//
// In a group the context of a request is the one that the transaction has given to do. If the client leaves, the contexts of its
// requests are done, and nothing more starts.
//
// Beyond MaxSize a batch is answered 413, and a GET in one 507; beyond Memory both are answered 503. Another request has been performed:
// it keeps its status, and loses its body. Bodies are copied, so a process needs four times the Memory.
func Handler(next http.Handler, options HandlerOptions) http.Handler {
	options.Path, options.Limit, options.Timeout = or(options.Path, "/$batch"), or(options.Limit, 1000), or(options.Timeout, 30*time.Second)
	options.Root, options.MaxSize = or(options.Root, folder(options.Path)), or(options.MaxSize, MaxDocument)
	busy := &Refusal{503, "Busy", "Other batches have taken the memory", "", map[string]string{"retry-after": "1"}}
	tooLong := &Refusal{413, "TooLong", fmt.Sprintf("A batch may have %d bytes", options.MaxSize), "", nil}
	all := &memory{left: or(options.Memory, 1<<28), why: busy}
	return http.HandlerFunc(func(w http.ResponseWriter, outer *http.Request) {
		if outer.URL.Path != options.Path {
			next.ServeHTTP(w, outer)
			return
		}
		batch, answers := &memory{left: options.MaxSize, why: tooLong, of: all}, &memory{left: options.MaxSize, why: errTooLong, of: all}
		defer func() { _ = all.take(batch.left + answers.left - 2*options.MaxSize) }() // gives all back
		d := &dispatch{options, next, outer, http.Header{}, batch, answers}
		answer, err := d.answer()
		if fault := new(Fault); errors.As(err, &fault) {
			err = &Refusal{Status: 400, Code: fault.Code, Message: fault.Name + ": " + fault.Explanation(), Target: fault.Place}
		}
		if err != nil {
			answer = answerTo(err)
		}
		for name, value := range answer.Headers {
			w.Header().Set(name, value)
		}
		w.Header().Set("OData-Version", "4.01")
		w.WriteHeader(answer.Status)
		_, _ = w.Write(answer.Body)
	})
}

func folder(path string) string { return path[:strings.LastIndex(path, "/")+1] }

// isHost says whether a text is a host that may be in a URL.
var isHost = regexp.MustCompile(`^([A-Za-z0-9._~-]+|\[[0-9A-Fa-f:.]+\])(:[0-9]{1,5})?$`)

// dispatch has a handler answer the requests of one batch.
type dispatch struct {
	HandlerOptions
	next           http.Handler
	outer          *http.Request
	inherited      http.Header // its Prefer has the preferences that are not for the batch alone
	batch, answers *memory     // what they may have
}

// memory is how many bytes may still be taken, each of another memory, too. Any number of goroutines may use one.
type memory struct {
	mu   sync.Mutex
	left int64
	why  *Refusal // the error beyond it
	of   *memory  // or nil
}

// take takes bytes, or gives some back by a number below 0; returns why there are not as many.
func (m *memory) take(count int64) (err error) {
	m.mu.Lock()
	defer m.mu.Unlock()
	if count > m.left {
		return m.why
	} else if m.of != nil {
		err = m.of.take(count)
	}
	if err == nil {
		m.left -= count
	}
	return err
}

// Write takes the bytes that are written.
func (m *memory) Write(part []byte) (int, error) { return len(part), m.take(int64(len(part))) }

// answer performs the batch that a request carries.
func (d *dispatch) answer() (Answer, error) {
	given := d.outer.Header
	kind, _, _ := mime.ParseMediaType(given.Get("Content-Type"))
	switch coding := strings.ToLower(given.Get("Content-Encoding")); {
	case d.outer.Method != "POST":
		return Answer{}, &Refusal{405, "NotAllowed", d.outer.Method + " does not apply to a batch", "", map[string]string{"allow": "POST"}}
	case kind != "application/json":
		return Answer{}, &Refusal{415, "BadMediaType", "A batch is in application/json", "", map[string]string{"accept": "application/json"}}
	case coding != "" && coding != "identity":
		return Answer{}, &Refusal{415, "BadEncoding", "A batch is not compressed", "", map[string]string{"accept-encoding": "identity"}}
	case given.Get("Repeatability-Request-ID")+given.Get("Repeatability-First-Sent") != "":
		return Answer{}, &Refusal{501, "NotRepeatable", "Batches are not kept here", "", map[string]string{"repeatability-result": "rejected"}}
	}
	batch, err := io.ReadAll(io.TeeReader(d.outer.Body, d.batch))
	if errors.As(err, new(*Refusal)) {
		return Answer{}, err
	} else if err != nil {
		return Answer{}, &Refusal{400, "CutBody", "The batch is not whole", "", nil}
	}
	options, headers := d.Options, map[string]string{"content-type": "application/json"}
	if options.Mode = d.inherit(); options.Mode == Continue {
		headers["preference-applied"] = "continue-on-error"
	}
	// A request is answered here, by its path, whatever host it seems to be sent to: a proxy in front may have another one.
	root := (&url.URL{Path: d.Root}).EscapedPath()
	options.Base, options.Roots = "http://localhost"+(&url.URL{Path: folder(d.Path)}).EscapedPath(), []string{"http://localhost" + root}
	for _, host := range append(strings.Split(given.Get("X-Forwarded-Host"), ","), d.outer.Host) {
		if host = strings.TrimSpace(host); isHost.MatchString(host) {
			options.Roots = append(options.Roots, "http://"+host+root, "https://"+host+root)
		}
	}
	response, err := Perform(d.outer.Context(), batch, d.send, options)
	return Answer{200, headers, response}, err
}

// What a preference is, its name and its value, and what the value of a header may be.
var isPreference = regexp.MustCompile(`(?:[^,"]|"[^"]*"?)+`)
var hasName = regexp.MustCompile(`^\s*(?:odata\.)?([^\s=;]*)\s*(?:=[\s"]*([^\s";]*))?`)
var isValue = regexp.MustCompile("^[\t -~\u00a0-\u00ff]*$")

// inherit notes what the requests have from the request that carries their batch; returns the mode in which that is performed (OData
// Protocol 4.01, section 8.2.8.3).
func (d *dispatch) inherit() Mode {
	mode := Stop
	for _, text := range isPreference.FindAllString(strings.Join(d.outer.Header.Values("Prefer"), ","), -1) {
		found := hasName.FindStringSubmatch(strings.ToLower(text))
		if name, value := found[1], found[2]; name == "continue-on-error" && (value == "" || value == "true") {
			mode = Continue
		} else if name != "" && !isOne(name, constants.Preferences, nil) {
			d.inherited.Add("Prefer", strings.TrimSpace(text))
		}
	}
	for name, values := range d.outer.Header {
		if !isOne(strings.ToLower(name), constants.Headers["not_inherited"], constants.Headers["not_inherited_prefixes"]) {
			d.inherited[name] = values
		}
	}
	return mode
}

// headers returns the headers of a request with those that it has for itself, or a *Refusal.
func (d *dispatch) headers(given map[string]string) (http.Header, error) {
	found, known := d.inherited.Clone(), constants.Headers
	for name, value := range given {
		isAdded := isOne(name, d.Allowed, nil)
		switch {
		case isOne(name, known["of_connection"], nil) || isOne(name, known["usually_dropped"], nil) && !isAdded:
			continue
		case !isAdded && !isOne(name, known["allowed"], known["allowed_prefixes"]):
			return nil, &Refusal{400, "HeaderNotAllowed", "A request of a batch may not have the header " + name, name, nil}
		case !isValue.MatchString(value):
			return nil, &Refusal{400, "BadHeader", "The header " + name + " has a character that no header may have", name, nil}
		case name == "prefer":
			value = strings.Join(append([]string{value}, d.inherited["Prefer"]...), ", ")
		}
		found.Set(name, value)
	}
	return found, nil
}

func (d *dispatch) send(ctx context.Context, request *Request) (Answer, error) {
	ctx, cancel := context.WithCancel(ctx)
	defer cancel()
	inner, err := http.NewRequestWithContext(ctx, request.Method, request.URL, bytes.NewReader(request.Body))
	if err != nil {
		return Answer{}, &Refusal{400, "BadUrl", "The URL cannot be read", "", nil}
	} else if inner.URL.Path == d.Path {
		return Answer{}, &Refusal{400, "NestedBatch", "A batch has no batches", "", nil}
	}
	if inner.Header, err = d.headers(request.Headers); err != nil {
		return Answer{}, err
	}
	inner.RequestURI, inner.RemoteAddr, inner.TLS, inner.Host = inner.URL.RequestURI(), d.outer.RemoteAddr, d.outer.TLS, d.outer.Host
	inner.URL.Scheme, inner.URL.Host = "", "" // as a server sees it
	kept := &recorder{header: http.Header{}, room: d.answers, isRead: request.Method == "GET", end: cancel}
	d.next.ServeHTTP(kept, inner)
	if kept.WriteHeader(200); kept.why != nil && kept.isRead {
		return Answer{}, kept.why
	}
	return kept.answer, nil
}

// recorder keeps what a handler writes, as long as there is room.
type recorder struct {
	header http.Header
	answer Answer // has the headers of when the status was sent, as in a server
	room   *memory
	why    error // there was too little room: a read is ended, and a write loses its body
	isRead bool
	end    func()
}

func (r *recorder) Header() http.Header { return r.header }

// Flush does nothing more: the answer is shown as a whole.
func (r *recorder) Flush() { r.WriteHeader(200) }

func (r *recorder) WriteHeader(status int) {
	if r.answer.Status > 0 || status < 200 {
		return
	}
	r.answer = Answer{status, map[string]string{}, nil}
	for name, values := range r.header {
		r.answer.Headers[strings.ToLower(name)] = strings.Join(values, ", ")
	}
}

func (r *recorder) Write(part []byte) (int, error) {
	if r.WriteHeader(200); r.answer.Status == 204 || r.answer.Status == 304 {
		return 0, http.ErrBodyNotAllowed
	}
	if _, isNamed := r.answer.Headers["content-type"]; !isNamed {
		r.answer.Headers["content-type"] = http.DetectContentType(part)
	}
	if r.why == nil {
		_, r.why = r.room.Write(part)
	}
	if r.why == nil {
		r.answer.Body = append(r.answer.Body, part...)
		return len(part), nil
	}
	_ = r.room.take(-int64(len(r.answer.Body)))
	if r.answer.Body = nil; r.isRead {
		r.end()
		return 0, r.why
	}
	return len(part), nil
}
