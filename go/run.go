//go:build cgo

package odb

// #include "odb_batch.h"
import "C"

import (
	"encoding/json"
	"fmt"
	"runtime"
	"sort"
	"strings"
	"sync"
	"sync/atomic"
)

// open counts the runs that are not closed, for tests: their memory alone is too little to be seen.
var open atomic.Int64

// LiveRun is a run whose caller performs the requests: it says which may start now, takes what each is answered, and has the
// response in the end. Any number of goroutines may use one. Close it; one that is forgotten is closed by the collector.
type LiveRun struct {
	mu       sync.Mutex
	handle   C.odb_live_run
	requests []Request
	byID     map[string]*Request
	listed   []C.uint32_t
	batch    []byte
	size     int // how many bytes the response is made of
}

// Open opens the run of a batch, after recorded events, which may be nil for none. The batch must not change until Close. Events are
// at most MaxDocument bytes, with only whole numbers; to continue a longer run, make its calls again in their order.
func Open(batch, events []byte, policy Policy) (*LiveRun, error) {
	run := &LiveRun{batch: batch, size: len(batch) + len(events) + more, byID: map[string]*Request{}}
	if events == nil {
		events = []byte(`{"events":[]}`)
	}
	status, text, found := called(len(batch)+more, func(to *out[C.odb_request]) C.uint32_t {
		return C.odb_run_open_requests(at(batch), size(batch), at(events), size(events), C.uint32_t(policy.Mode), policy.width(),
			&run.handle, to.text, to.room, &to.length, to.items, to.most, &to.count, seed)
	})
	if err := failure(status, text, batch, events); err != nil {
		return nil, err
	}
	open.Add(1)
	runtime.SetFinalizer(run, (*LiveRun).Close)
	run.requests, run.listed = requestsOf(batch, string(text), found), make([]C.uint32_t, len(found)+1)
	for i := range run.requests {
		run.byID[run.requests[i].ID] = &run.requests[i]
	}
	return run, nil
}

// Close frees the run; it may be called again, and at any time. It returns nil.
func (r *LiveRun) Close() error {
	r.mu.Lock()
	defer r.mu.Unlock()
	if r.handle != nil {
		C.odb_run_close(r.handle)
		r.handle = nil
		open.Add(-1)
	}
	return nil
}

// use makes a call on an open run, one at a time. The deferred Unlock keeps the run alive, so no finalizer comes between.
func use[T any](r *LiveRun, call func() (T, error)) (found T, err error) {
	r.mu.Lock()
	defer r.mu.Unlock()
	if r.handle == nil {
		return found, ErrClosed
	}
	return call()
}

type positions = out[C.uint32_t]

// list returns the ids of the requests whose positions a call lists, in its order or in that of the batch.
func (r *LiveRun) list(isSorted bool, call func(to *positions) C.uint32_t) ([]string, error) {
	return use(r, func() ([]string, error) {
		to := positions{items: &r.listed[0], most: C.size_t(len(r.listed))}
		status := call(&to)
		found := r.listed[:to.count]
		if isSorted {
			sort.Slice(found, func(i, k int) bool { return found[i] < found[k] })
		}
		return r.ids(found), failure(status, []byte("fault F66 Unfinished events"))
	})
}

func (r *LiveRun) ids(positions []C.uint32_t) (ids []string) {
	for _, position := range positions {
		ids = append(ids, r.requests[position].ID)
	}
	return ids
}

// Ready returns the ids of the requests that may start now, in the order of the batch.
func (r *LiveRun) Ready() ([]string, error) {
	return r.list(true, func(to *positions) C.uint32_t { return C.odb_run_ready(&r.handle, to.items, to.most, &to.count) })
}

// Running returns the ids of the requests that have started and not reported yet, in the order of the batch.
func (r *LiveRun) Running() ([]string, error) {
	return r.list(true, func(to *positions) C.uint32_t { return C.odb_run_running(&r.handle, to.items, to.most, &to.count) })
}

// Undone returns the ids of the requests of the finished run that have to be undone, in this order. Of a run that is not finished the
// error is a *Fault, F66.
func (r *LiveRun) Undone() ([]string, error) {
	return r.list(false, func(to *positions) C.uint32_t { return C.odb_run_undone(&r.handle, to.items, to.most, &to.count) })
}

// NextUnit returns the ids of the first unit that may begin, a group or a request without one; none if no unit may. Start its
// requests one after another, or all by StartUnit.
func (r *LiveRun) NextUnit() ([]string, error) {
	return r.list(false, func(to *positions) C.uint32_t { return C.odb_run_next_unit(&r.handle, to.items, to.most, &to.count) })
}

// Part returns the next part of the run as a batch of its own, and the ids of its requests; none if nothing may be sent now. It has
// limit requests at most, none of which was in a part before, and what they need is in it or has succeeded: $a in a URL is the
// Location that was reported for a, and in If-Match or If-None-Match the ETag, and the part ends before the first unit for which there
// is none. Once it is answered, start its units by StartUnit, and report their requests. The error is ErrOption if a unit has more than
// limit requests; F90 if there is no Location of use for the first unit that may begin, or F91 without an ETag: start and report that one.
func (r *LiveRun) Part(limit int) (document []byte, ids []string, err error) {
	ids, err = use(r, func() ([]string, error) {
		status, text, found := called(len(r.batch)+more, func(to *positions) C.uint32_t {
			return C.odb_run_part(&r.handle, at(r.batch), size(r.batch), number(limit), to.text, to.room, &to.length,
				to.items, to.most, &to.count, seed)
		})
		document = text
		return r.ids(found), failure(status, text, r.batch)
	})
	return document, ids, err
}

// Finished returns whether no event may come any more.
func (r *LiveRun) Finished() (bool, error) {
	return use(r, func() (bool, error) { return C.odb_run_finished(&r.handle) == 1, nil })
}

// Stop lets nothing start any more. What is running is reported as before, and what has not started is answered 424.
func (r *LiveRun) Stop() error {
	_, err := use(r, func() (none struct{}, err error) { C.odb_run_stop(&r.handle); return none, nil })
	return err
}

// State returns what has become of a request: waiting, ready, running, reported, skipped if it never starts any more, or undone if the
// run is finished and it has to be undone; and the status that it has reported or, once the run is finished, is answered, or 0.
func (r *LiveRun) State(id string) (state string, status int, err error) {
	var now, code C.uint32_t
	err = r.event(id, func(at C.uint32_t) (C.uint32_t, []byte) { return C.odb_run_state(&r.handle, at, &now, &code), nil })
	return constants.States[now], int(code), err
}

// event makes a call about a request, which returns a status, as 14 for S4, and the line of a fault.
func (r *LiveRun) event(id string, call func(position C.uint32_t) (C.uint32_t, []byte)) error {
	request := r.byID[id]
	if request == nil {
		return fmt.Errorf("%w: no request has the id %q", ErrOption, id)
	}
	_, err := use(r, func() (none struct{}, err error) {
		status, line := call(request.position)
		if status < C.ODB_ALREADY_STARTED || status > C.ODB_BAD_STATUS {
			return none, failure(status, line)
		}
		code := fmt.Sprintf("%c%d", " SP"[status/10], status%10)
		return none, &Fault{Code: code, Name: strings.Fields(Explanation(code))[1], Place: id}
	})
	return err
}

// Start starts a request: call it just before that is sent. If it may not start, the error is a *Fault, S1 to S5.
func (r *LiveRun) Start(id string) error {
	return r.event(id, func(position C.uint32_t) (C.uint32_t, []byte) { return C.odb_run_start(&r.handle, position), nil })
}

// StartUnit starts all members of the group of a request together, or the request alone if it has none.
func (r *LiveRun) StartUnit(id string) error {
	return r.event(id, func(position C.uint32_t) (C.uint32_t, []byte) { return C.odb_run_start_unit(&r.handle, position), nil })
}

// Report reports what a running request was answered: a status from 200 to 599, headers, and the JSON text of a body, each maybe nil.
// If the headers or the body cannot be in a response, the error is a *Fault, and the request is still running.
func (r *LiveRun) Report(id string, status int, headers map[string]string, body []byte) error {
	var heads []byte
	if headers != nil {
		heads, _ = json.Marshal(headers)
	}
	return r.event(id, func(position C.uint32_t) (found C.uint32_t, line []byte) {
		switch found = C.odb_run_report(&r.handle, position, number(status), at(heads), size(heads), at(body), size(body)); found {
		case C.ODB_DONE:
			r.size += len(heads) + len(body)
		case C.ODB_REFUSED:
			_, line, _ = called(more, func(to *textOut) C.uint32_t {
				return C.odb_report_fault(at(heads), size(heads), at(body), size(body), to.text, to.room, &to.length)
			})
		}
		return found, line
	})
}

// Response returns the response document of the finished run. Of one that is not finished the error is a *Fault, F66.
func (r *LiveRun) Response() ([]byte, error) {
	return use(r, func() ([]byte, error) {
		return answer(r.size, func(to *textOut) C.uint32_t { return C.odb_run_response(&r.handle, to.text, to.room, &to.length) })
	})
}

// Requests returns what is to be sent of the requests, in the order of the batch. They must not be changed.
func (r *LiveRun) Requests() []Request { return r.requests }

// Request returns what is to be sent of a request; nil if no request has the id. It must not be changed.
func (r *LiveRun) Request(id string) *Request { return r.byID[id] }
