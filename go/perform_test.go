package odb_test

import (
	"bytes"
	"context"
	"errors"
	"fmt"
	"io"
	"log"
	"net"
	"strings"
	"sync"
	"sync/atomic"
	"testing"
	"time"

	"odb_batch/odb"
)

// sender answers requests by their ids: a status, 1 for an error, 2 for a panic, 3 for an error of the network; 200 if there is none.
type sender struct {
	answers map[string]int
	mu      sync.Mutex
	sent    map[string]string
	order   []string
}

func (s *sender) send(ctx context.Context, request *odb.Request) (odb.Answer, error) {
	s.mu.Lock()
	if s.sent == nil {
		s.sent = map[string]string{}
	}
	s.sent[request.ID] = request.URL
	s.order = append(s.order, request.ID)
	s.mu.Unlock()
	switch status := s.answers[request.ID]; status {
	case 0:
		return odb.Answer{Status: 200, Headers: map[string]string{"Location": "/odata/Books(7)", "connection": "x"}}, nil
	case 1:
		return odb.Answer{}, errors.New("an error")
	case 2:
		panic("a panic")
	case 3:
		return odb.Answer{}, &net.OpError{Op: "dial", Err: errors.New("refused")}
	default:
		return odb.Answer{Status: status}, nil
	}
}

func statuses(t *testing.T, batch, response []byte) string {
	t.Helper()
	found, err := odb.Match(batch, response, odb.MatchOptions{Strict: true})
	if err != nil {
		t.Fatal(err, string(response))
	}
	text := []string{}
	for _, it := range found {
		text = append(text, fmt.Sprint(it.ID, " ", it.Status))
	}
	return strings.Join(text, ", ")
}

// silent has a width and logs nothing.
func silent(width int, transaction odb.TransactionFunc) odb.Options {
	options := odb.Options{Base: "https://host/odata/", Transaction: transaction, Log: log.New(io.Discard, "", 0)}
	options.Width = width
	return options
}

type inTransaction struct{}

func TestPerform(t *testing.T) {
	for _, it := range []struct {
		answers map[string]int
		wanted  string
		ended   string
	}{
		{nil, "a 200, b 200, p 200, q 200, z 200", "begin commit"},
		{map[string]int{"q": 409}, "a 200, b 200, p 424, q 409, z 424", "begin rollback"},
		{map[string]int{"a": 1, "q": 2}, "a 500, b 424, p 424, q 500, z 424", "begin rollback"},
		{map[string]int{"a": 3, "p": 2}, "a 502, b 424, p 500, q 424, z 424", "begin rollback"},
		{map[string]int{"a": 700, "z": 199}, "a 502, b 424, p 200, q 200, z 502", "begin commit"},
	} {
		for _, width := range []int{1, 8} {
			sender := &sender{answers: it.answers}
			log := []string{}
			transaction := func(ctx context.Context, group string, do func(ctx context.Context) error) error {
				log = append(log, "begin")
				if err := do(context.WithValue(ctx, inTransaction{}, group)); err != nil {
					log = append(log, "rollback")
					return err
				}
				log = append(log, "commit")
				return nil
			}
			send := func(ctx context.Context, request *odb.Request) (odb.Answer, error) {
				if group, _ := ctx.Value(inTransaction{}).(string); group != request.Group {
					t.Error(request.ID, "has the context of", group)
				}
				return sender.send(ctx, request)
			}
			response, err := odb.Perform(context.Background(), []byte(usual), send, silent(width, transaction))
			if err != nil {
				t.Fatal(err)
			}
			if found := statuses(t, []byte(usual), response); found != it.wanted {
				t.Error(found, "not", it.wanted)
			}
			if found := strings.Join(log, " "); found != it.ended {
				t.Error(found, "not", it.ended)
			}
			if url, ok := sender.sent["b"]; ok && url != "https://host/odata/Books(7)/Pages" {
				t.Error(url)
			}
			if bytes.Contains(response, []byte("\"connection\"")) || bytes.Contains(response, []byte("Location")) {
				t.Error(string(response))
			}
		}
	}
	if odb.OpenRuns() != 0 {
		t.Error("a run is open")
	}
}

// Each transaction is wrong, or refuses.
func TestTransactions(t *testing.T) {
	type do = func(ctx context.Context) error
	for name, it := range map[string]struct {
		call   func(ctx context.Context, do do) error
		wanted string
		logged int
	}{
		"refuses":    {func(ctx context.Context, do do) error { return &odb.Refusal{Status: 503, Code: "Busy", Message: "x"} }, "p 503, q 424", 0},
		"not begun":  {func(ctx context.Context, do do) error { return errors.New("no connection") }, "p 500, q 424", 1},
		"not called": {func(ctx context.Context, do do) error { return nil }, "p 500, q 424", 1},
		"panics":     {func(ctx context.Context, do do) error { panic("x") }, "p 500, q 424", 1},
		"commit": {func(ctx context.Context, do do) error {
			if err := do(ctx); err != nil {
				return err
			}
			return &odb.Refusal{Status: 409, Code: "Conflict", Message: "x"}
		}, "p 424, q 409", 0},
		"called twice": {func(ctx context.Context, do do) error {
			do(ctx)
			return do(ctx)
		}, "p 424, q 500", 1},
		"not waited for": {func(ctx context.Context, do do) error {
			begun := make(chan struct{})
			go func() { close(begun); do(ctx) }()
			<-begun
			time.Sleep(time.Millisecond)
			return nil
		}, "p 424, q 500", 1},
	} {
		batch := []byte(`{"requests":[{"id":"p","method":"delete","url":"P","atomicityGroup":"g"},{"id":"q","method":"delete","url":"Q","atomicityGroup":"g"}]}`)
		send := func(ctx context.Context, request *odb.Request) (odb.Answer, error) {
			if name == "not waited for" {
				time.Sleep(10 * time.Millisecond)
			}
			return odb.Answer{Status: 204}, nil
		}
		var logged strings.Builder
		options := silent(1, func(ctx context.Context, _ string, do func(ctx context.Context) error) error { return it.call(ctx, do) })
		options.Log = log.New(&logged, "", 0)
		response, err := odb.Perform(context.Background(), batch, send, options)
		if err != nil {
			t.Fatal(name, err)
		}
		if found := statuses(t, batch, response); found != it.wanted || strings.Count(logged.String(), "odb: the group g: ") != it.logged {
			t.Error(name, found, "not", it.wanted, logged.String())
		}
	}
}

// A transaction that swallows the error of its group is logged.
func TestASwallowedFailure(t *testing.T) {
	var logged strings.Builder
	options := silent(1, func(ctx context.Context, _ string, do func(ctx context.Context) error) error { do(ctx); return nil })
	options.Log = log.New(&logged, "", 0)
	response, err := odb.Perform(context.Background(), []byte(usual), (&sender{answers: map[string]int{"p": 409}}).send, options)
	if err != nil || strings.Count(logged.String(), "\n") != 1 || statuses(t, []byte(usual), response) != "a 200, b 200, p 409, q 424, z 424" {
		t.Error(err, logged.String(), string(response))
	}
}

func TestPerformIsCancelled(t *testing.T) {
	for _, width := range []int{1, 8} {
		ctx, cancel := context.WithCancel(context.Background())
		var sent, out int32
		begun := time.Now()
		response, err := odb.Perform(ctx, many(1000), func(ctx context.Context, request *odb.Request) (odb.Answer, error) {
			atomic.AddInt32(&out, 1)
			defer atomic.AddInt32(&out, -1)
			if atomic.AddInt32(&sent, 1) == 20 {
				cancel()
			}
			select {
			case <-ctx.Done():
				return odb.Answer{}, ctx.Err()
			case <-time.After(time.Millisecond):
				return odb.Answer{Status: 200}, nil
			}
		}, silent(width, nil))
		if response != nil || !errors.Is(err, context.Canceled) || sent > 40 || out != 0 || time.Since(begun) > 30*time.Second {
			t.Error(width, string(response), err, sent, out, time.Since(begun))
		}
	}
}

// A group whose client leaves is rolled back.
func TestAGroupIsCancelled(t *testing.T) {
	ctx, cancel := context.WithCancel(context.Background())
	var ended error
	transaction := func(ctx context.Context, _ string, do func(ctx context.Context) error) error {
		ended = do(ctx)
		return ended
	}
	send := func(ctx context.Context, request *odb.Request) (odb.Answer, error) {
		if request.ID == "q" {
			cancel()
		}
		return odb.Answer{Status: 200, Headers: map[string]string{"location": "/odata/x"}}, nil
	}
	_, err := odb.Perform(ctx, []byte(usual), send, silent(1, transaction))
	if !errors.Is(err, context.Canceled) || !errors.Is(ended, context.Canceled) {
		t.Error(err, ended)
	}
}

func TestTimeout(t *testing.T) {
	options := silent(8, nil)
	options.Timeout = 20 * time.Millisecond
	batch := many(20)
	response, err := odb.Perform(context.Background(), batch, func(ctx context.Context, request *odb.Request) (odb.Answer, error) {
		if request.ID != "r7" {
			return odb.Answer{Status: 204}, nil
		}
		<-ctx.Done()
		return odb.Answer{}, ctx.Err()
	}, options)
	if err != nil || bytes.Count(response, []byte("204")) != 19 || bytes.Count(response, []byte("504")) != 1 {
		t.Error(err, string(response))
	}
}

func TestStops(t *testing.T) {
	for _, width := range []int{1, 8} {
		var sent int32
		options := silent(width, nil)
		options.Stop = func() bool { return atomic.LoadInt32(&sent) >= 10 }
		send := func(ctx context.Context, request *odb.Request) (odb.Answer, error) {
			atomic.AddInt32(&sent, 1)
			return odb.Answer{Status: 200}, nil
		}
		response, err := odb.Perform(context.Background(), many(100), send, options)
		if err != nil || sent > 20 || bytes.Count(response, []byte(`:424`)) != int(100-sent) {
			t.Error(err, sent, string(response))
		}
		options = silent(width, nil)
		options.Mode = odb.Stop
		sender := &sender{answers: map[string]int{"r3": 404}}
		response, err = odb.Perform(context.Background(), many(1000), sender.send, options)
		if err != nil || bytes.Count(response, []byte(`:424`)) != 1000-len(sender.sent) || len(sender.sent) > 900 || width == 1 && len(sender.sent) != 4 {
			t.Error(err, len(sender.sent))
		}
	}
}

// No more requests are out at once than the width says, but several.
func TestWidth(t *testing.T) {
	for _, width := range []int{1, 3, 8} {
		var out, most int32
		_, err := odb.Perform(context.Background(), many(60), func(ctx context.Context, request *odb.Request) (odb.Answer, error) {
			for now := atomic.AddInt32(&out, 1); ; {
				before := atomic.LoadInt32(&most)
				if now <= before || atomic.CompareAndSwapInt32(&most, before, now) {
					break
				}
			}
			time.Sleep(2 * time.Millisecond)
			atomic.AddInt32(&out, -1)
			return odb.Answer{Status: 204}, nil
		}, silent(width, nil))
		if err != nil || most > int32(width) || width > 1 && most < 2 {
			t.Error(err, most, "not", width)
		}
	}
}

// Answers that are there at once, apart and in one group.
func TestTenThousand(t *testing.T) {
	for _, width := range []int{1, 8} {
		for _, group := range []string{"", `"atomicityGroup":"g",`} {
			batch := bytes.ReplaceAll(many(10000), []byte(`"method"`), []byte(group+`"method"`))
			transaction := func(ctx context.Context, _ string, do func(ctx context.Context) error) error { return do(ctx) }
			sender := &sender{}
			response, err := odb.Perform(context.Background(), batch, sender.send, silent(width, transaction))
			if err != nil || bytes.Count(response, []byte(`"status":200`)) != 10000 {
				t.Error(width, group, err)
			}
			if width == 1 && sender.order[9999] != "r9999" {
				t.Error(sender.order[9999])
			}
		}
	}
}

func TestReferences(t *testing.T) {
	batch := []byte(`{"requests":[
{"id":"a","method":"post","url":"Books","headers":{"Content-Type":"text/plain"},"body":"x<y"},
{"id":"b","method":"get","url":"$a/Pages?x=1","dependsOn":["a"]},
{"id":"c","method":"patch","url":"$b","headers":{"If-Match":"$a","Content-Type":"application/octet-stream"},"dependsOn":["a","b"],"body":"AP8"},
{"id":"d","method":"get","url":"$c","dependsOn":["c"],"headers":{"If-None-Match":"$c"}},
{"id":"e","method":"get","url":"../admin"},
{"id":"f","method":"post","url":"Loans","headers":{"Content-Type":"application/octet-stream"},"body":"AP8="},
{"id":"g","method":"get","url":"$f/x","dependsOn":["f"]}]}`)
	got := map[string]odb.Request{}
	send := func(ctx context.Context, request *odb.Request) (odb.Answer, error) {
		got[request.ID] = *request
		if request.ID == "a" {
			return odb.Answer{Status: 201, Headers: map[string]string{"OData-EntityId": "../other/Books(7)", "ETag": `W/"1"`}}, nil
		}
		return odb.Answer{Status: 204}, nil
	}
	options := silent(1, nil)
	options.Roots = []string{"https://host/"}
	response, err := odb.Perform(context.Background(), batch, send, options)
	if err != nil {
		t.Fatal(err)
	}
	if found := statuses(t, batch, response); found != "a 201, b 204, c 204, d 424, e 204, f 204, g 424" {
		t.Error(found)
	}
	for id, wanted := range map[string]string{
		"a": "https://host/odata/Books map[content-type:text/plain] x<y",
		"b": "https://host/other/Books(7)/Pages?x=1 map[] ",
		"c": "https://host/other/Books(7)/Pages map[content-type:application/octet-stream if-match:W/\"1\"] \x00\xff",
		"e": "https://host/admin map[] ",
		"f": "https://host/odata/Loans map[content-type:application/octet-stream] \x00\xff",
	} {
		if found := fmt.Sprint(got[id].URL, got[id].Headers, string(got[id].Body)); strings.ReplaceAll(found, " ", "") != strings.ReplaceAll(wanted, " ", "") {
			t.Errorf("%s: %q not %q", id, found, wanted)
		}
	}
	if !bytes.Contains(response, []byte("NoETag")) || !bytes.Contains(response, []byte("NoLocation")) {
		t.Error(string(response))
	}
}

// An empty Location is shown, and is none.
func TestAnEmptyLocation(t *testing.T) {
	batch := []byte(`{"requests":[{"id":"a","method":"post","url":"A"},{"id":"b","method":"get","url":"$a/x","dependsOn":["a"]}]}`)
	send := func(ctx context.Context, request *odb.Request) (odb.Answer, error) {
		return odb.Answer{Status: 201, Headers: map[string]string{"Location": "", "X": ""}}, nil
	}
	response, err := odb.Perform(context.Background(), batch, send, silent(1, nil))
	if err != nil || !bytes.Contains(response, []byte(`"location":""`)) || !bytes.Contains(response, []byte(`"x":""`)) {
		t.Error(err, string(response))
	}
	if found := statuses(t, batch, response); found != "a 201, b 424" {
		t.Error(found)
	}
}

func TestBodies(t *testing.T) {
	for _, it := range []struct{ kind, wire, wanted string }{
		{"application/json", "\xef\xbb\xbf[9.990]", "[9.990]"},
		{"application/json", "{", `"{"`},
		{"", "7", "7"},
		{"text/html; charset=utf-8", "<p>&\u2028", `"<p>&\u2028"`},
		{"text/plain", "\xe4", `"ä"`},
		{"image/png", "\x00\xff", `"AP8"`},
		{"application/problem+json", `{"a" : 1}`, `{"a" : 1}`},
		{"application/json", strings.Repeat("[", 200), `"` + strings.Repeat("[", 200) + `"`},
	} {
		send := func(ctx context.Context, request *odb.Request) (odb.Answer, error) {
			return odb.Answer{Status: 200, Headers: map[string]string{"Content-Type": it.kind}, Body: []byte(it.wire)}, nil
		}
		response, err := odb.Perform(context.Background(), many(1), send, silent(1, nil))
		if err != nil || !bytes.Contains(response, []byte(`"body":`+it.wanted+`,`)) {
			t.Error(it.kind, err, string(response))
		}
	}
	long := bytes.Repeat([]byte(" "), odb.MaxDocument+1)
	for method, wanted := range map[string]string{"get": `"status":507`, "post": `[{"id":"r0","status":200}]`} {
		send := func(ctx context.Context, request *odb.Request) (odb.Answer, error) {
			return odb.Answer{Status: 200, Body: long}, nil
		}
		batch := bytes.ReplaceAll(many(1), []byte("get"), []byte(method))
		response, err := odb.Perform(context.Background(), batch, send, silent(1, nil))
		if err != nil || !bytes.Contains(response, []byte(wanted)) {
			t.Error(method, err, string(response[:200]))
		}
	}
}

func TestBatchesThatAreRefused(t *testing.T) {
	send := func(ctx context.Context, request *odb.Request) (odb.Answer, error) { panic("sent") }
	options := silent(1, nil)
	options.Limit = 2
	for batch, wanted := range map[string]int{string(many(3)): 413, usual[:len(usual)-2] + "]}": 413, `{"requests":[{"id":"p","method":"get","url":"A","atomicityGroup":"g"}]}`: 501} {
		_, err := odb.Perform(context.Background(), []byte(batch), send, options)
		var refusal *odb.Refusal
		if !errors.As(err, &refusal) || refusal.Status != wanted {
			t.Error(err)
		}
	}
	if _, err := odb.Perform(context.Background(), []byte("{"), send, options); !isFault(err, "F02") {
		t.Error(err)
	}
	if response, err := odb.Perform(context.Background(), []byte(`{"requests":[]}`), send, options); err != nil || string(response) != `{"responses":[]}` {
		t.Error(string(response), err)
	}
}
