package odb_test

import (
	"bufio"
	"bytes"
	"context"
	"encoding/json"
	"fmt"
	"io"
	"log"
	"net"
	"net/http"
	"net/http/httptest"
	"sort"
	"strings"
	"sync/atomic"
	"testing"
	"time"

	"odb_batch/odb"
)

// served serves a handler with batches; returns a function that posts a batch of GETs and POSTs, and what its requests are answered.
func served(t *testing.T, next http.HandlerFunc, options odb.HandlerOptions) (*httptest.Server, func(headers http.Header, requests ...string) map[string]answer) {
	t.Helper()
	options.Path = "/odata/$batch"
	options.Log = log.New(io.Discard, "", 0)
	server := httptest.NewServer(odb.Handler(next, options))
	t.Cleanup(server.Close)
	return server, func(headers http.Header, requests ...string) map[string]answer {
		t.Helper()
		var text strings.Builder
		for i, it := range requests {
			method, rest, _ := strings.Cut(it, " ")
			url, more, _ := strings.Cut(rest, " ")
			fmt.Fprintf(&text, `,{"id":"r%d","method":%q,"url":%q%s}`, i, method, url, more)
		}
		status, found := posted(t, server, headers, `{"requests":[`+text.String()[1:]+"]}")
		if status != 200 {
			t.Fatal(status, found)
		}
		return found
	}
}

type answer struct {
	ID      string
	Status  int
	Headers map[string]string
	Body    any
}

// posted posts a batch; returns the status, and the answers by their ids, or the error as "".
func posted(t *testing.T, server *httptest.Server, headers http.Header, batch string) (int, map[string]answer) {
	t.Helper()
	post, _ := http.NewRequest("POST", server.URL+"/odata/$batch", strings.NewReader(batch))
	post.Header = http.Header{"Content-Type": {"application/json"}, "Prefer": {"odata.continue-on-error"}}
	for name, values := range headers {
		post.Header[name] = values
	}
	if host := post.Header.Get("Host"); host != "" {
		post.Host = host
	}
	got, err := server.Client().Do(post)
	if err != nil {
		t.Fatal(err)
	}
	defer got.Body.Close()
	var read struct {
		Responses []answer
		Error     struct{ Code string }
	}
	text, _ := io.ReadAll(got.Body) // to its end, which is sent once the handler has returned
	if err := json.Unmarshal(text, &read); err != nil || got.Header.Get("OData-Version") != "4.01" {
		t.Fatal(err, got.Header)
	}
	found := map[string]answer{"": {ID: read.Error.Code, Headers: map[string]string{"applied": got.Header.Get("Preference-Applied")}}}
	for _, it := range read.Responses {
		found[it.ID] = it
	}
	return got.StatusCode, found
}

func echo(w http.ResponseWriter, r *http.Request) {
	body, _ := io.ReadAll(r.Body)
	switch r.URL.Path {
	case "/odata/panic":
		panic("a panic")
	case "/odata/abort":
		panic(http.ErrAbortHandler)
	case "/odata/none":
		w.WriteHeader(204)
		if _, err := w.Write([]byte("x")); err != http.ErrBodyNotAllowed {
			panic(err)
		}
	case "/odata/early":
		w.WriteHeader(103)
		w.Header().Set("X-Own", "1")
		w.WriteHeader(202)
		w.WriteHeader(500)
		w.Header().Set("X-Late", "1")
		w.(http.Flusher).Flush()
	default:
		fmt.Fprint(w, r.Method, " ", r.RequestURI, " ", r.Host != "", " ", r.Header.Get("Authorization"), " ", r.Header.Get("Prefer"), " ", string(body))
	}
}

func TestHandler(t *testing.T) {
	for _, width := range []int{1, 4} {
		options := odb.HandlerOptions{}
		options.Width = width
		_, post := served(t, echo, options)
		headers := http.Header{"Authorization": {"me"}, "Prefer": {`continue-on-error, return=minimal, wait=5; x="a,b"`}}
		found := post(headers, "get Books?x=1", "get panic", "get none", "get Books", "get /odata/Books", "get early", "get nested/../batch", "get abort",
			`post Books ,"body":"a<b","headers":{"Content-Type":"text/plain","Prefer":"return=representation","Host":"x","User-Agent":"y"}`)
		for id, wanted := range map[string]string{
			"r0": "200 GET /odata/Books?x=1 true me return=minimal ", "r1": "500", "r2": "204 <nil>", "r3": "200", "r4": "200", "r5": "202 <nil>", "r7": "502",
			"r8": "200 POST /odata/Books true me return=representation, return=minimal a<b",
		} {
			if it := found[id]; !strings.HasPrefix(fmt.Sprint(it.Status, " ", it.Body), wanted) {
				t.Errorf("%s: %d %v, not %s", id, it.Status, it.Body, wanted)
			}
		}
		if early := found["r5"].Headers; early["x-own"] != "1" || early["x-late"] != "" {
			t.Error(early)
		}
		if kind := found["r0"].Headers["content-type"]; kind != "text/plain; charset=utf-8" || found[""].Headers["applied"] != "continue-on-error" {
			t.Error(kind, found[""])
		}
	}
}

// A batch that is posted to another path than one that ends with $batch, and holds itself.
func TestANestedBatch(t *testing.T) {
	handler := odb.Handler(http.HandlerFunc(echo), odb.HandlerOptions{Path: "/odata/all"})
	post := httptest.NewRequest("POST", "/odata/all", strings.NewReader(`{"requests":[{"id":"a","method":"post","url":"%61ll","body":{"requests":[]}}]}`))
	post.Header.Set("Content-Type", "application/json")
	got := httptest.NewRecorder()
	handler.ServeHTTP(got, post)
	if got.Code != 200 || !strings.Contains(got.Body.String(), "NestedBatch") {
		t.Error(got.Code, got.Body)
	}
}

// Nothing is sent that leads out of the folder of the batch, as it is written or by a Location.
func TestRequestsOutsideOfTheRoot(t *testing.T) {
	var seen []string
	_, post := served(t, func(w http.ResponseWriter, r *http.Request) {
		seen = append(seen, r.RequestURI)
		w.Header().Set("Location", "http://elsewhere/odata/Books(1)")
	}, odb.HandlerOptions{})
	found := post(nil, "get ../admin", "get /admin", "get %2e%2e/admin", "get %252e%252e/admin", `get ..%5cadmin`, "get http://elsewhere/odata/Books",
		"get //elsewhere/odata/Books", "get x/../../admin", "post Books", `get $r8/Pages ,"dependsOn":["r8"]`)
	for id, it := range found {
		if id != "" && it.Status != 404 && id != "r8" || id == "r8" && it.Status != 200 {
			t.Error(id, it)
		}
	}
	if len(found) != 11 || fmt.Sprint(seen) != "[/odata/Books]" {
		t.Error(found, seen)
	}
}

// A request can neither pass for another client nor be split.
func TestHeadersThatDoNotPass(t *testing.T) {
	var sent int
	_, post := served(t, func(w http.ResponseWriter, r *http.Request) { sent++ }, odb.HandlerOptions{Allowed: []string{"x-dry-run"}})
	with := func(name, value string) string { return fmt.Sprintf(`get Books ,"headers":{%q:"%s"}`, name, value) }
	found := post(nil, with("X-Forwarded-For", "1"), with("Authorization", "you"), with("Cookie", "a=b"), with("Accept", `a\u0001`), with("Accept", `a\r\nb: c`),
		with("Accept", `a\u0000`), with("X-Dry-Run", "1"), with("Accept-Encoding", "gzip"))
	for id, it := range found {
		if id != "" && (it.Status == 400) != (id < "r6") {
			t.Error(id, it)
		}
	}
	if sent != 2 {
		t.Error(sent)
	}
}

func TestInheritedHeaders(t *testing.T) {
	_, post := served(t, func(w http.ResponseWriter, r *http.Request) {
		var names []string
		for name := range r.Header {
			names = append(names, name)
		}
		sort.Strings(names)
		fmt.Fprint(w, names)
	}, odb.HandlerOptions{})
	headers := http.Header{"If-Match": {"x"}, "Content-Language": {"de"}, "Range": {"bytes=1-"}, "Idempotency-Key": {"1"}, "Traceparent": {"t"},
		"X-Http-Method-Override": {"DELETE"}, "Accept": {"a/b"}, "Te": {"trailers"}, "Odata-Maxversion": {"4.0"}, "X-Own": {"1"}, "Accept-Language": {"de"}}
	found := post(headers, "get x", `get y ,"headers":{"If-None-Match":"y","accept":"c/d"}`)
	if found["r0"].Body != "[Accept-Language Odata-Maxversion Traceparent User-Agent X-Own]" {
		t.Error(found["r0"].Body)
	}
	if found["r1"].Body != "[Accept Accept-Language If-None-Match Odata-Maxversion Traceparent User-Agent X-Own]" {
		t.Error(found["r1"].Body)
	}
}

func TestWhatIsNoBatch(t *testing.T) {
	server, _ := served(t, echo, odb.HandlerOptions{MaxSize: 100})
	for name, it := range map[string]struct {
		headers http.Header
		batch   string
		wanted  string
	}{
		"type":       {http.Header{"Content-Type": {"multipart/mixed"}}, "x", "415 BadMediaType"},
		"coding":     {http.Header{"Content-Encoding": {"gzip"}}, "x", "415 BadEncoding"},
		"repeatable": {http.Header{"Repeatability-Request-Id": {"1"}}, "x", "501 NotRepeatable"},
		"refused":    {nil, `{"requests":7}`, "400 F04"},
		"long":       {nil, `{"requests":[]` + strings.Repeat(" ", 100) + "}", "413 TooLong"},
		"groups":     {nil, `{"requests":[{"id":"a","method":"get","url":"A","atomicityGroup":"g"}]}`, "501 NoGroups"},
	} {
		if status, found := posted(t, server, it.headers, it.batch); fmt.Sprint(status, " ", found[""].ID) != it.wanted {
			t.Error(name, status, found)
		}
	}
	got, err := server.Client().Get(server.URL + "/odata/$batch")
	if err != nil || got.StatusCode != 405 || got.Header.Get("Allow") != "POST" {
		t.Error(got, err)
	}
	got.Body.Close()
}

func TestStopsAtTheFirstError(t *testing.T) {
	server, _ := served(t, echo, odb.HandlerOptions{})
	batch := `{"requests":[{"id":"a","method":"get","url":"A"},{"id":"b","method":"get","url":"panic"},{"id":"c","method":"get","url":"C"}]}`
	for prefer, wanted := range map[string]int{"": 424, "continue-on-error=false": 424, `odata.continue-on-error="true"`: 200, "CONTINUE-on-error ; x": 200} {
		_, found := posted(t, server, http.Header{"Prefer": {prefer}}, batch)
		if found["a"].Status != 200 || found["b"].Status != 500 || found["c"].Status != wanted {
			t.Error(prefer, found)
		}
	}
}

func TestBehindAProxy(t *testing.T) {
	_, post := served(t, func(w http.ResponseWriter, r *http.Request) {
		w.Header().Set("Location", "https://outside.example/odata/Books(1)")
		fmt.Fprint(w, r.URL.Path)
	}, odb.HandlerOptions{})
	headers := http.Header{"X-Forwarded-Host": {"outside.example, inner"}}
	found := post(headers, "post Books", `get $r0/Pages ,"dependsOn":["r0"]`, "get https://outside.example/odata/x", "get https://other.example/odata/x")
	if wrong := post(http.Header{"X-Forwarded-Host": {"a b/c?d, ,"}}, "get x"); wrong["r0"].Status != 200 {
		t.Error(wrong)
	}
	if found["r1"].Body != "/odata/Books(1)/Pages" || found["r2"].Body != "/odata/x" || found["r3"].Status != 404 {
		t.Error(found)
	}
}

// A handler that hangs is left by its context, and what comes after it is answered.
func TestAHandlerThatHangs(t *testing.T) {
	options := odb.HandlerOptions{}
	options.Timeout = 20 * time.Millisecond
	_, post := served(t, func(w http.ResponseWriter, r *http.Request) {
		if r.URL.Path == "/odata/hang" {
			<-r.Context().Done()
			panic(r.Context().Err())
		}
	}, options)
	if found := post(nil, "get hang", "get x"); found["r0"].Status < 500 || found["r1"].Status != 200 {
		t.Error(found)
	}
}

// A handler that writes without end is cut, and so are answers that are too long together.
func TestLongAnswers(t *testing.T) {
	var written int64
	_, post := served(t, func(w http.ResponseWriter, r *http.Request) {
		for r.URL.Path == "/odata/endless" && r.Context().Err() == nil {
			n, err := w.Write(make([]byte, 1000))
			if atomic.AddInt64(&written, int64(n)); r.Method == "GET" && err == nil && written > 1e6 || written > 1e7 {
				return
			}
		}
		fmt.Fprint(w, strings.Repeat("y", 6000))
	}, odb.HandlerOptions{MaxSize: 10000})
	found := post(nil, "get endless", "get first", "get second", "post third")
	for id, wanted := range map[string]int{"r0": 507, "r1": 200, "r2": 507, "r3": 200} {
		if found[id].Status != wanted {
			t.Error(id, found[id].Status)
		}
	}
	if found["r3"].Body != nil || written > 20000 {
		t.Error(found["r3"], written)
	}
	if found = post(nil, "post endless"); found["r0"].Status != 200 || found["r0"].Body != nil {
		t.Error(found)
	}
}

// What has no memory is answered 503, but a write keeps its status; all is given back at the end.
func TestBatchesTakeNoMoreMemoryThanTheyMay(t *testing.T) {
	inside, left := make(chan bool), make(chan bool)
	for _, width := range []int{1, 8} {
		options := odb.HandlerOptions{Memory: 70_000}
		options.Width = width
		server, post := served(t, func(w http.ResponseWriter, r *http.Request) {
			switch r.URL.Path {
			case "/odata/endless":
				for err := error(nil); err == nil; {
					_, err = w.Write(make([]byte, 1000))
				}
				w.Write([]byte("more"))
			case "/odata/held":
				fmt.Fprint(w, strings.Repeat("x", 60_000))
				inside <- true
				<-left
			case "/odata/long":
				fmt.Fprint(w, strings.Repeat("y", 60_000))
			}
		}, options)
		for i := 0; i < 3; i++ {
			needs := `,"dependsOn":["r1"]`
			found := post(nil, "get endless", "get long", "get long "+needs, "delete long "+needs, "get x")
			for id, wanted := range map[string]string{"r0": "503 1", "r1": "200 ", "r2": "503 1", "r3": "200 ", "r4": "200 "} {
				// With a greater width the first may have what the second has not then.
				if it := found[id]; fmt.Sprint(it.Status, " ", it.Headers["retry-after"]) != wanted && (width == 1 || id == "r0" || id == "r4") {
					t.Error(width, id, it.Status, it.Headers)
				}
			}
			if found["r3"].Status == 200 && found["r3"].Body != nil || width == 1 && len(found["r1"].Body.(string)) != 60_000 {
				t.Error(width, found)
			}
		}
		batch := `{"requests":[{"id":"a","method":"get","url":"x"}]}`
		if status, found := posted(t, server, nil, batch+strings.Repeat(" ", 70_000)); status != 503 || found[""].ID != "Busy" {
			t.Error(status, found)
		}
		if status, found := posted(t, server, nil, batch+strings.Repeat(" ", 60_000)); status != 200 {
			t.Error(status, found)
		}
		// Of two batches at once the second has what the first leaves, and all once that has ended.
		ended := make(chan map[string]answer)
		go func() { ended <- post(nil, "get held") }()
		<-inside
		if status, _ := posted(t, server, nil, batch+strings.Repeat(" ", 20_000)); status != 503 {
			t.Error(status)
		}
		if found := post(nil, "get long", "get x"); found["r0"].Status != 503 || found["r1"].Status != 200 {
			t.Error(found)
		}
		left <- true
		if found := <-ended; found["r0"].Status != 200 || len(found["r0"].Body.(string)) != 60_000 {
			t.Error(found["r0"].Status)
		}
		if found := post(nil, "get long"); found["r0"].Status != 200 {
			t.Error(found)
		}
	}
}

// A client that leaves ends its requests, and rolls its group back.
func TestAClientThatLeaves(t *testing.T) {
	inside, ended := make(chan bool), make(chan error, 1)
	var sent int32
	options := odb.HandlerOptions{}
	options.Transaction = func(ctx context.Context, _ string, do func(ctx context.Context) error) error {
		err := do(ctx)
		ended <- err
		return err
	}
	server, _ := served(t, func(w http.ResponseWriter, r *http.Request) {
		atomic.AddInt32(&sent, 1)
		close(inside)
		<-r.Context().Done()
	}, options)
	connection, err := net.Dial("tcp", server.Listener.Addr().String())
	if err != nil {
		t.Fatal(err)
	}
	batch := `{"requests":[{"id":"a","method":"post","url":"A","atomicityGroup":"g"},{"id":"b","method":"post","url":"B","atomicityGroup":"g"}]}`
	fmt.Fprintf(connection, "POST /odata/$batch HTTP/1.1\r\nHost: x\r\nContent-Type: application/json\r\nContent-Length: %d\r\n\r\n%s", len(batch), batch)
	<-inside
	connection.Close()
	select {
	case err := <-ended:
		if err == nil || sent != 1 {
			t.Error(err, sent)
		}
	case <-time.After(30 * time.Second):
		t.Error("the group has not ended")
	}
}

// A batch that is cut off is not performed.
func TestACutBatch(t *testing.T) {
	server, _ := served(t, func(w http.ResponseWriter, r *http.Request) { t.Error("sent") }, odb.HandlerOptions{})
	connection, err := net.Dial("tcp", server.Listener.Addr().String())
	if err != nil {
		t.Fatal(err)
	}
	defer connection.Close()
	fmt.Fprint(connection, "POST /odata/$batch HTTP/1.1\r\nHost: x\r\nContent-Type: application/json\r\nContent-Length: 100\r\n\r\n{\"requests\":[]}")
	connection.(*net.TCPConn).CloseWrite()
	got, err := http.ReadResponse(bufio.NewReader(connection), nil)
	if err == nil && got.StatusCode != 400 {
		t.Error(got.Status)
	}
}

// A login inside of the handler sees each request of a batch.
func TestALoginSeesEachRequest(t *testing.T) {
	var seen bytes.Buffer
	login := http.HandlerFunc(func(w http.ResponseWriter, r *http.Request) {
		fmt.Fprintln(&seen, r.URL.Path, r.RemoteAddr != "")
		if r.URL.Path == "/odata/secret" {
			w.WriteHeader(403)
		}
	})
	_, post := served(t, login, odb.HandlerOptions{})
	found := post(nil, "get secret", "get x")
	if found["r0"].Status != 403 || found["r1"].Status != 200 || seen.String() != "/odata/secret true\n/odata/x true\n" {
		t.Error(found, seen.String())
	}
}
