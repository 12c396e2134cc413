package odb_test

import (
	"context"
	"encoding/json"
	"errors"
	"fmt"
	"io"
	"net/http"
	"net/http/httptest"
	"strings"
	"testing"
	"time"

	"odb_batch/odb"
)

func TestBatch(t *testing.T) {
	var batch odb.Batch
	book := batch.Post("Books", map[string]any{"Title": "Solaris <1>"}, odb.ID("book"))
	lend := batch.Group(func() {
		batch.Patch(book, map[string]int{"Reader": 42}, odb.IfMatch(book), odb.ID("mark"))
		batch.Post("Loans", []byte(`{"Price": 9.990}`), odb.ID("loan"))
	})
	batch.Get(book, odb.After(lend), odb.ID("lent"))
	batch.Get("$loan/x") // depends on the group, too
	batch.Put("Notes(1)", []byte("a<b"), odb.Header("Content-Type", "text/plain"), odb.After(book, book))
	batch.Delete("%24book?x=1", odb.Header("If-None-Match", "$mark"))
	document, err := batch.Document()
	if err != nil {
		t.Fatal(err)
	}
	counts, err := odb.Check(document)
	if err != nil || counts != (odb.Counts{Requests: 7, Groups: 1}) {
		t.Error(counts, err)
	}
	wanted := `{"requests":[{"id":"book","method":"post","url":"Books","headers":{"content-type":"application/json"},"body":{"Title":"Solaris <1>"}},` +
		`{"id":"mark","atomicityGroup":"g2","dependsOn":["book"],"method":"patch","url":"$book","headers":{"content-type":"application/json","if-match":"$book"},"body":{"Reader":42}},` +
		`{"id":"loan","atomicityGroup":"g2","method":"post","url":"Loans","headers":{"content-type":"application/json"},"body":{"Price":9.990}},` +
		`{"id":"lent","dependsOn":["g2","book"],"method":"get","url":"$book"},` +
		`{"id":"5","dependsOn":["loan","g2"],"method":"get","url":"$loan/x"},` +
		`{"id":"6","dependsOn":["book"],"method":"put","url":"Notes(1)","headers":{"content-type":"text/plain"},"body":"a<b"},` +
		`{"id":"7","dependsOn":["book","mark","g2"],"method":"delete","url":"%24book?x=1","headers":{"if-none-match":"$mark"}}]}`
	if string(document) != wanted {
		t.Errorf("%s\nnot\n%s", document, wanted)
	}
}

func TestBatchesThatAreWrong(t *testing.T) {
	for name, add := range map[string]func(batch *odb.Batch){
		"no JSON":  func(batch *odb.Batch) { batch.Post("A", func() {}) },
		"bytes":    func(batch *odb.Batch) { batch.Post("A", []byte("{")) },
		"reserved": func(batch *odb.Batch) { batch.Get("A", odb.ID("metadata")) },
		"nested":   func(batch *odb.Batch) { batch.Group(func() { batch.Group(func() { batch.Get("A") }) }) },
	} {
		var batch odb.Batch
		batch.Get("A")
		add(&batch)
		batch.Get("B")
		if document, err := batch.Document(); document != nil || err == nil {
			t.Error(name, string(document), err)
		}
	}
	var batch odb.Batch
	if document, err := batch.Document(); err != nil || string(document) != `{"requests":[]}` {
		t.Error(err, string(document))
	}
	batch.Get("A", odb.ID("a"))
	batch.Get("A", odb.ID("a"))
	document, _ := batch.Document()
	results, err := odb.Client{URL: "http://127.0.0.1:1/$batch"}.Send(context.Background(), document)
	if results != nil || !isFault(err, "F30") {
		t.Error(results, err)
	}
}

// posts serves parts by a function of their number and their ids; returns the URL and the parts that came.
func posts(t *testing.T, respond func(part int, ids []string) (int, string)) (string, *[]string) {
	t.Helper()
	var came []string
	server := httptest.NewServer(http.HandlerFunc(func(w http.ResponseWriter, r *http.Request) {
		text, _ := io.ReadAll(r.Body)
		came = append(came, strings.TrimSpace(r.Header.Get("Prefer")+" "+string(text)))
		var batch struct {
			Requests []struct{ ID, AtomicityGroup string }
		}
		if err := json.Unmarshal(text, &batch); err != nil || r.Header.Get("Content-Type") != "application/json" {
			t.Error(err, r.Header)
		}
		var ids []string
		for _, it := range batch.Requests {
			if it.AtomicityGroup != "" {
				it.ID += " " + it.AtomicityGroup
			}
			ids = append(ids, it.ID)
		}
		status, answer := respond(len(came)-1, ids)
		w.WriteHeader(status)
		io.WriteString(w, answer)
	}))
	t.Cleanup(server.Close)
	return server.URL + "/odata/$batch", &came
}

// all answers all requests with a status and more.
func all(ids []string, status int, more string) string {
	var text []string
	for _, id := range ids {
		if name, group, _ := strings.Cut(id, " "); group != "" {
			id = name
			text = append(text, fmt.Sprintf(`{"id":%q,"status":%d,"atomicityGroup":%q%s}`, id, status, group, more))
			continue
		}
		text = append(text, fmt.Sprintf(`{"id":%q,"status":%d%s}`, id, status, more))
	}
	return `{"responses":[` + strings.Join(text, ",") + "]}"
}

func found(results *odb.Results) string {
	var text []string
	for _, it := range results.All() {
		text = append(text, fmt.Sprint(it.ID, " ", it.Status))
	}
	return strings.Join(text, ", ")
}

func TestSendsInParts(t *testing.T) {
	url, came := posts(t, func(part int, ids []string) (int, string) {
		return 200, all(ids, 201, `,"headers":{"Location":"/odata/Orders(7)","ETag":"\"1\""},"body":{"a":"]}","n":9.990}`)
	})
	var batch odb.Batch
	order := batch.Post("Orders", []byte(`{"n":9.990}`), odb.ID("order"))
	batch.Group(func() {
		batch.Patch(order, map[string]int{}, odb.IfMatch(order), odb.ID("p"))
		batch.Post(fmt.Sprint(order, "/Lines"), map[string]int{}, odb.ID("q"))
	})
	last := batch.Get("$order/Lines?x=1", odb.ID("last"))
	document, err := batch.Document()
	if err != nil {
		t.Fatal(err)
	}
	header := http.Header{"Authorization": {"me"}}
	results, err := odb.Client{URL: url, Limit: 2, Header: header}.Send(context.Background(), document)
	if err != nil || found(results) != "order 201, p 201, q 201, last 201" || len(header) != 1 {
		t.Fatal(err, found(results))
	}
	if len(*came) != 3 || !strings.HasPrefix((*came)[2], "continue-on-error {") || !strings.Contains((*came)[0], `9.990`) || strings.Contains((*came)[1]+(*came)[2], "$order") ||
		!strings.Contains((*came)[1], `"if-match":"\"1\""`) || !strings.Contains((*came)[2], `/odata/Orders(7)/Lines?x=1`) {
		t.Error(*came)
	}
	var body struct{ A string }
	if it := results.Of(last); it.JSON(&body) != nil || body.A != "]}" || it.Headers["etag"] != `"1"` || !strings.Contains(string(it.Body), "9.990") {
		t.Errorf("%+v", it)
	}
	if rest, err := results.Rest(); rest != nil || err != nil {
		t.Error(string(rest), err)
	}
}

// What refers to what no answer has is not sent, nor what comes after it.
func TestReferencesThatNoAnswerHas(t *testing.T) {
	for more, wanted := range map[string]string{`"$a/x"`: "F90", `"B","headers":{"If-Match":"$a"}`: "F91"} {
		url, came := posts(t, func(part int, ids []string) (int, string) { return 200, all(ids, 200, "") })
		document := `{"requests":[{"id":"a","method":"post","url":"A"},
{"id":"b","method":"get","url":` + more + `,"dependsOn":["a"]},{"id":"c","method":"get","url":"C","dependsOn":["b"]}]}`
		results, err := odb.Client{URL: url, Limit: 1}.Send(context.Background(), []byte(document))
		if err == nil || !strings.Contains(err.Error(), wanted) || found(results) != "a 200, b 424, c 424" || len(*came) != 1 {
			t.Error(err, found(results), *came)
		}
		if _, second := results.Rest(); second == nil || !strings.Contains(second.Error(), wanted) {
			t.Error(second)
		}
	}
}

// An empty Location is none: then the OData-EntityId is where the new entity is, or nothing says so.
func TestAnEmptyLocationInAPart(t *testing.T) {
	document := []byte(`{"requests":[{"id":"a","method":"post","url":"A"},{"id":"b","method":"get","url":"$a/x","dependsOn":["a"]}]}`)
	for headers, wanted := range map[string]string{
		`"Location":""`:                                "a 201, b 424",
		`"Location":"","OData-EntityId":""`:            "a 201, b 424",
		`"Location":"","OData-EntityId":"/odata/A(1)"`: "a 201, b 201",
		`"OData-EntityId":"/odata/A(1)"`:               "a 201, b 201",
	} {
		url, came := posts(t, func(part int, ids []string) (int, string) { return 200, all(ids, 201, `,"headers":{`+headers+"}") })
		results, err := odb.Client{URL: url, Limit: 1}.Send(context.Background(), document)
		if found(results) != wanted || isFault(err, "F90") != (len(*came) == 1) {
			t.Error(headers, err, found(results))
		}
		if isSent := strings.Contains((*came)[len(*came)-1], `"/odata/A(1)/x"`); isSent != (results.Of("a").Headers["location"] == "/odata/A(1)") {
			t.Error(headers, results.Of("a").Headers, *came)
		}
		if _, err := results.Rest(); isFault(err, "F90") != (len(*came) == 1) {
			t.Error(headers, err)
		}
	}
}

// Without a Location, the URL of what was read stands for it.
func TestReferencesToWhatWasRead(t *testing.T) {
	url, came := posts(t, func(part int, ids []string) (int, string) { return 200, all(ids, 200, "") })
	document := `{"requests":[{"id":"a","method":"get","url":"A(1)/?x=1"},{"id":"b","method":"get","url":"$a/B","dependsOn":["a"]},
{"id":"c","method":"get","url":"$b/C?y=1","dependsOn":["b"]}]}`
	results, err := odb.Client{URL: url, Limit: 1}.Send(context.Background(), []byte(document))
	if err != nil || found(results) != "a 200, b 200, c 200" || !strings.Contains((*came)[2], `"A(1)/B/C?y=1"`) {
		t.Error(err, found(results), *came)
	}
	if it := results.Of("a"); it.JSON(nil) == nil {
		t.Error("no body was read")
	}
}

func TestAServiceThatStops(t *testing.T) {
	url, came := posts(t, func(part int, ids []string) (int, string) {
		return 200, `{"responses":[{"id":"r0","status":200},{"id":"r1","status":404}]}`
	})
	results, err := odb.Client{URL: url, Limit: 3, Mode: odb.Stop}.Send(context.Background(), many(6))
	if err != nil || len(*came) != 1 || !strings.HasPrefix((*came)[0], "{") || found(results) != "r0 200, r1 404, r2 424, r3 424, r4 424, r5 424" {
		t.Error(err, *came, found(results))
	}
	rest, err := results.Rest()
	if err != nil || strings.Count(string(rest), `"id"`) != 4 {
		t.Error(string(rest), err)
	}
}

func TestAServiceThatIsBad(t *testing.T) {
	for name, it := range map[string]struct {
		status int
		answer string
		wanted string
		rest   int
	}{
		"busy":       {503, "later", "r0 503, r1 503, r2 424", 3},
		"login":      {401, "who?", "r0 401, r1 401, r2 424", 1},
		"accepted":   {202, "", "r0 502, r1 502, r2 424", 3},
		"a redirect": {307, "", "r0 502, r1 502, r2 424", 3},
		"no JSON":    {200, "{", "r0 502, r1 502, r2 424", 3},
		"other ids":  {200, `{"responses":[{"id":"x","status":200},{"id":"r1","status":200}]}`, "r0 502, r1 502, r2 424", 3},
		"blanks":     {200, all([]string{"r0", "r1"}, 200, "") + strings.Repeat(" ", 1000), "r0 502, r1 502, r2 424", 3},
		"too long":   {200, all([]string{"r0", "r1"}, 200, `,"body":"`+strings.Repeat("x", 1000)+`"`), "r0 502, r1 502, r2 424", 3},
	} {
		url, came := posts(t, func(part int, ids []string) (int, string) { return it.status, it.answer })
		results, err := odb.Client{URL: url, Limit: 2, MaxSize: 1000}.Send(context.Background(), many(3))
		if err == nil || len(*came) != 1 || found(results) != it.wanted {
			t.Error(name, err, found(results))
			continue
		}
		if rest, err := results.Rest(); err != nil || strings.Count(string(rest), `"id"`) != it.rest {
			t.Error(name, string(rest), err)
		}
	}
}

// An answer without end is read up to its bound.
func TestAnAnswerWithoutEnd(t *testing.T) {
	written := make(chan int, 1)
	server := httptest.NewServer(http.HandlerFunc(func(w http.ResponseWriter, r *http.Request) {
		count, err := 0, error(nil)
		for n := 0; err == nil && count < 1<<28; count += n {
			n, err = w.Write(make([]byte, 1<<16))
		}
		written <- count
	}))
	defer server.Close()
	results, err := odb.Client{URL: server.URL, HTTP: server.Client(), MaxSize: 1000}.Send(context.Background(), many(1))
	if count := <-written; err == nil || found(results) != "r0 502" || count == 1<<28 {
		t.Error(err, found(results), count)
	}
}

// A service that gives no answer, or one without end, is left by the context.
func TestAServiceThatHangs(t *testing.T) {
	for _, isEndless := range []bool{false, true} {
		server := httptest.NewServer(http.HandlerFunc(func(w http.ResponseWriter, r *http.Request) {
			io.Copy(io.Discard, r.Body)
			for isEndless && r.Context().Err() == nil {
				w.Write([]byte(" "))
				w.(http.Flusher).Flush()
				time.Sleep(time.Millisecond)
			}
			<-r.Context().Done()
		}))
		ctx, cancel := context.WithTimeout(context.Background(), 50*time.Millisecond)
		results, err := odb.Client{URL: server.URL, HTTP: server.Client()}.Send(ctx, many(2))
		cancel()
		if !errors.Is(err, context.DeadlineExceeded) || found(results) != "r0 504, r1 504" {
			t.Error(err, found(results))
		}
		server.CloseClientConnections()
		server.Close()
	}
	results, err := odb.Client{URL: "http://127.0.0.1:1/$batch"}.Send(context.Background(), many(1))
	if err == nil || found(results) != "r0 502" {
		t.Error(err, found(results))
	}
	for name, client := range map[string]odb.Client{"limit": {URL: "http://127.0.0.1:1/", Limit: -1}, "url": {URL: "http://a b/"}, "none": {}} {
		results, err := client.Send(context.Background(), many(1))
		if err == nil || errors.Is(err, odb.ErrOption) != (name == "limit") || found(results) == "r0 200" {
			t.Error(name, err, found(results))
		}
	}
}

// The rest has ETags in place of references to what is done.
func TestTheRestHasETags(t *testing.T) {
	url, _ := posts(t, func(part int, ids []string) (int, string) {
		return 200, `{"responses":[{"id":"a","status":201,"headers":{"location":"A(1)","etag":"\"7\""}},{"id":"b","status":429},{"id":"c","status":503}]}`
	})
	document := `{"requests":[{"id":"a","method":"post","url":"A"},
{"id":"b","method":"patch","url":"$a","headers":{"If-Match":"$a"},"dependsOn":["a"],"body":9.990},{"id":"c","method":"post","url":"C"}]}`
	results, err := odb.Client{URL: url}.Send(context.Background(), []byte(document))
	if err != nil {
		t.Fatal(err)
	}
	rest, err := results.Rest()
	if counts, second := odb.Check(rest); err != nil || second != nil || counts.Requests != 2 || !strings.Contains(string(rest), `"\"7\""`) || !strings.Contains(string(rest), "9.990") {
		t.Error(string(rest), err, second)
	}
}
