package odb_test

import (
	"bytes"
	"errors"
	"fmt"
	"os"
	"runtime"
	"strings"
	"sync"
	"sync/atomic"
	"testing"
	"time"

	"odb_batch/odb"
)

const usual = `{"requests":[{"id":"a","method":"post","url":"Books","body":{"price":9.990}},
{"id":"b","method":"get","url":"$a/Pages","dependsOn":["a"]},
{"id":"p","method":"patch","url":"Books(1)","atomicityGroup":"g","body":{}},
{"id":"q","method":"delete","url":"Books(2)","atomicityGroup":"g"},
{"id":"z","method":"get","url":"Books","dependsOn":["g"]}]}`

// many returns a batch of requests without dependencies.
func many(count int) []byte {
	var text strings.Builder
	for i := 0; i < count; i++ {
		fmt.Fprintf(&text, `,{"id":"r%d","method":"get","url":"A"}`, i)
	}
	return []byte(`{"requests":[` + text.String()[1:] + "]}")
}

func opened(t *testing.T, batch string, policy odb.Policy) *odb.LiveRun {
	t.Helper()
	run, err := odb.Open([]byte(batch), nil, policy)
	if err != nil {
		t.Fatal(err)
	}
	t.Cleanup(func() { run.Close() })
	return run
}

// isFault says whether an error is a fault with a code.
func isFault(err error, code string) bool {
	var fault *odb.Fault
	return errors.As(err, &fault) && fault.Code == code
}

func TestFaultsHavePositions(t *testing.T) {
	batch := []byte("{\"requests\": [{},\n{}, {\"id\": \"\u00e4\"}]}")
	faults, err := odb.Faults(batch)
	if err != nil || len(faults) != 9 {
		t.Fatal(faults, err)
	}
	if last := *faults[8]; last != (odb.Fault{Code: "F15", Name: "BadUrl", Place: "/requests/2", Line: 2, Column: 5, Offset: 22, End: 34}) {
		t.Errorf("%+v", last)
	}
	if found := faults[8].Explanation(); !strings.HasPrefix(found, "The request has no url, or") || strings.Contains(found, "refused: ") {
		t.Error(found)
	}
	_, err = odb.Check(batch)
	if first, ok := err.(*odb.Fault); !ok || *first != *faults[0] {
		t.Error(err)
	}
	if found, err := odb.Faults(many(3)); len(found) != 0 || err != nil {
		t.Error(found, err)
	}
	// The text and the list are longer than was thought.
	batch = []byte(`{"requests":[{}` + strings.Repeat(",{}", 999) + "]}")
	if found, err := odb.Faults(batch); len(found) != 3000 || err != nil || found[2999].Place != "/requests/999" {
		t.Error(len(found), err)
	}
}

func TestOptionsThatHaveNoValue(t *testing.T) {
	batch := many(2)
	for name, call := range map[string]func() error{
		"mode":    func() error { _, err := odb.Open(batch, nil, odb.Policy{Mode: 2}); return err },
		"width":   func() error { _, err := odb.Open(batch, nil, odb.Policy{Width: -1}); return err },
		"width+":  func() error { _, err := odb.Run(batch, nil, odb.Policy{Width: 1<<32 + 1}); return err },
		"order":   func() error { _, _, err := odb.Replay(batch, nil, odb.Policy{}, 3); return err },
		"limit":   func() error { _, _, err := opened(t, string(batch), odb.Policy{}).Part(0); return err },
		"id":      func() error { return opened(t, string(batch), odb.Policy{}).Start("x") },
		"root":    func() error { _, err := odb.Perform(nil, batch, nil, odb.Options{Base: "/odata/"}); return err },
		"no root": func() error { _, err := odb.Perform(nil, batch, nil, odb.Options{Base: "http://a/b"}); return err },
	} {
		if err := call(); !errors.Is(err, odb.ErrOption) {
			t.Error(name, err)
		}
	}
	if odb.OpenRuns() > 2 {
		t.Error("a run is open")
	}
}

func TestDocumentsThatAreRefused(t *testing.T) {
	if _, err := odb.Run(many(1), nil, odb.Policy{}); !isFault(err, "F02") {
		t.Error(err)
	}
	_, err := odb.Match(many(1), []byte("{\n \"responses\": 7}"), odb.MatchOptions{})
	var fault *odb.Fault
	if !errors.As(err, &fault) || fault.Place != "responses" || fault.Line != 1 {
		t.Error(err)
	}
	if _, err := odb.Responses([]byte("7")); err == nil {
		t.Error("no error")
	}
	if odb.Explanation("F999") != "" || odb.Version()/100 != 2 {
		t.Error(odb.Explanation("F999"), odb.Version())
	}
}

func TestAUnitStartsAsAWhole(t *testing.T) {
	run := opened(t, usual, odb.Policy{})
	if err := run.StartUnit("q"); err != nil {
		t.Fatal(err)
	}
	if running, err := run.Running(); err != nil || fmt.Sprint(running) != "[p q]" {
		t.Error(running, err)
	}
}

func TestRefusedEvents(t *testing.T) {
	run := opened(t, usual, odb.Policy{Width: 1})
	for _, it := range []struct {
		err    error
		wanted string
	}{
		{run.Start("b"), "S4 Waiting b"},
		{run.Report("a", 200, nil, nil), "P1 NotRunning a"},
		{run.Start("a"), "<nil>"},
		{run.Start("a"), "S1 AlreadyStarted a"},
		{run.StartUnit("p"), "S5 WidthReached p"},
		{run.Report("a", 99, nil, nil), "P2 BadStatus a"},
		{run.Report("a", -1, nil, nil), "P2 BadStatus a"},
		{run.Report("a", 200, map[string]string{"A": "1", "a": "2"}, nil), "F64 BadEvents /events/0"},
		{run.Report("a", 200, nil, []byte("{")), "F02 NotJson events"},
		{run.Report("a", 200, map[string]string{"x": "<"}, []byte(" [1.50, 2e3]")), "<nil>"},
	} {
		if found := fmt.Sprint(it.err); !strings.HasPrefix(found, it.wanted[:4]) {
			t.Error(found, "not", it.wanted)
		}
	}
	if _, err := run.Response(); !isFault(err, "F66") {
		t.Error(err)
	}
	if _, err := run.Undone(); !isFault(err, "F66") {
		t.Error(err)
	}
	state, status, err := run.State("a")
	if state != "reported" || status != 200 || err != nil {
		t.Error(state, status, err)
	}
	refused := run.Start("a").(*odb.Fault)
	if refused.Place != "a" || refused.Code != "S1" || refused.Name != "AlreadyStarted" || refused.Line != 0 || refused.Explanation() == "" {
		t.Errorf("%+v", refused)
	}
	if _, _, err := run.State("x"); !errors.Is(err, odb.ErrOption) {
		t.Error(err)
	}
}

func TestARunAfterEvents(t *testing.T) {
	events := `{"events":[{"start":"a"},{"report":"a","status":201}]}`
	run, err := odb.Open([]byte(usual), []byte(events), odb.Policy{})
	if err != nil {
		t.Fatal(err)
	}
	defer run.Close()
	if ready, _ := run.Ready(); fmt.Sprint(ready) != "[b p q]" {
		t.Error(ready)
	}
	run.Stop()
	if finished, _ := run.Finished(); !finished {
		t.Error("not finished")
	}
	if _, err := odb.Open([]byte(usual), []byte(`{"events":[{"start":"z"}]}`), odb.Policy{}); !isFault(err, "S4") {
		t.Error(err)
	}
}

func TestRunsAreCollected(t *testing.T) {
	runtime.GC()
	before, opened := resident(), odb.OpenRuns()
	for i := 0; i < 10000; i++ {
		run, err := odb.Open([]byte(usual), nil, odb.Policy{})
		if err != nil {
			t.Fatal(err)
		}
		run.Start("a") // and is forgotten
		if i%500 == 0 {
			runtime.GC()
		}
	}
	for end := time.Now().Add(30 * time.Second); odb.OpenRuns() > opened && time.Now().Before(end); time.Sleep(10 * time.Millisecond) {
		runtime.GC()
	}
	t.Log("kilobytes before and after:", before, resident(), "open:", odb.OpenRuns())
	if odb.OpenRuns() > opened || resident() > before+60000 {
		t.Error("runs are not closed")
	}
}

func resident() (kilobytes int) {
	text, _ := os.ReadFile("/proc/self/status")
	for _, line := range strings.Split(string(text), "\n") {
		if _, err := fmt.Sscanf(line, "VmRSS: %d", &kilobytes); err == nil {
			return kilobytes
		}
	}
	return 0
}

func TestThreadsOnOneRun(t *testing.T) {
	run := opened(t, string(many(4000)), odb.Policy{})
	var started int32
	var wait sync.WaitGroup
	for i := 0; i < 16; i++ {
		wait.Add(1)
		go func() {
			defer wait.Done()
			for ready, _ := run.Ready(); len(ready) > 0; ready, _ = run.Ready() {
				for _, id := range ready {
					if run.Start(id) == nil {
						atomic.AddInt32(&started, 1)
						if err := run.Report(id, 200, nil, []byte("{}")); err != nil {
							t.Error(err)
						}
					}
				}
			}
		}()
	}
	wait.Wait()
	response, err := run.Response()
	if err != nil || started != 4000 || bytes.Count(response, []byte(`"status":200`)) != 4000 {
		t.Error(err, started)
	}
	run.Close()
	for name, err := range map[string]error{"close": run.Close(), "stop": run.Stop(), "start": run.Start("r1")} {
		if (name == "close") != (err == nil) || err != nil && err != odb.ErrClosed {
			t.Error(name, err)
		}
	}
}

func TestClosedUnderCalls(t *testing.T) {
	for i := 0; i < 200; i++ {
		run, _ := odb.Open(many(50), nil, odb.Policy{})
		var wait sync.WaitGroup
		for k := 0; k < 8; k++ {
			wait.Add(1)
			go func(k int) {
				defer wait.Done()
				if k == 3 {
					run.Close()
				}
				for _, err := run.Ready(); err == nil; _, err = run.Ready() {
				}
			}(k)
		}
		wait.Wait()
	}
}

func TestParts(t *testing.T) {
	run := opened(t, usual, odb.Policy{})
	part, ids, err := run.Part(2)
	if err != nil || fmt.Sprint(ids) != "[a b]" || !bytes.Contains(part, []byte("9.990")) {
		t.Error(string(part), ids, err)
	}
	run.Start("a")
	run.Report("a", 201, nil, nil) // without a Location
	if _, ids, err = run.Part(2); err != nil || fmt.Sprint(ids) != "[p q]" {
		t.Error(ids, err)
	}
	if _, _, err := opened(t, usual, odb.Policy{}).Part(1); !errors.Is(err, odb.ErrOption) {
		t.Error(err) // a group has two
	}
	run = opened(t, `{"requests":[{"id":"a","method":"post","url":"A"},
{"id":"b","method":"get","url":"$a","dependsOn":["a"]}]}`, odb.Policy{})
	run.Part(1)
	run.Start("a")
	run.Report("a", 201, nil, nil)
	if _, _, err = run.Part(1); !isFault(err, "F90") || err.(*odb.Fault).Place != "/requests/1" || err.(*odb.Fault).Line != 2 {
		t.Error(err)
	}
	run.Start("b")
	run.Report("b", 424, nil, nil)
	if part, ids, err := run.Part(1); err != nil || len(ids) != 0 {
		t.Error(string(part), ids, err)
	}
}
