// The worked cases and random live runs by the package for Go: prints the lines of reference.py.
//
//	tries pages|runs FOLDER [RUNS]
package main

import (
	"bufio"
	"crypto/sha256"
	"encoding/binary"
	"errors"
	"fmt"
	"os"
	"sort"
	"strconv"
	"strings"

	"odb_batch/odb"
)

type call struct {
	numbers       [8]uint32
	batch, second []byte
}

func calls(path string) (found []call) {
	data, err := os.ReadFile(path)
	if err != nil {
		panic(err)
	}
	for len(data) > 0 {
		var it call
		for i := range it.numbers {
			it.numbers[i] = binary.LittleEndian.Uint32(data[4*i:])
		}
		first, end := 32+it.numbers[6], 32+it.numbers[6]+it.numbers[7]
		it.batch, it.second = data[32:first], data[first:end]
		found, data = append(found, it), data[end:]
	}
	return found
}

// text returns a status, and a text or the line of a fault with its position.
func text(result string, err error) (int, string) {
	var fault *odb.Fault
	if errors.As(err, &fault) {
		return 1, located(fault)
	} else if err != nil {
		panic(err)
	}
	return 0, result
}

func located(fault *odb.Fault) string {
	return fmt.Sprintf("fault %s %d %d %d\n", fault, fault.Line, fault.Column, fault.Offset)
}

func star(name string) string {
	if name == "" {
		return "*"
	}
	return name
}

func answered(it call) (int, string) {
	n := it.numbers
	mode, policy := odb.Mode(n[1]), odb.Policy{Mode: odb.Mode(n[1]), Width: int(n[2])}
	var out strings.Builder
	switch n[0] {
	case 0:
		counts, err := odb.Check(it.batch)
		return text(fmt.Sprintf("ok %d requests %d groups\n", counts.Requests, counts.Groups), err)
	case 1:
		plan, err := odb.Plan(it.batch)
		for i, p := range plan {
			fmt.Fprintf(&out, "%d %s level %d group %s needs %s\n", i, p.ID, p.Level, star(p.Group), star(strings.Join(p.Needs, ",")))
		}
		return text(out.String(), err)
	case 2:
		found, err := odb.Canon(it.batch)
		return text(string(found)+"\n", err)
	case 3:
		found, err := odb.Match(it.batch, it.second, odb.MatchOptions{Mode: mode, Strict: n[5] > 0, Units: n[5] == 2})
		fmt.Fprintf(&out, "ok %d responses\n", len(found))
		for _, s := range found {
			fmt.Fprintf(&out, "%s %d\n", s.ID, s.Status)
		}
		return text(out.String(), err)
	case 4:
		found, err := odb.Run(it.batch, it.second, policy)
		return text(string(found)+"\n", err)
	case 5:
		response, steps, err := odb.Replay(it.batch, it.second, policy, odb.Order(n[3]))
		for i := 0; i < len(steps) && n[4] == 1; i++ { // with a trace
			fmt.Fprintln(&out, steps[i])
		}
		return text(out.String()+string(response)+"\n", err)
	}
	found, err := odb.Rest(it.batch, it.second, mode)
	return text(string(found)+"\n", err)
}

func dash(text string) string {
	if text == "" {
		return "-"
	}
	return text
}

func requested(batch []byte) (int, string) {
	found, err := odb.Requests(batch)
	at := map[string]int{}
	var out strings.Builder
	for i, it := range found {
		at[it.ID] = i
		names := []string{}
		for name := range it.Headers {
			names = append(names, name)
		}
		sort.Strings(names)
		heads := ""
		for _, name := range names {
			heads += name + ":" + it.Headers[name] + ";"
		}
		reference := -1
		if it.Reference != "" {
			reference = at[it.Reference]
		}
		fmt.Fprintf(&out, "%s|%s|%s|%s|%s|%s|%s|%d\n", dash(it.ID), it.Method, dash(it.URL), dash(it.Rest), dash(heads), dash(it.Group), dash(string(it.Body)), reference)
	}
	return text(out.String(), err)
}

func digest(text string) string { return fmt.Sprintf("%x", sha256.Sum256([]byte(text))) }

var (
	statuses = []int{200, 201, 204, 299, 300, 404, 409, 500, 599, 199, 600, 0}
	headers  = []map[string]string{nil, {"etag": "7"}, {"A": "1", "a": "2"}}
	states   = map[string]int{"waiting": 0, "ready": 1, "running": 2, "reported": 3, "skipped": 4, "undone": 5}
	bodies   = []string{"", "null", `{"a":[1,2]}`, `"x"`, "{", "1.5", "[0.10, 1e999]"}
)

func driven(number int, accepted [][]byte) string {
	state := uint32(number)
	next := func(limit int) int {
		state = state*1664525 + 1013904223
		return int(state>>8) % limit
	}
	var notes strings.Builder
	note := func(text string) { notes.WriteString(text + "\n") }
	tried := func(result string, err error) {
		var fault *odb.Fault
		switch {
		case errors.As(err, &fault):
			note(fault.Code + " " + fault.Name)
		case err != nil:
			panic(err)
		default:
			note(result)
		}
	}
	batch := accepted[next(len(accepted))]
	mode := odb.Mode(next(2))
	run, err := odb.Open(batch, nil, odb.Policy{Mode: mode, Width: 1 + next(5)})
	if err != nil {
		panic(err)
	}
	defer run.Close()
	var ids []string
	for _, it := range run.Requests() {
		ids = append(ids, it.ID)
	}
	chosen := func(listed []string) string {
		if len(listed) == 0 || next(8) == 0 {
			return ids[next(len(ids))]
		}
		return listed[next(len(listed))]
	}
	list := func(listed []string, err error) []string {
		tried(strings.Join(listed, ","), err)
		return listed
	}
	note(strings.Join(ids, ","))
	for step := 0; step < 60; step++ {
		if finished, _ := run.Finished(); finished {
			break
		}
		if next(3) > 0 {
			tried("ok", run.Start(chosen(list(run.Ready()))))
		} else {
			tried("ok", run.StartUnit(chosen(list(run.NextUnit()))))
		}
		id := chosen(list(run.Running()))
		if next(3) > 0 {
			status, heads, body := statuses[next(12)], headers[next(3)], bodies[next(7)]
			tried("ok", run.Report(id, status, heads, []byte(body)))
		}
		state, status, _ := run.State(id)
		note(fmt.Sprint(states[state], status))
		if next(50) == 0 {
			run.Stop()
		}
		if next(16) == 0 {
			response, err := run.Response()
			tried(string(response), err)
		}
	}
	response, err := run.Response()
	tried(string(response), err)
	list(run.Undone())
	return digest(notes.String())
}

func main() {
	out := bufio.NewWriter(os.Stdout)
	defer out.Flush()
	var accepted [][]byte
	for i, it := range calls(os.Args[2] + "/calls") {
		found, err := odb.Faults(it.batch)
		if err != nil {
			panic(err)
		}
		if len(found) == 0 && len(it.batch) < 100000 {
			accepted = append(accepted, it.batch)
		}
		if os.Args[1] != "pages" {
			continue
		}
		status, text := answered(it)
		fmt.Fprintln(out, i, "command", status, digest(text))
		all := ""
		for _, fault := range found {
			all += located(fault)
		}
		fmt.Fprintln(out, i, "faults", len(all[:min(len(all), 1)]), digest(all))
		status, text = requested(it.batch)
		fmt.Fprintln(out, i, "requests", status, digest(text))
	}
	if os.Args[1] == "runs" {
		count, _ := strconv.Atoi(os.Args[3])
		for i := 0; i < count; i++ {
			fmt.Fprintln(out, i, driven(i, accepted))
		}
	}
}

func min(a, b int) int {
	if a < b {
		return a
	}
	return b
}
