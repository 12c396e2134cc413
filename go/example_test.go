package odb_test

import (
	"bytes"
	"context"
	"errors"
	"fmt"
	"io"
	"net/http"
	"net/http/httptest"

	"odb_batch/odb"
)

func ExampleCheck() {
	fmt.Println(odb.Check([]byte(`{"requests":[{"id":"a","method":"get","url":"Books"}]}`)))
	_, err := odb.Check([]byte("{\"requests\": [\n  {\"id\":\"a\",\"method\":\"get\",\"url\":\"A\",\"dependsOn\":[\"a\"]}]}"))
	var fault *odb.Fault
	if errors.As(err, &fault) {
		fmt.Println(fault, fault.Line, fault.Column)
	}
	// Output:
	// {1 0} <nil>
	// F41 ForwardName /requests/0 2 3
}

func ExampleLiveRun() {
	run, err := odb.Open([]byte(`{"requests":[{"id":"a","method":"get","url":"Books"}]}`), nil, odb.Policy{Width: 16})
	if err != nil {
		panic(err)
	}
	defer run.Close()
	for ready, _ := run.Ready(); len(ready) > 0; ready, _ = run.Ready() {
		for _, id := range ready {
			if err := run.Start(id); err != nil {
				continue // *odb.Fault, as S2
			}
			if err := run.Report(id, 200, nil, []byte(`{"of":"`+run.Request(id).URL+`"}`)); err != nil {
				panic(err)
			}
		}
	}
	response, err := run.Response()
	fmt.Println(string(response), err)
	// Output: {"responses":[{"body":{"of":"Books"},"id":"a","status":200}]} <nil>
}

// A service answers batches of orders, and a client sends it one in parts of two requests.
func ExampleHandler() {
	orders := http.HandlerFunc(func(w http.ResponseWriter, r *http.Request) {
		if r.Method == "POST" {
			w.Header().Set("Location", "/odata/Orders(7)")
			w.WriteHeader(201)
			return
		}
		fmt.Fprintf(w, `"%s"`, r.URL.Path)
	})
	server := httptest.NewServer(odb.Handler(orders, odb.HandlerOptions{Path: "/odata/$batch"}))
	defer server.Close()

	var batch odb.Batch
	order := batch.Post("Orders", map[string]string{"Customer": "ada"})
	batch.Get("Customers")
	lines := batch.Get(fmt.Sprint(order, "/Lines"))
	document, err := batch.Document()
	if err != nil {
		panic(err)
	}
	results, err := odb.Client{URL: server.URL + "/odata/$batch", Limit: 2}.Send(context.Background(), document)
	if err != nil {
		panic(err)
	}
	fmt.Println(results.Of(order).Status, results.Of(lines).Status, string(results.Of(lines).Body))
	// Output: 201 200 "/odata/Orders(7)/Lines"
}

// A batch is performed by a function that sends one request.
func ExamplePerform() {
	server := httptest.NewServer(http.HandlerFunc(func(w http.ResponseWriter, r *http.Request) {
		w.Header().Set("Content-Type", "application/json")
		fmt.Fprintf(w, `{"of":%q}`, r.URL.Path)
	}))
	defer server.Close()

	send := func(ctx context.Context, request *odb.Request) (odb.Answer, error) {
		message, err := http.NewRequestWithContext(ctx, request.Method, request.URL, bytes.NewReader(request.Body))
		if err != nil {
			return odb.Answer{}, err
		}
		for name, value := range request.Headers {
			message.Header.Set(name, value)
		}
		response, err := http.DefaultClient.Do(message)
		if err != nil {
			return odb.Answer{}, err
		}
		defer response.Body.Close()
		body, err := io.ReadAll(io.LimitReader(response.Body, odb.MaxDocument))
		headers := map[string]string{}
		for name := range response.Header {
			headers[name] = response.Header.Get(name)
		}
		return odb.Answer{Status: response.StatusCode, Headers: headers, Body: body}, err
	}
	transaction := func(ctx context.Context, group string, do func(ctx context.Context) error) error {
		// Begin here, commit if do returns nil, and else roll back and return the error.
		return do(ctx)
	}
	batch := []byte(`{"requests":[{"id":"a","method":"get","url":"Books(1)"},{"id":"b","method":"get","url":"Books","atomicityGroup":"g"}]}`)
	response, err := odb.Perform(context.Background(), batch, send, odb.Options{Base: server.URL + "/odata/", Transaction: transaction})
	if err != nil {
		panic(err)
	}
	responses, err := odb.Responses(response)
	for _, it := range responses {
		fmt.Println(it.ID, it.Status, string(it.Body))
	}
	fmt.Println(err)
	// Output:
	// a 200 {"of":"/odata/Books(1)"}
	// b 200 {"of":"/odata/Books"}
	// <nil>
}
