// Where requests lead by the package for Go: reads the table that tests/support/urls.py writes, and prints the lines that it wants.
//
//	urls FILE
package main

import (
	"context"
	"encoding/hex"
	"encoding/json"
	"fmt"
	"os"
	"strings"

	"odb_batch/odb"
)

// text returns what a word of the table stands for.
func text(word string) string {
	found, err := hex.DecodeString(strings.Trim(word, "-"))
	if err != nil {
		panic(err)
	}
	return string(found)
}

// answered returns what the last request of a batch is answered, and where it was sent.
func answered(base string, roots []string, location, batch string) string {
	var sent []string
	send := func(_ context.Context, request *odb.Request) (odb.Answer, error) {
		sent = append(sent, request.URL)
		if location == "" {
			return odb.Answer{Status: 201}, nil
		}
		return odb.Answer{Status: 201, Headers: map[string]string{"location": location}}, nil
	}
	document, err := odb.Perform(context.Background(), []byte(batch), send, odb.Options{Base: base, Roots: roots})
	if err != nil {
		panic(err)
	}
	var found struct{ Responses []struct{ Status int } }
	if err := json.Unmarshal(document, &found); err != nil {
		panic(err)
	}
	status := found.Responses[len(found.Responses)-1].Status
	if len(sent) < len(found.Responses) {
		return fmt.Sprint(status)
	}
	url := sent[len(sent)-1]
	for at, root := range roots {
		if strings.HasPrefix(url, root) {
			return fmt.Sprintf("%d %d %s", status, at, url[len(root):])
		}
	}
	return fmt.Sprintf("%d %s is below no root", status, url)
}

func main() {
	table, err := os.ReadFile(os.Args[1])
	if err != nil {
		panic(err)
	}
	for _, line := range strings.Split(strings.TrimSpace(string(table)), "\n") {
		words := strings.Fields(line)
		fmt.Println(answered(text(words[0]), strings.Fields(text(words[1])), text(words[2]), text(words[3])))
	}
}
