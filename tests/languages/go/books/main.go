// A service of books in memory that answers batches: books ADDRESS WIDTH
package main

import (
	"context"
	"encoding/json"
	"fmt"
	"hash/crc32"
	"log"
	"net/http"
	"net/url"
	"os"
	"strconv"
	"strings"
	"sync"

	"odb_batch/odb"
)

type book struct {
	ID    string `json:"Id"`
	Title string
}

// store has the books, and a lock that a group holds while it is performed.
type store struct {
	mu    sync.Mutex
	books map[string]book
}

type inGroup struct{}

// group performs a group, and restores the books if it fails.
func (s *store) group(ctx context.Context, _ string, do func(ctx context.Context) error) error {
	s.mu.Lock()
	defer s.mu.Unlock()
	before := map[string]book{}
	for id, it := range s.books {
		before[id] = it
	}
	err := do(context.WithValue(ctx, inGroup{}, true))
	if err != nil {
		s.books = before
	}
	return err
}

func (b book) tag() string { return fmt.Sprintf(`"%x"`, crc32.ChecksumIEEE([]byte(b.Title))) }

func fail(w http.ResponseWriter, status int, code string) {
	w.Header().Set("Content-Type", "application/json")
	w.WriteHeader(status)
	fmt.Fprintf(w, `{"error":{"code":%q,"message":%q}}`, code, code)
}

func show(w http.ResponseWriter, status int, value any) {
	w.Header().Set("Content-Type", "application/json")
	if b, ok := value.(book); ok {
		w.Header().Set("ETag", b.tag())
		w.Header().Set("Location", "/odata/Books('"+url.PathEscape(b.ID)+"')")
	}
	w.WriteHeader(status)
	json.NewEncoder(w).Encode(value)
}

func (s *store) ServeHTTP(w http.ResponseWriter, r *http.Request) {
	if r.Context().Value(inGroup{}) == nil {
		s.mu.Lock()
		defer s.mu.Unlock()
	}
	var given book
	isWrite := r.Method == "POST" || r.Method == "PATCH" || r.Method == "PUT"
	key := strings.TrimPrefix(strings.TrimSuffix(r.URL.Path, "')"), "/odata/Books('")
	isOne := len(key)+len("/odata/Books('')") == len(r.URL.Path)
	switch {
	case strings.Contains(r.URL.RawQuery, "$"):
		fail(w, 501, "NoOptions")
	case isWrite && (json.NewDecoder(r.Body).Decode(&given) != nil || given.Title == ""):
		fail(w, 400, "BadBook")
	case isOne:
		s.one(w, r, key, given)
	case r.URL.Path != "/odata/Books":
		fail(w, 404, "NotFound")
	case r.Method == "GET":
		all := []book{}
		for _, it := range s.books {
			all = append(all, it)
		}
		show(w, 200, map[string]any{"value": all})
	case r.Method != "POST":
		fail(w, 405, "NotAllowed")
	case given.ID == "" || s.books[given.ID].ID != "":
		fail(w, 409, "Exists")
	default:
		s.books[given.ID] = given
		show(w, 201, given)
	}
}

// one answers a request of one book.
func (s *store) one(w http.ResponseWriter, r *http.Request, key string, given book) {
	found := s.books[key]
	match, none := r.Header.Get("If-Match"), r.Header.Get("If-None-Match")
	switch {
	case found.ID == "":
		fail(w, 404, "NotFound")
	case match != "" && match != "*" && match != found.tag():
		fail(w, 412, "Changed")
	case none != "" && (none == "*" || none == found.tag()) && r.Method == "GET":
		w.WriteHeader(304)
	case none != "" && (none == "*" || none == found.tag()):
		fail(w, 412, "Unchanged")
	case r.Method == "GET":
		show(w, 200, found)
	case r.Method == "DELETE":
		delete(s.books, key)
		w.WriteHeader(204)
	case r.Method == "PATCH" || r.Method == "PUT":
		found.Title = given.Title
		s.books[key] = found
		w.Header().Set("ETag", found.tag())
		w.WriteHeader(204)
	default:
		fail(w, 405, "NotAllowed")
	}
}

func main() {
	books := &store{books: map[string]book{}}
	width, _ := strconv.Atoi(os.Args[2])
	options := odb.HandlerOptions{Path: "/odata/$batch", Options: odb.Options{Transaction: books.group}}
	options.Width = width
	log.Fatal(http.ListenAndServe(os.Args[1], odb.Handler(books, options)))
}
