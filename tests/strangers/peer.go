// A client and a back end of Go's net/http, for tests/strangers.py.
//
//	peer send ADDRESS	posts each message of standard input, a line of JSON each, and prints what each was told
//	peer serve SEED	listens at a free port, which it prints, and answers each post by chance: prints its head and the answer
package main

import (
	"bufio"
	"bytes"
	"encoding/json"
	"fmt"
	"io"
	"math/rand"
	"net"
	"net/http"
	"net/textproto"
	"net/url"
	"os"
	"strconv"
	"strings"
	"sync"
	"time"
)

// Message is a request; bytes are in base64.
type Message struct {
	Number         int
	Method, Target string
	Fields         [][2][]byte
	Body           []byte
	Chunked, Close bool
}

// Told is what a message was answered.
type Told struct {
	Number, Status int
	Type, Error    string
	Length         int
	Closes         bool
}

// Atonce is how many messages are on their way at a time.
const Atonce = 4

func request(address string, message Message) *http.Request {
	asked := &http.Request{
		Method: message.Method, Header: http.Header{}, Proto: "HTTP/1.1", ProtoMajor: 1, ProtoMinor: 1,
		URL:   &url.URL{Scheme: "http", Host: address, Opaque: message.Target},
		Close: message.Close, ContentLength: int64(len(message.Body)), Body: io.NopCloser(bytes.NewReader(message.Body)),
	}
	if message.Chunked {
		asked.ContentLength = -1
		asked.Trailer = http.Header{"X-Trailer": {"v"}}
	} else if len(message.Body) == 0 {
		asked.Body = http.NoBody
	}
	for _, field := range message.Fields {
		name, value := string(field[0]), string(field[1])
		switch textproto.CanonicalMIMEHeaderKey(name) {
		case "Host":
			asked.Host = value
		case "Expect":
			asked.Header.Set("Expect", "100-continue")
		case "Content-Length", "Transfer-Encoding", "Connection":
		default:
			asked.Header[name] = append(asked.Header[name], value)
		}
	}
	return asked
}

func told(client *http.Transport, address string, message Message) Told {
	answer := Told{Number: message.Number}
	reply, fault := client.RoundTrip(request(address, message))
	if fault != nil {
		answer.Error = fault.Error()
		return answer
	}
	defer reply.Body.Close()
	content, fault := io.ReadAll(reply.Body)
	if fault != nil {
		answer.Error = fault.Error()
	}
	answer.Status, answer.Type, answer.Length = reply.StatusCode, reply.Header.Get("Content-Type"), len(content)
	answer.Closes = reply.Close
	return answer
}

func send(address string) {
	client := &http.Transport{DisableCompression: true, ExpectContinueTimeout: time.Minute, MaxIdleConnsPerHost: Atonce}
	messages, answers := make(chan Message), make(chan Told)
	var clients sync.WaitGroup
	for range [Atonce]int{} {
		clients.Add(1)
		go func() {
			defer clients.Done()
			for message := range messages {
				answers <- told(client, address, message)
			}
		}()
	}
	go func() {
		lines := json.NewDecoder(bufio.NewReader(os.Stdin))
		for {
			var message Message
			if lines.Decode(&message) != nil {
				break
			}
			messages <- message
		}
		close(messages)
		clients.Wait()
		close(answers)
	}()
	printed := json.NewEncoder(os.Stdout)
	for answer := range answers {
		printed.Encode(answer)
	}
}

// Post is a post that came, and the status that it was answered.
type Post struct {
	Head   string
	Fields http.Header
	Body   []byte
	Status int
}

var statuses = []int{200, 200, 200, 200, 200, 200, 200, 200, 429, 502, 503, 504, 400, 500, 301}

func answer(chance *rand.Rand, w http.ResponseWriter, status int) {
	for range make([]int, []int{0, 0, 1, 15}[chance.Intn(4)]) {
		w.WriteHeader([]int{100, 102, 103}[chance.Intn(3)])
	}
	content := []byte{}
	if status == 200 && chance.Intn(2) == 0 {
		// An empty partial success.
		content = []byte{10, 0}
	} else if status != 200 {
		content = make([]byte, chance.Intn(300))
	}
	for number := range make([]int, chance.Intn(20)) {
		w.Header().Set(fmt.Sprintf("X-%d", number), strings.Repeat("v", chance.Intn(60)))
	}
	isChunked := chance.Intn(2) == 0
	if isChunked {
		w.Header().Set("Trailer", "X-Trailer")
	} else {
		w.Header().Set("Content-Length", strconv.Itoa(len(content)))
	}
	w.WriteHeader(status)
	for len(content) > 0 {
		size := len(content)
		if isChunked {
			size = 1 + chance.Intn(size)
		}
		w.Write(content[:size])
		content = content[size:]
		if isChunked {
			w.(http.Flusher).Flush()
		}
	}
	if isChunked {
		w.(http.Flusher).Flush()
		w.Header().Set("X-Trailer", "v")
	}
}

func serve(seed int64) {
	listener, fault := net.Listen("tcp", "127.0.0.1:0")
	if fault != nil {
		panic(fault)
	}
	fmt.Println(listener.Addr().(*net.TCPAddr).Port)
	var one sync.Mutex
	all, printed := rand.New(rand.NewSource(seed)), json.NewEncoder(os.Stdout)
	go http.Serve(listener, http.HandlerFunc(func(w http.ResponseWriter, asked *http.Request) {
		body, fault := io.ReadAll(asked.Body)
		if fault != nil {
			panic(fault)
		}
		head := fmt.Sprintf("%s %s %s %s", asked.Method, asked.RequestURI, asked.Proto, asked.Host)
		one.Lock()
		chance := rand.New(rand.NewSource(all.Int63()))
		status := statuses[chance.Intn(len(statuses))]
		printed.Encode(Post{head, asked.Header, body, status})
		one.Unlock()
		answer(chance, w, status)
	}))
	io.ReadAll(os.Stdin)
}

func main() {
	if os.Args[1] == "send" {
		send(os.Args[2])
	} else {
		seed, _ := strconv.ParseInt(os.Args[2], 10, 64)
		serve(seed)
	}
}
