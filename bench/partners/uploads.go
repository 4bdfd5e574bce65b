// Answers uploads over HTTP by reading their JSON, and prints the port that it listens on.
//
//	PUT /v1/issuers/{lou}                     answers {"entry":0,"issuer":"lou"}
//	PUT /v1/issuers/{lou}/uploads/{number}    answers {"entry":n,"issuer":"lou","items":["ACCEPTED",..],"number":k}
//
// Each upload has the next number from 1 on as its entry. The items of a body are read into maps of texts; nothing is
// judged, and nothing is kept. A body that isn't an upload is answered 400, and any other request 404.
package main

import (
	"encoding/json"
	"fmt"
	"log"
	"net"
	"net/http"
	"strconv"
	"strings"
	"sync/atomic"
)

type upload struct {
	Records       []map[string]string `json:"records"`
	Relationships []map[string]string `json:"relationships"`
	Exceptions    []map[string]string `json:"exceptions"`
}

type answer struct {
	Entry  int64    `json:"entry"`
	Issuer string   `json:"issuer"`
	Items  []string `json:"items,omitempty"`
	Number int      `json:"number,omitempty"`
}

var entries atomic.Int64

// Reads the items of a body. Says how many there are, or that the body isn't an upload.
func count(request *http.Request) (int, error) {
	var read upload
	decoder := json.NewDecoder(request.Body)
	decoder.DisallowUnknownFields()
	err := decoder.Decode(&read)
	return len(read.Records) + len(read.Relationships) + len(read.Exceptions), err
}

func serve(writer http.ResponseWriter, request *http.Request) {
	parts := strings.Split(request.URL.Path, "/")
	if request.Method != "PUT" || len(parts) < 4 || parts[1] != "v1" || parts[2] != "issuers" {
		http.Error(writer, "NO_ROUTE", 404)
		return
	}
	reply := answer{Issuer: parts[3]}
	if len(parts) == 6 {
		number, wrong := strconv.Atoi(parts[5])
		items, err := count(request)
		if err != nil || wrong != nil {
			http.Error(writer, "MALFORMED", 400)
			return
		}
		reply.Entry = entries.Add(1)
		reply.Number = number
		reply.Items = make([]string, items)
		for place := range reply.Items {
			reply.Items[place] = "ACCEPTED"
		}
	}
	text, err := json.Marshal(reply)
	if err != nil {
		http.Error(writer, err.Error(), 500)
		return
	}
	writer.Header().Set("Content-Type", "application/json")
	writer.Header().Set("Content-Length", strconv.Itoa(len(text)))
	writer.Write(text)
}

func main() {
	listener, err := net.Listen("tcp", "127.0.0.1:0")
	if err != nil {
		log.Fatal(err)
	}
	fmt.Println(listener.Addr().(*net.TCPAddr).Port)
	log.Fatal(http.Serve(listener, http.HandlerFunc(serve)))
}
