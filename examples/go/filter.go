// A filter that serves one connection after another, and refuses a recipient that takes no mail.
//
//	go build -o filter filter.go
//	./filter 127.0.0.1:8891
package main

// #cgo pkg-config: deiruska
// #include <deiruska.h>
import "C"

import (
	"fmt"
	"log"
	"net"
	"os"
	"unsafe"
)

const (
	refused = "<noreply@example.net>"
	refusal = "550 5.1.1 This address takes no mail"
)

// A Filter is a filter's end of a connection.
type Filter struct {
	handle C.deiruska_filter
}

func check(result C.int32_t) error {
	if result == C.DEIRUSKA_OK {
		return nil
	}
	return fmt.Errorf("deiruska: %d", int(result))
}

// at is the address of bytes. The library keeps copies alone.
func at(text []byte) *C.uint8_t {
	if len(text) == 0 {
		return nil
	}
	return (*C.uint8_t)(unsafe.Pointer(&text[0]))
}

// lastRecipient is the address of the last recipient so far: a copy of what is borrowed.
func (filter *Filter) lastRecipient() (string, error) {
	var count C.size_t
	var address C.deiruska_bytes
	if err := check(C.deiruska_filter_recipients(&filter.handle, &count)); err != nil {
		return "", err
	}
	err := check(C.deiruska_filter_recipient(&filter.handle, count-1, &address))
	return string(C.GoBytes(unsafe.Pointer(address.at), C.int(address.len))), err
}

// answer answers the open question.
func (filter *Filter) answer() error {
	var answer C.deiruska_answer
	var stage C.uint32_t
	defer C.deiruska_free(&answer.handle)
	if err := check(C.deiruska_answer_new(&answer)); err != nil {
		return err
	}
	if err := check(C.deiruska_filter_asked(&filter.handle, &stage)); err != nil {
		return err
	}
	if stage == C.DEIRUSKA_STAGE_RCPT {
		address, err := filter.lastRecipient()
		if err == nil && address == refused {
			err = check(C.deiruska_answer_code(&answer, at([]byte(refusal)), C.size_t(len(refusal))))
		}
		if err != nil {
			return err
		}
	}
	return check(C.deiruska_filter_answer(&filter.handle, &answer))
}

// send sends what is pending.
func (filter *Filter) send(connection net.Conn) error {
	var pending C.deiruska_bytes
	if err := check(C.deiruska_filter_pending(&filter.handle, &pending)); err != nil {
		return err
	}
	count, err := connection.Write(C.GoBytes(unsafe.Pointer(pending.at), C.int(pending.len)))
	if err != nil {
		return err
	}
	return check(C.deiruska_filter_sent(&filter.handle, C.size_t(count)))
}

// feed feeds bytes of a piece, and answers those that are still to be fed.
func (filter *Filter) feed(piece []byte) ([]byte, error) {
	var taken C.size_t
	err := check(C.deiruska_filter_feed(&filter.handle, at(piece), C.size_t(len(piece)), &taken))
	return piece[taken:], err
}

// serve serves a connection until the mail server quits or is gone.
func serve(connection net.Conn) error {
	var filter Filter
	var piece []byte
	room := make([]byte, 65536)
	defer C.deiruska_free(&filter.handle.handle)
	err := check(C.deiruska_filter_new(&filter.handle, 6, 0, C.DEIRUSKA_PROTOCOL_NOBODY))
	for err == nil {
		switch C.deiruska_filter_step(&filter.handle) {
		case C.DEIRUSKA_STEP_SEND:
			err = filter.send(connection)
		case C.DEIRUSKA_STEP_ANSWER:
			err = filter.answer()
		case C.DEIRUSKA_STEP_FEED:
			if len(piece) == 0 {
				count, failed := connection.Read(room)
				if failed != nil {
					return nil
				}
				piece = room[:count]
			}
			piece, err = filter.feed(piece)
		default:
			return nil
		}
	}
	return err
}

func main() {
	if len(os.Args) != 2 {
		log.Fatal("usage: filter HOST:PORT")
	}
	listener, err := net.Listen("tcp", os.Args[1])
	if err != nil {
		log.Fatal(err)
	}
	for {
		connection, err := listener.Accept()
		if err != nil {
			log.Fatal(err)
		}
		if err := serve(connection); err != nil {
			log.Print(err)
		}
		connection.Close()
	}
}
