// A mail server's end on go-milter, as bench/texts.sh measures it beside `milter_tool mta`: it asks the filter at a
// Unix socket about so many messages on one connection, each with ten header fields and a body of so many bytes in
// lines of 64, and prints the verdict on each.
//
//	client SOCKET COUNT BODY
package main

import (
	"bytes"
	"fmt"
	"os"
	"strconv"
	"strings"

	"github.com/emersion/go-milter"
)

const line = 64

func check(action *milter.Action, err error) {
	if err != nil {
		fmt.Fprintln(os.Stderr, err)
		os.Exit(1)
	}
	if action.Code != milter.ActContinue {
		fmt.Fprintln(os.Stderr, "unexpected action", action.Code)
		os.Exit(1)
	}
}

func message(session *milter.ClientSession, body []byte) {
	check(session.Mail("<ada@example.org>", nil))
	check(session.Rcpt("<bob@example.net>", nil))
	for n := 0; n < 10; n++ {
		check(session.HeaderField(fmt.Sprintf("X-Field-%d", n), " a value of some bytes, as header fields have them"))
	}
	check(session.HeaderEnd())
	_, action, err := session.BodyReadFrom(bytes.NewReader(body))
	if err != nil {
		fmt.Fprintln(os.Stderr, err)
		os.Exit(1)
	}
	fmt.Println("accept", action.Code == milter.ActAccept || action.Code == milter.ActContinue)
}

func main() {
	count, _ := strconv.Atoi(os.Args[2])
	size, _ := strconv.Atoi(os.Args[3])
	body := []byte(strings.Repeat(strings.Repeat("x", line-2)+"\r\n", size/line))
	client := milter.NewClientWithOptions("unix", os.Args[1], milter.ClientOptions{ActionMask: milter.OptAddHeader})
	session, err := client.Session()
	if err != nil {
		fmt.Fprintln(os.Stderr, err)
		os.Exit(1)
	}
	check(session.Conn("mail.example.org", milter.FamilyUnknown, 0, ""))
	check(session.Helo("mail.example.org"))
	for n := 0; n < count; n++ {
		message(session, body)
	}
	session.Close()
}
