// node [-l PORT] [-c ADDRESS:PORT] [-h HOST] [-r REALM] [-w SECONDS] DICTIONARY..: credit control (RFC 8506) over TCP.
//
// It accepts connections on loopback (-l; 0 takes any free port) and opens one (-c). The texts are one dictionary, by which each message is
// checked. A CCR is answered with a CCA of the node's own, and a request that has a fault with its fault. -w is Tw, 30 or at least 6
// (RFC 3539 section 3.4.1). Standard output has a line for each message and each state. SIGTERM or SIGINT gives up all connections.
package main

import (
	"bytes"
	"flag"
	"fmt"
	"io"
	"log"
	"net"
	"os"
	"os/signal"
	"sync"
	"syscall"
	"time"

	"wittalen/dia"
)

const (
	creditControl = 4       // the Application-ID of RFC 8506
	longest       = 1 << 20 // the most bytes of a message that is read
	answerTime    = 10 * time.Second
	lingerTime    = 2 * time.Second // how long the other end may take to close
	requests      = 8               // messages that wait
)

// A node is what its connections have in common.
type node struct {
	host, realm string
	tw          time.Duration
	dictionary  *dia.Dictionary
	stop        chan struct{}
	connections sync.WaitGroup
}

// A connection is one over TCP. All but its reader is one goroutine.
type connection struct {
	*node
	name       string
	socket     net.Conn
	dictionary *dia.Dictionary // its own handle
	peer       *dia.Peer
	state      dia.State
	timer      *time.Timer
	isOver     bool
}

func (n *node) serve(socket net.Conn, role dia.Role) {
	defer n.connections.Done()
	defer socket.Close()
	dictionary, err := n.dictionary.Share()
	if err != nil {
		log.Fatal(err)
	}
	defer dictionary.Close()
	peer, err := dia.NewPeer(role, dia.Config{Host: n.host, Realm: n.realm, Product: "node.go", Answers: true,
		Applications: []dia.Application{{ID: creditControl}}})
	if err != nil {
		log.Fatal(err)
	}
	defer peer.Close()
	c := &connection{node: n, name: socket.RemoteAddr().String(), socket: socket, dictionary: dictionary, peer: peer,
		timer: time.NewTimer(answerTime)}
	defer c.timer.Stop()
	c.run()
	c.say("over")
}

// run delivers what happens to the end, one after the other, until the connection is closed.
func (c *connection) run() {
	came, stop := make(chan []byte, requests), c.stop
	over := make(chan struct{})
	defer close(over)
	go c.read(came, over)
	c.do(c.peer.Start())
	for !c.isOver {
		select {
		case message, isOpen := <-came:
			if !isOpen {
				c.do(c.peer.Lost())
				return
			}
			c.receive(message)
		case <-c.timer.C:
			c.do(c.peer.Tick())
		case <-stop:
			stop = nil
			c.do(c.peer.Stop(dia.Rebooting))
		}
	}
	c.linger(came)
}

// linger lets the other end close: a close with bytes unread would reset the connection, and what was sent might be lost.
func (c *connection) linger(came <-chan []byte) {
	if socket, isTCP := c.socket.(*net.TCPConn); isTCP {
		socket.CloseWrite()
	}
	c.socket.SetReadDeadline(time.Now().Add(lingerTime))
	for range came {
	}
}

// read takes messages from the socket, and of bytes that begin none the first 20, which are the last.
func (c *connection) read(came chan<- []byte, over <-chan struct{}) {
	defer close(came)
	for {
		message := make([]byte, 20)
		if _, err := io.ReadFull(c.socket, message); err != nil {
			return
		}
		length, err := dia.MessageLength(message)
		isWhole := err == nil && length <= longest
		if isWhole {
			message = append(message, make([]byte, length-20)...)
			if _, err := io.ReadFull(c.socket, message[20:]); err != nil {
				return
			}
		}
		select {
		case came <- message:
		case <-over:
			return
		}
		if !isWhole {
			return
		}
	}
}

// receive takes a message: one of the connection is for the end, and another is for the application if the connection is open.
func (c *connection) receive(message []byte) {
	c.look("<-", message)
	header, err := dia.ReadHeader(message)
	isWhole := err == nil && int(header.Length) == len(message)
	isOfConnection := header.Code == 257 || header.Code == 280 || header.Code == 282
	if isOfConnection || !isWhole || c.state != dia.Open {
		c.do(c.peer.Receive(message))
		return
	}
	// a sign of life (RFC 3539 section 3.4.1)
	c.restart()
	if err := c.peer.Heard(); err != nil {
		log.Fatal(err)
	}
	if answer := c.answer(message, header); answer != nil {
		c.send(answer)
	}
}

// answer is the answer to a message of the application, or nil if it is no request.
func (c *connection) answer(message []byte, header dia.Header) []byte {
	answer, verdict, err := c.dictionary.Answer(message, c.host, c.realm, dia.Kept)
	if err != nil {
		log.Fatal(err)
	}
	if answer != nil || !header.IsRequest() || verdict.Outcome != dia.Valid {
		return answer
	}
	serves, err := c.peer.Serves(header.Application)
	switch {
	case err != nil:
		log.Fatal(err)
	case !serves:
		return c.refusal(message, header, 3007) // DIAMETER_APPLICATION_UNSUPPORTED
	case header.Code != 272:
		return c.refusal(message, header, 3001) // DIAMETER_COMMAND_UNSUPPORTED
	}
	return c.creditControlAnswer(message, header)
}

// creditControlAnswer is a CCA (RFC 8506 section 3.2) to a valid CCR.
func (c *connection) creditControlAnswer(request []byte, header dia.Header) []byte {
	return reply(header, 0,
		c.copied(request, 263), // Session-Id
		avp(268, number(2001)), // Result-Code: DIAMETER_SUCCESS
		avp(264, []byte(c.host)), avp(296, []byte(c.realm)),
		avp(258, number(creditControl)), // Auth-Application-Id
		c.copied(request, 416),          // CC-Request-Type
		c.copied(request, 415))          // CC-Request-Number
}

// refusal is an error message (RFC 6733 section 7.2).
func (c *connection) refusal(request []byte, header dia.Header, code uint32) []byte {
	const isError = 0x20
	return reply(header, isError, c.copied(request, 263), avp(264, []byte(c.host)), avp(296, []byte(c.realm)), avp(268, number(code)))
}

// copied is the first AVP of a message that has this code, no vendor, and is in no group; nothing if there is none.
func (c *connection) copied(message []byte, code uint32) []byte {
	found, has, err := c.dictionary.FindAVP(message, code, 0)
	if err != nil {
		log.Fatal(err)
	}
	if !has {
		return nil
	}
	return avp(code, message[found.DataPlace:found.DataPlace+found.DataLength])
}

// reply is the answer to a request with these flags, beside the P flag of the request, and these AVPs (RFC 6733 sections 3 and 6.2).
func reply(request dia.Header, flags uint32, avps ...[]byte) []byte {
	const isProxiable = 0x40
	body := bytes.Join(avps, nil)
	return bytes.Join([][]byte{number(1<<24 | uint32(20+len(body))), number((flags|request.Flags&isProxiable)<<24 | request.Code),
		number(request.Application), number(request.HopByHop), number(request.EndToEnd), body}, nil)
}

// avp is an AVP with the M flag and without a Vendor-ID, with its padding (RFC 6733 section 4.1).
func avp(code uint32, data []byte) []byte {
	const isMandatory = 0x40
	made := bytes.Join([][]byte{number(code), number(isMandatory<<24 | uint32(8+len(data))), data}, nil)
	return append(made, make([]byte, -len(data)&3)...)
}

func number(value uint32) []byte {
	return []byte{byte(value >> 24), byte(value >> 16), byte(value >> 8), byte(value)}
}

// do carries out what the end asks for, in order, and sets the timer.
func (c *connection) do(outputs []dia.Output, err error) {
	if err != nil {
		log.Fatal(err)
	}
	for _, output := range outputs {
		if output.Message != nil {
			c.send(output.Message)
		} else {
			c.say("closes: %s", output.Why)
			c.isOver = true
		}
	}
	state, err := c.peer.State()
	if err != nil {
		log.Fatal(err)
	}
	if state != c.state {
		c.state = state
		c.say("%s", state)
	}
	switch c.peer.Timer() {
	case dia.TimerOff:
		c.set(0)
	case dia.TimerQuiet:
		c.restart()
	case dia.TimerReply:
		c.set(answerTime)
	}
}

// restart sets the timer of the watchdog.
func (c *connection) restart() {
	quiet, err := dia.QuietTime(c.tw)
	if err != nil {
		log.Fatal(err)
	}
	c.set(quiet)
}

// set stops the timer and, unless the time is 0, starts it anew.
func (c *connection) set(after time.Duration) {
	if !c.timer.Stop() {
		select {
		case <-c.timer.C:
		default:
		}
	}
	if after > 0 {
		c.timer.Reset(after)
	}
}

func (c *connection) send(message []byte) {
	c.look("->", message)
	c.socket.SetWriteDeadline(time.Now().Add(answerTime))
	if _, err := c.socket.Write(message); err != nil {
		c.say("%s", err)
		c.isOver = true
	}
}

// look writes the verdict on a message.
func (c *connection) look(way string, message []byte) {
	verdict, err := c.dictionary.Check(message, dia.Kept)
	if err != nil {
		log.Fatal(err)
	}
	line, err := c.dictionary.Describe(verdict)
	if err != nil {
		log.Fatal(err)
	}
	c.say("%s %d bytes: %s", way, len(message), line)
}

func (c *connection) say(form string, words ...any) {
	fmt.Printf("%s: %s: %s\n", c.host, c.name, fmt.Sprintf(form, words...))
}

// listen accepts connections until the node stops.
func (n *node) listen(port string) {
	listener, err := net.Listen("tcp", "127.0.0.1:"+port)
	if err != nil {
		log.Fatal(err)
	}
	fmt.Printf("%s: listens on %d\n", n.host, listener.Addr().(*net.TCPAddr).Port)
	go func() {
		<-n.stop
		listener.Close()
	}()
	for {
		socket, err := listener.Accept()
		if err != nil {
			return
		}
		n.connections.Add(1)
		go n.serve(socket, dia.Responder)
	}
}

func read(paths []string) *dia.Dictionary {
	var texts [][]byte
	for _, path := range paths {
		text, err := os.ReadFile(path)
		if err != nil {
			log.Fatal(err)
		}
		texts = append(texts, text)
	}
	dictionary, err := dia.New(bytes.Join(texts, []byte("\n")))
	if err != nil {
		log.Fatal(err)
	}
	return dictionary
}

func main() {
	port, to := flag.String("l", "", "accept connections on this `port` of loopback"), flag.String("c", "", "open a connection to this `address`")
	n := &node{stop: make(chan struct{})}
	flag.StringVar(&n.host, "h", "node.example.com", "the Origin-Host")
	flag.StringVar(&n.realm, "r", "example.com", "the Origin-Realm")
	seconds := flag.Int("w", 30, "Tw in `seconds`")
	flag.Parse()
	if flag.NArg() == 0 || (*port == "" && *to == "") {
		flag.Usage()
		os.Exit(2)
	}
	n.tw, n.dictionary = time.Duration(*seconds)*time.Second, read(flag.Args())
	signals := make(chan os.Signal, 1)
	signal.Notify(signals, syscall.SIGTERM, syscall.SIGINT)
	go func() {
		<-signals
		close(n.stop)
	}()
	if *to != "" {
		socket, err := net.Dial("tcp", *to)
		if err != nil {
			log.Fatal(err)
		}
		n.connections.Add(1)
		go n.serve(socket, dia.Initiator)
	}
	if *port != "" {
		n.listen(*port)
	}
	n.connections.Wait()
}
