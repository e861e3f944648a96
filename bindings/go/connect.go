package pidtab

import (
	"bufio"
	"bytes"
	"context"
	"errors"
	"fmt"
	"io"
	"net"
	"regexp"
	"strconv"
	"strings"
	"sync/atomic"
	"time"
)

// No answer of a service has a longer line, in bytes, or arrays that stand deeper in one another.
const (
	longestLine   = 1 << 16
	deepestAnswer = 8
)

// Connected is a connection to a service, pidtabd: the calls of the one table of all its clients, with the methods of a Table. Goroutines may share it:
// one call is made at a time. After a fault of the connection, and after a context that ends amid a call, it is closed, and the last call was made or
// was not. After that, and after Close, each call answers ErrClosed.
type Connected struct {
	Calls
	own *connection
	ctx context.Context
}

// connection is what all Connected of one connection have.
type connection struct {
	turn     chan struct{} // it has room for one: who has put it in makes a request
	socket   net.Conn
	reader   *bufio.Reader
	isClosed atomic.Bool
}

// NotServed is what the service does not do for this connection, as "NOPERM this user may only ask". No call was made.
type NotServed struct{ Said string }

func (it *NotServed) Error() string { return "pidtab: the service says " + it.Said }

// Word is its first word, as NOPERM, READONLY or BUSY.
func (it *NotServed) Word() string { return strings.SplitN(it.Said, " ", 2)[0] }

// Connect connects to the service at unix:/run/pidtab.sock, or at a path alone.
func Connect(address string) (*Connected, error) {
	socket, err := net.Dial("unix", strings.TrimPrefix(address, "unix:"))
	if err != nil {
		return nil, err
	}
	own := &connection{turn: make(chan struct{}, 1), socket: socket, reader: bufio.NewReaderSize(socket, longestLine)}
	return own.connected(context.Background()), nil
}

func (own *connection) connected(ctx context.Context) *Connected {
	it := &Connected{own: own, ctx: ctx}
	it.Calls = CallsBy(it.make)
	return it
}

// With is the same connection with a context. A call whose context is done before is not made, and answers its Err. If it ends amid a call, that answers an
// error that wraps its Err, and the connection is closed, as else the next answer would be that of another request. ErrNil of each call where it is nil.
func (it *Connected) With(ctx context.Context) *Connected {
	if it.own == nil {
		return it
	}
	return it.own.connected(ctx)
}

// Close ends the connection, and the wait of a call of another goroutine, which answers ErrClosed. The table stays. A second time nothing is done.
func (it *Connected) Close() error {
	if it.own == nil || it.own.isClosed.Swap(true) {
		return nil
	}
	return it.own.socket.Close()
}

// List is the list of the table, as `pidtab list` writes it.
func (it *Connected) List() (string, error) {
	answer, err := it.ask("PIDTAB.LIST")
	if err == nil && answer.kind != '$' {
		return "", it.noService(answer.text)
	}
	return answer.text, err
}

// Position is how many calls are recorded.
func (it *Connected) Position() (uint64, error) {
	answer, err := it.ask("PIDTAB.POSITION")
	if err != nil {
		return 0, err
	}
	position, err := strconv.ParseUint(answer.text, 10, 64)
	if err != nil {
		return 0, it.noService(answer.text)
	}
	return position, nil
}

// Lease has what this connection forks from now on end so long after the last connection with the lease has gone: 0 to a day, in whole ms. Its name has
// 1 to 64 visible characters of ASCII. A NotServed for another name or time.
func (it *Connected) Lease(name string, ttl time.Duration) error {
	_, err := it.ask("PIDTAB.LEASE", name, strconv.FormatInt(ttl.Milliseconds(), 10))
	return err
}

// Release forgets the lease, whose tasks stay. Whether there was one.
func (it *Connected) Release(name string) (bool, error) {
	answer, err := it.ask("PIDTAB.RELEASE", name)
	if err == nil && answer.kind != ':' {
		return false, it.noService(answer.text)
	}
	return answer.text == "1", err
}

func (it *Connected) make(call Call) (Reply, error) {
	line, err := call.Line()
	if err != nil {
		return Reply{}, err
	}
	words := strings.Split(line, " ")
	answer, err := it.ask(append([]string{"PIDTAB.CALL"}, words...)...)
	if err != nil {
		var told *NotServed
		if errors.As(err, &told) {
			return notMade(call.Operation, told)
		}
		return Reply{}, err
	}
	return ReadReply(call.Operation, answer.line(words[0]))
}

var refusalWords = regexp.MustCompile(`^E[A-Z]+ [a-z-]+( [0-9]+)?$`)

// notMade is a refusal of the table, in the words of the script language, or why nothing was made.
func notMade(operation Operation, told *NotServed) (Reply, error) {
	switch {
	case told.Said == "OOM no-memory":
		return Reply{}, ErrNoMemory
	case told.Said == "ERR spent":
		return Reply{}, ErrSpent
	case refusalWords.MatchString(told.Said):
		return ReadReply(operation, told.Said)
	}
	return Reply{}, told
}

// respAnswer is an answer of RESP: a text or a number, an array, or nil.
type respAnswer struct {
	kind  byte
	text  string
	parts []respAnswer
	isNil bool
}

// line is the answer as the script language has it.
func (it respAnswer) line(verb string) string {
	switch {
	case it.isNil && it.kind == '*':
		return "none"
	case it.isNil:
		return "end"
	case verb == "mk":
		return "control " + it.text
	case it.kind != '*':
		return strings.ToLower(it.text)
	}
	words := make([]string, len(it.parts))
	for place, part := range it.parts {
		words[place] = part.text
	}
	switch {
	case verb == "fork" && len(words) == 2:
		return fmt.Sprintf("child %s root %s", words[0], words[1])
	case verb == "wait" && len(words) == 2 && words[1] == "killed":
		return fmt.Sprintf("reaped %s killed", words[0])
	case verb == "wait" && len(words) == 2:
		return fmt.Sprintf("reaped %s exit %s", words[0], words[1])
	}
	return strings.Join(words, " ")
}

// ask makes a request, once those before it have their answers.
func (it *Connected) ask(words ...string) (respAnswer, error) {
	if it.own == nil {
		return respAnswer{}, ErrClosed
	}
	if it.ctx == nil {
		return respAnswer{}, ErrNil
	}
	select {
	case it.own.turn <- struct{}{}:
		defer func() { <-it.own.turn }()
	case <-it.ctx.Done():
		return respAnswer{}, it.ctx.Err()
	}
	if err := it.ctx.Err(); err != nil {
		return respAnswer{}, err
	}
	if it.own.isClosed.Load() {
		return respAnswer{}, ErrClosed
	}
	answer, err := it.exchange(words)
	var told *NotServed
	if err == nil || errors.As(err, &told) {
		return answer, err
	}
	return answer, it.fault(err)
}

// fault closes the connection, as the next answer would be that of another request, and answers why.
func (it *Connected) fault(err error) error {
	wasClosed := it.own.isClosed.Load()
	it.Close()
	switch {
	case wasClosed:
		return ErrClosed
	case it.ctx.Err() != nil:
		return fmt.Errorf("pidtab: the connection is closed amid a call, which was made or was not: %w", it.ctx.Err())
	}
	return err
}

// noService closes the connection, whose peer has another answer than a service.
func (it *Connected) noService(said string) error {
	it.Close()
	return noService(said)
}

func noService(said string) error {
	if len(said) > 200 {
		said = said[:200] + ".."
	}
	return fmt.Errorf("pidtab: what answers is no service: %q", said)
}

// exchange sends a request and reads its answer, until the context ends.
func (it *Connected) exchange(words []string) (respAnswer, error) {
	if it.ctx.Done() == nil {
		return it.own.exchange(words)
	}
	over, watched := make(chan struct{}), make(chan struct{})
	go it.watch(over, watched)
	answer, err := it.own.exchange(words)
	close(over)
	<-watched
	if err == nil {
		// The context may have ended after the answer was there.
		err = it.own.socket.SetDeadline(time.Time{})
	}
	return answer, err
}

// watch ends the waits for the socket once the context is done.
func (it *Connected) watch(over, watched chan struct{}) {
	defer close(watched)
	select {
	case <-it.ctx.Done():
		it.own.socket.SetDeadline(time.Unix(1, 0))
	case <-over:
	}
}

func (own *connection) exchange(words []string) (respAnswer, error) {
	request := fmt.Sprintf("*%d\r\n", len(words))
	for _, word := range words {
		request += fmt.Sprintf("$%d\r\n%s\r\n", len(word), word)
	}
	_, err := io.WriteString(own.socket, request)
	answer, told := own.read(0)
	var reason *NotServed
	if err != nil && !errors.As(told, &reason) {
		return respAnswer{}, err
	}
	if err != nil {
		// Who is turned away is told why before, and there is no more.
		own.isClosed.Store(true)
		own.socket.Close()
	}
	return answer, told
}

// read reads the next answer, which stands so deep in others.
func (own *connection) read(depth int) (respAnswer, error) {
	line, err := own.reader.ReadSlice('\n')
	if err == bufio.ErrBufferFull {
		return respAnswer{}, noService(string(line))
	}
	if err != nil {
		return respAnswer{}, unexpected(err)
	}
	head := strings.TrimRight(string(line), "\r\n")
	if head == "" {
		return respAnswer{}, noService(head)
	}
	kind, rest := head[0], head[1:]
	switch {
	case kind == '-' && depth == 0:
		return respAnswer{}, &NotServed{rest}
	case kind == '-' || kind == '+' || kind == ':':
		return respAnswer{kind: kind, text: rest}, nil
	}
	count, err := strconv.ParseInt(rest, 10, 64)
	if err != nil || count < -1 || depth == deepestAnswer || (kind != '$' && kind != '*') {
		return respAnswer{}, noService(head)
	}
	if count < 0 {
		return respAnswer{kind: kind, isNil: true}, nil
	}
	if kind == '$' {
		return own.readText(count)
	}
	return own.readParts(count, depth)
}

// readText reads a text of so many bytes. It takes no more room than it has come.
func (own *connection) readText(size int64) (respAnswer, error) {
	var text bytes.Buffer
	if _, err := io.CopyN(&text, own.reader, size); err != nil {
		return respAnswer{}, unexpected(err)
	}
	if _, err := own.reader.Discard(2); err != nil {
		return respAnswer{}, unexpected(err)
	}
	return respAnswer{kind: '$', text: text.String()}, nil
}

func (own *connection) readParts(count int64, depth int) (respAnswer, error) {
	answer := respAnswer{kind: '*'}
	for int64(len(answer.parts)) < count {
		part, err := own.read(depth + 1)
		if err != nil {
			return respAnswer{}, err
		}
		answer.parts = append(answer.parts, part)
	}
	return answer, nil
}

// unexpected is the fault of an answer that ends within.
func unexpected(err error) error {
	if err == io.EOF {
		return io.ErrUnexpectedEOF
	}
	return err
}
