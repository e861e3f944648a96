package pidtab

import (
	"bufio"
	"context"
	"errors"
	"fmt"
	"math/rand"
	"net"
	"os"
	"os/exec"
	"path/filepath"
	"strings"
	"sync"
	"syscall"
	"testing"
	"time"
)

// serve starts the built service, and answers its socket; the test is skipped where there is none.
func serve(t *testing.T) (string, *exec.Cmd) {
	t.Helper()
	daemon := os.Getenv("PIDTABD")
	if daemon == "" {
		daemon = "../../service/target/release/pidtabd"
	}
	if _, err := os.Stat(daemon); err != nil {
		t.Skip("no service: `make service` builds it")
	}
	socket := filepath.Join(t.TempDir(), "socket")
	command := exec.Command(daemon, "--socket", socket, "--pid-max", "400")
	if err := command.Start(); err != nil {
		t.Fatal(err)
	}
	t.Cleanup(func() {
		command.Process.Kill()
		command.Wait()
	})
	for end := time.Now().Add(10 * time.Second); time.Now().Before(end); time.Sleep(10 * time.Millisecond) {
		if it, err := net.Dial("unix", socket); err == nil {
			it.Close()
			return "unix:" + socket, command
		}
	}
	t.Fatal("the service does not begin")
	return "", nil
}

// TestConnected makes random calls of a service and of a table: each reply is the same, or what is refused, and the list.
func TestConnected(t *testing.T) {
	address, command := serve(t)
	connected, err := Connect(address)
	if err != nil {
		t.Fatal(err)
	}
	table, err := Open(Settings{PidMax: 400})
	if err != nil {
		t.Fatal(err)
	}
	defer table.Close()
	chance, made := rand.New(rand.NewSource(5)), uint64(0)
	for turn := 0; turn < 4000; turn++ {
		call := Call{Operation: Operation(chance.Intn(19)), Caller: uint32(chance.Intn(30)), Number: uint32(chance.Intn(30)), Choice: uint32(chance.Intn(3))}
		if chance.Intn(3) == 0 {
			call = Call{Operation: OpFork, Caller: uint32(1 + chance.Intn(10)), Choice: uint32(chance.Intn(2))}
		}
		wanted, fault := table.Call(call)
		reply, err := connected.Call(call)
		if fault == nil {
			made++
		}
		if reply != wanted || (err == nil) != (fault == nil) {
			t.Fatalf("%v: %v %v, and by the table %v %v", call, reply, err, wanted, fault)
		}
	}
	list, _ := table.List()
	if told, err := connected.List(); err != nil || told != list {
		t.Fatal(err, told)
	}
	if position, err := connected.Position(); err != nil || position != made {
		t.Fatal(position, made, err)
	}
	if _, err := connected.Getpid(399); !errors.Is(err, ErrNoCaller) {
		t.Fatal(err)
	}
	command.Process.Kill()
	if _, err := connected.Getpid(1); err == nil {
		t.Fatal("a service that has ended answers")
	}
	if _, err := connected.Getpid(1); !errors.Is(err, ErrClosed) {
		t.Fatal(err)
	}
	if _, err := Connect(address + "-none"); err == nil {
		t.Fatal("nobody listens there")
	}
}

// TestNotServed asks a follower to make a call.
func TestNotServed(t *testing.T) {
	told := &NotServed{"READONLY this follows a: call there, or say TAKEOVER"}
	if _, err := notMade(OpFork, told); err != error(told) || told.Word() != "READONLY" {
		t.Fatal(err)
	}
	if _, err := notMade(OpFork, &NotServed{"OOM no-memory"}); err != ErrNoMemory {
		t.Fatal(err)
	}
}

// TestLeases binds a fork to a lease, and gives names and times that are none.
func TestLeases(t *testing.T) {
	address, _ := serve(t)
	it, other := connect(t, address), connect(t, address)
	if err := it.Lease("rig", 0); err != nil {
		t.Fatal(err)
	}
	if child, err := it.Fork(1, NoNewNamespace); err != nil || child.Root != 2 {
		t.Fatal(child, err)
	}
	for _, wrong := range []error{it.Lease("a b", 0), it.Lease("", 0), it.Lease("a\r\nSHUTDOWN", 0), it.Lease("rig", -time.Second), it.Lease("rig", 25*time.Hour)} {
		var told *NotServed
		if !errors.As(wrong, &told) || told.Said != "ERR syntax: LEASE NAME TTL" {
			t.Fatal(wrong)
		}
	}
	it.Close()
	for end := time.Now().Add(10 * time.Second); ; time.Sleep(10 * time.Millisecond) {
		reaped, err := other.Wait(1, Any())
		if err == nil && reaped != nil && *reaped == (Reaped{Child: 2, Status: 137}) {
			break
		}
		if err != nil || time.Now().After(end) {
			t.Fatal(reaped, err)
		}
	}
	first, err := other.Release("rig")
	if second, fault := other.Release("rig"); first || second || err != nil || fault != nil {
		t.Fatal(first, second, err, fault)
	}
	if err := other.Lease("rig", time.Minute); err != nil {
		t.Fatal(err)
	}
	if was, err := other.Release("rig"); !was || err != nil {
		t.Fatal(was, err)
	}
}

// TestAKilledChild has the namespace of a child fall, whose parent is outside of it.
func TestAKilledChild(t *testing.T) {
	address, _ := serve(t)
	it := connect(t, address)
	first, _ := it.Fork(1, NoNewNamespace)
	init, _ := it.Fork(1, NewNamespace)
	if err := it.Join(first.Root, init.Number); err != nil {
		t.Fatal(err)
	}
	child, err := it.Fork(first.Root, NoNewNamespace)
	if reaped, fault := it.Wait(first.Root, Any()); err != nil || fault != nil || reaped != nil {
		t.Fatal(child, err, reaped, fault)
	}
	it.Exit(init.Root, 0)
	if reaped, err := it.Wait(first.Root, Any()); err != nil || reaped == nil || *reaped != (Reaped{Child: 4, Killed: true}) {
		t.Fatal(reaped, err)
	}
}

// connect connects to a service, which is there.
func connect(t *testing.T, address string) *Connected {
	t.Helper()
	it, err := Connect(address)
	if err != nil {
		t.Fatal(err)
	}
	t.Cleanup(func() { it.Close() })
	return it
}

// halted has the service stopped for so long as the work takes: it answers nothing.
func halted(command *exec.Cmd, work func()) {
	command.Process.Signal(syscall.SIGSTOP)
	defer command.Process.Signal(syscall.SIGCONT)
	time.Sleep(50 * time.Millisecond)
	work()
}

// TestConnectedIsClosedTwice uses one that was closed, and one that Connect has not made.
func TestConnectedIsClosedTwice(t *testing.T) {
	address, _ := serve(t)
	it := connect(t, address)
	for range [2]int{} {
		if err := it.Close(); err != nil {
			t.Fatal(err)
		}
	}
	for _, it := range []*Connected{it, it.With(context.Background()), new(Connected), new(Connected).With(context.Background())} {
		_, fork := it.Fork(1, NoNewNamespace)
		_, list := it.List()
		_, position := it.Position()
		for _, err := range []error{fork, list, position} {
			if !errors.Is(err, ErrClosed) || !errors.Is(err, os.ErrClosed) {
				t.Fatal(err)
			}
		}
	}
	if err := new(Connected).Close(); err != nil {
		t.Fatal(err)
	}
}

// TestConnectedIsShared has each of eight goroutines ask for the children that it has forked.
func TestConnectedIsShared(t *testing.T) {
	address, _ := serve(t)
	it := connect(t, address)
	var group sync.WaitGroup
	for place := 0; place < 8; place++ {
		group.Add(1)
		go func() {
			defer group.Done()
			for range [40]int{} {
				child, err := it.Fork(1, NoNewNamespace)
				number, fault := it.Getpid(child.Root)
				if err != nil || fault != nil || number != child.Root {
					t.Error(child, number, err, fault)
				}
			}
		}()
	}
	group.Wait()
	if count, err := it.Count(0); err != nil || count != 321 {
		t.Fatal(count, err)
	}
}

// TestConnectedIsClosedAmidACall closes it while another goroutine waits for an answer.
func TestConnectedIsClosedAmidACall(t *testing.T) {
	address, command := serve(t)
	it, told := connect(t, address), make(chan error)
	halted(command, func() {
		go func() {
			_, err := it.Getpid(1)
			told <- err
		}()
		time.Sleep(100 * time.Millisecond)
		it.Close()
		if err := <-told; !errors.Is(err, ErrClosed) {
			t.Fatal(err)
		}
	})
}

// TestContextOfConnected ends contexts before a call, while it waits for its turn, and amid it.
func TestContextOfConnected(t *testing.T) {
	address, command := serve(t)
	it := connect(t, address)
	done, end := context.WithCancel(context.Background())
	end()
	if _, err := it.With(done).Fork(1, NoNewNamespace); err != context.Canceled {
		t.Fatal(err)
	}
	if _, err := it.With(nil).Fork(1, NoNewNamespace); !errors.Is(err, ErrNil) {
		t.Fatal(err)
	}
	if position, err := it.Position(); position != 0 || err != nil {
		t.Fatal("a call was made, or the connection is closed:", position, err)
	}
	halted(command, func() {
		soon, end := context.WithTimeout(context.Background(), 100*time.Millisecond)
		defer end()
		told := make(chan error)
		go func() {
			_, err := it.Getpid(1)
			told <- err
		}()
		time.Sleep(20 * time.Millisecond)
		if _, err := it.With(soon).Getpid(1); err != context.DeadlineExceeded {
			t.Error("it waits for its turn:", err)
		}
		command.Process.Signal(syscall.SIGCONT)
		if err := <-told; err != nil {
			t.Error("a turn that another has waited for:", err)
		}
	})
	halted(command, func() {
		soon, end := context.WithTimeout(context.Background(), 100*time.Millisecond)
		defer end()
		_, err := it.With(soon).Fork(1, NoNewNamespace)
		if !errors.Is(err, context.DeadlineExceeded) || !strings.Contains(fmt.Sprint(err), "was made or was not") {
			t.Error(err)
		}
	})
	if _, err := it.Getpid(1); !errors.Is(err, ErrClosed) {
		t.Fatal(err)
	}
}

// TestNoAnswerIsMisread ends contexts at any time: no answer is that of another request.
func TestNoAnswerIsMisread(t *testing.T) {
	address, _ := serve(t)
	it, chance, closed := connect(t, address), rand.New(rand.NewSource(6)), 0
	for range [300]int{} {
		if _, err := it.Fork(1, NoNewNamespace); err != nil {
			t.Fatal(err)
		}
	}
	for turn := 0; turn < 3000; turn++ {
		number := uint32(2 + chance.Intn(300))
		ctx, end := context.WithTimeout(context.Background(), time.Duration(chance.Intn(200))*time.Microsecond)
		told, err := it.With(ctx).Getpid(number)
		end()
		if err == nil && told != number || err != nil && !errors.Is(err, context.DeadlineExceeded) {
			t.Fatal(number, told, err)
		}
		if told, err = it.Getpid(number); errors.Is(err, ErrClosed) {
			closed++
			it = connect(t, address)
		} else if told != number || err != nil {
			t.Fatal(number, told, err)
		}
	}
	if closed == 0 || closed == 3000 {
		t.Fatal("no context has ended amid a call, or each:", closed)
	}
}

// TestAPeerThatDies has the service killed amid a call.
func TestAPeerThatDies(t *testing.T) {
	address, command := serve(t)
	it := connect(t, address)
	halted(command, func() {
		time.AfterFunc(100*time.Millisecond, func() { command.Process.Kill() })
		if _, err := it.Fork(1, NoNewNamespace); err == nil || errors.Is(err, ErrClosed) {
			t.Fatal(err)
		}
	})
	if _, err := it.Fork(1, NoNewNamespace); !errors.Is(err, ErrClosed) {
		t.Fatal(err)
	}
}

// TestAPeerThatIsNoService is sent what is no answer, or says why it closes.
func TestAPeerThatIsNoService(t *testing.T) {
	chance := rand.New(rand.NewSource(7))
	given := []string{"HTTP/1.1 400 Bad Request\r\n", strings.Repeat("*1\r\n", 1000), "$-5\r\n", ":x\r\n", "*9999999999999999999\r\n", "$9999999999999\r\nx",
		strings.Repeat("x", 100000), "*2\r\n", "", "\r\n", "-", "+OK", "*1\r\n-ERR x\r\n", "$1\r\nxy\r\n", "*-1\r\n"}
	for range [100]int{} {
		data := make([]byte, chance.Intn(40))
		chance.Read(data)
		given = append(given, string(data)+"\r\n")
	}
	for _, data := range given {
		it := connect(t, peer(t, data))
		position, err := it.Position()
		var told *NotServed
		if err == nil && fmt.Sprintf(":%d\r\n", position) != data {
			t.Fatalf("%q: %d", data, position)
		}
		if _, again := it.Position(); !errors.As(err, &told) && !errors.Is(again, ErrClosed) {
			t.Fatalf("%q: %v, and then %v", data, err, again)
		}
	}
	it := connect(t, peer(t, ":5\r\n-ERR closed for a reason\r\n"))
	it.Position()
	time.Sleep(100 * time.Millisecond)
	var told *NotServed
	if _, err := it.Fork(1, NoNewNamespace); !errors.As(err, &told) || told.Said != "ERR closed for a reason" {
		t.Fatal(err)
	}
	if _, err := it.Fork(1, NoNewNamespace); !errors.Is(err, ErrClosed) {
		t.Fatal(err)
	}
}

// TestHowDeepAnswersAre reads arrays in arrays, which end after eight.
func TestHowDeepAnswersAre(t *testing.T) {
	for depth, isRead := range map[int]bool{1: true, deepestAnswer: true, deepestAnswer + 1: false} {
		own := connection{reader: bufio.NewReader(strings.NewReader(strings.Repeat("*1\r\n", depth) + ":1\r\n"))}
		if _, err := own.read(0); (err == nil) != isRead {
			t.Fatal(depth, err)
		}
	}
}

// peer is the path of a socket where one that connects and asks is sent the data.
func peer(t *testing.T, data string) string {
	t.Helper()
	path := filepath.Join(t.TempDir(), "peer")
	listener, err := net.Listen("unix", path)
	if err != nil {
		t.Fatal(err)
	}
	go func() {
		defer listener.Close()
		socket, err := listener.Accept()
		if err == nil {
			socket.Read(make([]byte, 1000))
			socket.Write([]byte(data))
			socket.Close()
		}
	}()
	return path
}
