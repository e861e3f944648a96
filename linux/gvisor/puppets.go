package main

import (
	"sync"

	"gvisor.dev/gvisor/pkg/abi/linux"
	"gvisor.dev/gvisor/pkg/context"
	"gvisor.dev/gvisor/pkg/hostarch"
	"gvisor.dev/gvisor/pkg/seccomp"
	"gvisor.dev/gvisor/pkg/sentry/arch"
	"gvisor.dev/gvisor/pkg/sentry/kernel"
	"gvisor.dev/gvisor/pkg/sentry/memmap"
	"gvisor.dev/gvisor/pkg/sentry/platform"
)

// stage is a platform on which no program runs: each task waits for an order, which is a system call, and makes it.
type stage struct {
	platform.NoCPUPreemptionDetection
	platform.UseHostProcessMemoryBarrier

	mu      sync.Mutex
	changed *sync.Cond
	// Those that have come to the platform.
	puppets map[*kernel.Task]*puppet
}

// order is a system call that a task is to make.
type order struct {
	number    uintptr
	arguments [5]uint64
	// What lies at `scratch` before the call, and is read there after it.
	memory []byte
	// What it answers, below 0 an errno; 0 where the task ends by it.
	result int64
}

// puppet is a task in the place of its program.
type puppet struct {
	stage *stage
	// What it is to do, and what it has begun.
	next, begun *order
	interrupted bool
	waits       bool
}

func newStage() *stage {
	s := &stage{puppets: make(map[*kernel.Task]*puppet)}
	s.changed = sync.NewCond(&s.mu)
	return s
}

// give has a task that is at rest make a call.
func (s *stage) give(task *kernel.Task, it *order) {
	s.mu.Lock()
	defer s.mu.Unlock()
	s.puppets[task].next = it
	s.changed.Broadcast()
}

// allRest says whether each task has ended, or waits for an order and has no signal to look at.
func (s *stage) allRest(tasks []*kernel.Task) bool {
	var live []*kernel.Task
	for _, task := range tasks {
		// This takes the lock under which a task is interrupted, so not after the one below.
		if task.ExitState() < kernel.TaskExitZombie {
			live = append(live, task)
		}
	}
	s.mu.Lock()
	defer s.mu.Unlock()
	for _, task := range live {
		if p := s.puppets[task]; p == nil || !p.waits || p.interrupted || p.next != nil {
			return false
		}
	}
	return true
}

// Switch lets the task wait for its next order, and has it make the call.
func (p *puppet) Switch(ctx context.Context, mm platform.MemoryManager, machine *arch.Context64, _ int32) (*linux.SignalInfo, hostarch.AccessType, error) {
	task := kernel.TaskFromContext(ctx)
	p.stage.mu.Lock()
	defer p.stage.mu.Unlock()
	p.stage.puppets[task] = p
	p.end(task, machine)
	for p.next == nil && !p.interrupted {
		p.waits = true
		p.stage.changed.Broadcast()
		p.stage.changed.Wait()
	}
	p.waits = false
	if p.interrupted {
		p.interrupted = false
		return nil, hostarch.NoAccess, platform.ErrContextInterrupt
	}
	p.begin(task, machine)
	return nil, hostarch.NoAccess, nil
}

// begin puts the next order into the registers and the memory of the task.
func (p *puppet) begin(task *kernel.Task, machine *arch.Context64) {
	p.begun, p.next = p.next, nil
	if _, err := task.CopyOutBytes(scratch, p.begun.memory); err != nil {
		panic(err)
	}
	registers, words := &machine.Regs, p.begun.arguments
	registers.Orig_rax = uint64(p.begun.number)
	registers.Rdi, registers.Rsi, registers.Rdx, registers.R10, registers.R8 = words[0], words[1], words[2], words[3], words[4]
}

// end takes what the call that was begun has answered.
func (p *puppet) end(task *kernel.Task, machine *arch.Context64) {
	if p.begun == nil {
		return
	}
	p.begun.result = int64(machine.Return())
	if _, err := task.CopyInBytes(scratch, p.begun.memory); err != nil {
		panic(err)
	}
	p.begun = nil
}

// Interrupt has a task that waits look for signals.
func (p *puppet) Interrupt() {
	p.stage.mu.Lock()
	defer p.stage.mu.Unlock()
	p.interrupted = true
	p.stage.changed.Broadcast()
}

func (*puppet) PullFullState(platform.AddressSpace, *arch.Context64) {}
func (*puppet) FullStateChanged()                                    {}
func (*puppet) Release()                                             {}
func (*puppet) PrepareSleep()                                        {}

// NewContext makes the puppet of a task.
func (s *stage) NewContext(context.Context) platform.Context {
	return &puppet{stage: s}
}

func (*stage) SupportsAddressSpaceIO() bool             { return false }
func (*stage) CooperativelySchedulesAddressSpace() bool { return false }
func (*stage) MapUnit() uint64                          { return 0 }
func (*stage) MinUserAddress() hostarch.Addr            { return platform.SystemMMapMinAddr() }
func (*stage) MaxUserAddress() hostarch.Addr            { return 1 << 47 }
func (*stage) SyscallFilters() seccomp.SyscallRules     { return nil }

// NewAddressSpace makes one that maps nothing, since no program runs in it.
func (*stage) NewAddressSpace(any) (platform.AddressSpace, <-chan struct{}, error) {
	return noMemory{}, nil, nil
}

// noMemory is the memory of a program, of which there is none. The kernel reads and writes what it needs by itself.
type noMemory struct{ platform.NoAddressSpaceIO }

func (noMemory) MapFile(hostarch.Addr, memmap.File, memmap.FileRange, hostarch.AccessType, bool) error {
	return nil
}
func (noMemory) Unmap(hostarch.Addr, uint64) {}
func (noMemory) Release()                    {}
func (noMemory) PreFork()                    {}
func (noMemory) PostFork()                   {}
