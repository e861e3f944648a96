package cluster

import (
	"context"
	"math/rand"
	"time"
)

// The first pause, and the longest. The first try again comes at once, as another member may answer.
const (
	firstPause   = 20 * time.Millisecond
	longestPause = time.Second

	// At least so many tries of the log are made within the patience, if it answers at once.
	patienceTries = 8
)

// A backoff has pauses that grow, each by chance shorter than its bound, so that not all hosts try again at once.
type backoff struct {
	bound, longest time.Duration
	random         *rand.Rand // once it is needed
}

func newBackoff(patience time.Duration) *backoff {
	longest := patience / patienceTries
	if longest > longestPause {
		longest = longestPause
	}
	return &backoff{longest: longest}
}

// pause waits before the next try, or until ctx is done.
func (it *backoff) pause(ctx context.Context) {
	bound := it.bound
	it.bound = 2 * bound
	if it.bound < firstPause {
		it.bound = firstPause
	}
	if it.bound > it.longest {
		it.bound = it.longest
	}
	if bound == 0 {
		return
	}
	if it.random == nil {
		it.random = rand.New(rand.NewSource(time.Now().UnixNano()))
	}
	sleep(ctx, bound/2+time.Duration(it.random.Int63n(int64(bound)))/2)
}

// reset says that a try went well.
func (it *backoff) reset() { it.bound = 0 }

// sleep waits, or until ctx is done.
func sleep(ctx context.Context, long time.Duration) {
	timer := time.NewTimer(long)
	defer timer.Stop()
	select {
	case <-timer.C:
	case <-ctx.Done():
	}
}
