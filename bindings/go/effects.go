package pidtab

// #include <pidtab.h>
import "C"

// EffectKind is what has become of a task, a process group, a session or a namespace.
type EffectKind uint32

// The kinds of an Effect, with its fields that each tells.
const (
	EffectEnded       EffectKind = C.PIDTAB_TASK_ENDED   // Number, Status and Killed: the task lives no more
	EffectAdopted     EffectKind = C.PIDTAB_TASK_ADOPTED // Number and Parent: the task has another parent
	EffectGone        EffectKind = C.PIDTAB_TASK_GONE    // Number: the task is there no more, as it was reaped or went with its namespace
	EffectGroupGone   EffectKind = C.PIDTAB_GROUP_GONE   // Number: the process group has no member any more, no zombie either
	EffectSessionGone EffectKind = C.PIDTAB_SESSION_GONE // Number: the session has no member any more, no zombie either
	EffectSpaceFell   EffectKind = C.PIDTAB_SPACE_FELL   // Space: the namespace has fallen, as its init has ended, and takes no task any more
	EffectSpaceGone   EffectKind = C.PIDTAB_SPACE_GONE   // Space: the namespace is there no more, as nothing has a number in it
)

// Effect is what a call did, by root numbers; == compares two. What its kind does not tell is 0.
type Effect struct {
	Kind   EffectKind
	Number uint32 // of the task, the process group or the session
	Space  uint64 // the id of the namespace
	Parent uint32 // whose child it is now
	Status uint8  // of its exit
	Killed bool   // by the fall of its namespace; then the status is 0
}

// The room for a first try, in effects.
const shortRoom = 64

// tellEffects are the effects of a call, by a function of the library that makes it and counts them, or counts the room that it takes. Nothing
// changes between two tries, as the lock is held.
func tellEffects(tell func(effects *C.struct_pidtab_effect, room C.size_t, count *C.uint64_t) C.uint32_t) ([]Effect, C.uint32_t) {
	count := new(C.uint64_t)
	for there := shortRoom; ; there = int(*count) {
		room := make([]C.struct_pidtab_effect, there)
		status := tell(&room[0], C.size_t(there), count)
		if status == C.PIDTAB_NO_ROOM {
			continue
		}
		if status != C.PIDTAB_DONE {
			return nil, status
		}
		effects := make([]Effect, *count)
		for i := range effects {
			effects[i] = effectOf(&room[i])
		}
		return effects, status
	}
}

// effectOf is the effect that the library's numbers say.
func effectOf(numbers *C.struct_pidtab_effect) Effect {
	effect := Effect{Kind: EffectKind(numbers.what), Number: uint32(numbers.number)}
	switch {
	case effect.Kind == EffectSpaceFell || effect.Kind == EffectSpaceGone:
		effect.Space = uint64(numbers.value)
	case effect.Kind == EffectAdopted:
		effect.Parent = uint32(numbers.value)
	case effect.Kind == EffectEnded && numbers.value == C.PIDTAB_KILLED:
		effect.Killed = true
	case effect.Kind == EffectEnded:
		effect.Status = uint8(numbers.value)
	}
	return effect
}

// toldOf is what the call has told with its effects; nothing where it was not made.
func toldOf(call Call, reply *C.struct_pidtab_reply, effects []Effect, status C.uint32_t) (Reply, []Effect, error) {
	if err := named(status, call.rangeFault); err != nil {
		return Reply{}, nil, err
	}
	return replyOf(reply), effects, nil
}
