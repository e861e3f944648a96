"""`bindings/c/pidtab.h`, `pidtab_saved.h` and `pidtab_replica.h`: their numbers, structs and functions."""

import ctypes
import struct

# Written by tools/interface: statuses.
DONE = 0
CLOSED = 9
NO_MEMORY = 12
BUSY = 16
OUT_OF_RANGE = 22
NO_ROOM = 34
EMPTY_LINE = 61
BAD_LINE = 71
SPENT = 75
DIFFERS = 74
BAD_TEXT = 117
NOT_KEPT = 2
AGAIN = 11
NO_HISTORY = 95
NO_THREADS = 37

# Of a saved history besides.
DEVICE = 5
NOT_SAVED = 8
NOT_EMPTY = 17
ENDED = 32
TORN = 42
WRONG_BYTE = 84
OTHER_VERSION = 93

# Of a replica besides.
NO_SESSION = 3
NO_ENTRY = 53
MISSING = 67
DIVERGED = 78
OTHER_SETTINGS = 92
NOT_RISING = 116
NOT_RECOVERABLE = 131
# The end of statuses.

# Written by tools/interface: bounds.
VERSION = 1
LONGEST_ANSWER = 362
LONGEST_CALL = 42
KILLED = 256
LEVELS_MAX = 33
MOST_WORKERS = 16
# The end of bounds.

# Written by tools/interface: operations.
FORK, GETPID, NSPID, EXEC, EXIT, WAIT, GETPPID, SETPGID, SETSID, MK = range(10)
RM, LIMIT, MOVE, COUNT, GETPGID, GETSID, NEXT, JOIN, SUBREAPER = range(10, 19)
# The end of operations.

# Written by tools/interface: kinds.
ANY, CHILD, OWN_GROUP, GROUP = range(4)

TASKS, GROUPS, SESSIONS = range(3)

CHILDREN, GROUP_MEMBERS, SESSION_MEMBERS, NAMESPACE_MEMBERS, NAMESPACE_OWN = range(5)

SPACES, CONTROLS = range(2)

TASK_ENDED, TASK_ADOPTED, TASK_GONE, GROUP_GONE, SESSION_GONE, SPACE_FELL, SPACE_GONE = range(7)

ENTRY_NOTED, ENTRY_MADE, ENTRY_REPEATED, ENTRY_GONE, ENTRY_GAP = range(5)

FORKED, OK, NUMBER, LEVELS, REAPED, NONE_YET, COUNTED, CONTROL, END, REFUSED = range(10)
# The end of kinds.


# Written by tools/interface: structs.

class Pidtab(ctypes.Structure):
    """`struct pidtab`."""

    at: int | None
    is_open: bool
    in_use: int
    way: int
    workers: int
    seated: int
    keep: int
    threads: int | None

    _fields_ = [
        ("at", ctypes.c_void_p),
        ("is_open", ctypes.c_bool),
        ("in_use", ctypes.c_uint8),
        ("way", ctypes.c_uint8),
        ("workers", ctypes.c_uint8),
        ("seated", ctypes.c_uint8),
        ("keep", ctypes.c_uint64),
        ("threads", ctypes.c_void_p),
    ]


class PidtabSettings(ctypes.Structure):
    """`struct pidtab_settings`."""

    pid_max: int
    workers: int
    first_stamp: int
    keep: int
    threads: bool

    _fields_ = [
        ("pid_max", ctypes.c_uint32),
        ("workers", ctypes.c_uint32),
        ("first_stamp", ctypes.c_uint64),
        ("keep", ctypes.c_uint64),
        ("threads", ctypes.c_bool),
    ]


class PidtabCall(ctypes.Structure):
    """`struct pidtab_call`."""

    operation: int
    caller: int
    id: int
    number: int
    choice: int
    pid: int
    pgid: int

    _fields_ = [
        ("operation", ctypes.c_uint32),
        ("caller", ctypes.c_uint32),
        ("id", ctypes.c_uint64),
        ("number", ctypes.c_uint32),
        ("choice", ctypes.c_uint32),
        ("pid", ctypes.c_int32),
        ("pgid", ctypes.c_int32),
    ]


class PidtabFault(ctypes.Structure):
    """`struct pidtab_fault`."""

    line: int
    kind: int

    _fields_ = [
        ("line", ctypes.c_uint64),
        ("kind", ctypes.c_uint32),
    ]


class PidtabReply(ctypes.Structure):
    """`struct pidtab_reply`."""

    kind: int
    error: int
    refusal: int
    count: int
    first: int
    second: int
    levels: "ctypes.Array[ctypes.c_uint32]"

    _fields_ = [
        ("kind", ctypes.c_uint32),
        ("error", ctypes.c_uint32),
        ("refusal", ctypes.c_uint32),
        ("count", ctypes.c_uint32),
        ("first", ctypes.c_uint64),
        ("second", ctypes.c_uint64),
        ("levels", ctypes.c_uint32 * LEVELS_MAX),
    ]


class PidtabTask(ctypes.Structure):
    """`struct pidtab_task`."""

    error: int
    refusal: int
    count: int
    parent: int
    group: int
    session: int
    ended: int
    status: int
    executed: int
    subreaper: int
    space: int
    control: int
    root: int
    levels: "ctypes.Array[ctypes.c_uint32]"

    _fields_ = [
        ("error", ctypes.c_uint32),
        ("refusal", ctypes.c_uint32),
        ("count", ctypes.c_uint32),
        ("parent", ctypes.c_uint32),
        ("group", ctypes.c_uint32),
        ("session", ctypes.c_uint32),
        ("ended", ctypes.c_uint32),
        ("status", ctypes.c_uint32),
        ("executed", ctypes.c_uint32),
        ("subreaper", ctypes.c_uint32),
        ("space", ctypes.c_uint64),
        ("control", ctypes.c_uint64),
        ("root", ctypes.c_uint32),
        ("levels", ctypes.c_uint32 * LEVELS_MAX),
    ]


class PidtabSpace(ctypes.Structure):
    """`struct pidtab_space`."""

    id: int
    parent: int
    level: int
    init: int
    fallen: int

    _fields_ = [
        ("id", ctypes.c_uint64),
        ("parent", ctypes.c_uint64),
        ("level", ctypes.c_uint32),
        ("init", ctypes.c_uint32),
        ("fallen", ctypes.c_uint32),
    ]


class PidtabEffect(ctypes.Structure):
    """`struct pidtab_effect`."""

    what: int
    number: int
    value: int

    _fields_ = [
        ("what", ctypes.c_uint32),
        ("number", ctypes.c_uint32),
        ("value", ctypes.c_uint64),
    ]


class PidtabEntry(ctypes.Structure):
    """`struct pidtab_entry`."""

    worker: int
    call: PidtabCall
    reply: PidtabReply

    _fields_ = [
        ("worker", ctypes.c_uint64),
        ("call", PidtabCall),
        ("reply", PidtabReply),
    ]


class PidtabSavedHead(ctypes.Structure):
    """`struct pidtab_saved_head`."""

    pid_max: int
    workers: int
    first_stamp: int

    _fields_ = [
        ("pid_max", ctypes.c_uint32),
        ("workers", ctypes.c_uint32),
        ("first_stamp", ctypes.c_uint64),
    ]


class PidtabSaved(ctypes.Structure):
    """`struct pidtab_saved`."""

    head: PidtabSavedHead
    next: int
    bytes: int
    left_out: int
    sum: int
    part: int
    is_torn: bool
    file: int
    error: int

    _fields_ = [
        ("head", PidtabSavedHead),
        ("next", ctypes.c_uint64),
        ("bytes", ctypes.c_uint64),
        ("left_out", ctypes.c_uint64),
        ("sum", ctypes.c_uint64),
        ("part", ctypes.c_size_t),
        ("is_torn", ctypes.c_bool),
        ("file", ctypes.c_int),
        ("error", ctypes.c_int),
    ]


class PidtabReplica(ctypes.Structure):
    """`struct pidtab_replica`."""

    at: int | None
    is_open: bool
    in_use: int

    _fields_ = [
        ("at", ctypes.c_void_p),
        ("is_open", ctypes.c_bool),
        ("in_use", ctypes.c_uint8),
    ]


class PidtabApplied(ctypes.Structure):
    """`struct pidtab_applied`."""

    outcome: int
    session: int
    sequence: int
    size: int

    _fields_ = [
        ("outcome", ctypes.c_uint32),
        ("session", ctypes.c_uint64),
        ("sequence", ctypes.c_uint64),
        ("size", ctypes.c_uint64),
    ]


class PidtabLog(ctypes.Structure):
    """`struct pidtab_log`."""

    form: int
    pid_max: int
    model: int
    position: int
    calls: int
    begun: int
    lost: int

    _fields_ = [
        ("form", ctypes.c_uint64),
        ("pid_max", ctypes.c_uint64),
        ("model", ctypes.c_uint64),
        ("position", ctypes.c_uint64),
        ("calls", ctypes.c_uint64),
        ("begun", ctypes.c_uint32),
        ("lost", ctypes.c_uint32),
    ]


class PidtabDigest(ctypes.Structure):
    """`struct pidtab_digest`."""

    bytes: "ctypes.Array[ctypes.c_uint8]"

    _fields_ = [
        ("bytes", ctypes.c_uint8 * 32),
    ]
# The end of structs.


# The fields of a call. What does not fit into one is an error here, and would be cut off by a structure of ctypes.
CALL_FIELDS = struct.Struct("=IIQIIii")

# The room for any answer.
Answer = ctypes.c_char * LONGEST_ANSWER

U32, U64, SIZE_T = ctypes.c_uint32, ctypes.c_uint64, ctypes.c_size_t
TABLE = ctypes.POINTER(Pidtab)
SETTINGS = ctypes.POINTER(PidtabSettings)
SAVED = ctypes.POINTER(PidtabSaved)
SAVED_HEAD = ctypes.POINTER(PidtabSavedHead)
CALL = ctypes.POINTER(PidtabCall)
# A call that is only read: bytes of CALL_FIELDS, which nobody changes. Their address is a multiple of 8, as that of all bytes.
CALL_BYTES = ctypes.c_char_p
REPLY = ctypes.POINTER(PidtabReply)
TASK = ctypes.POINTER(PidtabTask)
SPACE = ctypes.POINTER(PidtabSpace)
EFFECTS = ctypes.POINTER(PidtabEffect)
FAULT = ctypes.POINTER(PidtabFault)
ENTRIES = ctypes.POINTER(PidtabEntry)
REPLICA = ctypes.POINTER(PidtabReplica)
APPLIED = ctypes.POINTER(PidtabApplied)
LOG = ctypes.POINTER(PidtabLog)
DIGEST = ctypes.POINTER(PidtabDigest)
BYTES = ctypes.POINTER(ctypes.c_char)
NUMBER_32 = ctypes.POINTER(U32)
NUMBER_64 = ctypes.POINTER(U64)
SIZE = ctypes.POINTER(SIZE_T)

# A function: what it answers, and what it takes.
Function = tuple[type | None, list[type]]

# Written by tools/interface: functions.
# The functions on a table that each library of the interface has.
FUNCTIONS: dict[str, Function] = {
    "pidtab_version": (U32, []),
    "pidtab_open": (U32, [TABLE, U32]),
    "pidtab_close": (U32, [TABLE]),
    "pidtab_line": (U32, [TABLE, ctypes.c_char_p, SIZE_T, BYTES, SIZE_T, SIZE]),
    "pidtab_list": (U32, [TABLE, BYTES, SIZE_T, SIZE]),
    "pidtab_call": (U32, [TABLE, CALL_BYTES, REPLY]),
}

# Those that an earlier library may lack.
LATER_FUNCTIONS: dict[str, Function] = {
    "pidtab_open_with": (U32, [TABLE, SETTINGS]),
    "pidtab_dump": (U32, [TABLE, BYTES, SIZE_T, SIZE]),
    "pidtab_load": (U32, [TABLE, ctypes.c_char_p, SIZE_T, FAULT]),
    "pidtab_load_with": (U32, [TABLE, ctypes.c_char_p, SIZE_T, SETTINGS, NUMBER_64, FAULT]),
    "pidtab_getpid_of": (U32, [TABLE, U32, NUMBER_64]),
    "pidtab_getppid_of": (U32, [TABLE, U32, NUMBER_64]),
    "pidtab_getpgid_of": (U32, [TABLE, U32, U32, NUMBER_64]),
    "pidtab_getsid_of": (U32, [TABLE, U32, U32, NUMBER_64]),
    "pidtab_next_of": (U32, [TABLE, U32, U32, U32, NUMBER_64]),
    "pidtab_count_of": (U32, [TABLE, U64, NUMBER_64]),
    "pidtab_ask": (U32, [TABLE, CALL_BYTES, REPLY]),
    "pidtab_stat": (U32, [TABLE, U32, U32, TASK]),
    "pidtab_page": (U32, [TABLE, U32, U32, U32, U32, NUMBER_32, SIZE_T, REPLY]),
    "pidtab_space": (U32, [TABLE, U64, SPACE]),
    "pidtab_inside": (U32, [TABLE, U32, U64, U64, NUMBER_64, SIZE_T, NUMBER_64]),
    "pidtab_control_tasks": (U32, [TABLE, U32, U64, U32, NUMBER_32, SIZE_T, REPLY]),
    "pidtab_would": (U32, [TABLE, CALL_BYTES, REPLY]),
    "pidtab_fork_at": (U32, [TABLE, U32, U32, U32, U32, REPLY]),
    "pidtab_call_told": (U32, [TABLE, CALL_BYTES, REPLY, EFFECTS, SIZE_T, NUMBER_64]),
    "pidtab_reply_line": (U32, [REPLY, BYTES, SIZE_T, SIZE]),
    "pidtab_call_by": (U32, [TABLE, U32, CALL_BYTES, REPLY, NUMBER_64]),
    "pidtab_calls": (U32, [TABLE, U32, CALL_BYTES, SIZE_T, REPLY, SIZE_T, SIZE, NUMBER_64]),
    "pidtab_line_by": (U32, [TABLE, U32, ctypes.c_char_p, SIZE_T, BYTES, SIZE_T, SIZE, NUMBER_64]),
    "pidtab_fork_at_by": (U32, [TABLE, U32, U32, U32, U32, U32, REPLY, NUMBER_64]),
    "pidtab_call_told_by": (U32, [TABLE, U32, CALL_BYTES, REPLY, NUMBER_64, EFFECTS, SIZE_T, NUMBER_64]),
    "pidtab_seat": (U32, [TABLE, NUMBER_32]),
    "pidtab_counts": (U32, [TABLE, NUMBER_64, NUMBER_64]),
    "pidtab_worker": (U32, [TABLE, U32, NUMBER_64]),
    "pidtab_entry": (U32, [TABLE, U64, NUMBER_64, CALL, REPLY]),
    "pidtab_read": (U32, [TABLE, U64, ENTRIES, SIZE_T, SIZE]),
    "pidtab_checkpoint": (U32, [TABLE]),
    "pidtab_checkpoint_at": (U32, [TABLE, U64]),
    "pidtab_follow": (U32, [TABLE, TABLE, NUMBER_64]),
    "pidtab_lock": (TABLE, [TABLE]),
    "pidtab_unlock": (None, [TABLE]),
    "pidtab_await": (U32, [TABLE, U64, ctypes.c_void_p, NUMBER_64]),
    "pidtab_end": (U32, [TABLE]),
}

# Those of these on the file of a saved history.
SAVED_FUNCTIONS: dict[str, Function] = {
    "pidtab_saved_take_head": (U32, [ctypes.c_char_p, SIZE_T, SAVED_HEAD, SIZE, NUMBER_64]),
    "pidtab_saved_take": (U32, [ctypes.c_char_p, SIZE_T, ENTRIES, SIZE, NUMBER_64]),
    "pidtab_saved_next": (U32, [ctypes.c_char_p, SIZE_T, ctypes.c_bool, ENTRIES, SIZE, NUMBER_64, NUMBER_64]),
    "pidtab_saved_begin": (U32, [SAVED, ctypes.c_int, SAVED_HEAD]),
    "pidtab_saved_append": (U32, [SAVED, TABLE]),
    "pidtab_saved_serve": (U32, [SAVED, TABLE, U64, ctypes.c_bool]),
    "pidtab_saved_wait": (U32, [TABLE, U64]),
    "pidtab_saved_bound": (U32, [TABLE, U64]),
    "pidtab_saved_end": (U32, [TABLE]),
    "pidtab_saved_load": (U32, [SAVED, ctypes.c_int, TABLE, SETTINGS]),
    "pidtab_saved_trim": (U32, [SAVED]),
    "pidtab_saved_resume": (U32, [SAVED, ctypes.c_int, TABLE, SETTINGS]),
}

# Those of these on a replica of a log.
REPLICA_FUNCTIONS: dict[str, Function] = {
    "pidtab_replica_open": (U32, [REPLICA, U64, U64]),
    "pidtab_replica_close": (U32, [REPLICA]),
    "pidtab_replica_apply": (U32, [REPLICA, TABLE, U64, ctypes.c_char_p, SIZE_T, APPLIED]),
    "pidtab_replica_answers": (U32, [REPLICA, BYTES, SIZE_T, SIZE]),
    "pidtab_replica_log": (U32, [REPLICA, LOG]),
    "pidtab_replica_digest": (U32, [REPLICA, U64, DIGEST]),
    "pidtab_replica_last": (U32, [REPLICA, U64, NUMBER_64]),
    "pidtab_replica_write": (U32, [REPLICA, BYTES, SIZE_T, SIZE]),
    "pidtab_replica_read": (U32, [REPLICA, ctypes.c_char_p, SIZE_T, SIZE]),
}
# The end of functions.
