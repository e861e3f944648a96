"""A signal to all comes from the caller, by his rights. Each line is the same in a namespace of the kernel."""
import errno
import os
import signal
import time


def of(function, *words):
    try:
        return function(*words)
    except OSError as fault:
        return errno.errorcode[fault.errno]


def child(act):
    """A child that does this, and ends with its result."""
    pid = os.fork()
    if pid == 0:
        os._exit(act())
    return pid


def hear():
    info = signal.sigwaitinfo({signal.SIGUSR1})
    return 0 if (info.si_pid, info.si_uid) == (os.getppid(), os.getuid()) else 1


def main():
    signal.pthread_sigmask(signal.SIG_BLOCK, {signal.SIGUSR1})
    hearers = [child(hear) for _ in range(20)]
    print("sent to all", of(os.kill, -1, signal.SIGUSR1), [os.waitpid(it, 0)[1] for it in hearers], flush=True)
    print("to nobody", of(os.kill, -1, signal.SIGUSR1), of(os.kill, -1, 99), flush=True)
    signal.signal(signal.SIGCHLD, lambda *_: None)
    sleepers = [child(lambda: time.sleep(100) or 0) for _ in range(20)]
    print("invalid", of(os.kill, -1, 99), "none", of(os.kill, -1, 0), flush=True)
    print("killed, each with a signal of its end", of(os.kill, -1, signal.SIGKILL), [os.waitpid(it, 0)[1] for it in sleepers], flush=True)
    if os.getuid() == 0:
        sleeper = child(lambda: time.sleep(100) or 0)
        other = child(lambda: os.setresuid(65534, 65534, 65534) or print("as nobody", of(os.kill, -1, signal.SIGKILL), flush=True) or 0)
        status = os.waitpid(other, 0)[1]
        time.sleep(0.1)
        print("of nobody", status, "root's lives", os.waitpid(sleeper, os.WNOHANG) == (0, 0), flush=True)
        os.kill(sleeper, signal.SIGKILL)
        os.waitpid(sleeper, 0)


main()
