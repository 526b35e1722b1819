"""How long programs take, and tables of that."""
import os, resource, subprocess, time


class Seconds(float):
    """Seconds of the user's processor time. `clock` are those that went by."""
    clock = float("inf")


def used_by(call, output, most):
    """The user's seconds of a call whose standard output goes to a file, and the MiB that it takes. A call is ended after `most` seconds."""
    with open(output, "wb") as file:
        limit = lambda: resource.setrlimit(resource.RLIMIT_CPU, (most, most))
        begun = time.monotonic()
        child = subprocess.Popen(call, stdout=file, stdin=subprocess.DEVNULL, env=dict(os.environ, LC_ALL="C"), preexec_fn=limit)
        _, status, used = os.wait4(child.pid, 0)
    child.returncode = 0
    seconds = Seconds("inf" if os.WIFSIGNALED(status) else used.ru_utime)
    seconds.clock = time.monotonic() - begun
    return seconds, used.ru_maxrss / 1024


def least_of(folder, calls, runs, most):
    """The least seconds of each call over turns, of both kinds, infinite where one was ended; and the files in which its last output stands."""
    seen = [[] for _ in calls]
    outputs = [os.path.join(folder, f"output{place}") for place in range(len(calls))]
    for _ in range(runs):
        for call, output, seconds in zip(calls, outputs, seen):
            if max(seconds, default=0) < most:
                seconds.append(used_by(call, output, most)[0])
    least = [Seconds("inf" if max(seconds) >= most else min(seconds)) for seconds in seen]
    for one, seconds in zip(least, seen):
        one.clock = min(it.clock for it in seconds)
    return least, outputs


def are_same(outputs):
    """Whether these files have the same bytes."""
    return len({open(output, "rb").read() for output in outputs}) <= 1


def shown(seconds, most):
    """The seconds of a call, which may have been ended, in a table."""
    return f"{seconds:.2f}" if seconds < most else f"above {most}"


def row(*cells):
    return "| " + " | ".join(cells) + " |"


def head(*cells):
    return row(*cells) + "\n|" + "---|" * len(cells)
