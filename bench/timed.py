"""Runs of a command that are timed."""
import os
import shutil
import signal
import statistics
import subprocess
import threading
import time

HERE = os.path.dirname(os.path.abspath(__file__))
INPUTS = os.path.join(HERE, "inputs")
TIME = shutil.which("time")
LIMIT = 20.0  # seconds that one run may take
SLOW = 5.0  # a run that takes so long is not repeated
TURNS = 15  # how often runs that are compared are repeated


class Measured:
    """Several runs of one command."""

    def __init__(self):
        self.walls = []
        self.users = []
        self.processor = []
        self.peak = 0
        self.line = ""
        self.status = None
        self.over = False

    def add(self, other):
        """Adds the runs of another."""
        self.walls += other.walls
        self.users += other.users
        self.processor += other.processor
        self.peak = max(self.peak, other.peak)
        self.line, self.status, self.over = other.line, other.status, self.over or other.over

    def best(self):
        return min(self.walls)

    def least_processor(self):
        """Processor seconds, the system's part included. What else the machine does lengthens them less than the wall's."""
        return min(self.processor)

    def told(self):
        if self.over:
            return f"over {LIMIT:.0f}"
        if len(self.walls) == 1:
            return f"{self.best():.3f} (once)"
        return f"{self.best():.3f} (+{100 * (max(self.walls) / self.best() - 1):.0f}%)"


def kill(group):
    try:
        os.killpg(group, signal.SIGKILL)
    except ProcessLookupError:
        pass


def once(command, path, measured):
    """One run with the file on standard input. The peak is told by the command `time` where there is one, since what the
    system itself says of a child counts the memory of this program too."""
    peak_file = os.path.join(INPUTS, "peak")
    timed = [TIME, "-q", "-f", "%M", "-o", peak_file, *command] if TIME else command
    with open(path, "rb") as given:
        start = time.perf_counter()
        child = subprocess.Popen(
            timed, stdin=given, stdout=subprocess.PIPE, stderr=subprocess.DEVNULL, start_new_session=True
        )
        timer = threading.Timer(LIMIT, kill, [child.pid])
        timer.start()
        line = child.stdout.read().decode()
        _, status, usage = os.wait4(child.pid, 0)
        wall = time.perf_counter() - start
        timer.cancel()
    child.returncode = os.waitstatus_to_exitcode(status)
    if child.returncode == -signal.SIGKILL:
        measured.over = True
        return
    measured.walls.append(wall)
    measured.users.append(usage.ru_utime)
    measured.processor.append(usage.ru_utime + usage.ru_stime)
    measured.line = line.rstrip("\n")
    measured.status = child.returncode
    if timed is not command:
        with open(peak_file) as told:
            measured.peak = max(measured.peak, int(told.read().split()[-1]))
    else:
        measured.peak = max(measured.peak, usage.ru_maxrss)


def measure(command, path):
    """The best of three to five runs; a single one where it is slow."""
    measured = Measured()
    while not measured.over and len(measured.walls) < 5:
        once(command, path, measured)
        if measured.over or measured.walls[0] > SLOW:
            break
        if len(measured.walls) >= 3 and sum(measured.walls) > 1.0:
            break
    return measured


def measure_in_turn(runs):
    """Runs whose times are compared, one after the other and again, so that a change of the machine's speed meets all of
    them: so many times each whatever they show, or once where one is slow."""
    measured = [Measured() for _ in runs]
    for _ in range(TURNS):
        for each, (command, path) in zip(measured, runs):
            once(command, path, each)
            if each.over:
                return measured
        if any(each.walls[0] > SLOW for each in measured):
            return measured
    return measured


def ratio(measured, yardstick):
    """How many times the yardstick's processor seconds a command takes, the least of each; at least so many where it was
    stopped."""
    return (LIMIT if measured.over else measured.least_processor()) / yardstick.least_processor()


def ratio_in_turn(measured, yardstick):
    """The same of runs in turn: the median of the turns' own ratios. The machine's speed changes within a minute, so the least
    times of two commands can come from moments of different speed; those of one turn stand side by side."""
    if measured.over:
        return ratio(measured, yardstick)
    return statistics.median(one / other for one, other in zip(measured.processor, yardstick.processor))


def target_line(name, value, bound, over=False):
    if value is None:
        return f"| {name} | {bound:.1f} | not measured | no |"
    told = f"over {value:.2f}" if over else f"{value:.2f}"
    return f"| {name} | {bound:.1f} | {told} | {'yes' if value <= bound and not over else 'no'} |"
