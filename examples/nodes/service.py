"""A service of three roles: a dispatcher hands out jobs, workers do them, a ledger books each once. Each role is a function of what it
has received, in that order: it reads no clock, draws no random number, and asks nobody. So a repeated delivery does the same again.

    dispatcher -- "job J AMOUNT" --> worker -- "entry J AMOUNT DONE" --> ledger -- "receipt J NUMBER BALANCE" --> dispatcher

Who gets a job, and a receipt's number and balance, depend on the order in which messages came.
"""

WINDOW = 2  # jobs that a worker has at a time


def amount_of(job):
    return job * 7919 % 1000 + 1


class Dispatcher:
    """Process 0. The last process is the ledger, the others are workers."""

    def __init__(self, processes, jobs):
        self.workers, self.jobs, self.next, self.given, self.receipts = range(1, processes - 1), jobs, 0, {}, {}

    def open(self, send, show):
        for worker in [*self.workers] * WINDOW:
            self.give(worker, send)

    def give(self, worker, send):
        if self.next < self.jobs:
            job, self.next = self.next, self.next + 1
            self.given[job] = worker
            send(worker, f"job {job} {amount_of(job)}")

    def take(self, source, words, send, show):
        _, job, number, balance = words
        self.receipts[int(job)] = [int(number), int(balance)]
        self.give(self.given[int(job)], send)

    def book(self):
        return {"given": self.given, "receipts": self.receipts}


class Worker:
    """Does jobs in the order in which they come: its n-th job has the number n."""

    def __init__(self, processes, jobs):
        self.ledger, self.done = processes - 1, []

    def open(self, send, show):
        pass

    def take(self, source, words, send, show):
        _, job, amount = words
        self.done.append(int(job))
        send(self.ledger, f"entry {job} {amount} {len(self.done)}")

    def book(self):
        return {"done": self.done}


class Ledger:
    """Gives each job the next number, and shows the receipt to the world: what is shown cannot be taken back."""

    def __init__(self, processes, jobs):
        self.entries, self.balance = {}, 0

    def open(self, send, show):
        pass

    def take(self, source, words, send, show):
        _, job, amount, done = words
        if job in self.entries:
            return show(f"twice {job}")
        self.balance += int(amount)
        number = len(self.entries) + 1
        self.entries[job] = [number, source, int(done), self.balance]
        send(0, f"receipt {job} {number} {self.balance}")
        show(f"receipt {job} {number} {self.balance}")

    def book(self):
        return {"entries": self.entries}


def role_of(process, processes, jobs):
    role = Dispatcher if process == 0 else Ledger if process == processes - 1 else Worker
    return role(processes, jobs)


def faults_in(jobs, books, shown):
    """What is wrong with the books of all processes at the end, and with what was shown meanwhile; nothing where the list is empty."""
    dispatcher, *workers, ledger = books
    entries = {int(job): entry for job, entry in ledger["entries"].items()}
    receipts = {int(job): tuple(it) for job, it in dispatcher["receipts"].items()}
    given = {int(job): worker for job, worker in dispatcher["given"].items()}
    wrong = []
    if sorted(entries) != list(range(jobs)):
        wrong.append(f"the ledger has {len(entries)} jobs of {jobs}")
    if sorted(job for worker in workers for job in worker["done"]) != list(range(jobs)):
        wrong.append("the workers have not done each job once")
    if receipts != {job: (number, balance) for job, (number, _, _, balance) in entries.items()}:
        wrong.append("the dispatcher's receipts are not the ledger's entries")
    if any(given.get(job) != worker for job, (_, worker, _, _) in entries.items()):
        wrong.append("the ledger has a job of another worker than the dispatcher")
    for job, (_, worker, done, _) in entries.items():
        if workers[worker - 1]["done"][done - 1 : done] != [job]:
            wrong.append(f"job {job} is not number {done} of worker {worker}")
    balance = 0
    for number, (job, entry) in enumerate(sorted(entries.items(), key=lambda pair: pair[1][0]), 1):
        balance += amount_of(job)
        if (entry[0], entry[3]) != (number, balance):
            wrong.append(f"entry {number} of the ledger has the balance {entry[3]}, not {balance}")
    for job, found in shown.items():
        if found != {receipts.get(job)}:
            wrong.append(f"of job {job} was shown {sorted(map(str, found))}, and the dispatcher has {receipts.get(job)}")
    if sorted(shown) != list(range(jobs)):
        wrong.append(f"{len(shown)} receipts of {jobs} were shown")
    return wrong
