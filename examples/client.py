#!/usr/bin/env python3
"""A server in another language: it runs the built program as a child and talks with it through pipes, a line for a line.

usage: examples/client.py [PROGRAM] [--batches]

What a server has to know: once it has read `committed`, the transaction is durable; so it answers its own caller then, and not before. Here money
is moved between accounts, the program is killed by SIGKILL in the midst of a transfer and started again with `format = false`. It has each
transfer that it acknowledged then, and the one in the midst not at all, or the whole of it if its commit was asked for. Every so often the server
makes a checkpoint, so that the log never fills and an open has little to read; some kills come in the midst of one.

With --batches it serves many clients over the one pipe: each makes transactions in a session of its own, and ends them with `lazy`, which answers a ticket at once. One `force` is
for all of a batch, and only behind it, as `forced N` reaches their tickets, the clients are answered. The next batch is on its way meanwhile. Killed in the midst, the store has all that
was acknowledged, and of what was asked behind that the first transactions, each whole, in the order of their commits. Every so many batches begin with a checkpoint: they log several
times what the log has room for. How many are acknowledged in a second is printed; how far it is goes to standard error.

How it talks with the program is in tools/lib/pipes.py, which another server may take over. The program is the proved one, if no other is named by its path.

Status 0: all of it was there. 1: an acknowledged commit was lost, or a transaction was there in part.
"""
import collections
import os
import random
import sys
import tempfile
import threading
import time

sys.dont_write_bytecode = True
sys.path.insert(0, f"{os.path.dirname(os.path.realpath(__file__))}/../tools/lib")
from pipes import Child, Ended
from programs import named_program

SETTINGS = 'devices = "files"\nlog_path = "client.log"\nvolume_path = "client.volume"\nstores = [4]\n'
# A checkpoint is made behind so many transfers.
ACCOUNTS, ROUNDS, TRANSFERS, TRANSFERS_A_CHECKPOINT = 4, 6, 20, 8
# Of batches: so many clients, and so many batches that are under way at once. What they are answered together fits into a pipe.
CLIENTS, LIVES, UNDER_WAY = 400, 5, 2
# A checkpoint is made before each of so many batches, which log some 60 KB each: the log has room for 15.
BATCHES_A_CHECKPOINT = 6
# Behind so many batches at most that are answered the kill is set going.
LONGEST_LIFE = 40
# The kill comes so many seconds later at most: in the midst of a batch.
LONGEST_WAIT = 0.02
# How far a life is is told every so many seconds.
SECONDS_A_LINE = 5


class Store:
    """The program as it runs on the pair of files in a folder. Each call writes one line and waits for its answer."""

    def __init__(self, program, folder, is_anew):
        self.child = Child(program, f"format = {str(is_anew).lower()}\n{SETTINGS}", folder)

    def answer(self):
        try:
            line = self.child.answer()
        except Ended:
            raise SystemExit("client: FAILED: the store has ended") from None
        if "fault" in line:
            raise SystemExit(f"client: FAILED: the store answered {line!r}")
        return line.removeprefix("1: ")

    def ask(self, line):
        self.child.send(f"1 {line}")
        return self.answer()

    def demand(self, line, wanted):
        said = self.ask(line)
        if said != wanted:
            raise SystemExit(f"client: FAILED: {line!r} was answered by {said!r}")

    def commit(self):
        """After this the transaction is durable."""
        self.demand("commit", "committed")

    def insert(self, money):
        return self.ask(f"insert 0 {money:08x}").removeprefix("at ")

    def update(self, account, money):
        self.demand(f"update {account} {money:08x}", "ok")

    def checkpoint(self):
        """After this the log has room again: no page waits to be written back, and no transaction is under way."""
        self.child.send("flush\ncheckpoint")
        for wanted in ("flushed ", "checkpoint "):
            if not (said := self.answer()).startswith(wanted):
                raise SystemExit(f"client: FAILED: a checkpoint was answered by {said!r}")

    def records(self):
        """All that is in the store, by its id."""
        self.ask("begin")
        count = int(self.ask("scan 0").removeprefix("scan "))
        found = dict(self.answer().split(" ") for _ in range(count))
        self.commit()
        return {account: int(money, 16) for account, money in found.items()}

    def kill(self):
        self.child.kill()
        self.child.end()

    def close(self):
        self.child.end()
        if self.child.status() != 0:
            raise SystemExit("client: FAILED: the store ended with another status than 0")


def open_accounts(store):
    store.ask("begin")
    accounts = {store.insert(1000): 1000 for _ in range(ACCOUNTS)}
    store.commit()
    return accounts


def move(store, accounts, number):
    """Moves money from one account to the next, in a transaction that is not committed yet."""
    names = sorted(accounts)
    giver, taker, money = names[number % ACCOUNTS], names[(number + 1) % ACCOUNTS], number % 7 + 1
    moved = {**accounts, giver: accounts[giver] - money, taker: accounts[taker] + money}
    store.ask("begin")
    store.update(giver, moved[giver])
    store.update(taker, moved[taker])
    return moved


def serve(program, folder):
    store = Store(program, folder, is_anew=True)
    accounts = open_accounts(store)
    for number in range(ROUNDS):
        for transfer in range(TRANSFERS):
            accounts = move(store, accounts, transfer)
            store.commit()
            if transfer % TRANSFERS_A_CHECKPOINT == TRANSFERS_A_CHECKPOINT - 1:
                store.checkpoint()
        moved = move(store, accounts, TRANSFERS)
        # The kill comes in the midst of a transfer, of its commit, or of a checkpoint.
        if is_asked := number % 3 == 1:
            store.child.send("1 commit")
        if number % 3 == 2:
            store.child.send("checkpoint")
        store.kill()
        store = Store(program, folder, is_anew=False)
        found = store.records()
        if found != accounts and not (is_asked and found == moved):
            raise SystemExit(f"client: FAILED: acknowledged were {accounts}, and the store has {found}")
        accounts = found
    store.close()


class Clients:
    """The clients of a store, each with two records that its transactions write the same number to: what is asked, and what is acknowledged."""

    def __init__(self, store):
        self.records = []
        for _ in range(CLIENTS):
            store.ask("begin")
            self.records.append((store.insert(0), store.insert(0)))
            store.commit()
        self.numbers = [0] * CLIENTS
        self.acknowledged = [0] * CLIENTS
        # The batches under way: the clients in the order of their commits, and the number that each has written.
        self.batches = collections.deque()
        self.sent = 0

    def send(self, child, chance):
        """A batch: a transaction of each client, in some order, some of them side by side."""
        batch, lines = chance.sample(range(CLIENTS), CLIENTS), []
        if self.sent % BATCHES_A_CHECKPOINT == 0:
            lines += ["flush", "checkpoint"]
        self.sent += 1
        for start in range(0, CLIENTS, 10):
            side_by_side = batch[start : start + 10]
            lines += [f"{client + 1} begin" for client in side_by_side]
            for client in side_by_side:
                one, other = self.records[client]
                number = f"{self.numbers[client] + 1:08x}"
                lines += [f"{client + 1} update {one} {number}", f"{client + 1} update {other} {number}"]
            lines += [f"{client + 1} lazy" for client in side_by_side]
        for client in batch:
            self.numbers[client] += 1
        self.batches.append([(client, self.numbers[client]) for client in batch])
        child.send("\n".join([*lines, "force"]))

    def receive(self, child):
        """The answers of the oldest batch. Behind its force each client is answered. How many are."""
        tickets = {}
        while not (line := child.answer()).startswith("forced "):
            if "fault" in line:
                raise SystemExit(f"client: FAILED: the store answered {line!r}")
            session, _, said = line.partition(": ")
            if said.startswith("ticket "):
                tickets[int(session) - 1] = int(said.removeprefix("ticket "))
        forced = int(line.removeprefix("forced "))
        for client, number in self.batches.popleft():
            if tickets[client] <= forced:
                self.acknowledged[client] = number
        return sum(ticket <= forced for ticket in tickets.values())

    def check(self, found):
        """What a store has behind a kill. From there on they go on."""
        pairs = [(found[one], found[other]) for one, other in self.records]
        asked = [entry for batch in self.batches for entry in batch]
        kept = [pairs[client][0] >= number for client, number in asked]
        if any(one != other for one, other in pairs):
            raise SystemExit("client: FAILED: a transaction was there in part")
        if any(one < number for (one, _), number in zip(pairs, self.acknowledged)):
            raise SystemExit("client: FAILED: an acknowledged commit was lost")
        if kept != sorted(kept, reverse=True):
            raise SystemExit("client: FAILED: a commit was there, and one before it was not")
        self.numbers = [one for one, _ in pairs]
        self.acknowledged = list(self.numbers)
        self.batches.clear()
        self.sent = 0
        return sum(kept), len(kept)


def tell(text):
    print(text, file=sys.stderr, flush=True)


def serve_until_killed(store, clients, chance, name):
    """Answers how many transactions were acknowledged, and in how many seconds."""
    count, started = 0, time.monotonic()
    last = told = started
    life = chance.randint(LONGEST_LIFE // 2, LONGEST_LIFE)
    timer = threading.Timer(chance.uniform(0, LONGEST_WAIT), store.child.kill)
    answered = 0
    try:
        while True:
            while len(clients.batches) < UNDER_WAY:
                clients.send(store.child, chance)
            count += clients.receive(store.child)
            last = time.monotonic()
            answered += 1
            if last >= told + SECONDS_A_LINE:
                told = last
                tell(f"{name}: {answered} of {life} batches, {count / (last - started):.0f} transactions a second")
            if answered == life:
                timer.start()
    except Ended:
        if answered < life:
            raise SystemExit("client: FAILED: the store has ended") from None
        timer.join()
        store.child.end()
    return count, last - started


def serve_batches(program, folder):
    chance = random.Random()
    store = Store(program, folder, is_anew=True)
    clients = Clients(store)
    total, seconds, shown, under_way = 0, 0.0, 0, 0
    for number in range(LIVES):
        name = f"life {number + 1} of {LIVES}"
        count, took = serve_until_killed(store, clients, chance, name)
        tell(f"{name}: {count} transactions were acknowledged, and it was killed")
        total, seconds = total + count, seconds + took
        store = Store(program, folder, is_anew=False)
        kept, asked = clients.check(store.records())
        shown, under_way = shown + kept, under_way + asked
    store.close()
    if not total:
        raise SystemExit("client: FAILED: nothing was acknowledged")
    print(f"{total} transactions of {CLIENTS} clients were acknowledged over one pipe, {total / seconds:.0f} a second; the store was killed {LIVES} times, and had each of them; "
          f"{shown} of the {under_way} that were under way were there too, the first ones each time")


def main():
    has_batches = "--batches" in sys.argv[1:]
    program, others = named_program([it for it in sys.argv[1:] if it != "--batches"])
    if others:
        raise SystemExit(f"client: what is {' '.join(others)}? It takes the path of a program, and --batches; --help says more")
    with tempfile.TemporaryDirectory() as folder:
        if has_batches:
            serve_batches(program, folder)
            return
        serve(program, folder)
    print(f"{ROUNDS * TRANSFERS} transfers were acknowledged, the store was killed {ROUNDS} times, and had each of them")


if __name__ == "__main__":
    main()
