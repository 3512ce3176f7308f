#!/usr/bin/env python3
"""A coordinator of two-phase commit over any number of participants, this manager behind its pipe and PostgreSQL: money moves between accounts on different ones.

usage: examples/two_phase.py FOLDER [PROGRAM] [--managers N] [--postgres DSN].. [--decisions file|etcd=URL,URL..] [--name NAME] [--transfers N]

A transfer changes an account on each of two participants or more, in a transaction of its own there. All of them prepare. If all could, the decision to commit is kept, and then told to
each. Abort is presumed: of a transfer that is not committed nothing is kept, and whoever is in doubt about it is told to abort. So it makes no difference whether the coordinator, a
participant or all of them were killed, nor when: once all are up again nobody is in doubt, and the accounts have the sum that they had. docs/TWO_PHASE.md says who promises what.

It goes on until so many transfers were tried, or until SIGTERM. A participant that is lost is started again, and asked whom it has in doubt. Each start prints a line, and so does each time
that all are up, with the sum. The program is the proved one, if no other is named by its path. psycopg2 and etcd are needed by those alone who ask for them.

Status 0: it ended as asked, the sum was right each time, and nobody is in doubt. 1: not so.
"""
import argparse
import base64
import fcntl
import json
import os
import random
import signal
import sys
import time
import urllib.request

sys.dont_write_bytecode = True
HERE = os.path.dirname(os.path.realpath(__file__))
sys.path[:0] = [HERE, f"{HERE}/../tools/lib"]
from client import Store
from pipes import Ended
from programs import named_program, tell_help

ACCOUNTS, MONEY = 4, 1000
SECONDS_TO_START = 30
# A manager makes a checkpoint behind so many prepares, for which its log has room several times over, and as it starts.
PREPARES_A_CHECKPOINT = 500


class Lost(Exception):
    """A participant does not answer. What it was asked may be done, or not."""


class Refused(Exception):
    """A participant has refused what it was asked, and has done nothing of it."""


# Participants. Each has a name, and these calls:
#   start()            it is up, and its accounts are there
#   accounts()         all accounts with their money
#   add(account, money)  changes an account, in the transaction that the first change begins; it waits for nobody, but is refused
#   give_up()          that transaction is rolled back
#   prepare(name)      that transaction is durable and undecided, under this name
#   commit(name), abort(name)   it is decided; one that is not in doubt is left alone
#   in_doubt()         the names of all that are prepared and undecided
# A call is answered, or refused, or the participant is lost.


class Manager(Store):
    """This manager behind its pipe, on two files in a folder of its own: the store of examples/client.py, with prepares and resolves."""

    def __init__(self, name, program, folder):
        self.name, self.program, self.folder = name, program, folder
        self.child, self.is_begun, self.prepares = None, False, 0

    def answer(self):
        try:
            line = self.child.answer()
        except Ended:
            raise Lost(self.name) from None
        if "fault" in line:
            raise Refused(line)
        return line.removeprefix("1: ")

    def start(self):
        """Opens the files, or makes them. They are locked as long as another run has them, such as that of a coordinator that was just killed."""
        self.stop()
        is_anew = not os.path.exists(f"{self.folder}/made")
        os.makedirs(self.folder, exist_ok=True)
        for _ in range(SECONDS_TO_START * 20):
            super().__init__(self.program, self.folder, is_anew)
            try:
                self.in_doubt()
            except (Lost, Refused):
                self.stop()
                time.sleep(0.05)
                continue
            print(f"start {self.name} {self.child.process.pid}", flush=True)
            # Nobody knows how full the log was left.
            return self.make_accounts() if is_anew else self.checkpoint()
        raise SystemExit(f"two_phase: FAILED: {self.name} cannot be opened")

    def make_accounts(self):
        self.ask("begin")
        for _ in range(ACCOUNTS):
            self.insert(MONEY)
        super().commit()
        with open(f"{self.folder}/made", "wb") as it:
            os.fsync(it.fileno())

    def accounts(self):
        self.ask("begin")
        count = int(self.ask("scan 0").removeprefix("scan "))
        found = dict(self.answer().split(" ") for _ in range(count))
        super().commit()
        return {account: int(money, 16) for account, money in found.items()}

    def add(self, account, money):
        if not self.is_begun:
            self.ask("begin")
            self.is_begun = True
        self.ask(f"try {account} EX")
        self.update(account, int(self.ask(f"get {account}").removeprefix("bytes "), 16) + money)

    def give_up(self):
        if self.is_begun:
            self.ask("abort")
            self.is_begun = False

    def prepare(self, name):
        self.demand(f"prepare {name.encode().hex()}", "prepared")
        self.prepares += 1

    def commit(self, name):
        self.resolve(name, "commit")

    def abort(self, name):
        self.resolve(name, "abort")

    def resolve(self, name, outcome):
        try:
            self.demand(f"resolve {name.encode().hex()} {outcome}", "resolved")
        except Refused as fault:
            if "NoGlobalId" not in str(fault):
                raise
        self.is_begun = False
        if self.prepares >= PREPARES_A_CHECKPOINT:
            self.checkpoint()

    def checkpoint(self):
        super().checkpoint()
        self.prepares = 0

    def in_doubt(self):
        count = int(self.ask("indoubt").removeprefix("indoubt "))
        return [bytes.fromhex(self.answer().split(" ")[0]).decode(errors="replace") for _ in range(count)]

    def stop(self):
        if self.child is not None:
            self.child.end()
        self.child, self.is_begun = None, False


class Postgres:
    """A PostgreSQL database, which has to allow prepared transactions (max_prepared_transactions)."""

    def __init__(self, name, dsn):
        import psycopg2

        self.name, self.dsn, self.errors = name, dsn, psycopg2
        self.connection, self.is_begun = None, False

    def run(self, text, *values):
        """The rows of a statement."""
        try:
            with self.connection.cursor() as cursor:
                cursor.execute(text, values)
                return cursor.fetchall() if cursor.description else []
        except (self.errors.OperationalError, self.errors.InterfaceError) as error:
            if self.connection.closed:
                raise Lost(self.name) from None
            raise Refused(error) from None
        except self.errors.Error as error:
            raise Refused(error) from None

    def start(self):
        self.stop()
        for _ in range(SECONDS_TO_START * 20):
            try:
                self.connection = self.errors.connect(self.dsn)
                self.connection.autocommit = True
                break
            except self.errors.OperationalError:
                time.sleep(0.05)
        else:
            raise SystemExit(f"two_phase: FAILED: {self.name} cannot be reached")
        print(f"start {self.name} {self.run('SELECT pg_backend_pid()')[0][0]}", flush=True)
        self.run("CREATE TABLE IF NOT EXISTS accounts (id text PRIMARY KEY, money bigint)")
        # One with ON CONFLICT would wait for whoever is in doubt about an account.
        self.run("INSERT INTO accounts SELECT number::text, %s FROM generate_series(1, %s) number WHERE NOT EXISTS (SELECT FROM accounts)", MONEY, ACCOUNTS)

    def accounts(self):
        return dict(self.run("SELECT id, money FROM accounts"))

    def add(self, account, money):
        if not self.is_begun:
            self.run("BEGIN")
            self.is_begun = True
        self.run("SELECT money FROM accounts WHERE id = %s FOR UPDATE NOWAIT", account)
        self.run("UPDATE accounts SET money = money + %s WHERE id = %s", money, account)

    def give_up(self):
        if self.is_begun:
            self.run("ROLLBACK")
            self.is_begun = False

    def prepare(self, name):
        self.is_begun = False
        self.run("PREPARE TRANSACTION %s", name)

    def commit(self, name):
        if name in self.in_doubt():
            self.run("COMMIT PREPARED %s", name)

    def abort(self, name):
        if name in self.in_doubt():
            self.run("ROLLBACK PREPARED %s", name)

    def in_doubt(self):
        return [name for name, in self.run("SELECT gid FROM pg_prepared_xacts WHERE database = current_database()")]

    def stop(self):
        if self.connection is not None:
            self.connection.close()
        self.connection, self.is_begun = None, False


# Decisions. A store has: next_start() gives a number that it never gave before, behind which an earlier start keeps nothing more; commit(name) returns once the decision cannot be lost;
# is_committed(name); committed(), all names; forget(name), once everybody has heard of it.


class FileDecisions:
    """A line for each decision, in a file that is synced before a line counts. One coordinator has it at a time."""

    def __init__(self, path):
        is_new = not os.path.exists(path)
        self.file = open(path, "a+b")
        self.lock()
        if is_new:
            folder = os.open(os.path.dirname(path) or ".", os.O_RDONLY)
            os.fsync(folder)
            os.close(folder)
        self.file.seek(0)
        # A line that was cut off by a kill was never acted upon.
        lines = self.file.read().decode().split("\n")
        self.file.truncate(sum(len(line) + 1 for line in lines[:-1]))
        self.names, self.starts = set(), 0
        for line in lines[:-1]:
            self.note(*line.split(" "))

    def lock(self):
        for _ in range(SECONDS_TO_START * 20):
            try:
                return fcntl.flock(self.file, fcntl.LOCK_EX | fcntl.LOCK_NB)
            except BlockingIOError:
                time.sleep(0.05)
        raise SystemExit("two_phase: FAILED: another coordinator has the decisions")

    def note(self, kind, word):
        if kind == "start":
            self.starts = int(word)
        elif kind == "commit":
            self.names.add(word)
        else:
            self.names.discard(word)

    def add(self, kind, word, is_synced=True):
        self.file.write(f"{kind} {word}\n".encode())
        self.file.flush()
        if is_synced:
            os.fsync(self.file.fileno())
        self.note(kind, word)

    def next_start(self):
        self.add("start", str(self.starts + 1))
        return self.starts

    def commit(self, name):
        self.add("commit", name)

    def is_committed(self, name):
        return name in self.names

    def committed(self):
        return sorted(self.names)

    def forget(self, name):
        # If this line is lost the decision is remembered for nobody.
        self.add("forget", name, is_synced=False)


class EtcdDecisions:
    """A key for each decision, in etcd by its JSON gateway. A put is answered once most members have it on their disks. Each request may be made again: if its answer was lost it does no more
    the second time. A decision is kept only if no later start has begun: one that was under way when its coordinator was killed can come too late, but not behind what the next start reads."""

    def __init__(self, urls, coordinator):
        self.urls, self.prefix = [url.rstrip("/") for url in urls.split(",")], f"two_phase/{coordinator}/"
        self.start = 0

    @staticmethod
    def coded(text):
        return base64.b64encode(text.encode()).decode()

    def call(self, path, **fields):
        """The answer of the first member that has one."""
        for _ in range(SECONDS_TO_START * 4):
            for url in self.urls:
                request = urllib.request.Request(f"{url}/v3/kv/{path}", json.dumps(fields).encode(), {"Content-Type": "application/json"})
                try:
                    with urllib.request.urlopen(request, timeout=2) as answer:
                        return json.load(answer)
                except OSError:
                    continue
            time.sleep(0.25)
        raise SystemExit("two_phase: FAILED: etcd does not answer")

    def put_if_absent(self, absent, key):
        """Whether the first key is absent; then the second is put."""
        is_absent = {"key": self.coded(absent), "target": "CREATE", "result": "EQUAL", "create_revision": "0"}
        return self.call("txn", compare=[is_absent], success=[{"requestPut": {"key": self.coded(key), "value": ""}}]).get("succeeded", False)

    def keys(self, kind):
        first = f"{self.prefix}{kind}/"
        found = self.call("range", key=self.coded(first), range_end=self.coded(first[:-1] + "0"), keys_only=True)
        return [base64.b64decode(it["key"]).decode().removeprefix(first) for it in found.get("kvs", [])]

    def next_start(self):
        """The first number whose key was not there. If it was put, but the answer was lost, the next one is taken."""
        self.start = max(map(int, self.keys("start")), default=0) + 1
        while not self.put_if_absent(f"{self.prefix}start/{self.start}", f"{self.prefix}start/{self.start}"):
            self.start += 1
        return self.start

    def commit(self, name):
        if not self.put_if_absent(f"{self.prefix}start/{self.start + 1}", f"{self.prefix}commit/{name}"):
            raise SystemExit("two_phase: FAILED: another coordinator has started")

    def is_committed(self, name):
        return bool(self.call("range", key=self.coded(f"{self.prefix}commit/{name}")).get("kvs"))

    def committed(self):
        return self.keys("commit")

    def forget(self, name):
        self.call("deleterange", key=self.coded(f"{self.prefix}commit/{name}"))


class Coordinator:
    """It decides transfers, and tells those who are in doubt. Its name begins those of its transfers: others in doubt are another's, and are left alone."""

    def __init__(self, name, participants, decisions):
        self.name, self.participants, self.decisions = name, participants, decisions
        self.begun = f"{name}.{decisions.next_start()}"
        self.count = 0

    def start(self, participant):
        """A participant is up, and in doubt about nothing that is this coordinator's."""
        while True:
            try:
                participant.start()
                for name in self.doubts_of(participant):
                    self.tell(participant, name)
                return
            except (Lost, Refused):
                continue

    def sure(self, participant, call):
        """What a call answers that changes nothing: it is made again if the participant is lost."""
        while True:
            try:
                return call()
            except (Lost, Refused):
                self.start(participant)

    def doubts_of(self, participant):
        return [name for name in participant.in_doubt() if name.startswith(f"{self.name}.")]

    def tell(self, participant, name):
        """What is not known to be committed is aborted."""
        if self.decisions.is_committed(name):
            participant.commit(name)
        else:
            participant.abort(name)

    def start_all(self):
        for participant in self.participants:
            self.start(participant)
        # Nobody is in doubt about them any more.
        for name in self.decisions.committed():
            self.decisions.forget(name)

    def transfer(self, moves):
        """Changes accounts, each by its participant and its name, all or none. Answers whether it was committed."""
        self.count += 1
        name = f"{self.begun}.{self.count}"
        involved = list(dict.fromkeys(participant for participant, _, _ in moves))
        try:
            for participant, account, money in moves:
                participant.add(account, money)
            for participant in involved:
                participant.prepare(name)
        except (Lost, Refused):
            self.end(involved, name)
            return False
        # From here on it is committed, whoever is killed.
        self.decisions.commit(name)
        self.end(involved, name)
        self.decisions.forget(name)
        return True

    def end(self, involved, name):
        """Each participant hears how the transfer ended: at once, or when it is started again."""
        for participant in involved:
            try:
                participant.give_up() if name not in participant.in_doubt() else self.tell(participant, name)
            except (Lost, Refused):
                self.start(participant)


def random_moves(chance, accounts):
    """An amount leaves an account, and comes in parts to accounts of other participants."""
    involved = chance.sample(sorted(accounts, key=lambda it: it.name), chance.randint(2, len(accounts)))
    parts = [chance.randint(1, 9) for _ in involved[1:]]
    amounts = [-sum(parts), *parts]
    return [(it, chance.choice(accounts[it]), amount) for it, amount in zip(involved, amounts)]


def check_sum(coordinator):
    """What all accounts come to, once all are up and nobody is in doubt."""
    found = sum(sum(coordinator.sure(it, it.accounts).values()) for it in coordinator.participants)
    if found != len(coordinator.participants) * ACCOUNTS * MONEY:
        raise SystemExit(f"two_phase: FAILED: the accounts come to {found}")
    return found


def participants_of(options, program):
    found = [Manager(f"manager{it + 1}", program, f"{options.folder}/manager{it + 1}") for it in range(options.managers)]
    for number, dsn in enumerate(options.postgres, 1):
        try:
            found.append(Postgres(f"postgres{number}", dsn))
        except ImportError:
            raise SystemExit(f"two_phase: FAILED: --postgres needs psycopg2, which {sys.executable} has not: install python3-psycopg2 by apt-get and run this by /usr/bin/python3, or psycopg2-binary by pip") from None
    return found


def decisions_of(options):
    kind, _, url = options.decisions.partition("=")
    return EtcdDecisions(url, options.name) if kind == "etcd" else FileDecisions(f"{options.folder}/decisions")


def serve(options, program):
    stops = []
    signal.signal(signal.SIGTERM, lambda *_: stops.append(True))
    participants = participants_of(options, program)
    coordinator = Coordinator(options.name, participants, decisions_of(options))
    coordinator.start_all()
    print(f"sum {check_sum(coordinator)}", flush=True)
    accounts = {it: sorted(coordinator.sure(it, it.accounts)) for it in participants}
    chance, committed = random.Random(), 0
    while not stops and coordinator.count != options.transfers:
        committed += coordinator.transfer(random_moves(chance, accounts))
    coordinator.start_all()
    doubts = [name for it in participants for name in coordinator.sure(it, it.in_doubt)]
    print(f"end sum {check_sum(coordinator)}, in doubt {len(doubts)}, committed {committed} of {coordinator.count}", flush=True)
    for participant in participants:
        participant.stop()
    return 1 if doubts else 0


def main():
    tell_help(sys.argv[1:])
    parser = argparse.ArgumentParser(usage=__doc__.split("\n")[2].removeprefix("usage: "))
    parser.add_argument("folder")
    parser.add_argument("program", nargs="?")
    parser.add_argument("--managers", type=int, default=2)
    parser.add_argument("--postgres", action="append", default=[])
    parser.add_argument("--decisions", default="file")
    parser.add_argument("--name", default="bank")
    parser.add_argument("--transfers", type=int, default=-1)
    options = parser.parse_args()
    options.folder = os.path.abspath(options.folder)
    os.makedirs(options.folder, exist_ok=True)
    sys.exit(serve(options, named_program([options.program] if options.program else [])[0]))


if __name__ == "__main__":
    main()
