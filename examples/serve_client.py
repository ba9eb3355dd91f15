#!/usr/bin/env python3
"""A client of `calvin serve`: three customers pay in 40 times each, and the service is killed again and again while a payment is
under way. The client can't know then whether it was kept, and submits it again: in the application `once` nothing is paid twice.

    examples/serve_client.py [JOURNAL]      over a journal of its own where none is given; over one again, the totals stay the same
"""

import json
import random
import sys
import tempfile
import time
from pathlib import Path
from subprocess import PIPE, Popen

CALVIN = Path(__file__).resolve().parent.parent / "calvin"
CUSTOMERS, PAYMENTS, CENTS = [1, 2, 3], 40, 25
REQUESTS_A_LIFE = 30


def requests():
    """All that is asked, in order: a customer's requests have the numbers from 1 on."""
    yield from ((who, 1, ["open", who]) for who in CUSTOMERS)
    yield from ((who, 2 + n, ["payin", who, CENTS]) for n in range(PAYMENTS) for who in CUSTOMERS)
    yield from ((who, 2 + PAYMENTS, ["balance", who]) for who in CUSTOMERS)


def start(journal):
    return Popen([CALVIN, "serve", "--app", "once", "--journal", journal], stdin=PIPE, stdout=PIPE, text=True, bufsize=1)


def ask(service, request, is_killed=False):
    """The answer to a request; none where the service is gone before it has given one."""
    client, number, op = request
    service.stdin.write(json.dumps({"client": client, "number": number, "op": op}) + "\n")
    if is_killed:
        time.sleep(random.random() / 500)
        service.kill()
    line = service.stdout.readline()  # epoch.n client:number answer
    return line.split(" ", 2)[2].rstrip() if line.endswith("\n") else None


def main(journal):
    service = start(journal)
    for count, request in enumerate(requests(), 1):
        answer = ask(service, request, is_killed=count % REQUESTS_A_LIFE == 0)
        if count % REQUESTS_A_LIFE == 0:
            service.wait()
            service = start(journal)
            print(f"killed while {request[0]}:{request[1]} was under way, which was answered {answer}; started again")
        if answer is None and (answer := ask(service, request)):
            print(f"{request[0]}:{request[1]} is submitted again, and answered {answer}")
        if request[2][0] == "balance":
            print(f"customer {request[0]}, after {PAYMENTS} payments of {CENTS} cents: {answer}")
    service.communicate()


if __name__ == "__main__":
    with tempfile.TemporaryDirectory() as room:
        main(sys.argv[1] if len(sys.argv) > 1 else f"{room}/journal")
