#!/usr/bin/env python3
"""Keeps accounts in a pool through a pipe, and kills the server again and again: nothing that was
answered is lost.

    examples/serve/accounts.py [KILLS]

It begins with a new pool in a folder of its own. The last line is 'N payments, none lost'."""

import os
import subprocess
import sys
import tempfile

TOP = os.path.realpath(os.path.join(os.path.dirname(os.path.abspath(__file__)), "..", ".."))
CNVM = os.environ.get("CNVM", os.path.join(TOP, "cnvm"))


class Accounts:
    """A server of examples/bank.c on one pool's file."""

    def __init__(self, pool):
        words = [CNVM, "serve", os.path.join(TOP, "examples", "bank.c"), "--pool", pool]
        self.server = subprocess.Popen(words, stdin=subprocess.PIPE, stdout=subprocess.PIPE,
                                       text=True)
        self.opening = self.answer()

    def answer(self):
        """The lines of an answer; an empty line ends them."""
        return list(iter(self.server.stdout.readline, "\n"))

    def ask(self, line):
        print(line, file=self.server.stdin, flush=True)
        return self.answer()[0].split()

    def kill(self):
        self.server.kill()
        self.server.wait()


paid = 0
with tempfile.TemporaryDirectory() as folder:
    for turn in range(int(sys.argv[1]) if len(sys.argv) > 1 else 20):
        accounts = Accounts(os.path.join(folder, "accounts.pool"))
        accounts.ask("call open 1")
        for amount in range(1, turn + 2):
            paid += 1
            balance = accounts.ask("call deposit 1 1")[1]
            assert balance == str(paid), f"the account has {balance} after {paid} payments"
        accounts.kill()
print(f"{paid} payments, none lost")
