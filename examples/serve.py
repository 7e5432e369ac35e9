#!/usr/bin/env python3
"""Starts `./trace_collector serve examples/service.toml` and a back end for each of its two tenants, posts a trace of each, and
one more with an error of the second, which keeps no others, and shows what arrives and what is counted. `make serve` builds the
program and runs this. Arguments go to the program, as `--audit`.
"""

import subprocess
import sys

from demo import SETTINGS, are_shown, arrived, is_up, ports, post_all, say, start, start_back_ends, taken, wait_for

LISTEN, TENANTS = ports()


def serve(back_ends):
    if not are_shown(back_ends, TENANTS):
        return 1
    run = start(["./trace_collector", "serve", SETTINGS, *sys.argv[1:]], stdin=subprocess.PIPE)
    try:
        if not wait_for(lambda: is_up(LISTEN), run):
            return run.poll() or 1
        post_all(TENANTS)
        all_came = wait_for(lambda: len(arrived) == len(TENANTS), run)
        say("its standard input ends: what it holds is sent, and each tenant's spans are counted")
        run.stdin.close()
        return run.wait(30) or int(not all_came)
    finally:
        run.kill()


def main():
    if taken():
        say(taken())
        return 1
    back_ends = start_back_ends(TENANTS)
    try:
        return serve(back_ends)
    finally:
        back_ends.kill()


sys.exit(main())
