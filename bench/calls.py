#!/usr/bin/env python3
"""Calls a second of one database, beside Tkrzw's library where it is installed (Debian's libtkrzw-dev).

  python3 bench/calls.py [--calls N] [--runs N] [--program PATH]

Each line has a store, a call, and the median of the runs with 1, 2 and 4 threads. In each run every
program comes once, so that all share what else the machine does.
"""
import argparse
import os
import shutil
import statistics
import subprocess
import sys
import tempfile

HERE = os.path.dirname(os.path.abspath(__file__))
OURS = os.path.join(HERE, '..', 'crates', 'tk_bench', 'out', 'tk_bench')


def peer(folder):
    """The path of the program over Tkrzw's library, or None where it can't be built."""
    out = os.path.join(folder, 'tkrzw_calls')
    build = ['g++', '-O2', '-std=c++17', '-pthread', os.path.join(HERE, 'tkrzw_calls.cc'), '-o', out, '-ltkrzw']
    done = shutil.which('g++') and subprocess.run(build, stderr=subprocess.DEVNULL).returncode == 0
    return out if done else None


def calls(program, engine, call, threads, number):
    """What one run of the program prints."""
    with tempfile.TemporaryDirectory() as folder:
        done = subprocess.run([program, engine, call, str(threads), str(number)], cwd=folder,
                              stdout=subprocess.PIPE, text=True, check=True)
        return int(done.stdout)


def main():
    ask = argparse.ArgumentParser()
    ask.add_argument('--calls', type=int, default=1000000)
    ask.add_argument('--runs', type=int, default=3)
    ask.add_argument('--program', default=OURS)
    options = ask.parse_args()
    if options.program == OURS and not os.path.exists(OURS):
        print('proving and building crates/tk_bench ..', file=sys.stderr)
        subprocess.run(['rt', 'run'], cwd=os.path.dirname(os.path.dirname(OURS)), stdin=subprocess.DEVNULL,
                       stdout=subprocess.DEVNULL, stderr=subprocess.STDOUT, check=False)
    if not os.path.exists(options.program):
        sys.exit('not built: run `rt run` in crates/tk_bench')
    with tempfile.TemporaryDirectory() as folder:
        programs = [('ours', os.path.abspath(options.program))]
        other = peer(folder)
        if other:
            programs.append(('tkrzw', other))
        print('store call  program         1         2         4')
        for engine in ('tiny', 'hash'):
            for call in ('get', 'set'):
                found = {name: {1: [], 2: [], 4: []} for name, _ in programs}
                for _ in range(options.runs):
                    for threads in (1, 2, 4):
                        for name, path in programs:
                            rate = calls(path, engine, call, threads, options.calls)
                            found[name][threads].append(rate)
                for name, _ in programs:
                    rates = [statistics.median(found[name][threads]) for threads in (1, 2, 4)]
                    print(f'{engine:5} {call:5} {name:7}' + ''.join(f'{int(rate):10}' for rate in rates))


if __name__ == '__main__':
    main()
