#!/usr/bin/env python3
"""Plays very many changed channels against `rdr client` or `rdr host`: many.py [--sessions N] [--first N] [--seed N] [--jobs N] [--keep FOLDER] client|host [PROGRAM]

It plays what mutate.py plays, three times as fast and more: many.c is built by `cc` and loaded into PROGRAM (bin/rdr), which forks for each channel before its `main`. So each channel has a
process of its own, that begins as the program does; but its socket is one end of a pair that is there already. Each is to end within 20 seconds, with status 0 or 4,
to take no more than 64 MB, and to print whole lines: one for each device or for each line of an application, and after them that of a wrong channel where the status is 4. Every sixteenth
session is played in pieces of 1, 7 and 4,096 bytes and at once, and has the same status and last line each time, but for a `Duplicate`. Where applications are played a completion is said in
every third session once its request is heard.

Each job prints a line after each 20,000 sessions and at its end: how many sessions and channels there were, the longest, the peak of memory, and how often a channel had which fault. What isn't
so is printed with its seed and number, from which `--first` begins, and with `--keep` the channel and the script go to FOLDER; the status is 1 if anything wasn't. The same seed draws the same
channels. The script stands outside the proofs, and needs Linux."""
import argparse
import os
import pathlib
import subprocess
import sys
import tempfile

from mutate import sources, word
from sides import DEVICES, TOP


def told(data):
    return word(len(data), 4) + data


def listed(messages):
    return word(len(messages), 4) + b''.join(map(told, messages))


def source(end, script, said, other):
    """A channel as many.c reads it: two scripts, how many lines they come to, what is said, and what the other side said."""
    lines = script.split('\n')
    waits = 'devices 256\n' + '\n'.join(lines[1:] if script.startswith('devices') else [script])
    counts = sum(line.split(' ')[0] in DEVICES for line in lines), sum(line[:1].isdigit() for line in lines)
    return told(script.encode('latin-1')) + told((waits if end == 'host' else script).encode('latin-1')) + word(counts[0], 4) + word(counts[1], 4) + listed(said) + listed(other)


def main():
    words = argparse.ArgumentParser(usage=__doc__)
    words.add_argument('end', choices=('client', 'host'))
    words.add_argument('program', nargs='?', default=TOP / 'bin' / 'rdr', type=pathlib.Path)
    words.add_argument('--sessions', type=int, default=10000)
    words.add_argument('--first', type=int, default=0)
    words.add_argument('--seed', type=int, default=1)
    words.add_argument('--jobs', type=int, default=1)
    words.add_argument('--keep')
    words = words.parse_args()
    own = [it for it in sources(None) if it[0] == words.end]
    strangers = [message for _, _, said, other in sources(None) for message in (*said, *other)]
    with tempfile.TemporaryDirectory() as folder:
        shared, data = folder + '/many.so', pathlib.Path(folder + '/sources')
        subprocess.run(['cc', '-O2', '-shared', '-fPIC', '-o', shared, str(pathlib.Path(__file__).parent / 'many.c')], check=True)
        data.write_bytes(word(words.end == 'host', 4) + listed(strangers) + word(len(own), 4) + b''.join(source(*it) for it in own))
        each, running = -(-words.sessions // words.jobs), []
        for job in range(words.jobs):
            first = words.first + job * each
            count = min(each, words.first + words.sessions - first)
            told_it = {'LD_PRELOAD': shared, 'MANY_SOURCES': str(data), 'MANY_SEED': str(words.seed), 'MANY_FIRST': str(first), 'MANY_COUNT': str(max(count, 0))}
            kept = {'MANY_KEEP': words.keep} if words.keep else {}
            running.append(subprocess.Popen([words.program.resolve(), words.end, folder + '/socket'], env={**os.environ, **told_it, **kept}, stdin=subprocess.DEVNULL))
        statuses = [it.wait() for it in running]
    sys.exit(1 if any(statuses) else 0)


if __name__ == '__main__':
    main()
