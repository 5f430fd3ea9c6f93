#!/usr/bin/env python3
"""Has a side read bytes without end: endless.py [--only client|host|decode] [--seconds N] [PROGRAM]

endless.c is built by `cc` and loaded into PROGRAM (bin/rdr): what the side reads is made up in its own process, since 2^40 bytes take a socket too long. A host and a client say their
opening, and then messages of 200,000 bytes that change nothing, again and again; `decode` reads a recording of such messages. PROGRAM is to end by itself, with status 7 and `long` as its last
line, once 2^40 bytes were given and no more. That takes minutes; with --seconds it is killed after so many, and how fast it was is told. It prints a line each. The status is 1 if it isn't so.
The script stands outside the proofs, and needs Linux."""
import argparse
import os
import pathlib
import re
import subprocess
import sys
import tempfile
import time

from limits import framed, opening
from mutate import word
from sides import CLIENT, HOST, TOP

MOST = 1 << 40
LONG = 200000
# What changes nothing: a reply to the device that is announced, a list of no device, and a message of a recording.
REPLY, NONE = b'rDrd' + word(1, 4) + word(0, 4), b'rDAD' + word(0, 4)
SCRIPTS = {'client': b'drive 1 DATA\n', 'host': b'devices 256\n1 open h 1 \\a\n', 'decode': b''}


def frames(message):
    """The frames of a message that is as long as the longest here."""
    data = message + bytes(LONG - len(message))
    pieces = [data[at:at + 1600] for at in range(0, LONG, 1600)]
    return [word(len(it) + 8, 4) + word(LONG, 4) + word((at == 0) + 2 * (at == len(pieces) - 1), 4) + it for at, it in enumerate(pieces)]


def streams(name):
    """What is read first, and what again and again."""
    if name == 'decode':
        return b'RDRREC01\2', b''.join(b'\0' + it for it in frames(REPLY))
    said, again = (opening(HOST), REPLY) if name == 'client' else (opening(CLIENT), NONE)
    return b''.join(map(framed, said)), b''.join(frames(again))


def play(program, shared, name, seconds, folder):
    """Plays a side: what is to be told, and whether it is as it should be."""
    begins, block = streams(name)
    for file, data in (('begins', begins), ('block', block), ('count', bytes(8)), ('script', SCRIPTS[name])):
        pathlib.Path(folder, file).write_bytes(data)
    told = {'LD_PRELOAD': shared, **{'ENDLESS_' + it.upper(): '%s/%s' % (folder, it) for it in ('begins', 'block', 'count')}, **({'ENDLESS_INPUT': '1'} if name == 'decode' else {})}
    begin, peak, last = time.monotonic(), 0, b''
    with open(folder + '/script', 'rb') as script, open(folder + '/last', 'wb') as printed:
        # `decode` prints a line for each message, of which the last is wanted.
        tail = subprocess.Popen(['tail', '-n', '1'], stdin=subprocess.PIPE, stdout=printed)
        words = [program, name] + ([folder + '/socket'] if name != 'decode' else [])
        side = subprocess.Popen(words, stdin=script, stdout=tail.stdin, stderr=subprocess.DEVNULL, env={**os.environ, **told}, cwd=folder)
        tail.stdin.close()
        while side.poll() is None and time.monotonic() - begin < seconds:
            found = re.search(r'VmHWM:\s+(\d+)', pathlib.Path('/proc/%d/status' % side.pid).read_text())
            peak = max(peak, int(found[1]) if found else 0)
            time.sleep(0.2)
        was_killed = side.poll() is None
        if was_killed:
            side.kill()
        status = side.wait()
        tail.wait()
    last = pathlib.Path(folder, 'last').read_bytes()
    count = int.from_bytes(pathlib.Path(folder, 'count').read_bytes(), 'little')
    took = time.monotonic() - begin
    line = '%s: %d bytes in %.0f seconds, %.2f GB/s, a peak of %d kB, ' % (name, count, took, count / took / 1e9, peak)
    line += 'killed' if was_killed else 'status %d, the last line %r' % (status, last.decode('latin-1'))
    return line, was_killed or (count == MOST and status == 7 and last == b'long\n')


def main():
    words = argparse.ArgumentParser(usage=__doc__)
    words.add_argument('program', nargs='?', default=TOP / 'bin' / 'rdr', type=pathlib.Path)
    words.add_argument('--only', choices=tuple(SCRIPTS))
    words.add_argument('--seconds', type=float, default=float('inf'))
    words = words.parse_args()
    bad = 0
    with tempfile.TemporaryDirectory(dir='/dev/shm') as folder:
        shared = folder + '/endless.so'
        subprocess.run(['cc', '-O2', '-shared', '-fPIC', '-o', shared, str(pathlib.Path(__file__).parent / 'endless.c'), '-ldl'], check=True)
        for name in SCRIPTS:
            if words.only in (None, name):
                line, is_right = play(words.program.resolve(), shared, name, words.seconds, folder)
                bad += not is_right
                print(line, flush=True)
    sys.exit(1 if bad else 0)


if __name__ == '__main__':
    main()
