#!/usr/bin/env python3
"""Makes each call fail in turn, of each command of `rdr`: failing.py [--call WORD] [--only COMMAND] [PROGRAM]

It builds failing.c by `cc` and loads it into PROGRAM (bin/rdr), whose Nth call of a kind fails then, for N from 1 until so many calls aren't made; and once more with that call and all after
it. The kinds are `alloc`, each call of malloc, calloc, realloc, aligned_alloc and posix_memalign of the process, and calls of the C library. The commands open files, write, read, lock, list,
rename and close; of `client` and `host` the other side is PROGRAM without failures, and `folder` is a client whose drive is over a folder in /dev/shm. A WORD or a COMMAND leaves out the other ones.

The command is to end within 20 seconds, by no signal, with a status that the kind may have, and with whole lines; where that is 0 the application's lines come to what they do without failures,
up to one that is done with NO_MEMORY (c0000017), or of a folder with IO_DEVICE_ERROR (c0000185), if there is one. It prints a line for each command and kind with the statuses and how often they came, and what isn't so; the status is 1 if
anything wasn't. The script stands outside the proofs, and needs Linux."""
import argparse
import collections
import os
import pathlib
import re
import socket
import subprocess
import sys
import tempfile
import time

from sides import LIMIT, TOP, Bad, Side

DEVICES = 'drive 1 DATA\nfolder 1 \\d\nfile 1 \\d\\a.txt 68656c6c6f\n'
LINES = ('1 open h 1 \\d\\a.txt\n1 read h 0 5\n1 create g 1 \\d\\b.txt 2 0xc0010000 7 0 0\n1 write g 0 %s\n1 lock g 3 0 0:4\n1 query g 5\n1 open d 1 \\d\n1 dir d 12 1 \\d\\*\n'
         '1 dir d 12 0 -\n1 set g 10 00000a005c0064005c0063000000\n1 close g\n1 close h\n') % ('61' * 5000)
# What is asked of a folder besides.
FURTHER = '1 create k 1 \\d\\b.txt 1 0xc0010000 7 0 0\n1 set k 10 00000a0000005c0064005c0063000000\n1 set k 13 01\n1 close k\n'
SCRIPTS = {'both': DEVICES + LINES, 'client': 'workers 2\n' + DEVICES, 'folder': 'workers 2\nreal 1 DATA shared\n', 'host': LINES, 'load': '', 'decode': (TOP / 'examples' / 'open_read_close.rec').read_bytes().decode('latin-1')}
# What each kind may come to, beside 0 where the command goes on without that call.
MAY = {
    'alloc': {0, 6}, 'read': {2}, 'write': {0, 3}, 'open': {0, 3}, 'clock_gettime': {0}, 'pthread_create': {0, 6},
    'socket': {5}, 'connect': {5}, 'bind': {5}, 'listen': {5}, 'accept4': {5}, 'chmod': {5}, 'recv': {5}, 'send': {5},
    'openat': {0, 8}, 'statx': {0}, 'getdents64': {0}, 'pread': {0}, 'pwrite': {0}, 'link': {0}, 'unlinkat': {0},
}
KINDS = {
    'both': ('alloc', 'read', 'write', 'open', 'clock_gettime'),
    'client': ('alloc', 'read', 'write', 'socket', 'connect', 'recv', 'send', 'clock_gettime', 'pthread_create'),
    'folder': ('alloc', 'open', 'openat', 'statx', 'getdents64', 'pread', 'pwrite', 'link', 'unlinkat'),
    'load': ('alloc', 'write', 'open'),
    'decode': ('alloc', 'read', 'write'),
    'host': ('alloc', 'read', 'write', 'socket', 'bind', 'listen', 'accept4', 'chmod', 'recv', 'send', 'clock_gettime', 'pthread_create'),
}


def built(folder):
    """The object that makes calls fail."""
    made = folder + '/failing.so'
    subprocess.run(['cc', '-O2', '-shared', '-fPIC', '-o', made, str(pathlib.Path(__file__).parent / 'failing.c'), '-ldl'], check=True)
    return made


class Failing(Side):
    """A command the calls of which fail that these variables name."""

    def __init__(self, program, word, path, folder, variables):
        self.variables = variables
        super().__init__(program, 'client' if word == 'folder' else word, path, SCRIPTS[word], folder)

    def starts(self, words, **how):
        return subprocess.Popen([it for it in words if it], env={**os.environ, **self.variables}, **how)


def releases(path):
    """Lets a host go on that waits for a client which won't come."""
    with socket.socket(socket.AF_UNIX) as link:
        try:
            link.connect(path)
        except OSError:
            pass


def play(program, word, variables):
    """Plays a session: the command's status, and what is told of the lines of its application, by the command or by the host beside it."""
    with tempfile.TemporaryDirectory(dir='/dev/shm') as folder:
        path, sides, is_client = folder + '/s', [], word in ('client', 'folder')
        os.makedirs(folder + '/shared/d')
        pathlib.Path(folder, 'shared', 'd', 'a.txt').write_bytes(b'hello')
        try:
            if is_client:
                sides.append(Side(program, 'host', path, LINES + (FURTHER if word == 'folder' else ''), folder))
                sides[0].listens()
            own = Failing(program, word, {'client': path, 'folder': path, 'host': path, 'load': '2'}.get(word, ''), folder, variables)
            sides.append(own)
            if word == 'host':
                own.listens()
                if not own.has_ended():
                    sides.append(Side(program, 'client', path, SCRIPTS['client'], folder))
            status, lines = own.ends()
            if is_client:
                begin = time.monotonic()
                while not sides[0].has_ended() and time.monotonic() - begin < LIMIT:
                    time.sleep(0.002)
                    if time.monotonic() - begin > 0.2:
                        releases(path)
            for side in sides:
                came = side.ends()[0]
                if side is not own and came not in (0, 5):
                    raise Bad('the %s beside it ends with status %d' % (side.word, came))
            told = sides[0].lines() if is_client else lines
            return status, [line for line in told if line[0].isdigit() or word in ('load', 'decode')]
        finally:
            for side in sides:
                side.kill()


def goes_on(lines, whole):
    """Whether these are the lines of the whole session, or the first that isn't is done with NO_MEMORY."""
    other = next((line for line, wanted in zip(lines, whole) if line != wanted), None)
    return len(lines) == len(whole) and (other is None or re.fullmatch(r'\d+\.\d+ done c0000(017|185) [0-9a-f]+|load 2 accepted (\d+) done \1 lost 0 bytes \d+ sum \d+', other))


def sweep(program, shared, word, kind, on, note):
    """Makes the calls of a kind fail in turn: how often each status came."""
    whole, came, number, bad = play(program, word, {})[1], collections.Counter(), 0, 0
    while True:
        number += 1
        if os.path.exists(note):
            os.remove(note)
        variables = {'LD_PRELOAD': shared, 'FAIL_CALL': kind, 'FAIL_AT': str(number), 'FAIL_NOTE': note, **({'FAIL_ON': '1'} if on else {})}
        try:
            status, lines = play(program, word, variables)
            if not os.path.exists(note):
                return number - 1, came, bad
            came[status] += 1
            if status not in MAY[kind]:
                raise Bad('status %d' % status)
            if status == 0 and not goes_on(lines, whole):
                raise Bad('status 0 with the lines %r' % lines)
        except Bad as why:
            bad += 1
            print('%s, %s %d%s: %s' % (word, kind, number, ' and on' if on else '', why), flush=True)
            if bad > 20:
                return number, came, bad


def main():
    words = argparse.ArgumentParser(usage=__doc__)
    words.add_argument('program', nargs='?', default=TOP / 'bin' / 'rdr', type=pathlib.Path)
    words.add_argument('--call')
    words.add_argument('--only', choices=tuple(KINDS))
    words = words.parse_args()
    wrong = 0
    with tempfile.TemporaryDirectory() as folder:
        shared = built(folder)
        for word, kinds in KINDS.items():
            for kind in kinds:
                for on in (False, True):
                    if words.only in (None, word) and words.call in (None, kind):
                        count, came, bad = sweep(words.program.resolve(), shared, word, kind, on, folder + '/note')
                        wrong += bad
                        statuses = ', '.join('status %d %d times' % it for it in sorted(came.items())) or 'none is made'
                        print('%s, %s%s: %d calls, %s' % (word, kind, ' and all after it' if on else '', count, statuses), flush=True)
    sys.exit(1 if wrong else 0)


if __name__ == '__main__':
    main()
