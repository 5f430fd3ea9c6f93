#!/usr/bin/env python3
"""Plays a host to `rdr client` over a folder that somebody else changes meanwhile: share.py [--seconds N] [--seed N] [PROGRAM]

The folder, in /dev/shm, has files and folders, links out of it and within it, pipes, a socket, and names that aren't UTF-8 or no names of a drive. Beside it lies another folder with a
file of which no byte is to be seen, and nothing is to be changed. Two processes exchange, again and again, what is at
some names: files, links to that file, pipes, folders, links to that other folder. For so many seconds, 60 where no word says it, the host opens, makes, lists, reads, writes, looks at, renames, locks and deletes what is
there, by all these names and by paths that lead out; which request comes next is drawn.

Each request is to be answered within 20 seconds, none with a byte or a name of the other folder, and what can't be there (links, pipes, the socket, names that aren't UTF-8) isn't opened or listed. At the
end the client ends within 20 seconds with status 0, and has taken no more than 16 MB and 256 bytes a request, of which it keeps a journal; and the other folder is as it was: its names, and of each the bytes, the inode, how many names it has, and the moments of
its last write and change. It prints how many requests of each kind were done and refused and the longest answer; the status is 1 if anything isn't so. The script stands outside the proofs, and needs Linux."""
import argparse
import collections
import contextlib
import ctypes
import multiprocessing
import os
import pathlib
import random
import socket
import sys
import tempfile
import time

from limits import framed, opening, request
from mutate import Talk, messages_in, word
from sides import HOST, LIMIT, TOP, Bad, Side

PEAK, PEAK_EACH = 16 << 20, 256
SECRET = b'what stands outside of the folder'
# The names at which other processes exchange things, and of what kind these are.
NAMES = ('s1', 's2', 's3', 's4')
KINDS = ('file', 'link', 'pipe', 'folder', 'way')
STILL = ('out_file', 'out_dir', 'up', 'loop', 'in_file', 'in_dir', 'pipe', 'sock')
PATHS = ['\\', '\\a', '\\b', '\\sub', '\\sub\\c', '\\new', '\\new\\x', '\\other', '\\sub\\new', *('\\' + name for name in (*NAMES, *STILL)), *('\\%s\\canary' % name for name in NAMES),
         *('\\%s\\made' % name for name in NAMES), '\\out_dir\\canary', '\\out_dir\\made', '\\up\\outside\\canary', '\\..\\outside\\canary', '\\sub\\..\\..\\outside\\canary', '\\.\\a',
         '\\in_dir\\c', '\\pipe\\x', '\\sock', '\\/dev\\null', '\\a\0b', '\\\udcff', '\\\uff5e', '\\\U00010000', '\\' + 'n' * 255, '\\' + 'n' * 256]
EXCHANGE = 2
CREATE, CLOSE, READ, WRITE, QUERY, SET, VOLUME, DIR, LOCK = 0, 2, 3, 4, 5, 6, 10, 12, 17
WORDS = {CREATE: 'create', CLOSE: 'close', READ: 'read', WRITE: 'write', QUERY: 'query', SET: 'set', VOLUME: 'volume', DIR: 'dir', LOCK: 'lock'}
BASIC, RENAME, DISPOSITION, END = 4, 10, 13, 20


def makes(place, kind, outside):
    """Makes something of this kind at a place, where nothing is."""
    if kind == 'file':
        with open(place, 'xb') as made:
            made.write(b'mine')
    elif kind == 'link':
        place.symlink_to(outside / 'canary')
    elif kind == 'pipe':
        os.mkfifo(place)
    elif kind == 'folder':
        place.mkdir()
        (place / 'canary').write_bytes(b'mine too')
    else:
        place.symlink_to(outside)


def swaps(places, others, outside, seed):
    """Exchanges what is at one of the places for one of the others, again and again, until it is killed. What the host took away is made again: no link and no pipe is."""
    rng, libc = random.Random(seed), ctypes.CDLL(None)
    while True:
        place, other = rng.choice(places), rng.choice(others)
        names = bytes(place), bytes(other)
        for _ in range(rng.randrange(100)):
            if libc.renameat2(-100, names[0], -100, names[1], EXCHANGE) != 0:
                for missing in (place, other):
                    with contextlib.suppress(OSError):
                        makes(missing, rng.choice(('file', 'file', 'folder')), outside)
                break


def seen(folder):
    """All names of a folder and below it, and what is to stay of each."""
    there = {}
    for place in sorted(folder.rglob('*')):
        look = place.lstat()
        there[str(place.relative_to(folder))] = (place.read_bytes() if place.is_file() else b'', look.st_mode, look.st_ino, look.st_nlink, look.st_mtime_ns, look.st_ctime_ns)
    return there


class Share:
    """The two folders, and a client that serves the one."""

    def __init__(self, program):
        self.folder = tempfile.TemporaryDirectory(dir='/dev/shm')
        top = pathlib.Path(self.folder.name)
        self.shared, self.outside = top / 'shared', top / 'outside'
        (self.outside / 'below').mkdir(parents=True)
        (self.outside / 'canary').write_bytes(SECRET)
        (self.outside / 'below' / 'canary').write_bytes(SECRET)
        self.fill()
        self.others = [self.spares(top / name) for name in NAMES[::2]]
        self.before = seen(self.outside)
        with socket.socket(socket.AF_UNIX) as door:
            door.bind(str(top / 's'))
            door.listen(1)
            door.settimeout(LIMIT)
            self.side = Side(program, 'client', str(top / 's'), 'workers 4\nreal 1 SHARED %s\n' % self.shared, self.folder.name)
            self.link = door.accept()[0]
        self.talk = Talk(self.link)

    def fill(self):
        (self.shared / 'sub').mkdir(parents=True)
        for name in ('a', 'b', 'sub/c', '\uff5e', '\U00010000'):
            (self.shared / name).write_bytes(b'mine: ' + name.encode())
        links = {'out_file': self.outside / 'canary', 'out_dir': self.outside, 'up': '..', 'loop': 'loop', 'in_file': 'a', 'in_dir': 'sub'}
        for name, target in links.items():
            (self.shared / name).symlink_to(target)
        os.mkfifo(self.shared / 'pipe')
        with socket.socket(socket.AF_UNIX) as door:
            door.bind(str(self.shared / 'sock'))
        for name in (b'\xff', b'not\x80utf8', b'a:b', b'a*', b'tail\\s'):
            with open(os.fsencode(self.shared) + b'/' + name, 'wb') as made:
                made.write(b'no name')

    def spares(self, folder):
        """Something of each kind, in a folder of its own."""
        folder.mkdir()
        for kind in KINDS:
            makes(folder / kind, kind, self.outside)
        return [folder / kind for kind in KINDS]

    def swappers(self, seed):
        """Two processes, each for some of the names."""
        for turn, others in enumerate(self.others):
            places = [self.shared / name for name in NAMES[turn::2]]
            yield multiprocessing.Process(target=swaps, args=(places, others, self.outside, seed + turn), daemon=True)

    def ends(self, requests):
        """The host goes after so many requests, and the client is to end. What lies outside is to be as it was."""
        self.side.has_ended()
        self.talk.end()
        self.link.close()
        try:
            status, lines = self.side.ends()
        finally:
            self.side.kill()
        if seen(self.outside) != self.before:
            raise Bad('what lies outside was changed: %r' % seen(self.outside))
        if status != 0 or lines != ['device 1 ran %d' % requests] or self.side.peak * 1024 > PEAK + PEAK_EACH * requests:
            raise Bad('status %d, a peak of %d kB, the lines %r, after %d requests' % (status, self.side.peak, lines, requests))
        self.folder.cleanup()
        return self.side.peak


def text(path):
    return path.encode('utf-16-le', 'surrogatepass')


class Host:
    """A host that asks one thing after the other, drawn from a seed."""

    def __init__(self, talk, rng):
        self.talk, self.rng, self.number = talk, rng, 0
        self.files, self.slowest, self.counts = [], 0, collections.Counter()
        talk.say(b''.join(map(framed, opening(HOST))), 1 << 30)
        self.awaits(lambda message: message[:4] == b'rDAD')

    def awaits(self, is_it):
        """The first message of this kind that comes."""
        begin = time.monotonic()
        while True:
            for message in messages_in(bytes(self.talk.heard)):
                if is_it(message):
                    self.talk.heard.clear()
                    return message
            if self.talk.is_over or time.monotonic() - begin > LIMIT:
                raise Bad('no answer came to request %d within %.1f seconds' % (self.number, time.monotonic() - begin))
            self.talk.read(1)

    def asks(self, major, file, body, minor=0):
        """Asks, and waits for the answer: its status, and what comes behind that."""
        self.number += 1
        asked = request(major, file, self.number, body)
        if minor:
            asked = asked[:32] + word(minor, 4) + asked[36:]
        begin = time.monotonic()
        self.talk.say(asked, 1 << 30)
        message = self.awaits(lambda message: message[:4] == b'rDCI' and int.from_bytes(message[8:12], 'little') == self.number)
        self.slowest = max(self.slowest, time.monotonic() - begin)
        if SECRET[:8] in message:
            raise Bad('request %d, %s, was answered with what stands outside: %r' % (self.number, WORDS[major], message))
        status = int.from_bytes(message[12:16], 'little')
        self.counts[WORDS[major], status == 0] += 1
        return status, message[16:]

    def creates(self):
        rng = self.rng
        path = '\\' + rng.choice(NAMES) if rng.random() < 0.5 else rng.choice(PATHS)
        access = rng.choice((0x80000000, 0xc0000000, 0xc0010000, 0x10000000, 0x10000))
        body = word(access, 4) + bytes(8) + word(0, 4) + word(7, 4) + word(rng.choice((0, 1, 1, 2, 3, 3, 4, 5)), 4) + word(rng.choice((0, 0, 0x40, 1, 0x1000)), 4)
        status, answer = self.asks(CREATE, 0, body + word(len(text(path)) + 2, 4) + text(path) + bytes(2))
        if status == 0:
            if path.lstrip('\\') in STILL:
                raise Bad('%s was opened' % path)
            self.files.append(int.from_bytes(answer[:4], 'little'))
            self.reads(self.files[-1])

    def reads(self, file):
        self.asks(READ, file, word(self.rng.choice((0, 7, 4096, 65536)), 4) + word(self.rng.choice((0, 0, 0, 1, 4096)), 8) + bytes(20))

    def lists(self, file):
        """Goes through a folder, as far as it goes."""
        pattern = '\\' + self.rng.choice(('*', '*', 's*', '*\u0041*', 'out_*'))
        for first in (1, *(0,) * 40):
            path = text(pattern) + bytes(2)
            status, answer = self.asks(DIR, file, word(12, 4) + word(first, 1) + word(len(path), 4) + bytes(23) + path, 1)
            if status != 0:
                return
            name = answer[16:16 + int.from_bytes(answer[12:16], 'little')].decode('utf-16-le', 'surrogatepass')
            if name in STILL or '\ufffd' in name:
                raise Bad('%r is listed' % name)

    def changes(self, file):
        rng = self.rng
        path = text(rng.choice(PATHS))
        kind, body = rng.choice((
            (BASIC, word(rng.randrange(1 << 57), 8) * 4 + word(0x80, 4)),
            (RENAME, word(rng.randrange(2), 1) + word(0, 1) + word(len(path), 4) + path),
            (DISPOSITION, word(rng.randrange(2), 1)),
            (END, word(rng.choice((0, 3, 5000, 70000)), 8)),
        ))
        self.asks(SET, file, word(kind, 4) + word(len(body), 4) + bytes(24) + body)

    def goes_on(self):
        """Asks one thing, or goes through one folder."""
        rng = self.rng
        if not self.files or rng.random() < 0.3:
            return self.creates()
        file, way = rng.choice(self.files), rng.randrange(8)
        if way == 0 or len(self.files) > 12:
            self.files.remove(file)
            self.asks(CLOSE, file, bytes(32))
        elif way == 1:
            self.reads(file)
        elif way == 2:
            data = rng.randbytes(rng.choice((1, 100, 5000)))
            self.asks(WRITE, file, word(len(data), 4) + word(rng.choice((0, 1, 4096)), 8) + bytes(20) + data)
        elif way == 3:
            self.asks(QUERY, file, word(rng.choice((4, 5, 0x23)), 4) + bytes(28))
        elif way == 4:
            self.asks(VOLUME, file, word(rng.choice((1, 3, 4, 5, 7)), 4) + bytes(28))
        elif way == 5:
            self.lists(file)
        elif way == 6:
            self.asks(LOCK, file, word(3, 4) + word(0, 4) + word(1, 4) + bytes(20) + word(1, 8) + word(0, 8))
        else:
            self.changes(file)


def plays(program, seconds, seed):
    share = Share(program)
    swappers = list(share.swappers(seed))
    for swapper in swappers:
        swapper.start()
    try:
        host = Host(share.talk, random.Random(seed))
        end = time.monotonic() + seconds
        while time.monotonic() < end:
            host.goes_on()
    except Bad:
        share.side.kill()
        raise
    finally:
        for swapper in swappers:
            swapper.kill()
            swapper.join()
    return host, share.ends(host.number)


def main():
    words = argparse.ArgumentParser(usage=__doc__)
    words.add_argument('program', nargs='?', default=TOP / 'bin' / 'rdr', type=pathlib.Path)
    words.add_argument('--seconds', type=float, default=60)
    words.add_argument('--seed', type=int, default=1)
    words = words.parse_args()
    try:
        host, peak = plays(words.program.resolve(), words.seconds, words.seed)
    except Bad as why:
        print('seed %d: %s' % (words.seed, why))
        sys.exit(1)
    kinds = ', '.join('%s %d and %d' % (kind, host.counts[kind, True], host.counts[kind, False]) for kind in WORDS.values())
    print('%d requests, done and refused: %s; the longest took %.3f seconds; a peak of %d kB' % (host.number, kinds, host.slowest, peak))


if __name__ == '__main__':
    main()
