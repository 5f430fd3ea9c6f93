#!/usr/bin/env python3
"""Plays sides that go to the limits, or past them: limits.py [--changes N] [PROGRAM]

Against `PROGRAM client`: a host that asks and never reads, of a device and of one that isn't there; one that reads and never says anything; one that opens 4,097 files; one whose 65 locks
wait on one range. Against `PROGRAM host`: a client that says its opening and never reads while 16 applications write 64 kB each time; one that announces a device and removes it N times,
100,000 where no word says it; one that does so as long as the host takes it, and never reads the replies; one that never says anything. Each side is to take no more than so much memory while
that lasts, a second where nothing else ends it, and to end within 20 seconds once its peer has gone. It prints a line each, with the peak of memory; the status is 1 if one isn't so. The
script stands outside the proofs, and needs Linux."""
import argparse
import pathlib
import socket
import sys
import tempfile
import time

from mutate import Talk, frames_of, messages_in, word
from sides import CLIENT, HOST, LIMIT, TOP, Bad, Side, channels_of

DEVICES = 'workers 4\ndrive 1 DATA\nfile 1 \\a.txt 61\n'
READ, LOCK = 3, 17


def opening(side):
    """What a side says on a channel before its first request or completion."""
    messages = messages_in(b''.join(channels_of((TOP / 'examples' / 'open_read_close.rec').read_bytes(), side)[0]))
    return [message for message in messages if message[:4] not in (b'rDRI', b'rDCI')]


def framed(message):
    return b''.join(frames_of(message, 1600))


def request(major, file, number, body, device=1):
    return framed(b'rDRI' + word(device, 4) + word(file, 4) + word(number, 4) + word(major, 4) + word(0, 4) + body)


def create(number):
    """Opens \\a.txt for all."""
    path = '\\a.txt\0'.encode('utf-16-le')
    return request(0, 0, number, word(0xc0000000, 4) + word(0, 8) + word(0, 4) + word(7, 4) + word(1, 4) + word(0, 4) + word(len(path), 4) + path)


def completions(heard):
    """The status and the file id, or what stands there, by the number of the request."""
    return {int.from_bytes(it[8:12], 'little'): (int.from_bytes(it[12:16], 'little'), int.from_bytes(it[16:20], 'little')) for it in messages_in(bytes(heard)) if it[:4] == b'rDCI'}


def stuffs(link, data, seconds):
    """Sends these bytes again and again until nothing is taken for a second, or the time is over: how many bytes were taken."""
    link.setblocking(False)
    begin, last, count = time.monotonic(), time.monotonic(), 0
    while time.monotonic() - begin < seconds and time.monotonic() - last < 1:
        try:
            count += link.send(data[count % len(data):])
            last = time.monotonic()
        except BlockingIOError:
            time.sleep(0.001)
    return count


class Session:
    """A side that is played to by this script."""

    def __init__(self, program, end, script):
        self.folder = tempfile.TemporaryDirectory(dir='/dev/shm')
        path = self.folder.name + '/s'
        with socket.socket(socket.AF_UNIX) as door:
            if end == 'client':
                door.bind(path)
                door.listen(1)
                door.settimeout(LIMIT)
            self.side = Side(program, end, path, script, self.folder.name)
            if end == 'client':
                self.link = door.accept()[0]
            else:
                self.side.listens()
                self.link = socket.socket(socket.AF_UNIX)
                self.link.connect(path)

    def says(self, data):
        talk = Talk(self.link)
        talk.say(data, 1 << 30)
        return talk

    def awaits(self, talk, count):
        """Reads until so many completions came."""
        begin = time.monotonic()
        while len(completions(talk.heard)) < count:
            talk.read(1)
            if talk.is_over or time.monotonic() - begin > LIMIT:
                raise Bad('%d completions of %d came' % (len(completions(talk.heard)), count))
        return completions(talk.heard)

    def ends(self, most, statuses=(0,)):
        """The peer goes, and the side is to end: its peak."""
        self.side.has_ended()
        self.link.close()
        try:
            status, lines = self.side.ends()
        finally:
            self.side.kill()
        self.folder.cleanup()
        if status not in statuses or self.side.peak > most:
            raise Bad('status %d, a peak of %d kB, the last line %r' % (status, self.side.peak, lines[-1:]))
        return self.side.peak


def never_reads(device):
    """a host that asks a device for 1 MB each time and never reads"""
    def plays(program, _):
        session = Session(program, 'client', DEVICES)
        session.link.sendall(b''.join(map(framed, opening(HOST))) + create(0))
        count = stuffs(session.link, b''.join(request(READ, 1, number, word(1 << 20, 4) + word(0, 8) + bytes(20), device) for number in range(1, 100001)), 20)
        return '%d bytes taken, ' % count, session.ends(65536, (0, 4, 5))
    return plays


def never_speaks(end, script):
    def plays(program, _):
        session = Session(program, end, script)
        talk, begin = Talk(session.link), time.monotonic()
        while time.monotonic() - begin < 1:
            talk.read(0.1)
        return '', session.ends(16384)
    return plays


def opens_many(program, _):
    """a host that opens 4,097 files"""
    session = Session(program, 'client', DEVICES)
    talk = session.says(b''.join(map(framed, opening(HOST))) + b''.join(map(create, range(4097))))
    came = [status for status, _ in session.awaits(talk, 4097).values()]
    if came.count(0) != 4096 or came.count(0xc000011f) != 1:
        raise Bad('%d openings are done, and %d too many' % (came.count(0), came.count(0xc000011f)))
    return '', session.ends(16384, (0, 5))


def waits_many(program, _):
    """a host whose 65 locks wait on one range"""
    session = Session(program, 'client', DEVICES)
    body = lambda waits: word(3, 4) + word(waits, 4) + word(1, 4) + bytes(20) + word(1, 8) + word(0, 8)
    talk = session.says(b''.join(map(framed, opening(HOST))) + create(0) + create(1))
    session.awaits(talk, 2)
    talk.say(request(LOCK, 1, 2, body(0)), 1 << 30)
    session.awaits(talk, 3)
    talk.say(b''.join(request(LOCK, 2, number, body(1)) for number in range(3, 68)), 1 << 30)
    came = session.awaits(talk, 4)
    if sorted(came)[:3] != [0, 1, 2] or [status for number, (status, _) in came.items() if number > 2] != [0xc000009a]:
        raise Bad('the completions are %r' % came)
    return '', session.ends(16384, (0, 5))


def host_writes(program, _):
    """a client that never reads what a host writes"""
    lines = ['%d create h 1 \\f%d 3 0xc0000000 7 0 0' % (number, number) for number in range(1, 17)]
    lines += ['%d write h 0 %s' % (number, '61' * 65536) for _ in range(20) for number in range(1, 17)]
    session = Session(program, 'host', '\n'.join(['devices 1', *lines, '']))
    talk = session.says(b''.join(map(framed, opening(CLIENT))))
    begin, answered = time.monotonic(), set()
    while len(answered) < 16 and time.monotonic() - begin < LIMIT:
        talk.read(0.1)
        for message in messages_in(bytes(talk.heard)):
            if message[:4] == b'rDRI' and message[12:16] not in answered:
                answered.add(message[12:16])
                talk.say(framed(b'rDCI' + message[4:8] + message[12:16] + word(0, 4) + word(len(answered), 4) + b'\1'), 1 << 30)
    time.sleep(1)
    return '%d files open, ' % len(answered), session.ends(131072, (0, 5))


# A device that is announced, and then removed.
CHANGE = framed(b'rDAD' + word(1, 4) + word(8, 4) + word(7, 4) + b'SEVEN\0\0\0' + word(0, 4)) + framed(b'rDMD' + word(1, 4) + word(7, 4))


def comes_and_goes(program, changes):
    """a client that announces a device and removes it"""
    session = Session(program, 'host', 'devices 200\n1 open h 1 \\a\n')
    talk = session.says(b''.join(map(framed, opening(CLIENT))))
    for _ in range(changes // 100):
        talk.say(CHANGE * 100, 1 << 30)
        talk.read(0)
        talk.heard.clear()
        if talk.is_over:
            raise Bad('it ended the channel')
    return '%d times, ' % changes, session.ends(16384, (0, 5))


def says_only(program, _):
    """a client that announces a device and removes it, and never reads the replies"""
    session = Session(program, 'host', 'devices 200\n1 open h 1 \\a\n')
    session.link.sendall(b''.join(map(framed, opening(CLIENT))))
    count = stuffs(session.link, CHANGE * 1000, 20)
    return '%d bytes taken, ' % count, session.ends(16384, (0, 4, 5))


PLAYS = {
    'a host that asks and never reads': never_reads(1),
    'a host that asks a device that is not there, and never reads': never_reads(9),
    'a host that says nothing': never_speaks('client', DEVICES),
    'a host that opens 4,097 files': opens_many,
    'a host whose 65 locks wait': waits_many,
    'a client that never reads': host_writes,
    'a client that says nothing': never_speaks('host', '1 open h 1 \\a\n'),
    'a client whose device comes and goes': comes_and_goes,
    'a client that announces and never reads': says_only,
}


def main():
    words = argparse.ArgumentParser(usage=__doc__)
    words.add_argument('program', nargs='?', default=TOP / 'bin' / 'rdr', type=pathlib.Path)
    words.add_argument('--changes', type=int, default=100000)
    words = words.parse_args()
    bad = 0
    for name, plays in PLAYS.items():
        try:
            print('%s: %sa peak of %d kB' % (name, *plays(words.program.resolve(), words.changes)), flush=True)
        except Bad as why:
            bad += 1
            print('%s: %s' % (name, why), flush=True)
    sys.exit(1 if bad else 0)


if __name__ == '__main__':
    main()
