#!/usr/bin/env python3
"""Plays changed channels against `rdr client` and `rdr host`: mutate.py [--sessions N] [--first N] [--seed N] [--jobs N] [--only client|host] [--ends FILE] [PROGRAM]

A session takes what one side said on a channel of a recording of an example, or on one of the `channel_hex` of FILE, and changes it as somebody would who knows the
grammar: messages are doubled, moved, left out, cut, made longer, taken from another channel or from the other side; lengths, counts, ids and other fields take the
values at their limits; then they are cut into frames of 1 to 16,384 bytes, and sizes, lengths and flags of frames are changed. That is said to PROGRAM (bin/rdr), which
serves the example's devices or plays its applications; the end of the channel behind it. Where it plays applications every other time a completion is
said once its request is heard.

It is to end within 20 seconds of that, with status 0 or 4, to take no more than 64 MB, and to print whole lines: one for each device or for each line of an application,
and after them that of a wrong channel where the status is 4. Every fourth session is played in pieces of 1, 7 and 4,096 bytes and at once, and has the
same status and last line each time, but for a `Duplicate`, which hangs on what is completed by then. What isn't so is printed with its seed and number, from which `--first` begins,
then lines that sum up; the status is 1 if anything wasn't. The script stands outside the proofs, and needs Linux."""
import argparse
import collections
import concurrent.futures
import contextlib
import json
import pathlib
import random
import re
import select
import socket
import sys
import tempfile
import time

from sides import CLIENT, DEVICES, HOST, LIMIT, TOP, Bad, Side, channels_of, splits

PEAK = 65536
EDGES = (0, 1, 2, 3, 4, 7, 8, 9, 12, 16, 63, 64, 65, 127, 128, 255, 256, 257, 511, 512, 513, 1023, 1024, 1025, 4095, 4096, 4097, 16383, 16384, 16385, 65535, 65536, 1 << 20,
         (1 << 20) + 1, (1 << 31) - 1, 1 << 31, (1 << 32) - 4, (1 << 32) - 1)
# Where the fields of a packet stand, and how many bytes they have: by its first four bytes, and of a request by its major.
FIELDS = {
    b'rDnI': ((4, 2), (6, 2), (8, 4)), b'rDCC': ((4, 2), (6, 2), (8, 4)), b'rDNC': ((4, 4), (8, 4), (12, 4)), b'rDrd': ((4, 4), (8, 4)),
    b'rDPS': ((4, 2), (8, 2), (10, 2), (12, 4)), b'rDPC': ((4, 2), (8, 2), (10, 2), (12, 4)), b'rDAD': ((4, 4), (8, 4), (12, 4), (24, 4)), b'rDMD': ((4, 4), (8, 4)),
    b'rDRI': ((4, 4), (8, 4), (12, 4), (16, 4), (20, 4)), b'rDCI': ((4, 4), (8, 4), (12, 4), (16, 4), (20, 4)),
}
MAJORS = {
    0: ((24, 4), (28, 8), (36, 4), (40, 4), (44, 4), (48, 4), (52, 4)), 3: ((24, 4), (28, 8)), 4: ((24, 4), (28, 8)), 14: ((24, 4), (28, 4), (32, 4)),
    5: ((24, 4), (28, 4)), 6: ((24, 4), (28, 4), (56, 4), (60, 2), (58, 4)), 10: ((24, 4), (28, 4)), 11: ((24, 4), (28, 4)), 12: ((24, 4), (28, 1), (29, 4)),
    17: ((24, 4), (28, 4), (32, 4), (56, 8), (64, 8)),
}
LINE = re.compile(r'(device \d+ ran \d+|\d+\.\d+ (done [0-9a-f]{8} ([0-9a-f]+|-)|lost (dropped|removed)|refused \w+))')
LAST = re.compile(r'channel 1 at \d+ \w+( in \d+)?')
PIECES = (1, 7, 4096, 1 << 30)
SMALL = 30000


def word(number, size):
    return (number & ((1 << 8 * size) - 1)).to_bytes(size, 'little')


def messages_in(data):
    """The messages that whole frames have."""
    messages, message, at = [], b'', 0
    while at + 12 <= len(data):
        size, flags = int.from_bytes(data[at:at + 4], 'little'), int.from_bytes(data[at + 8:at + 12], 'little')
        message += data[at + 12:at + 4 + size]
        if flags & 2:
            messages.append(message)
            message = b''
        at += 4 + max(size, 8)
    return messages


def numbered(messages):
    """The same, each request with a completion id of its own."""
    return [message[:12] + word(place, 4) + message[16:] if message[:4] == b'rDRI' else message for place, message in enumerate(messages)]


def sources(ends):
    """Of each channel: the side that hears it, that side's script, what is said on it, and what the other side said: messages."""
    for script in sorted((TOP / 'examples').glob('*.script')):
        devices, played = splits(script.read_text())
        if script.with_suffix('.status').exists() or not devices:
            continue
        recording = script.with_suffix('.rec').read_bytes()
        count = sum(line.split(' ')[0] in DEVICES for line in devices)
        lines = [line for line in played if line[0].isdigit()]
        host = '\n'.join(['devices %d' % count, *lines, ''])
        for said_by_host, said_by_client in zip(*([messages_in(b''.join(frames)) for frames in channels_of(recording, side)] for side in (HOST, CLIENT))):
            yield 'client', '\n'.join(devices) + '\n', numbered(said_by_host), said_by_client
            yield 'host', host, said_by_client, said_by_host
    for case in map(json.loads, open(ends) if ends else ()):
        yield case['end'], case['script'], messages_in(bytes.fromhex(case['channel_hex'])), []


def changed_field(message, rng):
    """A message one field of which has another value."""
    fields = FIELDS.get(message[:4], ())
    if message[:4] == b'rDRI' and rng.random() < 0.7:
        fields = MAJORS.get(int.from_bytes(message[16:20], 'little'), fields)
    place, size = rng.choice(fields) if fields and rng.random() < 0.8 else (rng.randrange(len(message) + 1), rng.choice((1, 2, 4, 8)))
    old = int.from_bytes(message[place:place + size], 'little')
    value = rng.choice((rng.choice(EDGES), old + 1, old - 1, old ^ 1 << rng.randrange(8 * size), rng.getrandbits(8 * size), len(message), -rng.choice(EDGES)))
    return message[:place] + word(value, size)[:max(0, len(message) - place)] + message[place + size:]


def changed(messages, other, strangers, rng):
    """Messages with one change."""
    messages, way, at = list(messages), rng.randrange(10), rng.randrange(len(messages)) if messages else 0
    if not messages:
        return [rng.choice(strangers)]
    if way <= 3:
        messages[at] = changed_field(messages[at], rng)
    elif way == 4:
        messages[at:at] = [messages[at]] * rng.choice((1, 1, 1, 2, 70))
    elif way == 5:
        messages.insert(rng.randrange(len(messages)), messages.pop(at))
    elif way == 6:
        del messages[at]
    elif way == 7:
        messages[at] = messages[at][:rng.randrange(len(messages[at]) + 1)]
    elif way == 8:
        messages[at] += rng.randbytes(rng.choice((1, 4, 100, 20000)))
    else:
        messages.insert(at, rng.choice(other if other and rng.random() < 0.5 else strangers))
    return messages


def frames_of(message, size):
    """The frames of a message, of at most so many data bytes."""
    for at in range(0, max(1, len(message)), size):
        data = message[at:at + size]
        yield word(len(data) + 8, 4) + word(len(message), 4) + word((at == 0) + 2 * (at + size >= len(message)), 4) + data


def changed_frame(frame, rng):
    """A frame of which the size, the length, the flags or the bytes are changed."""
    way, edge = rng.randrange(5), rng.choice((0, 1, 7, 8, 9, 10, 16391, 16392, 16393, 1052672, 1052673, (1 << 31), (1 << 32) - 1))
    if way == 0:
        return word(edge, 4) + frame[4:]
    if way == 1:
        return frame[:4] + word(rng.choice((edge, int.from_bytes(frame[4:8], 'little') + rng.choice((-1, 1)))), 4) + frame[8:]
    if way == 2:
        return frame[:8] + word(rng.choice((0, 1, 2, 3, 0x10, 0x200000, 0x400000, 0x13, rng.getrandbits(32))), 4) + frame[12:]
    if way == 3:
        return frame[:rng.randrange(len(frame) + 1)]
    return frame + rng.randbytes(rng.choice((1, 12, 13)))


def channel_of(messages, other, strangers, rng):
    """What is said on a changed channel: the frames of each message."""
    for _ in range(rng.choice((0, 1, 1, 1, 2, 3, 8))):
        messages = changed(messages, other, strangers, rng)
    sizes = rng.choice(((1600,), (16384,), (1, 2, 3), (7, 100, 1600), range(1, 16385)))
    said = [list(frames_of(message, rng.choice(sizes) if len(message) < SMALL else 1600)) for message in messages]
    for _ in range(rng.choice((0, 0, 0, 1, 2))):
        if said:
            frames = rng.choice(said)
            if frames:
                at = rng.randrange(len(frames))
                frames[at] = changed_frame(frames[at], rng)
    return [b''.join(frames) for frames in said]


class Talk:
    """One side of a connection, which reads all that comes."""

    def __init__(self, link):
        self.link, self.heard, self.is_over, self.is_refused = link, bytearray(), False, False
        link.setblocking(False)

    def read(self, seconds):
        """Reads what is there, or comes within so many seconds."""
        try:
            if select.select([self.link], [], [], seconds)[0]:
                data = self.link.recv(1 << 20)
                self.heard += data
                self.is_over = self.is_over or not data
        except ConnectionError:
            self.is_over = True

    def say(self, data, piece):
        view, count = memoryview(data), 0
        while view and not (self.is_over or self.is_refused):
            try:
                view = view[self.link.send(view[:piece]):]
            except BlockingIOError:
                select.select([self.link], [self.link], [], LIMIT)
                self.read(0)
            except ConnectionError:
                self.is_refused = True
            count += 1
            if count % 64 == 0:
                self.read(0)

    def await_request(self, message):
        """Waits a little until the request was heard that this completion is of."""
        begin = time.monotonic()
        while not self.is_over and time.monotonic() - begin < 0.05:
            for found in re.finditer(b'rDRI', self.heard):
                at = found.start()
                if self.heard[at + 4:at + 8] == message[16:20] and self.heard[at + 12:at + 16] == message[20:24]:
                    return
            self.read(0.005)

    def end(self):
        """Says no more, and reads to the end."""
        with contextlib.suppress(OSError):
            self.link.shutdown(socket.SHUT_WR)
        begin = time.monotonic()
        while not self.is_over:
            self.read(1)
            if time.monotonic() - begin > LIMIT:
                raise Bad('it keeps a channel that is over')
        self.link.close()


def play(program, end, script, said, piece, is_patient):
    """Plays a channel: the status, the last line, and the peak memory in kilobytes."""
    with tempfile.TemporaryDirectory(dir='/dev/shm') as folder, socket.socket(socket.AF_UNIX) as door:
        path = folder + '/s'
        if end == 'client':
            door.bind(path)
            door.listen(1)
            door.settimeout(LIMIT)
        side = Side(program, end, path, script, folder)
        try:
            if end == 'client':
                link = door.accept()[0]
            else:
                side.listens()
                link = door
                link.connect(path)
            talk = Talk(link)
            for frames in said if is_patient else [b''.join(said)]:
                if is_patient and frames[12:16] == b'rDCI':
                    talk.await_request(frames)
                talk.say(frames, piece)
            side.has_ended()
            talk.end()
            status, lines = side.ends()
        except socket.timeout:
            raise Bad('it does not dial') from None
        finally:
            side.kill()
        last = lines[-1] if status == 4 and lines else None
        wanted = sum(line.split(' ')[0] in DEVICES if end == 'client' else line[:1].isdigit() for line in script.split('\n')) + (status == 4)
        rest = lines[:-1] if status == 4 else lines
        if status not in (0, 4) or side.peak > PEAK or len(lines) != wanted or status == 4 and not LAST.fullmatch(last or '') or not all(map(LINE.fullmatch, rest)):
            raise Bad('status %d, a peak of %d kB, %d lines for %d, the last %r, notes %r' % (status, side.peak, len(lines), wanted, lines[-2:], side.notes.read_bytes()[-300:]))
        return status, last, side.peak


def session(number, words, known, strangers):
    """Plays a session: how many channels were said, how the first ended, and the peak memory; or why it is bad."""
    rng = random.Random('%d %d' % (words.seed, number))
    end, script, messages, other = rng.choice(known)
    said = channel_of(messages, other, strangers, rng)
    script = 'workers %d\n' % rng.randint(1, 16) + script if end == 'client' else script
    size, is_patient = sum(map(len, said)), end == 'host' and rng.random() < 0.5
    if end == 'host' and not is_patient:
        script = 'devices 256\n' + '\n'.join(script.split('\n')[1:] if script.startswith('devices') else [script])
    try:
        if number % 4 or is_patient:
            status, last, peak = play(words.program.resolve(), end, script, said, rng.choice(PIECES[size > SMALL:]), is_patient)
            return 1, end, status, last, peak, size
        came = [play(words.program.resolve(), end, script, said, piece, False) for piece in PIECES[size > SMALL:]]
        if len({it[:2] for it in came}) > 1 and not any('Duplicate' in str(it[1]) for it in came):
            raise Bad('in other pieces it has another end: %r' % came)
        return len(came), end, *came[0][:2], max(it[2] for it in came), size
    except Bad as why:
        print('session %d of seed %d, against the %s: %s' % (number, words.seed, end, why), flush=True)
        return None


def main():
    words = argparse.ArgumentParser(usage=__doc__)
    words.add_argument('program', nargs='?', default=TOP / 'bin' / 'rdr', type=pathlib.Path)
    words.add_argument('--sessions', type=int, default=1000)
    words.add_argument('--first', type=int, default=0)
    words.add_argument('--seed', type=int, default=1)
    words.add_argument('--jobs', type=int, default=1)
    words.add_argument('--only', choices=('client', 'host'))
    words.add_argument('--ends')
    words = words.parse_args()
    known = [it for it in sources(words.ends) if words.only in (None, it[0])]
    strangers = [message for _, _, said, other in known for message in (*said, *other)]
    with concurrent.futures.ThreadPoolExecutor(words.jobs) as pool:
        came = list(pool.map(lambda number: session(number, words, known, strangers), range(words.first, words.first + words.sessions)))
    ended = [it for it in came if it]
    kinds = collections.Counter((end, last.split(' ')[4] if last else 'none') for _, end, _, last, _, _ in ended)
    print('ends: ' + ', '.join('%s %s %d' % (*kind, count) for kind, count in sorted(kinds.items())))
    what = words.sessions, words.seed, sum(it[0] for it in ended), max((it[5] for it in ended), default=0), max((it[4] for it in ended), default=0), len(came) - len(ended)
    print('%d sessions of seed %d, %d channels of at most %d bytes, a peak of %d kB, %d bad' % what)
    sys.exit(1 if len(ended) < len(came) else 0)


if __name__ == '__main__':
    main()
