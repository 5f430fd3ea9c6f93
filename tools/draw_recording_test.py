#!/usr/bin/env python3
"""Tries draw-recording: draw_recording_test.py [PROGRAM]

It draws each example that has a recording and the lines of `decode`, and a made-up session with the longest numbers and 40 requests under way at once; each also cut to some of its entries, and with a
verdict. A picture is to be XML, 900 wide, with an arrow for each message, a bracket for each request, and no two texts that overlap or leave it. docs/session.svg is to be that of its example. With PROGRAM
the script is called as a person calls it too. What isn't so is said, with status 1. It needs neither a built program nor Linux."""
import importlib.machinery
import importlib.util
import pathlib
import re
import subprocess
import sys
import xml.etree.ElementTree as tree

sys.dont_write_bytecode = True
TOP = pathlib.Path(__file__).resolve().parent.parent
SCRIPT, PICTURE = TOP / 'tools' / 'draw-recording', TOP / 'docs' / 'session.svg'
SHOWN = TOP / 'examples' / 'read_removal_wait.rec'
MOST = (1 << 32) - 1
SVG = '{http://www.w3.org/2000/svg}'
loader = importlib.machinery.SourceFileLoader('draw_recording', str(SCRIPT))
draw = importlib.util.module_from_spec(importlib.util.spec_from_loader('draw_recording', loader))
loader.exec_module(draw)


def drawn(name, recording, lines, first=1, last=None, verdict=None, journals=''):
    """The picture, and the rows that are in it."""
    rows, count = draw.rows_of(recording, lines)
    named, channel = draw.named_by(verdict, rows, journals) if verdict else ([], None)
    picture = draw.Picture(rows, first, last or count)
    return picture.drawn('%s, entries %d to %d of %d' % (name, first, last or count, count), verdict, named, channel), picture.rows


def box(text):
    """What a text takes: left, right, top, bottom."""
    x, y, style = int(text.get('x')), int(text.get('y')), (text.get('class') or '').split()
    size = re.search(r'[\d.]+', text.get('style') or '')
    wide = len(text.text) * draw.LETTER * (float(size[0]) / draw.SIZE if size else 1)
    left = x - wide / 2 if 'middle' in style else x - wide if 'right' in style else x
    return left, left + wide, y - 8, y + 2


def faults(svg, rows):
    """What is wrong with a picture of these rows."""
    root = tree.fromstring(svg)
    texts = [(text.text, *box(text)) for text in root.iter(SVG + 'text')]
    for place, (text, left, right, top, bottom) in enumerate(texts):
        if left < 0 or right > 900 or bottom > float(root.get('height')):
            yield '%r leaves the picture' % text
        for other, its_left, its_right, its_top, its_bottom in texts[place + 1:]:
            if left < its_right and its_left < right and top < its_bottom and its_top < bottom:
                yield '%r overlaps %r' % (text, other)
    paths = [path.get('class') for path in root.iter(SVG + 'path')]
    arrows = sum(row.kind == 'message' for row in rows)
    if root.get('width') != '900' or sum(style in ('head', 'gone-head') for style in paths) != arrows + 2:
        yield 'it is not 900 wide with %d arrows' % arrows
    if sum(style in ('joins0', 'joins1', 'joins2') for style in paths) < sum(row.is_request and bool(row.mate) for row in rows) + 1:
        yield 'a request has no bracket'


def frame(side, message, size=1600):
    """The entries of a message."""
    for at in range(0, len(message), size):
        data = message[at:at + size]
        head = (len(data) + 8, len(message), (at == 0) + 2 * (at + size >= len(message)))
        yield bytes([side]) + b''.join(number.to_bytes(4, 'little') for number in head) + data


def made_up():
    """A session with 40 requests at once, of which one isn't completed, in two channels: the recording, and its lines."""
    parts, lines = [b'RDRREC01'], []
    for _ in range(2):
        parts.append(b'\2')
        for number in range(40):
            parts += frame(draw.HOST, b'rDRI' + bytes(60000))
            lines.append('host 60004 DEVICE_IOREQUEST device %d id %d major 11 file %d tail 0' % (MOST, MOST - number % 7, MOST))
        for number in range(39):
            parts += frame(draw.CLIENT, b'rDCI' + bytes(12))
            lines.append('client 16 DEVICE_IOCOMPLETION device %d id %d status c0000120 tail 0' % (MOST, MOST - number % 7))
        parts += list(frame(draw.CLIENT, bytes(5000)))[:2] + [b'\3']
    return b''.join(parts), lines


def tries():
    """Each picture that is tried: a name, and the words for `drawn`."""
    for lines in sorted((TOP / 'examples').glob('*.lines')):
        recording, printed = lines.with_suffix('.rec').read_bytes(), lines.read_text().splitlines()
        yield lines.stem, (lines.stem, recording, printed)
        yield lines.stem + ' from 2', (lines.stem, recording, printed, 2, 2)
    recording, printed = SHOWN.read_bytes(), SHOWN.with_suffix('.lines').read_text().splitlines()
    journals = 'device 1\ncame 1 1\nran 1 1 0 0 0\nsent 1 1\ndevice 2\ncame 1 0\nran 1 0 0 0 0\n'
    for verdict in ('no entry 14 answer', 'no journal 1 item 3 clause 3', 'no channel 1 open', 'yes'):
        yield verdict, (SHOWN.name, recording, printed, 1, None, verdict, journals)
    long, its_lines = made_up()
    yield 'a made-up session', ('made up', long, its_lines)
    yield 'a part of it', ('made up', long, its_lines, 1500, 1700, 'no channel 1 open')


def audits():
    """What an audit file is taken apart into, and what a verdict names there."""
    recording, lines = SHOWN.read_bytes(), SHOWN.with_suffix('.lines').read_text().splitlines()
    journals = 'device 2\ncame 1 0\n'
    journal, found = draw.taken_apart(b'RDRAUD01' + bytes([3, 0, 0, 0]) + b'abc' + len(journals).to_bytes(4, 'little') + journals.encode() + recording)
    rows, _ = draw.rows_of(recording, lines)
    named, _ = draw.named_by('no journal 2 item 1 clause 7', rows, journal)
    if (journal, found) != (journals, recording) or [row.key for row in named if row.key] != [(1, 0)] or not named[0].mate:
        yield 'an audit file: it comes apart as %r, and names entries %r' % (journal, [row.number for row in named])


def main():
    wrong = ['%s: %s' % (name, fault) for name, words in tries() for fault in faults(*drawn(*words))] + list(audits())
    if len(sys.argv) > 1:
        done = subprocess.run([sys.executable, str(SCRIPT), str(SHOWN), '--rdr', sys.argv[1]], capture_output=True, text=True)
        wrong += [] if done.stdout == PICTURE.read_text() else ['docs/session.svg is another picture than that of %s: %s' % (SHOWN.name, done.stderr)]
    elif drawn(SHOWN.name, SHOWN.read_bytes(), SHOWN.with_suffix('.lines').read_text().splitlines())[0] != PICTURE.read_text():
        wrong.append('docs/session.svg is another picture than that of %s' % SHOWN.name)
    print('\n'.join(wrong) if wrong else 'draw-recording: as told')
    sys.exit(1 if wrong else 0)


if __name__ == '__main__':
    main()
