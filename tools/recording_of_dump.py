#!/usr/bin/env python3
"""Makes a recording of a session that FreeRDP 3 wrote down: recording_of_dump.py DUMP RECORDING

xfreerdp3 writes a session down with /dump:record,file:DUMP, free of TLS and NLA. The recording has the frames of the channel rdpdr alone, for
`rdr decode`. A dump holds the user's name and password; a recording doesn't, but it has the names and contents of files.

This script stands outside the proofs. docs/RECORDING.md says what to type."""
import struct
import sys

MAGIC = b'RDRREC01'
BEGINS, ENDED, HOST, CLIENT = 2, 3, 0, 1


class Bad(Exception):
    """The file isn't what it should be."""


def entries(dump):
    """The direction and the bytes of each PDU: True where the client sent it."""
    at = 0
    while at < len(dump):
        if len(dump) - at < 21:
            raise Bad('the dump is cut inside an entry at byte %d' % at)
        _time, sent, _sum, size = struct.unpack_from('<QBIQ', dump, at)
        at += 21
        if sent not in (0, 1) or size > len(dump) - at:
            raise Bad('no dump of FreeRDP: the entry before byte %d has the direction %d and %d bytes' % (at, sent, size))
        yield sent == 1, dump[at:at + size]
        at += size


def channel_names(pdu):
    """The names of the static channels in a connect-initial (MS-RDPBCGR 2.2.1.3.4), in order."""
    key = pdu.find(b'Duca')
    block = pdu.find(b'\x03\xc0', key)
    if key < 0 or block < 0:
        return []
    count = struct.unpack_from('<I', pdu, block + 4)[0]
    names = [pdu[block + 8 + 12 * i:block + 16 + 12 * i] for i in range(count)]
    return [name.split(b'\0')[0].decode('latin-1').lower() for name in names]


def channel_ids(pdu):
    """The ids of the static channels in a connect-response (MS-RDPBCGR 2.2.1.4.4), in the order of their names."""
    key = pdu.find(b'McDn')
    block = pdu.find(b'\x03\x0c', key)
    if key < 0 or block < 0:
        raise Bad('a connect-response has no network block')
    count = struct.unpack_from('<H', pdu, block + 6)[0]
    return struct.unpack_from('<%dH' % count, pdu, block + 8)


def chunk(pdu):
    """The channel's id and the chunk of a send-data PDU."""
    channel = struct.unpack_from('>H', pdu, 10)[0]
    start = 15 if pdu[13] & 0x80 else 14
    return channel, pdu[start:]


def frame(side, data):
    """A frame as a recording has it: the side's mark, the size, and length, flags and data of the chunk."""
    if len(data) < 8:
        raise Bad('a chunk of the channel has only %d bytes' % len(data))
    return bytes([side]) + struct.pack('<I', len(data)) + data


def recording(dump):
    """The recording of each session of the dump, one channel after the other."""
    out, names, rdpdr, open_, frames = [MAGIC], [], None, False, 0
    for sent, pdu in entries(dump):
        if pdu[:1] != b'\x03' or pdu[4:7] != b'\x02\xf0\x80' or len(pdu) < 14:
            continue
        if pdu[7:9] == b'\x7f\x65':
            names, rdpdr = channel_names(pdu), None
            if open_:
                out.append(bytes([ENDED]))
            open_ = False
        elif pdu[7:9] == b'\x7f\x66':
            rdpdr = dict(zip(names, channel_ids(pdu))).get('rdpdr')
        elif pdu[7] in (0x64, 0x68) and rdpdr is not None:
            channel, data = chunk(pdu)
            if channel != rdpdr:
                continue
            if not open_:
                out.append(bytes([BEGINS]))
                open_ = True
            out.append(frame(CLIENT if sent else HOST, data))
            frames += 1
    if open_:
        out.append(bytes([ENDED]))
    if not frames:
        raise Bad('the dump has no frame of the channel rdpdr: was a folder redirected (/drive:NAME,FOLDER)?')
    return b''.join(out)


def main(words):
    if len(words) != 2:
        sys.exit(__doc__)
    try:
        with open(words[0], 'rb') as file:
            dump = file.read()
        made = recording(dump)
        with open(words[1], 'wb') as file:
            file.write(made)
    except (OSError, Bad, struct.error) as error:
        sys.exit('%s: %s' % (words[0], error))


if __name__ == '__main__':
    main(sys.argv[1:])
