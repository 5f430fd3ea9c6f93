#!/usr/bin/env python3
"""Makes a recording of a captured session: recording_of_capture.py CAPTURE RECORDING [TSHARK OPTION..]

The capture begins with the connection's first packet; tshark (Debian's package) takes it apart, and is passed the further words. For port 3390:
-d tcp.port==3390,tpkt. For TLS: -o tls.keylog_file:KEYS -d tcp.port==3389,tls. RDP's own encryption can't be read, and a packet that the
capture lost can go unnoticed. A recording has the names and contents of files.

This script stands outside the proofs. docs/RECORDING.md says what to type."""
import subprocess
import sys
import tempfile
import xml.etree.ElementTree as tree

MAGIC = b'RDRREC01'
BEGINS, ENDED, HOST, CLIENT = 2, 3, 0, 1


class Bad(Exception):
    """The capture isn't what it should be."""


class Connection:
    """One TCP connection: its channels, who is the client, and the frames of rdpdr so far."""

    def __init__(self):
        self.names, self.ids, self.client = [], [], None
        self.channel, self.header, self.frames = None, b'', []

    def rdpdr(self):
        """The id of the channel, once both sides named the channels. The first id is that of the I/O channel."""
        if 'rdpdr' in self.names and len(self.ids) > self.names.index('rdpdr') + 1:
            return self.ids[self.names.index('rdpdr') + 1]
        return None

    def take(self, name, field, source):
        """One field of a packet from this source, in the order of the packet."""
        if name == 'rdp.name':
            self.names.append(field.get('show').lower())
            self.client = source
        elif name == 'rdp.MCSChannelId':
            self.ids.append(int(field.get('show')))
        elif name == 't124.channelId':
            self.channel, self.header = int(field.get('show')), b''
        elif name == 'rdp.channelPDUHeader':
            self.header = bytes.fromhex(field.get('value'))
        elif name == 'rdp.virtualChannelData' and len(self.header) == 8 and self.channel == self.rdpdr():
            data = self.header + bytes.fromhex(field.get('value'))
            side = CLIENT if source == self.client else HOST
            self.frames.append(bytes([side]) + len(data).to_bytes(4, 'little') + data)
            self.header = b''


def packets(capture, options):
    """The packets of a capture, as tshark takes them apart."""
    with tempfile.TemporaryFile() as said:
        with subprocess.Popen(['tshark', '-r', capture, '-T', 'pdml'] + options, stdout=subprocess.PIPE, stderr=said) as run:
            try:
                for _event, element in tree.iterparse(run.stdout):
                    if element.tag == 'packet':
                        yield element
                        element.clear()
            except tree.ParseError:
                run.wait()
        if run.returncode != 0:
            said.seek(0)
            lines = said.read().decode('utf-8', 'replace').strip().split('\n')
            raise Bad(lines[-1] or 'tshark failed')


def recording(capture, options):
    """The recording of each connection of the capture, one channel after the other."""
    connections = {}
    for packet in packets(capture, options):
        stream = source = None
        for field in packet.iter('field'):
            name = field.get('name')
            if name == 'tcp.srcport':
                source = field.get('show')
            elif name == 'tcp.stream':
                stream = field.get('show')
            elif stream is not None:
                connections.setdefault(stream, Connection()).take(name, field, source)
    found = [connection for connection in connections.values() if connection.frames]
    if not found:
        raise Bad('the capture has no frame of the channel rdpdr: does it begin with the connection, and can tshark read it?')
    parts = [bytes([BEGINS]) + b''.join(connection.frames) + bytes([ENDED]) for connection in found]
    return MAGIC + b''.join(parts)


def main(words):
    if len(words) < 2:
        sys.exit(__doc__)
    try:
        made = recording(words[0], words[2:])
        with open(words[1], 'wb') as file:
            file.write(made)
    except (OSError, Bad) as error:
        sys.exit('%s: %s' % (words[0], error))


if __name__ == '__main__':
    main(sys.argv[1:])
