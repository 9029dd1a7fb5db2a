"""A pack: many tables, or many proof texts, in one file. For each theorem, one after another to the end of the file: the
length of its label, the label, the number of bytes of its table file or text, those bytes. Both lengths are u32
little-endian. A label is shorter than 2^24 bytes, so the fourth byte of a pack that is not empty is zero.
"""
import struct


def write_record(file, label, content):
    file.write(struct.pack('<I', len(label)) + label + struct.pack('<I', len(content)) + content)


def read_field(file):
    size = file.read(4)
    if not size:
        return None
    if len(size) < 4:
        raise ValueError('the pack ends inside a length')
    length, = struct.unpack('<I', size)
    content = file.read(length)
    if len(content) < length:
        raise ValueError('the pack ends inside a record')
    return content


def read_records(file):
    """Pairs of label and content, in the pack's order."""
    while (label := read_field(file)) is not None:
        content = read_field(file)
        if content is None:
            raise ValueError('the pack ends after a label')
        yield label, content
