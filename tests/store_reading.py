"""A store's file, read by its gates: byte 1 is an open gate, behind which stand the length of a record in four bytes,
the record with its client's byte before it, and the next gate; any other byte is a closed one, and nothing behind it
counts. A file of at most one byte has no records."""


class Bad(Exception):
    """An open gate without a whole record."""


class Store:
    """The records of a file's bytes, how many bytes the open gates and their records take, and what stands behind."""

    def __init__(self, content):
        self.records, self.length = [], 0
        if len(content) > 1:
            self.read(content)
        self.behind = content[self.length:]

    def read(self, content):
        while content[self.length:self.length + 1] == b'\1':
            start = self.length + 5
            end = start + int.from_bytes(content[self.length + 1:start], 'big')
            if not start < end <= len(content):
                raise Bad('byte %d: an open gate without a whole record' % self.length)
            self.records.append(content[start:end])
            self.length = end


def content_of(name):
    """The bytes of a file, None where there is none."""
    try:
        with open(name, 'rb') as file:
            return file.read()
    except FileNotFoundError:
        return None


def file_of(records):
    """The file of these records."""
    return b''.join(b'\1' + len(record).to_bytes(4, 'big') + record for record in records) + b'\0'


def print_of(number):
    """The record of this number by which thread 1.1 of client 1 prints 7 and ends."""
    return (b'\1' + number.to_bytes(8, 'big') + b'\1\1' + bytes(8) + (1).to_bytes(4, 'big') + b'\1'
            + (7).to_bytes(8, 'big') + bytes(4) + b'\3\0')
