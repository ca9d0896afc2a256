#!/usr/bin/env python3
"""part.py BOOK.xlsx [PART] [--password FILE]: one part of a locked workbook, such as xl/workbook.xml, to standard output, or without its
name the list of the parts. A package is a ZIP file, and of this one only the directory and the part are opened; standard error tells
how many bytes that were. Without a file the password is asked for on the terminal. Needs what unlock.py needs."""
import argparse, ctypes, io, os, pathlib, sys, zipfile

sys.dont_write_bytecode = True  # nothing is left beside the example
import unlock

# as many bytes are opened at a time, or more: each stretch derives the key anew, which takes longer than these do
BUFFER = 1024

class Package(io.RawIOBase):
    """The package as a file to read: a read is a stretch."""
    def __init__(self, info, password, stream, scheme=unlock.ECB):
        self.info, self.units, self.stream, self.scheme = info, password.encode("utf-16-le"), stream, scheme
        self.library = unlock.library()
        self.size = int.from_bytes(stream[:8], "little")
        self.place = self.opened = self.stretches = 0
        self.stretch(0, 0)  # none of its bytes, but every rule is tested: StreamSize can be relied on from here

    def stretch(self, start, end):
        """The bytes from one place up to, not including, another."""
        out = ctypes.create_string_buffer(end - start + 1)
        word = self.library.ropeshadow_stretch(self.info, len(self.info), self.units, len(self.units) // 2, self.scheme,
                                               self.stream, len(self.stream), start, end, out, end - start)
        if word % 65536 != 0:
            raise ValueError(unlock.refusal(word % 65536))
        self.opened, self.stretches = self.opened + end - start, self.stretches + 1
        return out.raw[:end - start]

    def readable(self):
        return True

    def seekable(self):
        return True

    def seek(self, offset, whence=os.SEEK_SET):
        place = offset + {os.SEEK_SET: 0, os.SEEK_CUR: self.place, os.SEEK_END: self.size}[whence]
        if place < 0:
            raise ValueError("a place before the package")
        self.place = place
        return place

    def readinto(self, buffer):
        end = min(self.place + len(buffer), self.size)
        if self.place >= end:
            return 0
        part = self.stretch(self.place, end)
        buffer[:len(part)] = part
        self.place = end
        return len(part)

def show(package, name):
    """The part of that name, or the list."""
    with zipfile.ZipFile(io.BufferedReader(package, BUFFER)) as parts:
        if name is not None:
            sys.stdout.buffer.write(parts.read(name))
            return
        for part in parts.infolist():
            print(f"{part.file_size:>10} {part.filename}")

def main():
    words = argparse.ArgumentParser(usage=__doc__)
    words.add_argument("book", metavar="BOOK.xlsx", type=pathlib.Path)
    words.add_argument("part", metavar="PART", nargs="?")
    words.add_argument("--password", metavar="FILE")
    given = words.parse_args()
    info, stream = unlock.streams(given.book)
    package = Package(info, unlock.password_from(given.password), stream)
    show(package, given.part)
    print(f"{given.book}: {package.opened} of {package.size} bytes opened, in {package.stretches} stretches", file=sys.stderr)

if __name__ == "__main__":
    try:
        main()
    except (OSError, ValueError, KeyError, zipfile.BadZipFile) as e:
        sys.exit(f"part.py: {e.args[0] if isinstance(e, KeyError) else e}")
