#!/usr/bin/env python3
"""unlock.py BOOK.xlsx [PASSWORD-FILE]: opens a locked workbook beside itself, as BOOK.opened.xlsx. Without a file the password is
asked for on the terminal. Needs python3-olefile and target/lib/libropeshadow.so (`make lib`, or ROPESHADOW names it)."""
import ctypes, getpass, os, pathlib, sys, tempfile
import olefile

# nothing in a workbook tells which of the two its package was encrypted by; Office writes the first
ECB, CHAINED = 1, 2
# the most bytes of a package
LARGEST = 268435456
WORDS = {0: "opened", 2: "not locked by Standard encryption", 11: "the password has more than 255 units", 12: "wrong password",
         13: "EncryptedPackage does not have the length that it states", 14: "the package is larger than 256 MiB",
         15: "EncryptedPackage does not have the length that it states", 19: "no such scheme"}

def library():
    here = pathlib.Path(__file__).resolve().parent.parent / "target/lib/libropeshadow.so"
    lib = ctypes.CDLL(os.environ.get("ROPESHADOW", str(here)))
    # a slice is a pointer and a count; a bytes object is never null, even when empty
    given, number, out = [ctypes.c_char_p, ctypes.c_size_t], [ctypes.c_uint64], [ctypes.c_void_p, ctypes.c_size_t]
    lib.ropeshadow_open.argtypes = given * 2 + number + given + out
    lib.ropeshadow_stretch.argtypes = given * 2 + number + given + number * 2 + out
    lib.ropeshadow_rescue.argtypes = given * 2 + number + given + out + [ctypes.POINTER(ctypes.c_uint64)]
    lib.ropeshadow_open.restype = lib.ropeshadow_stretch.restype = lib.ropeshadow_rescue.restype = ctypes.c_uint64
    return lib

def refusal(answer):
    """An answer other than 0 in words."""
    return WORDS.get(answer, "EncryptionInfo is damaged, or describes another kind of lock") + f" (answer {answer})"

def streams(book):
    """EncryptionInfo and EncryptedPackage."""
    with olefile.OleFileIO(str(book)) as ole:
        return tuple(ole.openstream(name).read() for name in ("EncryptionInfo", "EncryptedPackage"))

def password_from(file):
    """The first line of a file, or what is typed where there is none."""
    if file is None:
        return getpass.getpass()
    return pathlib.Path(file).read_text(encoding="utf-8").split("\n")[0].rstrip("\r")

def opened(info, password, stream, scheme=ECB):
    """The answer, and the package where it is 0: other bytes where the package was encrypted by the other scheme."""
    units = password.encode("utf-16-le")
    out = ctypes.create_string_buffer(len(stream) + 1)
    word = library().ropeshadow_open(info, len(info), units, len(units) // 2, scheme, stream, len(stream), out, len(stream))
    answer, size = word % 65536, word // 65536
    return answer, ctypes.string_at(out, size)

def rescued(info, password, stream, scheme=ECB):
    """The answer, and where it is 0 the package, zeros for what is not there of it, and the counts: the bytes recovered, those zeroed,
    and the surplus of ciphertext."""
    units, size = password.encode("utf-16-le"), int.from_bytes(stream[:8], "little")
    room = size if size <= LARGEST else 0  # a larger package is refused before its room is looked at
    out, counts = ctypes.create_string_buffer(room + 1), (ctypes.c_uint64 * 3)()
    word = library().ropeshadow_rescue(info, len(info), units, len(units) // 2, scheme, stream, len(stream), out, room, counts)
    answer, size = word % 65536, word // 65536
    return answer, ctypes.string_at(out, size), tuple(counts)

def save(path, contents):
    """Written under another name, then renamed: there is never a half workbook."""
    with tempfile.NamedTemporaryFile(dir=path.parent, prefix=path.name, delete=False) as half:
        try:
            half.write(contents)
            half.flush()
            os.fsync(half.fileno())
            os.replace(half.name, path)
        except BaseException:
            os.unlink(half.name)
            raise

def main():
    if len(sys.argv) not in (2, 3):
        sys.exit(__doc__)
    book = pathlib.Path(sys.argv[1])
    info, stream = streams(book)
    answer, package = opened(info, password_from(sys.argv[2] if len(sys.argv) == 3 else None), stream)
    if answer != 0:
        sys.exit(f"unlock.py: {book}: {refusal(answer)}")
    path = book.with_name(book.name.removesuffix(".xlsx") + ".opened.xlsx")
    save(path, package)
    print(f"{path}: {WORDS[answer]}, {len(package)} bytes")

if __name__ == "__main__":
    try:
        main()
    except (OSError, ValueError) as e:
        sys.exit(f"unlock.py: {e}")
