"""seeds.py FOLDER: the inputs that the fuzzer starts from, in the layout of fuzz.c."""
import pathlib, struct, sys

INFO = bytes.fromhex(
    "030002002400000020000000" "240000000000000010660000048000000001000018000000" "0000000000000000" "10000000" "000102030405060708090a0b0c0d0e0f"
    "2589aebb860b8a41fa690e76ed56b0be" "14000000" "deddb6b29f9cd382a0a204a51b7fdf7eb1233f14fe5c99d96f5de4db083d925e")

def named(size, extra):
    """The descriptor with a name and opaque bytes."""
    return INFO[:8] + struct.pack("<I", 32 + size) + INFO[12:16] + struct.pack("<I", extra) + INFO[20:44] + bytes(size) + INFO[44:]

# the byte of each scheme, and the first of those that stand for numbers that are none
ECB, CHAINED, OTHERS = 0, 1, 0xF8

def given(function, password, info, room, stream, scheme=ECB):
    units, more = password.encode("utf-16-le"), len(password) > 255
    return bytes([function + 128 * more, len(units) // 2 - 128 * more]) + struct.pack("<HHB", len(info), room, scheme) + units + info + stream

def sealing(size, extra, room, scheme=ECB):
    """The choice of an extra block stands where others have the high byte of EncryptionInfo's length."""
    return bytes([3, 0, 0, extra]) + struct.pack("<HB", room, scheme) + bytes(size)

def place(at, far=0):
    """An end of a stretch; its last byte is one of the last eight where it lies far away."""
    return struct.pack("<HB", at, far)

def streamed(size, length):
    """A stream with so many bytes of ciphertext, of which none is 0, so that a block which is added to another by mistake, or isn't,
    shows."""
    return struct.pack("<Q", size) + bytes(1 + i % 251 for i in range(length))

def stretching(size, start, end, room, scheme=ECB, more=0):
    """The two ends, then a stream with so many bytes more than the blocks of its package."""
    return bytes([5, 0, 0, 0]) + struct.pack("<HB", room, scheme) + start + end + streamed(size, -(-size // 16) * 16 + more)

def stretches():
    """Ends at those of blocks, of segments and of the package, under each scheme, and ends that are far away, backward or past it."""
    for scheme in (ECB, CHAINED):
        for start, end in ((0, 0), (0, 17), (1, 16), (16, 17), (17, 17), (17, 16), (17, 18)):
            yield stretching(17, place(start), place(end), 17, scheme)
        for size, more in ((4096, 16), (4097, 0), (8192, 0)):
            for start, end in ((0, size), (15, 4096), (4080, 4096), (4095, size), (4096, size), (size, size)):
                yield stretching(size, place(start), place(end), end - start + 5, scheme, more)
    for start, end in (((0, 0xFF), (0, 0xFF)), ((0, 0), (0, 0xFB)), ((1, 0xFB), (2, 0xFB)), ((2, 0xFF), (1, 0))):
        yield stretching(100, place(*start), place(*end), 100)
    for room, scheme, more in ((16, ECB, 0), (17, ECB, 1), (17, OTHERS, 0)):
        yield stretching(100, place(3), place(20), room, scheme, more)

def rescuing(size, length, room, scheme=ECB):
    return bytes([6, 0, 0, 0]) + struct.pack("<HB", room, scheme) + streamed(size, length)

def rescues():
    """Ciphertexts with a cut at the ends of blocks and in them, and with bytes too many, under each scheme; StreamSizes that are far away."""
    for scheme in (ECB, CHAINED):
        for size in (0, 16, 17):
            for length in (0, 15, 16, 17, 32, 33, 72):
                yield rescuing(size, length, size + 3, scheme)
        for size in (4096, 4097, 8192):
            for length in (100, 4096, 4100, size, size + 16, size + 40):
                yield rescuing(size, length, size + 3, scheme)
    for size in (60000, 1 << 28, (1 << 28) + 1, (1 << 32) + 17, (1 << 64) - 1):
        yield rescuing(size, 40, 60000)
    for room, scheme in ((16, ECB), (17, OTHERS)):
        yield rescuing(17, 20, room, scheme)
    yield rescuing(17, 20, 17)[:-21]

def writing(bits, name, room, password="password"):
    return given(4, password, bytes(name), room, struct.pack("<7Q", bits, *range(6)))

def main():
    folder = pathlib.Path(sys.argv[1])
    folder.mkdir(parents=True, exist_ok=True)
    seeds = [given(0, "", info, 0, b"") for info in (INFO, named(108, 0), named(108, 8), named(4064, 0), INFO[:11])]
    for size in (0, 1, 16, 17, 100):
        stream = struct.pack("<Q", size) + bytes(-(-size // 16) * 16)
        seeds += [given(1, "password", INFO, size, stream), given(1, "password", named(108, 2), size + 9, stream)]
        seeds += [given(2, "", b"", size, stream), given(2, "", b"", size + 30, stream), sealing(size, 0, size + 23)]
    for size in (16, 4096, 8192):
        stream = struct.pack("<Q", size) + bytes(size + 16)
        seeds += [given(2, "", b"", size, stream), given(2, "", b"", size, stream + bytes(16)), given(2, "", b"", size - 1, stream)]
        seeds += [sealing(size, 0, size + 8), sealing(size, 1, size + 24), sealing(size, 128, size + 23)]
    for size in (0, 1, 16, 4096, 4097, 4112, 8192):
        blocks = bytes(-(-size // 16) * 16)
        seeds += [given(2, "", b"", size, struct.pack("<Q", size) + blocks, CHAINED), sealing(size, 1, size + 24, CHAINED)]
    for scheme in range(OTHERS, OTHERS + 8):
        seeds += [given(0, "", INFO, 0, b"", scheme), given(2, "", b"", 16, struct.pack("<Q", 16) + bytes(16), scheme), sealing(1, 0, 24, scheme)]
    seeds += [given(1, "wrong", INFO, 16, bytes(8)), given(1, "x" * 255, INFO, 16, bytes(8)), given(2, "", b"", 64, bytes(3))]
    seeds += [writing(bits, 108, 224) for bits in (128, 192, 256, 127, 1 << 32 | 128)]
    seeds += [writing(128, name, name + 120) for name in (0, 107, 4064, 4065, 4066)]
    seeds += [writing(256, 2, 117), writing(256, 2, 118, "x" * 255), writing(256, 2, 117, "x" * 256), writing(256, 0, 116, "")]
    seeds += stretches()
    seeds += rescues()
    for n, seed in enumerate(seeds):
        (folder / f"seed-{n:03}").write_bytes(seed)

main()
