"""Whole calls by msoffcrypto-tool, with its own functions, in turn with the library's, on the sheets that bench/sheets.c leaves in a
folder. It seals none.
    by_msoffcrypto.py FOLDER LIBRARY    the library shared"""
import ctypes, io, pathlib, sys, time
from importlib.metadata import version
from msoffcrypto.method.ecma376_standard import ECMA376Standard

LARGEST, PASSWORD = 16 << 20, "password"
ECB = ctypes.c_uint64(1)
UNITS = PASSWORD.encode("utf-16-le")
folder, library = pathlib.Path(sys.argv[1]), ctypes.CDLL(sys.argv[2])
package = (folder / "package").read_bytes()

def ours(function, *given, out=None):
    """A call of the library; each slice goes as a pointer and a count of elements, the scheme as it is."""
    words = []
    for s in given:
        words += [s] if s is ECB else [s, ctypes.c_size_t(len(s) // 2 if s is UNITS else len(s))]
    words += [out, ctypes.c_size_t(len(out))] if out else []
    function.restype = ctypes.c_uint64
    return function(*words)

def key_of(info):
    """The key of the password, where it is the right one. The descriptors' header has 32 bytes."""
    bits = int.from_bytes(info[28:32], "little")
    key = ECMA376Standard.makekey_from_password(PASSWORD, 0x660E, 0x8004, 24, bits, 16, info[48:64])
    return key if ECMA376Standard.verifykey(key, info[64:80], info[84:116]) else None

def opened(info, stream):
    key = key_of(info)
    return key and ECMA376Standard.decrypt(key, io.BytesIO(stream))

def must(same, what):
    if not same:
        sys.exit(f"msoffcrypto-tool: {what}: not the same result")

def contest(call, bits, size, **contestants):
    """Each one's best processor time of several rounds, in which they take turns."""
    best = dict.fromkeys(contestants, float("inf"))
    for _ in range(7):
        for who, work in contestants.items():
            start = time.process_time_ns()
            work()
            best[who] = min(best[who], time.process_time_ns() - start)
    for who, figure in best.items():
        print("msoffcrypto-tool", call, bits, size, who.replace("_", "-"), f"{figure:.1f}", "ns", sep="\t", flush=True)

def verdicts(bits, info):
    calls = {"ours": lambda: ours(library.ropeshadow_verdict, info, UNITS, ECB), "msoffcrypto_tool": lambda: key_of(info)}
    must(calls["ours"]() == 0 and calls["msoffcrypto_tool"]() is not None, f"verdict {bits}")
    contest("verdict", bits, 0, **calls)

def openings(bits, info, stream, size):
    out = ctypes.create_string_buffer(len(stream))
    calls = {"ours": lambda: ours(library.ropeshadow_open, info, UNITS, ECB, stream, out=out), "msoffcrypto_tool": lambda: opened(info, stream)}
    must(calls["ours"]() == 65536 * size and out.raw[:size] == calls["msoffcrypto_tool"]() == package[:size], f"open {bits} {size}")
    contest("open", bits, size, **calls)

print("#", "msoffcrypto-tool", version("msoffcrypto-tool"), sep="\t")
for bits in (128, 192, 256):
    info, blocks = ((folder / f"{part}-{bits}").read_bytes() for part in ("info", "blocks"))
    verdicts(bits, info)
    for size in (1 << 10, 64 << 10, 1 << 20, LARGEST):
        openings(bits, info, size.to_bytes(8, "little") + blocks[:size], size)
