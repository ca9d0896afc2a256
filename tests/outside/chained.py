"""Chained packages beside OpenSSL: no producer at hand writes them, so they are put together here from 001 and 003, with AES-CBC by the
package cryptography, which is OpenSSL's, and the key that msoffcrypto-tool derives. What the library seals is the same stream, and each
opens the other's.
    chained.py    the shared library is target/lib's"""
import hashlib, random, struct, sys
from importlib.metadata import version
from cryptography.hazmat.backends.openssl import backend
from cryptography.hazmat.primitives.ciphers import Cipher, algorithms, modes
from msoffcrypto.method.ecma376_standard import ECMA376Standard

sys.dont_write_bytecode = True
import producers
from producers import BITS, PASSWORDS, PROVIDER, another, check, extra_block, said, sealed, unlock, written

SEGMENT, FILLING = 4096, bytes(range(1, 17))
SIZES = [0, 1, 15, 16, 17, 4080, 4095, 4096, 4097, 4111, 4112, 4113, 8191, 8192, 8193, 12288, 65535, 65536, 65537, (1 << 20) + 7]
NO_SCHEMES = [0, 3, 4, 256, (1 << 32) + 1, (1 << 32) + 2, (1 << 63) + 1, (1 << 64) - 1]

def key_and_salt(info, password):
    """The key by msoffcrypto-tool, and the salt that it is derived from."""
    bits, end = int.from_bytes(info[28:32], "little"), 12 + int.from_bytes(info[8:12], "little")
    salt = info[end + 4:end + 20]
    return ECMA376Standard.makekey_from_password(password, 0, 0x8004, 24, bits, 16, salt), salt

def chained(key, salt, size, whole, encrypting):
    """Whole blocks of a package of that size, a segment at a time; the last one has all that is left."""
    out, count = [], -(-size // SEGMENT)
    for number in range(count):
        segment = whole[SEGMENT * number:SEGMENT * (number + 1) if number + 1 < count else None]
        vector = hashlib.sha1(salt + struct.pack("<I", number)).digest()[:16]
        cipher = Cipher(algorithms.AES(key), modes.CBC(vector))
        turn = cipher.encryptor() if encrypting else cipher.decryptor()
        out.append(turn.update(segment) + turn.finalize())
    return b"".join(out)

def both_ways(what, info, password, package, extra):
    """A package sealed by each and opened by the other, and opened as ECB."""
    key, salt = key_and_salt(info, password)
    size = len(package)
    whole = package + FILLING[:-size % 16 or 16 * extra]
    stream = sealed(info, password, package, extra, FILLING, unlock.CHAINED)
    check(f"{what}: sealed as OpenSSL chains it", stream == struct.pack("<Q", size) + chained(key, salt, size, whole, True))
    check(f"{what}: opened by OpenSSL", chained(key, salt, size, stream[8:], False) == whole)
    check(f"{what}: opened", unlock.opened(info, password, stream, unlock.CHAINED) == (0, package))
    wrong, answer = another(password)
    check(f"{what}: another password", unlock.opened(info, wrong, stream, unlock.CHAINED) == (answer, b""))
    if size >= 16:
        answer, other = unlock.opened(info, password, stream)
        check(f"{what}: opened as ECB, other bytes", answer == 0 and len(other) == size and other != package)
        answer, other = unlock.opened(info, password, sealed(info, password, package, extra, FILLING), unlock.CHAINED)
        check(f"{what}: ECB opened as chained, other bytes", answer == 0 and len(other) == size and other != package)

def main():
    random.seed(2026)
    said(f"cryptography {version('cryptography')}, {backend.openssl_version_text()}")
    for bits, password, n in [(b, PASSWORDS[0], n) for b in BITS for n in SIZES] + [(b, p, 5001) for b in BITS for p in PASSWORDS]:
        package, info = random.randbytes(n), written(bits, password, PROVIDER)
        for extra in (0, 1) if extra_block(n) else (0,):
            both_ways(f"chained, {bits} bits, {n} bytes, {len(password)} characters, extra block {extra}", info, password, package, extra)
    info = written(128, PASSWORDS[0], PROVIDER)
    for scheme in NO_SCHEMES:
        check(f"scheme {scheme}", unlock.opened(info, PASSWORDS[0], bytes(8), scheme) == (19, b""))
    print(f"chained: {producers.passed} passed, {producers.failed} failed")
    sys.exit(producers.failed != 0)

main()
