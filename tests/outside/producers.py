"""Real producers: what Apache POI and LibreOffice lock is opened byte for byte, by the library and by the examples, and what the
library seals, under their descriptors and under those that it writes itself, is opened by msoffcrypto-tool, Apache POI and LibreOffice.
    producers.py EXAMPLES    the folder with the compiled examples unlock-c and unlock-rs; the shared library is target/lib's"""
import ctypes, io, os, pathlib, pty, random, re, select, struct, subprocess, sys, tempfile, zipfile
from collections import Counter
from importlib.metadata import version
import olefile, openpyxl
from msoffcrypto.method.ecma376_standard import ECMA376Standard

sys.dont_write_bytecode = True
ROOT = pathlib.Path(__file__).resolve().parents[2]
sys.path.insert(0, str(ROOT / "examples"))
import part, unlock

JARS = ":".join(f"/usr/share/java/{jar}.jar" for jar in ("poi", "commons-codec", "commons-collections4", "commons-math3"))
PASSWORDS = ["Secret-42", "pässwörd 測試 \U0001f511", "x", "y" * 255, ""]
PROVIDER = "Microsoft Enhanced RSA and AES Cryptographic Provider\0"
NAMES = {"no name": "", "a name that is a zero unit": "\0", "a name of 4,064 bytes": "n" * 2031 + "\0",
         "a name without a zero unit": PROVIDER[:-1], "a name with a zero unit within": "one\0two\0"}
BITS = (128, 192, 256)
SIZES = [0, 1, 15, 16, 17, 31, 32, 33, 4080, 4095, 4096, 4097, 8192, 65535, 65536, 65537]
# multiples of 16, at which POI's filling is a block more
EVEN_SIZES = [*range(0, 272, 16), 1024, 4064, 4080, 4096, 4112, 8176, 8192, 8208, 40960, 65520, 65536]
# the types of what the library is lent and given: bytes with their count, memory to write with its length, and a number
SLICE, OUT, NUMBER = [ctypes.c_char_p, ctypes.c_size_t], [ctypes.c_void_p, ctypes.c_size_t], ctypes.c_uint64
passed = failed = 0

def check(what, holds):
    global passed, failed
    passed, failed = passed + bool(holds), failed + (not holds)
    if not holds:
        print("FAILED", what)

def said(what):
    print(what, flush=True)

class Worker:
    """A program that answers each line with a line; its first line is its version."""
    def __init__(self, name, *command):
        self.program = subprocess.Popen(command, stdin=subprocess.PIPE, stdout=subprocess.PIPE, stderr=subprocess.DEVNULL, encoding="utf-8")
        said(f"{name} {self.program.stdout.readline().strip()}")

    def ask(self, *words):
        self.program.stdin.write("\t".join(map(str, words)) + "\n")
        self.program.stdin.flush()
        return self.program.stdout.readline().rstrip("\n")

    def close(self):
        self.program.stdin.close()
        self.program.wait(120)

def streams(path):
    with olefile.OleFileIO(str(path)) as book:
        return book.openstream("EncryptionInfo").read(), book.openstream("EncryptedPackage").read()

def compound(path, info, stream):
    """A compound file of the two streams, by libgsf."""
    with tempfile.TemporaryDirectory() as folder:
        for name, contents in (("EncryptionInfo", info), ("EncryptedPackage", stream)):
            pathlib.Path(folder, name).write_bytes(contents)
        subprocess.run(["gsf", "createole", str(path), f"{folder}/EncryptionInfo", f"{folder}/EncryptedPackage"], check=True, capture_output=True)

def entry(name, *types):
    """A function of the library, with parameters of these types."""
    function = unlock.library()[f"ropeshadow_{name}"]
    function.argtypes, function.restype = types, NUMBER
    return function

def extra_block(size):
    """Whether a package of that size may have an extra block (2026-02)."""
    return size > 0 and size % 4096 == 0

def sealed(info, password, package, extra=0, filling=bytes(range(1, 17)), scheme=unlock.ECB):
    """The whole stream by the library, unless told otherwise in ECB and with a filling that shows if it is looked at."""
    units, size = password.encode("utf-16-le"), len(package)
    seal = entry("seal", *SLICE * 2, NUMBER, *SLICE, *[NUMBER] * 3, *OUT)
    out = ctypes.create_string_buffer(size + 24)
    word = seal(info, len(info), units, len(units) // 2, scheme, package, size, *struct.unpack("<2Q", filling), extra, out, size + 24)
    check("sealed", word == 65536 * (8 + -(-size // 16) * 16 + (16 if extra and extra_block(size) else 0)))
    return out.raw[:word // 65536]

def both_sealed(info, password, package):
    """The package's streams, with what to call them: without an extra block and, where it may have one, with it."""
    yield "sealed", sealed(info, password, package)
    if extra_block(len(package)):
        yield "sealed with an extra block", sealed(info, password, package, 1)

def written(bits, password, name):
    """A new EncryptionInfo by the library, its salt, verifier and filling random."""
    units, name = password.encode("utf-16-le"), name.encode("utf-16-le")
    write = entry("write_info", NUMBER, *SLICE * 2, *[NUMBER] * 6, *OUT)
    room = len(name) + 116
    out = ctypes.create_string_buffer(room)
    word = write(bits, units, len(units) // 2, name, len(name), *(random.getrandbits(64) for _ in range(6)), out, room)
    check("written with answer 0", word == 65536 * room)
    return out.raw

def fixed(info):
    """What is the same in two descriptors with the usual name and one key size, but for the major version."""
    return len(info), info[2:156], info[188:192]

def another(password):
    """A password that is wrong, and the answer to it."""
    return password + "?", 11 if len(password) == 255 else 12

def by_library(book, password):
    """The answer to a locked document, and the package."""
    info, stream = streams(book)
    return unlock.opened(info, password, stream)

def by_msoffcrypto(info, password, stream):
    """The package by msoffcrypto-tool's own functions, which take any bytes for a package."""
    bits, end = int.from_bytes(info[28:32], "little"), 12 + int.from_bytes(info[8:12], "little")
    salt, verifier, verifier_hash = info[end + 4:end + 20], info[end + 20:end + 36], info[end + 40:]
    key = ECMA376Standard.makekey_from_password(password, 0, 0x8004, 24, bits, 16, salt)
    return ECMA376Standard.decrypt(key, io.BytesIO(stream)) if ECMA376Standard.verifykey(key, verifier, verifier_hash) else None

def by_command(book, password):
    """The package by the command msoffcrypto-tool, or None where it refuses."""
    with tempfile.TemporaryDirectory() as folder:
        opened = pathlib.Path(folder, "opened")
        done = subprocess.run(["msoffcrypto-tool", "-p", password, book, opened], stdin=subprocess.DEVNULL, capture_output=True)
        return opened.read_bytes() if done.returncode == 0 else None

def by_poi(java, book, password):
    """The package by Apache POI, or None where it refuses."""
    with tempfile.TemporaryDirectory() as folder:
        opened = pathlib.Path(folder, "opened")
        return opened.read_bytes() if java.ask("open", password, book, opened) == "done" else None

def workbook(path, rows):
    book = openpyxl.Workbook()
    for n in range(rows):
        book.active.append([f"seat {n}", n * 3.5])
    book.save(path)

def uneven(path):
    """A workbook whose size is no multiple of 16, so that Apache POI's lock on it is one that is opened."""
    rows = 200
    while True:
        workbook(path, rows)
        if path.stat().st_size % 16:
            return path.read_bytes()
        rows += 1

def even(path):
    """A workbook whose size is a multiple of 4,096: its parts are not compressed, and one ends with as many blanks as that takes."""
    workbook(path, 200)
    with zipfile.ZipFile(path) as archive:
        parts = {name: archive.read(name) for name in archive.namelist()}
    def stored():
        with zipfile.ZipFile(path, "w") as archive:
            for name, contents in parts.items():
                archive.writestr(name, contents)
        return path.read_bytes()
    parts["xl/workbook.xml"] += b" " * (-len(stored()) % 4096)
    return stored()

def poi_rescued(folder, worker):
    """Sheets of a multiple of 16 as POI locks them, with a whole block of filling: rescued whole, with a surplus of that block where opening
    refuses it, and none where that is an extra block."""
    plain, locked, surplus = folder / "plain", folder / "poi.xlsx", Counter()
    for bits, n in [(bits, n) for bits in BITS for n in EVEN_SIZES]:
        what, package = f"POI, {bits} bits, {n} bytes", random.randbytes(n)
        plain.write_bytes(package)
        check(f"{what}: locked", worker.ask("lock", bits, PASSWORDS[0], plain, locked) == "done")
        info, stream = streams(locked)
        opened, more = ((0, package), 0) if extra_block(n) else ((15, b""), 16)
        check(f"{what}: opened, or answered 15", unlock.opened(info, PASSWORDS[0], stream) == opened)
        check(f"{what}: rescued", unlock.rescued(info, PASSWORDS[0], stream) == (0, package, (n, 0, more)))
        check(f"{what}: rescued, another password", unlock.rescued(info, PASSWORDS[0] + "?", stream) == (12, b"", (0, 0, 0)))
        surplus[more] += 1
    said("  POI, multiples of 16 rescued whole: " + ", ".join(f"{count} with a surplus of {more}" for more, count in sorted(surplus.items())))

def tenths(book, password, package):
    """A locked workbook, its stream cut at every tenth: what is recovered is the package's front, in whole blocks, and the rest zeros."""
    info, stream = streams(book)
    for tenth in range(11):
        cut = stream[:8 + (len(stream) - 8) * tenth // 10]
        whole = min((len(cut) - 8) // 16 * 16, len(package))
        rescued = package[:whole] + bytes(len(package) - whole), (whole, len(package) - whole, 0)
        check(f"{book.name}, {tenth} tenths: rescued", unlock.rescued(info, password, cut) == (0, *rescued))
        opened = (0, package) if tenth == 10 else (15, b"")
        check(f"{book.name}, {tenth} tenths: opened, or answered 15", unlock.opened(info, password, cut) == opened)

def poi(folder, worker):
    """What Apache POI locks, of each size and key size and with each password; returns a workbook that it locked."""
    plain, locked = folder / "plain", folder / "poi.xlsx"
    jobs = [(bits, PASSWORDS[0], n) for bits in BITS for n in SIZES] + [(256, p, 1001) for p in PASSWORDS]
    for bits, password, n in jobs:
        what = f"POI, {bits} bits, {n} bytes, {len(password)} characters"
        package = random.randbytes(n)
        plain.write_bytes(package)
        check(f"{what}: locked", worker.ask("lock", bits, password, plain, locked) == "done")
        info, stream = streams(locked)
        check(f"{what}: as the library writes it", fixed(info) == fixed(written(bits, password, PROVIDER)))
        # at a multiple of 16 POI adds a whole block of filling, which no. 15 allows as an extra block alone; without it the stream is one of 01's
        whole = n % 16 == 0
        check(f"{what}: opened", unlock.opened(info, password, stream) == ((15, b"") if whole and not extra_block(n) else (0, package)))
        check(f"{what}: cut", unlock.opened(info, password, stream[:-16] if whole else stream) == (0, package))
        check(f"{what}: opened by msoffcrypto-tool", by_msoffcrypto(info, password, stream) == package)
        check(f"{what}: opened by POI", by_poi(worker, locked, password) == package)
        wrong, answer = another(password)
        check(f"{what}: another password", unlock.opened(info, wrong, stream)[0] == answer)
        for how, again in both_sealed(info, password, package):
            check(f"{what}: {how}, opened by msoffcrypto-tool", by_msoffcrypto(info, password, again) == package)
            compound(locked, info, again)
            check(f"{what}: {how}, opened by POI", by_poi(worker, locked, password) == package)
    check("POI: 256 units", worker.ask("lock", 128, "z" * 256, plain, locked) == "done" and by_library(locked, "z" * 256)[0] == 11)
    book = folder / "by-poi.xlsx"
    package = uneven(plain)
    check("POI: a workbook locked", worker.ask("lock", 128, PASSWORDS[1], plain, book) == "done")
    return book, package

def libre(folder, worker):
    """What LibreOffice locks, at sizes that are a multiple of 16 and others; returns a workbook that it locked."""
    plain, locked = folder / "plain.xlsx", folder / "libre.xlsx"
    password, remainders = PASSWORDS[1], set()
    for rows in range(200, 280):
        workbook(plain, rows)
        check("LibreOffice: locked", worker.ask("lock", password, plain, locked) == "done")
        info, stream = streams(locked)
        ours = written(128, password, PROVIDER)
        check(f"LibreOffice, {rows} rows: as the library writes it", info[:2] == ours[:2] and fixed(info) == fixed(ours))
        answer, package = unlock.opened(info, password, stream)
        check(f"LibreOffice, {rows} rows: as msoffcrypto-tool opens it", answer == 0 and package == by_msoffcrypto(info, password, stream))
        check(f"LibreOffice, {rows} rows: a whole workbook", openpyxl.load_workbook(io.BytesIO(package)).active.cell(rows, 1).value == f"seat {rows - 1}")
        remainders.add(len(package) % 16 == 0)
        if rows >= 220 and len(remainders) == 2:
            break
    said(f"  LibreOffice, sizes that are a multiple of 16 tried: {True in remainders}; others: {False in remainders}")
    check("LibreOffice: 256 units", worker.ask("lock", "z" * 256, plain, locked) == "done" and by_library(locked, "z" * 256)[0] == 11)
    book = folder / "by-libre.xlsx"
    compound(book, info, sealed(info, password, plain.read_bytes()))
    check("sealed, opened by LibreOffice", worker.ask("read", password, book) == "seat 0")
    check("LibreOffice: locked", worker.ask("lock", password, plain, book) == "done")
    return book, by_library(book, password)[1]

def anew(folder, java):
    """Packages locked from nothing, of each size and key size and with each password."""
    locked = folder / "anew"
    for bits, password, n in [(b, PASSWORDS[0], n) for b in BITS for n in SIZES] + [(b, p, 1001) for b in BITS for p in PASSWORDS]:
        what = f"locked from nothing, {bits} bits, {n} bytes, {len(password)} characters"
        package, info = random.randbytes(n), written(bits, password, PROVIDER)
        wrong, answer = another(password)
        for how, stream in both_sealed(info, password, package):
            case = f"{what}, {how}"
            check(f"{case}: opened", unlock.opened(info, password, stream) == (0, package))
            check(f"{case}: another password", unlock.opened(info, wrong, stream)[0] == answer)
            check(f"{case}: opened by msoffcrypto-tool", by_msoffcrypto(info, password, stream) == package)
            check(f"{case}: another password, msoffcrypto-tool", by_msoffcrypto(info, wrong, stream) is None)
            compound(locked, info, stream)
            check(f"{case}: opened by POI", by_poi(java, locked, password) == package)
            check(f"{case}: another password, POI", "wrong password" in java.ask("open", wrong, locked, folder / "opened"))

def openers(java, office, book, password, package):
    """Who opens a workbook: byte for byte, LibreOffice by the text of its first cell."""
    by = {"msoffcrypto-tool": by_command(book, password) == package,
          "Apache POI": by_poi(java, book, password) == package,
          "LibreOffice": office is not None and office.ask("read", password, book) == "seat 0"}
    return {name for name in by if by[name]}

def asked(office, bits, password, name):
    """Who must open a workbook so locked. Neither the command msoffcrypto-tool nor LibreOffice takes an empty password, LibreOffice
    takes keys of 128 bits alone, and Apache POI lets a name end at its first zero unit."""
    who = {"msoffcrypto-tool"} if password else set()
    if office and password and bits == 128:
        who.add("LibreOffice")
    if name.find("\0") == len(name) - 1:
        who.add("Apache POI")
    return who

def opened_by(case, java, office, book, password, package, must):
    """Who opens a workbook; the library and those that must are checked."""
    check(f"{case}: opened", by_library(book, password) == (0, package))
    who = openers(java, office, book, password, package)
    for one in must:
        check(f"{case}: opened by {one}", one in who)
    return who

def anew_workbooks(folder, java, office):
    """A workbook locked from nothing, with each key size and password and with other names; who opens it is said."""
    plain, book, theirs = (folder / name for name in ("plain.xlsx", "anew.xlsx", "poi.xlsx"))
    package = uneven(plain)
    groups = [(f"{bits} bits", PROVIDER, bits, PASSWORDS) for bits in BITS] + [(what, NAMES[what], 128, PASSWORDS[:1]) for what in NAMES]
    for what, name, bits, passwords in groups:
        seen = Counter()
        for password in passwords:
            info = written(bits, password, name)
            compound(book, info, sealed(info, password, package))
            case = f"workbook locked from nothing, {what}, {len(password)} characters"
            who = opened_by(case, java, office, book, password, package, asked(office, bits, password, name))
            check(f"{case}: another password", not openers(java, office, book, another(password)[0], package))
            seen.update(who)
            if office and name == PROVIDER:
                check(f"{case}: locked by POI", java.ask("lock", bits, password, plain, theirs) == "done")
                same = (office.ask("read", password, theirs) == "seat 0") == ("LibreOffice" in who)
                check(f"{case}: opened by LibreOffice just where POI's own is", same)
        said(f"  locked from nothing, {what}, {len(passwords)} tried: " + ", ".join(f"{who} opens {n}" for who, n in sorted(seen.items())))

def extra_workbooks(folder, java, office):
    """A workbook of a multiple of 4,096 bytes: opened as POI locks it, and locked from nothing with an extra block and without; who
    opens it is said."""
    plain, book, password = folder / "plain.xlsx", folder / "even.xlsx", PASSWORDS[0]
    package = even(plain)
    for bits in BITS:
        what = f"workbook of {len(package)} bytes, {bits} bits"
        check(f"{what}: locked by POI", java.ask("lock", bits, password, plain, book) == "done")
        check(f"{what}: POI's opened", by_library(book, password) == (0, package))
        said(f"  {what}, locked by POI: opened by " + ", ".join(sorted(openers(java, office, book, password, package))))
        info = written(bits, password, PROVIDER)
        for how, stream in both_sealed(info, password, package):
            compound(book, info, stream)
            who = opened_by(f"{what}, {how}", java, office, book, password, package, asked(office, bits, password, PROVIDER))
            said(f"  {what}, {how}: opened by " + ", ".join(sorted(who)))

def command(folder, book, password):
    """msoffcrypto-tool's own command on a workbook that the library sealed under the descriptor of another."""
    info, _ = streams(book)
    package = uneven(folder / "plain.xlsx")
    compound(folder / "again.xlsx", info, sealed(info, password, package))
    check("sealed, opened by the command msoffcrypto-tool", by_command(folder / "again.xlsx", password) == package)

def typed(arguments, password):
    """The status and the terminal's contents of a program that asks for its password."""
    pid, terminal = pty.fork()
    if pid == 0:
        os.execv(arguments[0], list(map(str, arguments)))
    def more():
        ready, _, _ = select.select([terminal], [], [], 60)
        try:
            return os.read(terminal, 1000) if ready else b""
        except OSError:
            return b""
    shown = more()
    while b"assword: " not in shown and (part := more()):
        shown += part
    os.write(terminal, password.encode() + b"\n")
    while part := more():
        shown += part
    os.close(terminal)
    return os.waitstatus_to_exitcode(os.waitpid(pid, 0)[1]), shown.decode()

def examples(folder, built, book, package):
    """The three examples on a workbook that a real producer locked."""
    secret, other = folder / "password", folder / "another"
    secret.write_text(PASSWORDS[1] + "\n", encoding="utf-8")
    other.write_text("another\n")
    opened, agile = book.with_name(book.stem + ".opened.xlsx"), folder / "agile.xlsx"
    # neither producer writes Agile: its version and flags with the front of its XML, by hand
    compound(agile, bytes([4, 0, 4, 0, 0x40, 0, 0, 0]) + b'<?xml version="1.0" encoding="UTF-8"?><encryption/>', bytes(24))
    for name, program in (("C", [built / "unlock-c"]), ("Python", ["/usr/bin/python3", ROOT / "examples/unlock.py"])):
        def run(*words):
            return subprocess.run([*program, *words], capture_output=True, text=True, stdin=subprocess.DEVNULL)
        done = run(book, other)
        check(f"{name}: wrong password", done.returncode == 1 and "wrong password (answer 12)" in done.stderr and not opened.exists())
        done = run(book, secret)
        check(f"{name}: opened", done.returncode == 0 and opened.read_bytes() == package and f"opened, {len(package)} bytes" in done.stdout)
        opened.unlink()
        status, shown = typed([*program, book], PASSWORDS[1])
        check(f"{name}: asked on the terminal, with no echo", status == 0 and opened.read_bytes() == package and PASSWORDS[1] not in shown)
        opened.unlink()
        opened.mkdir()
        before = set(folder.iterdir())
        check(f"{name}: no half workbook", run(book, secret).returncode != 0 and set(folder.iterdir()) == before)
        opened.rmdir()
        check(f"{name}: Agile", "not locked by Standard encryption (answer 2)" in run(agile, secret).stderr)
        check(f"{name}: no locked workbook", run(secret, secret).returncode not in (0, -6, -11))
    for part, contents in zip(("info", "stream"), streams(book)):
        (folder / part).write_bytes(contents)
    def rust(password):
        return subprocess.run([built / "unlock-rs", folder / "info", folder / "stream", password, opened], capture_output=True, text=True)
    done = rust(other)
    check("Rust: wrong password", done.returncode == 1 and "answer 12" in done.stderr and not opened.exists())
    done = rust(secret)
    check("Rust: opened", done.returncode == 0 and opened.read_bytes() == package)
    opened.unlink()

def by_parts(folder, book, package):
    """The example that reads one part: each part of a workbook, none at the cost of the whole package, and what it refuses."""
    with zipfile.ZipFile(io.BytesIO(package)) as whole:
        parts = {name: whole.read(name) for name in whole.namelist()}
    program = ["/usr/bin/python3", ROOT / "examples/part.py", book]
    def run(secret, *words):
        done = subprocess.run([*program, *words, "--password", folder / secret], capture_output=True)
        return done.returncode, done.stdout, done.stderr.decode()
    for name, contents in parts.items():
        status, shown, told = run("password", name)
        check(f"Python, {name} alone", status == 0 and shown == contents)
        counts = re.search(r": (\d+) of (\d+) bytes opened", told)
        check(f"Python, {name} by a part of the package", counts and int(counts[1]) < int(counts[2]) == len(package))
    status, shown, _ = run("password")
    listed = [line.split(maxsplit=1) for line in shown.decode().splitlines()]
    check("Python, the list of parts", status == 0 and listed == [[str(len(parts[name])), name] for name in parts])
    status, shown = typed(program, PASSWORDS[1])
    check("Python, the list of parts, asked on the terminal, with no echo", status == 0 and PASSWORDS[1] not in shown and "bytes opened" in shown)
    status, shown, told = run("another")
    check("Python, a part: wrong password", status == 1 and shown == b"" and "wrong password (answer 12)" in told)
    status, shown, told = run("password", "no/such/part")
    check("Python, no such part", status == 1 and shown == b"" and "no/such/part" in told)
    chained_parts(book, package, parts)

def chained_parts(book, package, parts):
    """The same workbook chained, read by the example's file."""
    info, _ = streams(book)
    stream = sealed(info, PASSWORDS[1], package, scheme=unlock.CHAINED)
    file = part.Package(info, PASSWORDS[1], stream, unlock.CHAINED)
    with zipfile.ZipFile(io.BufferedReader(file, part.BUFFER)) as whole:
        check("Python, chained: each part", {name: whole.read(name) for name in whole.namelist()} == parts)

def large(folder, built, book):
    """A package of some 64 MiB through the example in C."""
    info, _ = streams(book)
    package = random.randbytes(1 << 20) * 64 + b"whole"
    secret, path = folder / "password", folder / "large.xlsx"
    compound(path, info, sealed(info, PASSWORDS[1], package))
    done = subprocess.run([built / "unlock-c", path, secret], capture_output=True)
    check("C: 64 MiB opened", done.returncode == 0 and (folder / "large.opened.xlsx").read_bytes() == package)

def three_files(folder, book, package):
    """info.bin, package.bin and password.bin as README makes them, and the program on them."""
    script = f"""gsf cat '{book}' EncryptionInfo >info.bin && gsf cat '{book}' EncryptedPackage >package.bin &&
        printf %s '{PASSWORDS[1]}' | iconv -f UTF-8 -t UTF-16LE >password.bin"""
    subprocess.run(script, shell=True, check=True, cwd=folder)
    made = tuple((folder / f"{name}.bin").read_bytes() for name in ("info", "package", "password"))
    check("the three files", made == (*streams(book), PASSWORDS[1].encode("utf-16-le")))
    done = subprocess.run([ROOT / "tools/start", "unlock"], cwd=folder, capture_output=True, text=True)
    check("the program: opened", done.stdout == f"answer 0 size {len(package)}\n" and (folder / "sheet.bin").read_bytes() == package)

def main():
    random.seed(2026)
    built = pathlib.Path(sys.argv[1]).resolve()
    said(", ".join(f"{name} {version(name)}" for name in ("msoffcrypto-tool", "olefile", "openpyxl")))
    with tempfile.TemporaryDirectory() as name:
        folder = pathlib.Path(name)
        java, office = Worker("Apache POI", "java", "-cp", f"{ROOT}/target/outside:{JARS}", "Poi"), None
        books = [poi(folder, java)]
        poi_rescued(folder, java)
        if subprocess.run(["/usr/bin/python3", "-c", "import uno"], capture_output=True).returncode == 0:
            office = Worker("LibreOffice", "/usr/bin/python3", str(ROOT / "tests/outside/libre.py"))
            books.append(libre(folder, office))
        else:
            check("LibreOffice: it is not installed, so nothing of it was tried", False)
        anew(folder, java)
        anew_workbooks(folder, java, office)
        extra_workbooks(folder, java, office)
        for worker in filter(None, (java, office)):
            worker.close()
        for book, package in books:
            tenths(book, PASSWORDS[1], package)
            examples(folder, built, book, package)
            by_parts(folder, book, package)
            command(folder, book, PASSWORDS[1])
            three_files(folder, book, package)
        large(folder, built, book)
    print(f"producers: {passed} passed, {failed} failed")
    sys.exit(failed != 0)

if __name__ == "__main__":
    main()
