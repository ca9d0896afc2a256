"""Documents that Microsoft Office itself locked: Apache POI's test data has some, and Debian has that in POI's source package, which is
fetched and never kept in the repository. Each opens, byte for byte as msoffcrypto-tool opens it, into a sound ZIP file, and seals into
the very stream that Office wrote. Of the other locked documents those of version 4.4 are answered 2, and one whose stream is too long 15:
it is rescued whole.
    office.py EXAMPLES    the folder with the compiled example unlock-c; the shared library is target/lib's"""
import ctypes, io, pathlib, re, shutil, struct, subprocess, sys, tarfile, tempfile, zipfile
import olefile

sys.dont_write_bytecode = True
import producers
from producers import NUMBER, ROOT, SLICE, by_command, by_msoffcrypto, check, entry, said, sealed, streams, unlock

SOURCE = "libapache-poi-java"
OFFICE = {"spreadsheet/58616.xlsx": "VelvetSweatshop", "poifs/protect.xlsx": "VelvetSweatshop",
          "spreadsheet/protected_passtika.xlsx": "tika", "document/bug53475-password-is-solrcell.docx": "solrcell"}
# not of Office: its sectors hold so many bytes too many, and its directory promises more still
LONGER, LONGER_PASSWORD, LONGER_BY = "poifs/extenxls_pwd123.xlsx", "pwd123", 40

def fetched(room):
    """The source archive with its version, or None. The mirrors are the machine's own, asked for sources in apt folders of our own."""
    parts, etc = room / "sources.list.d", pathlib.Path("/etc/apt")
    shutil.rmtree(parts, ignore_errors=True)
    for folder in (parts, room / "lists/partial", room / "cache/archives/partial"):
        folder.mkdir(parents=True, exist_ok=True)
    for path in [etc / "sources.list", *etc.glob("sources.list.d/*.list"), *etc.glob("sources.list.d/*.sources")]:
        if path.is_file():
            lines = re.sub(r"(?m)^[ \t]*deb(-src)?(?=[ \t])", "deb-src", path.read_text())
            (parts / path.name).write_text(re.sub(r"(?im)^Types:.*", "Types: deb-src", lines))
    for old in room.glob("*.dsc"):
        old.unlink()
    # apt's own user cannot enter a checkout that is closed to all but its owner
    options = ["APT::Sandbox::User=root", "Dir::Etc::sourcelist=/dev/null", f"Dir::Etc::sourceparts={parts}",
               f"Dir::State::lists={room}/lists", f"Dir::Cache={room}/cache"]
    apt = ["apt-get", *(word for option in options for word in ("-o", option))]
    with open(room / "log", "w") as log:
        # a mirror that has no sources is no matter, as long as one has these
        for words in (["update"], ["source", "--download-only", SOURCE]):
            done = subprocess.run([*apt, *words], cwd=room, stdin=subprocess.DEVNULL, stdout=log, stderr=log)
    if done.returncode != 0:
        return None
    (description,) = room.glob("*.dsc")
    version, text = description.stem.split("_")[1], description.read_text()
    return room / re.search(rf"{SOURCE}_\S+\.orig\.tar\.\w+", text)[0], version

def locked_documents(archive, version, folder):
    """The names of the compound files with EncryptionInfo, laid into a folder."""
    files = compounds = 0
    names = []
    with tarfile.open(archive) as tar:
        for member in tar:
            _, below, name = member.name.partition("/test-data/")
            if not below or not member.isfile():
                continue
            contents = tar.extractfile(member).read()
            files, compounds = files + 1, compounds + contents.startswith(olefile.MAGIC)
            if not contents.startswith(olefile.MAGIC):
                continue
            try:
                with olefile.OleFileIO(io.BytesIO(contents)) as book:
                    locked = book.exists("EncryptionInfo")
            except OSError:
                # some are damaged, which POI is tested with
                locked = "EncryptionInfo".encode("utf-16-le") in contents
            if locked:
                names.append(name)
                (folder / name).parent.mkdir(exist_ok=True)
                (folder / name).write_bytes(contents)
    said(f"{SOURCE} {version}: {files} files of test data, {compounds} of them compound files, {len(names)} with EncryptionInfo")
    return names

def parsed(info):
    """The answer of the parser."""
    return entry("parse", *SLICE, NUMBER, ctypes.c_void_p)(info, len(info), unlock.ECB, ctypes.create_string_buffer(88))

def by_c(built, book, password):
    """What the example in C says of a document, and the package that it leaves, or None."""
    with tempfile.TemporaryDirectory() as folder:
        copy, secret = pathlib.Path(folder, "book.xlsx"), pathlib.Path(folder, "password")
        shutil.copyfile(book, copy)
        secret.write_text(password)
        done = subprocess.run([built / "unlock-c", copy, secret], capture_output=True, text=True, stdin=subprocess.DEVNULL)
        opened = copy.with_name("book.opened.xlsx")
        return done.stdout + done.stderr, opened.read_bytes() if opened.exists() else None

def sound(package):
    """Whether it is a ZIP file, whole, of an Office document."""
    try:
        with zipfile.ZipFile(io.BytesIO(package)) as parts:
            return parts.testzip() is None and "[Content_Types].xml" in parts.namelist()
    except zipfile.BadZipFile:
        return False

def producer(package):
    """The application and its version that a document says it was written by."""
    with zipfile.ZipFile(io.BytesIO(package)) as parts:
        if "docProps/app.xml" not in parts.namelist():
            return "an application that does not name itself"
        text = parts.read("docProps/app.xml").decode()
    return " ".join(re.search(f"<{tag}>([^<]*)</{tag}>", text)[1] for tag in ("Application", "AppVersion"))

def described(info, stream):
    """The fields of the two streams that producers differ in."""
    major, minor, _, header, _, _, _, _, bits, _, reserved = struct.unpack("<2H9I", info[:40])
    name = info[44:12 + header].decode("utf-16-le").rstrip("\0")
    size = int.from_bytes(stream[:8], "little")
    return (f"version {major}.{minor}, {bits} bits, HeaderSize {header}, Reserved1 {reserved:#x}, "
            f"{f'name {name!r}' if name else 'no name'}, StreamSize {size}, ciphertext {len(stream) - 8}")

def office(folder, name, password, built):
    """A document of Office: opened, refused under another password, and sealed into the stream that it came as. Whether it opens."""
    info, stream = streams(folder / name)
    answer, package = unlock.opened(info, password, stream)
    check(f"{name}: opened", answer == 0)
    check(f"{name}: a sound ZIP file", sound(package))
    if not sound(package):
        return False
    check(f"{name}: written by Office", producer(package).startswith("Microsoft "))
    check(f"{name}: rescued", unlock.rescued(info, password, stream) == (0, package, (len(package), 0, 0)))
    check(f"{name}: as msoffcrypto-tool opens it", package == by_msoffcrypto(info, password, stream) == by_command(folder / name, password))
    check(f"{name}: another password", unlock.opened(info, password + "?", stream) == (12, b""))
    # nothing tells that it is not chained
    answer_chained, other = unlock.opened(info, password, stream, unlock.CHAINED)
    check(f"{name}: opened as chained, other bytes", answer_chained == 0 and len(other) == len(package) and not sound(other))
    text, left = by_c(built, folder / name, password)
    check(f"{name}: opened by the example in C", f"opened, {len(package)} bytes" in text and left == package)
    text, left = by_c(built, folder / name, password + "?")
    check(f"{name}: another password, the example in C", "wrong password (answer 12)" in text and left is None)
    # with StreamSize raised to the whole ciphertext the filling is part of the package
    filled = unlock.opened(info, password, struct.pack("<Q", len(stream) - 8) + stream[8:])[1]
    check(f"{name}: its filling", filled[:len(package)] == package and len(filled) - len(package) < 16)
    check(f"{name}: sealed as it was", sealed(info, password, package, 0, filled[len(package):].ljust(16, b"\0")) == stream)
    said(f"  {name}: {producer(package)}, {described(info, stream)}, answer {answer}")
    return True

def longer(folder, name, password, by, built):
    """A document whose stream has bytes too many: refused as it is, opened without them, and rescued with them."""
    info, stream = streams(folder / name)
    size = int.from_bytes(stream[:8], "little")
    check(f"{name}: {by} bytes too many", len(stream) - 8 - -(-size // 16) * 16 == by)
    check(f"{name}: refused", unlock.opened(info, password, stream) == (15, b""))
    check(f"{name}: another password", unlock.opened(info, password + "?", stream) == (12, b""))
    # libgsf, unlike olefile, does not read a stream whose sectors end early
    text, left = by_c(built, folder / name, password)
    check(f"{name}: not read by the example in C", "EncryptedPackage: cannot be read" in text and left is None)
    answer, package = unlock.opened(info, password, stream[:-by])
    check(f"{name}: opened without them", answer == 0 and sound(package))
    check(f"{name}: as msoffcrypto-tool opens it without them", package == by_msoffcrypto(info, password, stream[:-by]))
    check(f"{name}: rescued whole", unlock.rescued(info, password, stream) == (0, package, (size, 0, by)))
    check(f"{name}: rescued, another password", unlock.rescued(info, password + "?", stream)[0] == 12)
    said(f"  {name}: {described(info, stream)}, answer 15; without the last {by} bytes answer {answer}; rescued with a surplus of {by}")

def agile(folder, name, built):
    """A document of version 4.4."""
    info, stream = streams(folder / name)
    check(f"{name}: Agile, parsed", parsed(info) == 2)
    check(f"{name}: Agile", unlock.opened(info, "pass", stream) == (2, b""))
    text, left = by_c(built, folder / name, "pass")
    check(f"{name}: Agile, the example in C", "not locked by Standard encryption (answer 2)" in text and left is None)

def tried(folder, names, built):
    """Each of the locked documents, by its version."""
    versions = {name: struct.unpack("<2H", streams(folder / name)[0][:4]) for name in names}
    standard = sorted(name for name in names if versions[name][1] == 2)
    other = sorted(name for name in names if versions[name] == (4, 4))
    said(f"  {len(standard)} of version x.2, {len(other)} of version 4.4, {len(names) - len(standard) - len(other)} of another")
    check("every locked document is of version x.2 or 4.4", len(standard) + len(other) == len(names))
    check("the documents of version x.2 are those that have a password here", {*standard} == {*OFFICE, LONGER})
    for name in standard:
        check(f"{name}: parsed", parsed(streams(folder / name)[0]) == 0)
    for name in other:
        agile(folder, name, built)
    opened = [name for name in sorted(OFFICE.keys() & {*standard}) if office(folder, name, OFFICE[name], built)]
    said(f"  {len(opened)} of Office opened")
    if LONGER in standard:
        longer(folder, LONGER, LONGER_PASSWORD, LONGER_BY, built)

def main():
    built = pathlib.Path(sys.argv[1]).resolve()
    source = fetched(ROOT / "target/outside/apt")
    check(f"the source package {SOURCE} cannot be fetched (target/outside/apt/log)", source)
    if source:
        with tempfile.TemporaryDirectory() as folder:
            tried(pathlib.Path(folder), locked_documents(*source, pathlib.Path(folder)), built)
    print(f"office: {producers.passed} passed, {producers.failed} failed")
    sys.exit(producers.failed != 0)

main()
