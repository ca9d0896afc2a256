"""LibreOffice at work: each line of standard input is a job of words with tabs between them, and is answered by one line.
    lock PASSWORD PLAIN LOCKED    locks a workbook
    read PASSWORD LOCKED          the text of cell A1"""
import pathlib, subprocess, sys, tempfile, time
import uno
from com.sun.star.beans import NamedValue, PropertyValue

def property(name, value):
    p = PropertyValue()
    p.Name, p.Value = name, value
    return p

def url(path):
    return pathlib.Path(path).resolve().as_uri()

def start(profile):
    """An office of its own, and its desktop."""
    pipe = "ropeshadow" + pathlib.Path(profile).name
    office = subprocess.Popen(["soffice", "--headless", "--norestore", "--nologo", f"-env:UserInstallation={url(profile)}",
                               f"--accept=pipe,name={pipe};urp;"], stdout=subprocess.DEVNULL, stderr=subprocess.DEVNULL)
    here = uno.getComponentContext()
    resolver = here.ServiceManager.createInstanceWithContext("com.sun.star.bridge.UnoUrlResolver", here)
    for _ in range(120):
        try:
            there = resolver.resolve(f"uno:pipe,name={pipe};urp;StarOffice.ComponentContext")
            return office, there.ServiceManager.createInstanceWithContext("com.sun.star.frame.Desktop", there)
        except Exception:
            time.sleep(0.5)
    sys.exit("LibreOffice does not start")

def load(desktop, path, *more):
    document = desktop.loadComponentFromURL(url(path), "_blank", 0, (property("Hidden", True), *more))
    if document is None:
        raise ValueError("not loaded")
    return document

def lock(desktop, password, plain, locked):
    document = load(desktop, plain)
    data = (NamedValue("OOXPassword", password), NamedValue("CryptoType", "Standard"))
    encryption = property("EncryptionData", uno.Any("[]com.sun.star.beans.NamedValue", data))
    document.storeToURL(url(locked), (property("FilterName", "Calc MS Excel 2007 XML"), encryption))
    document.close(True)
    return "done"

def read(desktop, password, locked):
    document = load(desktop, locked, property("Password", password))
    text = document.Sheets.getByIndex(0).getCellByPosition(0, 0).String
    document.close(True)
    return text

def main():
    with tempfile.TemporaryDirectory() as profile:
        office, desktop = start(profile)
        version = subprocess.run(["soffice", "--version"], capture_output=True, text=True).stdout.split()
        print(version[1], flush=True)
        for line in sys.stdin:
            job, *words = line.rstrip("\n").split("\t")
            try:
                print({"lock": lock, "read": read}[job](desktop, *words), flush=True)
            except Exception as e:
                print("refused:", " ".join(str(e).split()), flush=True)
        try:
            desktop.terminate()
        except Exception:
            pass
        office.wait(60)

main()
