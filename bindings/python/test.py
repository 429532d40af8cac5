"""What an olefile script does, and changes. Beside olefile if it is installed.

    test.py [LIST [FILE..]]      LIST: the C program list.c; FILE: compound files to be read beside olefile
"""
import datetime
import errno
import io
import os
import random
import resource
import struct
import subprocess
import sys
import tempfile
import threading
import warnings

sys.path.insert(0, os.path.dirname(os.path.abspath(__file__)))
import cfb_proved as cfb

try:
    import olefile
except ImportError:
    olefile = None


def fails(number, call, *arguments):
    try:
        call(*arguments)
    except cfb.Error as e:
        assert e.number == number, (e.number, e)
        return e
    raise AssertionError(f"{call} did not fail")


def raises(kind, call, *arguments):
    try:
        call(*arguments)
    except kind as e:
        return e
    raise AssertionError(f"{call} did not raise {kind}")


def made(version):
    f = cfb.create(version=version)
    f.create_storage("/Macros/VBA", parents=True)
    f.put(["Macros", "VBA", "dir"], b"d" * 5000)
    f.put("\x05SummaryInformation", b"summary")
    f.put("\u00e4\u4e2d\U0001f600", b"")
    f.set_clsid("/", "00020906-0000-0000-C000-000000000046")
    f.set_state_bits("Macros", 7)
    f.set_times("Macros", 130000000000000000, datetime.datetime(2026, 11, 29, 7, 17, 0, 5))
    with f.stream("s", "w") as s:
        s.write(b"hello world")
        s.seek(6)
        s.write(b"there")
        s.seek(20)
        s.write(b"!")
        s.seek(0)
        assert s.read(11) == b"hello there" and s.read() == b"\0" * 9 + b"!"
        s.truncate(11)
        s.seek(-5, 2)
        assert s.read() == b"there"
    f.put("gone", b"x")
    f.remove("gone")
    assert f.is_sound() and not f.is_failed() and f.version == version
    return f


def refusals(f):
    for call in (f.read, f.openstream):
        assert fails(3, call, "Macros").path == "/Macros"
    e = fails(1, f.read, "nothing")
    assert e.path == "/nothing" and e.reason and "/nothing" in str(e), str(e)
    for call in (f.openstream, f.get_size, f.getclsid, f.getmtime, f.getctime, f.remove, f.remove_all, f.list, f.walk, f.stream):
        fails(1, call, "nothing")
    fails(2, f.create_storage, "Macros")
    fails(2, f.stream, "s", "x")
    fails(3, f.remove, "Macros")
    fails(3, f.put, "a:b", b"")
    for path in ("a\0b", "\udcff", "\ud800", ["a", "b\0"], "../x"):
        for call in (f.read, f.get_size, f.getclsid, f.getmtime, f.getctime, f.remove_all, f.list, f.walk, f.stream, f.create_storage):
            fails(3, call, path)
        fails(3, f.put, path, b"")
        fails(3, f.stream, path, "w")
        fails(3, f.set_clsid, path, "00020906-0000-0000-C000-000000000046")
        fails(3, f.set_state_bits, path, 0)
        fails(3, f.set_times, path, 1)
        fails(3, f.set_times, path, None, 1)
        fails(3, f.remove, path)
        assert not f.exists(path) and f.get_type(path) is False
    fails(3, f.set_clsid, "s", "00020906-0000-0000-C000-000000000046")
    raises(ValueError, f.set_clsid, "/", "00")
    raises(ValueError, f.set_state_bits, "/", 1 << 32)
    raises(ValueError, f.set_times, "/", -1)
    raises(ValueError, f.set_times, "/", datetime.datetime(1600, 1, 1))
    raises(ValueError, f.write_stream, "s", b"other length")
    raises(TypeError, f.write_stream, "s", bytearray(11))
    fails(3, f.write_stream, "Macros", b"")
    fails(1, f.write_stream, "nothing", b"")
    raises(TypeError, f.put, "s", 5)
    raises(TypeError, f.put, "s", "text")
    raises(TypeError, f.get_size, "Macros")
    raises(ValueError, f.stream, "s", "a")
    raises(ValueError, f.save)
    fails(2, f.create_storage, "s", True)
    with f.stream("s", "r+") as s:
        for length in (1 << 63, (1 << 64) - 1):
            assert raises(cfb.Error, s.truncate, length).number in (3, 7)
        raises(ValueError, s.truncate, -1)
        raises(ValueError, s.seek, -1)
        raises(ValueError, s.seek, 0, 3)
    for call in (s.tell, s.readall, s.truncate, lambda: s.write(b"x"), lambda: s.seek(0)):
        raises(ValueError, call) if call != s.tell else None
    assert f.read("s") == b"hello there"
    fails(4, cfb.OleFileIO, io.BytesIO(b"short"))
    raises(ValueError, cfb.open, "/dev/null", "w")
    raises(OSError, f.save, "/dev/full")
    fails(4, cfb.OleFileIO, b"x" * 2000)
    fails(3, lambda: cfb.create(version=5))
    assert raises(FileNotFoundError, cfb.open, "/no/such/file").filename == "/no/such/file"
    raises(IsADirectoryError, cfb.open, "/")
    raises(ValueError, cfb.open, "/a\0b")
    raises(FileNotFoundError, f.save, "/no/such/folder/x")


def told(call, *arguments):
    """What a call returns, or what kind of exception it raises."""
    try:
        return call(*arguments)
    except Exception as e:
        return OSError if isinstance(e, OSError) else type(e)


def same(ours, theirs):
    """The two list and read the same."""

    def agree(name, *arguments):
        a, b = (told(getattr(it, name), *arguments) for it in (ours, theirs))
        assert a == b, (name, arguments, a, b)

    for what in ((), (False, True), (True, True)):
        agree("listdir", *what)
    for path in theirs.listdir(True, True) + [["nothing"], ["nothing", "at all"]]:
        for name in ("exists", "get_type", "get_size", "getclsid", "getmtime", "getctime"):
            if name.startswith("getc") or name == "getmtime":
                # a stream has none, whatever other writers left in its entry
                if ours.get_type(path) == cfb.STGTY_STREAM:
                    assert not getattr(ours, name)(path)
                    continue
            agree(name, path)
            agree(name, "/".join(path))
        assert told(lambda: ours.openstream(path).read()) == told(lambda: theirs.openstream(path).read()), path
    agree("get_rootentry_name")
    for name in ("name", "clsid", "createTime", "modifyTime"):
        assert getattr(ours.root, name) == getattr(theirs.root, name), name
    assert told(lambda: vars(ours.get_metadata())) == told(lambda: vars(theirs.get_metadata()))


def random_file(seed):
    """A file with some storages and streams, and with free sectors."""
    r = random.Random(seed)
    f = cfb.create(version=r.choice((3, 4)))
    storages = [[]]
    for _ in range(r.randrange(40)):
        at = r.choice(storages)
        path = at + ["".join(r.choice("abcXYZ\u00e9\u4e2d_ ") for _ in range(r.randrange(1, 9))).strip() or "n"]
        try:
            if r.random() < 0.3:
                f.create_storage(path, moment=r.randrange(1 << 57))
                storages.append(path)
            else:
                f.put(path, r.randbytes(r.choice((0, 1, 63, 64, 65, 4095, 4096, 4097, 70000)) + r.randrange(2)))
        except cfb.Error as e:
            assert e.number in (2, 3), e
    for path in f.listdir():
        if r.random() < 0.2:
            f.remove(path)
    return f.into_bytes()


def on_disk(data, version, listing):
    with tempfile.TemporaryDirectory() as folder:
        path, copy = os.path.join(folder, "a.cfb"), os.path.join(folder, "b.cfb")
        with io.open(path, "wb") as out:
            out.write(data)
        if listing:
            lines = subprocess.run([listing, path], stdout=subprocess.PIPE, check=True).stdout.decode().splitlines()
            assert lines == [f"{'f' if e.is_stream else 'd'} {e.size} {e.path}" for e in cfb.open(path).walk()], lines
            text = subprocess.run([listing, path, "/s"], stdout=subprocess.PIPE, check=True).stdout
            assert text == b"hello there" and subprocess.run([listing, path, "/t"], stderr=subprocess.DEVNULL).returncode == 1
        with cfb.open(path) as f:
            f.put("s", b"")
            f.save(copy)
        assert cfb.open(path).read("s") == b"hello there" and cfb.open(copy).read("s") == b""
        with cfb.open(path, "r+") as f:
            f.write_stream("s", b"HELLO there")
            f.put("new", b"n" * 100000)
            f.remove_all("Macros")
        with cfb.open(path) as f:
            assert f.read("s") == b"HELLO there" and f.read("new") == b"n" * 100000 and not f.exists("Macros")
            if olefile:
                same(f, olefile.OleFileIO(path))
        try:
            with cfb.open(path, "r+") as f:
                f.remove("s")
                raise KeyError
        except KeyError:
            assert cfb.open(path).exists("s")
        fails(11, f.read, "s")
        with cfb.create(copy, version) as f:
            f.put("a", b"a")
        assert cfb.open(copy, strict=True).listdir() == [["a"]] and cfb.isOleFile(copy)


def in_memory(data):
    assert cfb.isOleFile(data) and cfb.isOleFile(io.BytesIO(data)) and not cfb.isOleFile(data=b"PK\3\4")
    with cfb.OleFileIO(data) as f:
        assert f.listdir() == [["\x05SummaryInformation"], ["Macros", "VBA", "dir"], ["s"], ["\u00e4\u4e2d\U0001f600"]], f.listdir()
        assert [e.name for e in f.list()] == ["s", "\u00e4\u4e2d\U0001f600", "Macros", "\x05SummaryInformation"]
        assert f.exists("macros/vba/DIR") and f.get_type("Macros") == cfb.STGTY_STORAGE and f.get_type("/") == cfb.STGTY_ROOT
        assert f.copied().read("s") == b"hello there" and f.getmtime("Macros") == datetime.datetime(2026, 11, 29, 7, 17, 0, 5)
        with f.stream("Macros/VBA/dir") as s:
            assert s.read(3) == b"ddd" and s.seek(4998) == 4998 and s.read(9) == b"dd" and s.read(1) == b""
            raises(io.UnsupportedOperation, s.write, b"x")
        if olefile:
            same(f, olefile.OleFileIO(data))
    source = io.BytesIO(data)
    source.seek(700)
    with cfb.open(source, strict=True) as f:
        assert f.read("s") == b"hello there" and f.openstream("s").size == 11
    with cfb.OleFileIO(bytearray(data), cfb.DEFECT_INCORRECT) as f:
        assert f.strict and f.get_rootentry_name() == f.root.name == "Root Entry"


def odd_files():
    """A stream that says it is longer than its file, and paths that are long."""
    f = cfb.create(version=3)
    f.put("s", b"s" * 5000)
    deep = ["x" * 31] * 50
    f.create_storage(deep, parents=True)
    assert f.listdir(False, True)[-1] == deep and f.walk()[-1].path == "/" + "/".join(deep)
    f.put(deep + ["y"], b"deep")
    assert f.listdir()[-1] == deep + ["y"] and f.read(deep + ["y"]) == b"deep"
    data = bytearray(f.into_bytes())
    at = data.index(b"s\0\0\0" + bytes(60)) + 120
    assert int.from_bytes(data[at : at + 4], "little") == 5000
    data[at : at + 4] = (0x7FFFFFFF).to_bytes(4, "little")
    with cfb.OleFileIO(bytes(data)) as f:
        assert not f.is_sound() and f.get_size("s") == 0x7FFFFFFF and f.read(deep + ["y"]) == b"deep"
        fails(4, f.read, "s")
        fails(8, f.put, "t", b"")
        with f.stream("s") as s:
            fails(4, s.read, 10)


def closed():
    f = cfb.create()
    f.put("s", b"x")
    s = f.stream("s", "r+")
    f.close()
    f.close()
    one = (f.read, f.openstream, f.exists, f.get_type, f.get_size, f.getclsid, f.getmtime, f.getctime, f.list, f.walk, f.remove, f.remove_all)
    for call in (*one, f.stream, f.create_storage, f.save):
        fails(11, call, "s")
    for call in (f.listdir, f.is_sound, f.is_failed, f.copied, f.into_bytes, f.get_rootentry_name, f.dumpdirectory, s.readall, s.truncate):
        fails(11, call)
    for call in (f.put, f.write_stream, s.seek):
        fails(11, *((call, 0, 2) if call == s.seek else (call, "s", b"x")))
    fails(11, f.set_clsid, "s", "00020906-0000-0000-C000-000000000046")
    fails(11, f.set_state_bits, "s", 0)
    fails(11, f.set_times, "s", 0)
    fails(11, lambda: f.version)
    fails(11, lambda: f.root)
    fails(11, lambda: cfb.OleFileIO().listdir())


def shared():
    """Threads share one file, and each has a stream."""
    f, faults = cfb.create(version=3), []

    def work(number):
        try:
            for turn in range(200):
                f.put(f"t{number}", bytes([number]) * (turn * 37))
                assert f.read(f"t{number}") == bytes([number]) * (turn * 37)
                fails(1, f.read, f"none{number}")
                assert len(f.walk()) >= 2
        except BaseException as e:
            faults.append(e)

    threads = [threading.Thread(target=work, args=(number,)) for number in range(8)]
    for it in threads:
        it.start()
    for it in threads:
        it.join()
    assert not faults and f.is_sound() and len(f.listdir()) == 8, faults


def without_memory():
    """In a process of its own: a change for which there is no memory fails. Other streams stay, and the file goes on or says that it failed."""
    f = cfb.create()
    f.put("a", b"a" * 100000)
    f.put("b", b"b" * 100)
    data, large, failed = f.into_bytes(), bytes(64 << 20), 0
    too_large = data[:1] + large
    with io.open("/proc/self/statm") as file:
        used = int(file.read().split()[0]) * resource.getpagesize()
    all_of_it = resource.getrlimit(resource.RLIMIT_AS)

    def fails_with_little(number, call, *arguments):
        resource.setrlimit(resource.RLIMIT_AS, (used + (32 << 20), all_of_it[1]))
        fails(number, call, *arguments)
        resource.setrlimit(resource.RLIMIT_AS, all_of_it)

    # Bytes are lent, and so opening them needs no memory for them.
    fails_with_little(4, cfb.OleFileIO, too_large)
    for change in (
        lambda: f.put("b", large),
        lambda: f.put("c", large),
        lambda: f.stream("b", "r+").truncate(64 << 20),
        lambda: f.stream("b", "r+").write(large),
    ):
        f = cfb.OleFileIO(data)
        fails_with_little(6, change)
        if f.is_failed():
            fails(9, f.put, "d", b"d")
            fails(9, f.read, "a")
            failed += 1
        else:
            f.put("d", b"d")
            # the first of the bytes that are written may stand
            assert f.is_sound() and f.read("b").strip(b"\0").strip(b"b") == b"" and len(f.read("b")) == 100
        assert cfb.OleFileIO(f.into_bytes()).read("a") == b"a" * 100000
    print(f"python: four changes without memory fail, and {failed} of the files take no more")


def properties():
    """A property set with a text in UTF-16, a number and a time, as olefile reads it."""
    values = [(2, struct.pack("<II", 31, 5) + "Titel".encode("utf-16-le") + b"\0\0"), (14, struct.pack("<Ii", 3, 7)), (12, struct.pack("<IQ", 64, 130000000000000000))]
    table, body = b"", b""
    for number, value in values:
        table += struct.pack("<II", number, 8 + 8 * len(values) + len(body))
        body += value
    section = struct.pack("<II", 8 + len(table) + len(body), len(values)) + table + body
    return struct.pack("<HHI16sI16sI", 0xFFFE, 0, 0, b"", 1, b"", 48) + section


def on_disk_twice(folder):
    """What closing saves, and what it does not."""
    path = os.path.join(folder, "c.cfb")
    with cfb.create(path) as f:
        f.put("s", b"abc")
        f.put("\x05SummaryInformation", properties())
    os.chmod(path, 0o640)
    before = os.stat(path)
    with cfb.OleFileIO(path, write_mode=True) as f:
        assert f.read("s") == b"abc"
    assert os.stat(path).st_ino == before.st_ino
    with cfb.OleFileIO(path, write_mode=True) as f:
        f.write_stream("s", b"xyz")
    after = os.stat(path)
    assert after.st_ino != before.st_ino and after.st_mode == before.st_mode and cfb.open(path).read("s") == b"xyz"
    assert os.listdir(folder).count("c.cfb") == 1 and not [it for it in os.listdir(folder) if it.endswith(".tmp")]
    with warnings.catch_warnings(record=True) as found:
        warnings.simplefilter("always")
        f = cfb.open(path, "r+")
        f.put("s", b"lost")
        del f
        assert [it.category for it in found] == [ResourceWarning], found
    f = cfb.open(path, "r+")
    f.put("s", b"late")
    f.save()
    f.into_bytes()
    assert cfb.open(path).read("s") == b"late"
    with cfb.open(path, "r+") as f:
        f.put("s", b"both")
        f.save(path + ".copy")
    assert cfb.open(path).read("s") == cfb.open(path + ".copy").read("s") == b"both"
    with io.open(path, "rb") as file:
        assert cfb.isOleFile(file) and cfb.open(file).exists("S")
    if olefile:
        with cfb.open(path) as f:
            found = f.get_metadata()
            assert (found.title, found.num_pages, found.create_time.year) == ("Titel", 7, 2012), vars(found)
            assert cfb.OleMetadata is olefile.OleMetadata
            f.put("\x05SummaryInformation", b"short")
            assert f.get_metadata().title is None and f.parsing_issues


def beside_olefile(paths):
    count = 0
    for source in [random_file(seed) for seed in range(100)] + paths:
        try:
            theirs = olefile.OleFileIO(source)
        except IOError:
            continue
        shown = source if isinstance(source, str) else "a made file"
        try:
            ours = cfb.OleFileIO(source)
        except cfb.Error as e:
            assert source in paths, e
            print(f"{shown}: {e}")
            continue
        try:
            same(ours, theirs)
            count += 1
        except (AssertionError, cfb.Error, IOError) as e:
            assert source in paths, e
            print(f"{shown}: {str(e)[:300]}")
        theirs.close()
        ours.close()
    print(f"python: {count} files as olefile reads them")


def lent():
    """Bytes are read where they stand, also when nobody else has them, and never written to."""
    data = made(3).into_bytes()
    f = cfb.OleFileIO(bytes(bytearray(data)))
    others = [bytes(len(data)) for _ in range(9)]
    assert f.read("s") == b"hello there" and len(others) == 9
    f.open(data)
    with cfb.OleFileIO(data) as g, f.copied() as copy:
        g.put("new", b"n" * 5000)
        f.close()
        assert g.read("new") == b"n" * 5000 and copy.read("s") == g.read("s") == b"hello there"
        assert not cfb.OleFileIO(data).exists("new") and not copy.exists("new")


def cut():
    """A file that is mapped, and cut or replaced meanwhile."""
    with tempfile.TemporaryDirectory() as folder:
        path = os.path.join(folder, "big.cfb")
        with cfb.create(path, 3) as f:
            f.put("big", b"b" * 300_000)
        f, g = cfb.OleFileIO(path), cfb.open(path, "r+")
        g.put("big", b"c" * 300_000)
        g.close()
        assert f.read("big") == b"b" * 300_000
        f.open(path)
        os.truncate(path, 1000)
        try:
            f.read("big")
            raise AssertionError("a file that was cut was read")
        except OSError as e:
            assert e.errno == errno.ESTALE and f.exists("big"), e
        f.close()


def main(listing=None, *paths):
    for version in (3, 4):
        f = made(version)
        refusals(f)
        data = f.into_bytes()
        in_memory(data)
        on_disk(data, version, listing)
    with tempfile.TemporaryDirectory() as folder:
        on_disk_twice(folder)
    odd_files()
    closed()
    shared()
    lent()
    cut()
    subprocess.run([sys.executable, os.path.abspath(__file__), "--without-memory"], check=True)
    if olefile:
        beside_olefile(list(paths))
    else:
        print("python: olefile is not installed, so nothing was compared with it")


if sys.argv[1:] == ["--without-memory"]:
    without_memory()
else:
    main(*sys.argv[1:])
