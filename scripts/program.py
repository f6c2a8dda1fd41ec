"""The program that a checkout runs: the one in release/ where it fits the sources and this machine, or else one that is built here."""
import fcntl
import hashlib
import os
import re
import shutil
import struct
import subprocess
import sys
import tempfile

from workspace import PROGRAM, below, build, made_of, program_path, sources_sum

CACHE = ".out/release"
"""The folder that the program of release/ is unpacked to. git ignores it."""


def say(text):
    print(f"quads: {text}", file=sys.stderr, flush=True)


def sha256(data):
    return hashlib.sha256(data).hexdigest()


def read(path):
    with open(path, "rb") as file:
        return file.read()


# ---- what release/ holds


def release_of(root):
    """Returns what release/ says of its program: the sums `sources`, `code` (which leaves out comments and layout) and `program`, and the line `kit`.
    Without a release it is empty."""
    try:
        lines = read(f"{root}/release/sources").decode().splitlines()
    except (OSError, UnicodeDecodeError):
        return {}
    said = dict(line.split(" ", 1) for line in lines if " " in line)
    return said if {"sources", "program", "kit"} <= {*said} else {}


def lag_of(root):
    """Returns why release/ doesn't fit the sources, or None where it does."""
    release = release_of(root)
    if not release or not os.path.isfile(f"{root}/release/quads.xz"):
        return "release/ holds no program"
    crates = below(root, PROGRAM)
    if release["sources"] == sources_sum(root, crates) or release.get("code") == sources_sum(root, crates, is_bare=True):
        return None
    return "release/ is of other sources"


def unpacked(root):
    """Returns the bytes of the program in release/.

    # Errors

    OSError where they can't be unpacked, or aren't those that release/sources names."""
    packed = f"{root}/release/quads.xz"
    try:
        import lzma

        try:
            data = lzma.decompress(read(packed))
        except lzma.LZMAError as error:
            raise OSError(f"quads.xz is damaged: {error}") from None
    except ImportError:
        # (some builds of Python lack the module)
        ran = subprocess.run(["xz", "-dc", packed], stdout=subprocess.PIPE, stderr=subprocess.DEVNULL)
        data = ran.stdout
    if sha256(data) != release_of(root)["program"]:
        raise OSError("quads.xz isn't the program that release/sources names")
    return data


def starts(program):
    """Returns whether a program can run on this machine."""
    try:
        ran = subprocess.run([program, "--version"], stdin=subprocess.DEVNULL, stdout=subprocess.PIPE, stderr=subprocess.PIPE, timeout=20)
    except (OSError, subprocess.TimeoutExpired):
        return False
    return ran.returncode == 0


def released(root):
    """Returns where the program of release/ stands, unpacked, and why it can't be used: one of the two is None."""
    if sys.platform != "linux" or os.uname().machine != "x86_64":
        return None, "release/ is for Linux on x86-64"
    why = lag_of(root)
    if why:
        return None, why
    program = f"{root}/{CACHE}/quads"
    if os.access(program, os.X_OK) and sha256(read(program)) == release_of(root)["program"]:
        return program, None
    try:
        put_program(unpacked(root), program)
    except OSError as error:
        return None, f"the program of release/ can't be used ({error}; release/README.md says what it needs)"
    say("this is the program of release/, which these sources build; `./quads --build` proves and builds it here")
    return program, None


def put_program(data, program):
    """Writes a program, once it is seen to start.

    # Errors

    OSError where it can't be written, or doesn't start."""
    os.makedirs(os.path.dirname(program), exist_ok=True)
    handle, new = tempfile.mkstemp(prefix="new-", dir=os.path.dirname(program))
    try:
        with os.fdopen(handle, "wb") as file:
            file.write(data)
        os.chmod(new, 0o755)
        if not starts(new):
            raise OSError("it doesn't start on this machine")
        os.replace(new, program)
    except OSError:
        os.remove(new)
        raise


# ---- what is built here


def stamp_of(root):
    """Returns the file that says what the program was built from."""
    return f"{os.path.dirname(program_path(root))}/built_from"


def is_current(root):
    """Returns whether a program stands that was built here from the sources as they are now."""
    if not os.access(program_path(root), os.X_OK) or not os.path.isfile(stamp_of(root)):
        return False
    return read(stamp_of(root)).decode(errors="replace") == made_of(root, below(root, PROGRAM))


def put_stamp(root, text):
    with open(stamp_of(root), "w", encoding="utf-8") as file:
        file.write(text)


def built(root, why=None):
    """Returns where the program stands that is built from these sources, and builds it first where they changed, saying why; None where
    that fails."""
    if is_current(root):
        return program_path(root)
    if why:
        say(f"{why}, so the program is built here")
    if not shutil.which("rt"):
        say("the Rattle kit isn't on the path (`rt`), by which the program is proved and built")
        return None
    os.makedirs(os.path.dirname(program_path(root)), exist_ok=True)
    with open(f"{os.path.dirname(program_path(root))}/building", "w", encoding="utf-8") as held:
        fcntl.flock(held, fcntl.LOCK_EX)
        # (the sources are looked at again after each build, so that an edit made meanwhile leads to a new one)
        while not is_current(root):
            if not is_built(root):
                return None
    return program_path(root)


def is_built(root):
    """Proves and builds the program, and returns whether that was done."""
    crates = below(root, PROGRAM)
    text, logs = made_of(root, crates), tempfile.mkdtemp(prefix="quads-build-")
    say(f"proving and building the program, {len(crates)} crates, which takes a while the first time; logs: {logs}")
    failed = build(root, crates, logs, words_of, lambda crate, left: say(f"proving {crate}, {left} left"))
    if failed:
        say(f"{failed} was not built: {logs}/{failed}.log says why")
        return False
    put_stamp(root, text)
    return True


def words_of(crate):
    """Returns the command that builds a crate. A library keeps what the crates above it can cite, and not its proofs, which each of them
    would load again."""
    return ["rt", "run", "--", "--help"] if crate == PROGRAM else ["rt", "lib", "--statements"]


def runnable(root):
    """Returns where the program stands that ./quads runs, and builds it first if it must; None where that fails."""
    program, why = released(root)
    return program or built(root, why)


def asked(root, named):
    """Returns where the program stands that a script is to run: the one that is named, or else the one that ./quads runs. The script ends
    with status 3 where there is none."""
    program = os.path.abspath(named) if named else runnable(root)
    if program is None:
        sys.exit(3)
    if not os.access(program, os.X_OK):
        say(f"there is no program {program}")
        sys.exit(3)
    return program


# ---- the form in which programs are compared and packed


def stripped(data):
    """Returns a program without its table of symbols and its comments: its segments, and the sections that are loaded.

    # Errors

    ValueError where it is no program for x86-64."""
    if data[:6] != b"\x7fELF\x02\x01" or data[18:20] != b"\x3e\x00":
        raise ValueError("this is no program for x86-64")
    try:
        return stripped_elf(data)
    except (struct.error, IndexError):
        raise ValueError("this is no whole program") from None


def stripped_elf(data):
    segments_at, sections_at = struct.unpack_from("<QQ", data, 32)
    segments, _, sections, names_at = struct.unpack_from("<HHHH", data, 56)
    # (of a segment the head says where its bytes stand in the file, and how many)
    end = max(sum(struct.unpack_from("<Q16xQ", data, segments_at + 56 * at + 8)) for at in range(segments))
    heads = [struct.unpack_from(SECTION, data, sections_at + 64 * at) for at in range(sections)]
    # (the first is empty; bit 2 is that of what is loaded)
    kept = [at for at, head in enumerate(heads) if at == 0 or at == names_at or head[2] & 2]
    place = {at: new for new, at in enumerate(kept)}
    names = data[heads[names_at][4] :][: heads[names_at][5]]
    made = data[:end] + names + bytes(-(end + len(names)) % 8)
    table = b"".join(section_head(heads[at], place, end if at == names_at else heads[at][4]) for at in kept)
    head = bytearray(made)
    struct.pack_into("<Q", head, 40, len(made))
    struct.pack_into("<HH", head, 60, len(kept), place[names_at])
    return bytes(head) + table


SECTION = "<IIQQQQIIQQ"
"""The head of a section: its name, kind, flags, address, place in the file, size, two numbers that may name a section, alignment, entry size."""


def section_head(head, place, start):
    """Returns the head of a section that begins there in the file, where the sections have new numbers."""
    name, kind, flags, address, _, size, link, info, align, entry = head
    # (the second number names a section where the flag for it is set, and in tables of relocations)
    info = place.get(info, 0) if flags & 0x40 or kind in (4, 9) else info
    return struct.pack(SECTION, name, kind, flags, address, start, size, place.get(link, 0), info, align, entry)


def kit_line():
    """Returns the line that names the kit here, or None where there is none."""
    rt = shutil.which("rt")
    ran = rt and subprocess.run([rt, "version"], stdin=subprocess.DEVNULL, capture_output=True, text=True)
    return ran.stdout.strip() if ran and ran.returncode == 0 else None


def libc_of(data):
    """Returns the version of the GNU C library that a program needs, as "2.34".

    # Errors

    ValueError where it names none."""
    versions = [tuple(map(int, found.split(b"."))) for found in re.findall(rb"\0GLIBC_([0-9]+(?:\.[0-9]+)+)(?=\0)", data)]
    if not versions:
        raise ValueError("the program names no version of the GNU C library")
    return ".".join(map(str, max(versions)))
