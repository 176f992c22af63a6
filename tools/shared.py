"""What the tools share: files and crates of the repository, the built program, rows of whole runs, times, and how a tool ends."""
import argparse
import collections
import hashlib
import json
import os
import pathlib
import re
import resource
import shutil
import subprocess
import sys
import time

ROOT = pathlib.Path(__file__).resolve().parent.parent
NAME = "/".join(pathlib.Path(sys.argv[0]).resolve().parts[-2:])  # of the tool that runs, as check/docs
NOT_TRIED = 77  # the exit status of a tool that lacks what it needs


def read(path):
    return path.read_text(encoding="utf-8")


# The program


def located(name):
    """The path of a program by its name or path, from any working directory."""
    return os.path.abspath(shutil.which(name) or name)


def program_of(variable, built):
    """The program that a variable of the environment names, or else the built one."""
    return located(os.environ.get(variable, str(built)))


BUILT = ROOT / "crates/szl_cli/out/szl_cli"  # the program that ./szl builds, which the gate checks
PROGRAM = program_of("SZL", BUILT)  # the program that is tried and measured


def build():
    """Builds the program if there is none or a source is newer. Returns whether there is one."""
    return subprocess.run([ROOT / "szl"], capture_output=True, stdin=subprocess.DEVNULL).returncode != 125


# The call of a tool, and its end


def parser(about, tries_program=False):
    """A parser of the tool's arguments, whose help is what the tool says about itself."""
    call = str(pathlib.Path(sys.argv[0]).resolve().relative_to(ROOT))
    made = argparse.ArgumentParser(prog=call, description=about, formatter_class=argparse.RawDescriptionHelpFormatter)
    if tries_program:
        made.add_argument("--program", metavar="FILE", type=located, default=PROGRAM, help="try this program, not the built one or $SZL")
    return made


def not_tried(why):
    """Ends a tool that can't do its work on this machine."""
    print(f"{NAME}: not tried: {why}")
    sys.exit(NOT_TRIED)


def needs(*programs):
    """Ends the tool as not tried if one of these programs, each a path or a name, isn't there."""
    lacking = [str(it).removeprefix(f"{ROOT}/") for it in programs if shutil.which(it) is None]
    if lacking:
        not_tried(f"no {', '.join(lacking)}")


def lacks_for_proto():
    """What bin/szl-proto needs and this machine hasn't."""
    if lacking := [it for it in ("/usr/bin/python3", "protoc") if shutil.which(it) is None]:
        return lacking
    module = subprocess.run(["/usr/bin/python3", "-c", "import google.protobuf.descriptor_pb2"], capture_output=True)
    return ["python3-protobuf"] if module.returncode else []


def fail(why):
    """Ends a tool that has met what it doesn't expect."""
    sys.exit(f"{NAME}: {why}")


def verdict(wrong, counted="", more=""):
    """Prints the last line of a tool that checks or tries, which tools/long reads. Returns the exit status."""
    print(f"{NAME}: {counted}{', ' if counted else ''}{wrong} wrong{more}")
    return int(wrong > 0)


def write_or_check(about, make):
    """Writes the files that a function returns with their texts, and removes those without one. With --check it writes nothing, and says which
    differ. Returns the exit status."""
    asked = parser(about)
    asked.add_argument("--check", action="store_true", help="write nothing, and end with status 1 if a file isn't what would be written")
    is_check, files = asked.parse_args().check, make()
    differ = [it for it, text in files.items() if text != (read(it) if it.is_file() else None)]
    for it in differ:
        name = it.relative_to(ROOT)
        if is_check:
            print(f"{name}: isn't what tools/{NAME} writes")
        elif files[it] is None:
            it.unlink()
            print(f"{NAME}: removed {name}")
        else:
            it.write_text(files[it], encoding="utf-8")
            print(f"{NAME}: wrote {name}")
    return int(is_check and bool(differ))


# Crates and their edits


def stands_on(root=ROOT):
    """The crates of crates.txt, in its order, each with the names after its colon."""
    lines = (it.split("#")[0] for it in read(root / "crates.txt").split("\n"))
    return {it.split(":")[0].split()[0]: it.split(":")[1].split() for it in lines if ":" in it}


def further_edits(crate):
    return sorted((ROOT / "crates" / crate / "more-edits").glob("*.edit"))


def sum_of(crate):
    """The checksum of the crate's code, definitions, proofs and further edits."""
    folder, found = ROOT / "crates" / crate, hashlib.sha256()
    files = [it for part in ("src", "specs", "proofs") for it in (folder / part).rglob("*") if it.is_file()]
    for it in sorted([*files, *further_edits(crate)]):
        found.update(repr((str(it.relative_to(folder)), it.read_bytes())).encode())
    return found.hexdigest()


def noted(crate):
    """The file with the checksum of the texts on which the crate's further edits were last refused."""
    return ROOT / "crates" / crate / "more-edits" / "refused"


# Rows of whole runs. Each row of the drawn ones is for each number of workers.
ROWS = ["runs", "workers", "skipping", "kill_lists", "kill_lists_of_pairs", "kill_lists_and_faults", "kill_lists_and_skips"]
ROWS += ["tables", "expressions", "statements", "expression_ticks", "statement_ticks", "searches", "messages", "protos", "ignoring", "checks"]
DRAWN_ROWS = ["drawn_skips"]


def rows_in(names):
    """The rows of these files of crates/szl_tests/src, in one page."""
    files = (ROOT / f"crates/szl_tests/src/{it}.rt" for it in names)
    return "\n".join(re.search(r'r#"(.*)"#', read(it), re.S).group(1) for it in files)


def plain(marked):
    """The text that a row has in one line."""
    return marked.replace("¶", "\n").replace("→", "\t")


def programs_in(page):
    """The programs of the rows of a page."""
    return [plain(it.split(" => ")[0]) for it in page.split("\n") if " => " in it and not it.startswith(("$", "!", "<"))]


# Messages, values and times


def varint(number):
    """The number as a varint of the protocol buffer wire format."""
    made = bytearray()
    while number > 127:
        made.append(number & 127 | 128)
        number >>= 7
    return bytes([*made, number])


ESCAPES = {"\n": "\\n", "\t": "\\t", "\r": "\\r", '"': '\\"', "\\": "\\\\"}


def shown(value):
    """A value as tables print it; an array or a tuple is a list here."""
    if isinstance(value, bool):
        return "true" if value else "false"
    if isinstance(value, str):
        return '"' + "".join(ESCAPES.get(it) or (it if " " <= it != "\x7f" else f"\\x{ord(it):02x}") for it in value) + '"'
    if isinstance(value, bytes):
        return 'B"' + "".join(ESCAPES.get(it) or (it if " " <= it <= "~" else f"\\x{ord(it):02x}") for it in value.decode("latin-1")) + '"'
    return "{" + ", ".join(map(shown, value)) + "}" if isinstance(value, list) else str(value)


def with_sign(number, bits=64):
    """The number of so many bits with the highest one as its sign, as the language reads whole numbers."""
    number &= (1 << bits) - 1
    return number - (1 << bits) if number >> (bits - 1) else number


def timed(work):
    """What a function returns, the CPU seconds of the processes that it starts and waits for, and its seconds of wall time."""
    begun, before = time.monotonic(), resource.getrusage(resource.RUSAGE_CHILDREN)
    returned = work()
    after, ended = resource.getrusage(resource.RUSAGE_CHILDREN), time.monotonic()
    return returned, after.ru_utime + after.ru_stime - before.ru_utime - before.ru_stime, ended - begun


# A small process runs a command for its costs, since what the starting process has counts for the peak memory too.
COSTS_OF = """import json, resource, subprocess, sys, time
begun = time.monotonic()
status = subprocess.call(sys.argv[1:], stdin=subprocess.DEVNULL, stdout=subprocess.DEVNULL)
ended, used = time.monotonic(), resource.getrusage(resource.RUSAGE_CHILDREN)
json.dump([status, used.ru_utime + used.ru_stime, ended - begun, used.ru_maxrss * 1024], sys.stdout)
"""
Costs = collections.namedtuple("Costs", "status cpu wall memory")  # seconds, and the most bytes


def costs(*commands):
    """Runs commands at the same time, with their output dropped. Returns the costs of each."""
    begun = [subprocess.Popen([sys.executable, "-c", COSTS_OF, *map(str, it)], stdout=subprocess.PIPE) for it in commands]
    return [Costs(*json.loads(it.communicate()[0])) for it in begun]
