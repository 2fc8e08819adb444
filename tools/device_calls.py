"""Runs a program on the two files of a package, and tells which calls it made on them: by a library that is loaded before it
(device_calls.c), which also fails one of these calls, or ends the program before one."""
import collections
import contextlib
import json
import os
import pathlib
import re
import shutil
import subprocess
import tempfile

# A call on a file: its kind, the file, the place, how many bytes, and those of a write.
Call = collections.namedtuple("Call", "kind file at length bytes")
# A run: its status, what it printed, what it told of failures, and its calls.
Ran = collections.namedtuple("Ran", "status out err calls")
NAMES = {"home": "home.msi", "log": "home.log"}


def calls_of(trace):
    """The calls that the library wrote down."""
    found, at = [], 0
    while at < len(trace):
        line = re.compile(rb"(\w+) (\w+) (\d+) (\d+)\n").match(trace, at)
        kind, file, place, length = line[1].decode(), line[2].decode(), int(line[3]), int(line[4])
        end = line.end() + (length if kind in ("write", "append") else 0)
        found.append(Call(kind, file, place, length, trace[line.end() : end]))
        at = end
    return found


class Files:
    """A folder with a package's home file and log, and the program."""

    def __init__(self, program, library, folder):
        self.program, self.library, self.folder = program, library, folder
        # the log that is named stands beside the package, too, for the words that only read
        os.symlink(NAMES["log"], f"{folder}/{NAMES['home']}.log")
        self.told = {}

    def put(self, home, log):
        """Puts these bytes into the two files; None stands for no file."""
        for name, content in (("home", home), ("log", log)):
            path = f"{self.folder}/{NAMES[name]}"
            if content is None:
                with contextlib.suppress(FileNotFoundError):
                    os.remove(path)
            else:
                with open(path, "wb") as it:
                    it.write(content)

    def get(self, name):
        """The bytes of one of the two files, or None."""
        try:
            with open(f"{self.folder}/{NAMES[name]}", "rb") as it:
                return it.read()
        except FileNotFoundError:
            return None

    def both(self):
        return self.get("home"), self.get("log")

    def do(self, word, *more, **settings):
        """A run of the program on the package and its log; the settings are the library's."""
        return self.traced(word, "home.msi", "home.log", *more, **settings)

    def adopt_in_place(self, **settings):
        """The package is put right where it lies."""
        return self.traced("adopt", "--in-place", "--log", "home.log", "home.msi", **settings)

    def export_of_table(self):
        """A folder with the file of a table, and bytes beside it."""
        folder = pathlib.Path(self.folder, "table")
        (folder / "T").mkdir(parents=True, exist_ok=True)
        (folder / "T.idt").write_bytes(b"Id\tText\tData\r\ni2\tS0\tV0\r\nT\tId\r\n3\tthree\tdata\r\n4\t\t\r\n")
        (folder / "T" / "data").write_bytes(b"\0\xff" * 2500)
        return "table"

    def import_table(self, **settings):
        """A table gets the rows of a file."""
        return self.traced("import", "--log", "home.log", "home.msi", f"{self.export_of_table()}/T.idt", **settings)

    def create(self, **settings):
        """A new package is made."""
        return self.do("create", **settings)

    def build(self, **settings):
        """One is made of a folder."""
        return self.traced("build", "--log", "home.log", "home.msi", self.export_of_table(), **settings)

    def traced(self, *line, **settings):
        """A run of the program on these words."""
        trace = f"{self.folder}/calls"
        with contextlib.suppress(FileNotFoundError):
            os.remove(trace)
        words = {"cwd": self.folder, "stdin": subprocess.DEVNULL, "stdout": subprocess.PIPE, "stderr": subprocess.PIPE}
        own = {"LD_PRELOAD": self.library, "FOLDER": self.folder, "CALLS": trace, **{name: str(it) for name, it in settings.items()}}
        ran = subprocess.run([self.program, *line], env={**os.environ, **own}, **words)
        try:
            with open(trace, "rb") as it:
                calls = calls_of(it.read())
        except FileNotFoundError:
            calls = []
        return Ran(ran.returncode, ran.stdout.decode(), ran.stderr.decode(), calls)

    def plain(self, *words):
        """A run of the program on these words, which isn't looked at."""
        how = {"cwd": self.folder, "stdin": subprocess.DEVNULL, "stdout": subprocess.PIPE, "stderr": subprocess.PIPE}
        ran = subprocess.run([self.program, *words], **how)
        return Ran(ran.returncode, ran.stdout.decode(), ran.stderr.decode(), [])

    def read(self, word, *more):
        """A run of a word that only reads, on the package and the log beside it."""
        return self.plain(word, "home.msi", *more)

    def exported(self):
        """The files that an export makes."""
        folder = f"{self.folder}/exported"
        ran = self.plain("export", "home.msi", "exported")
        made = {it.name: it.read_bytes() for it in sorted(pathlib.Path(folder).rglob("*")) if it.is_file()}
        shutil.rmtree(folder, ignore_errors=True)
        return ran.status, made

    def adopted(self):
        """The package that is adopted."""
        ran = self.plain("adopt", "adopted.msi", "home.msi")
        made = pathlib.Path(f"{self.folder}/adopted.msi").read_bytes() if ran.status == 0 else b""
        for name in ("adopted.msi", "adopted.msi.log"):
            with contextlib.suppress(FileNotFoundError):
                os.remove(f"{self.folder}/{name}")
        return ran.status, made

    def run(self, commands, *options, **settings):
        """A run of these commands, with the answers in place of what was printed."""
        with open(f"{self.folder}/commands.json", "w") as it:
            json.dump(commands, it)
        ran = self.do("run", "commands.json", *options, **settings)
        return ran._replace(out=[json.loads(line) for line in ran.out.splitlines()])


@contextlib.contextmanager
def files_of(program):
    """Such a folder, or None where no C compiler makes the library."""
    compiler = shutil.which("cc") or shutil.which("gcc") or shutil.which("clang")
    source = os.path.join(os.path.dirname(os.path.abspath(__file__)), "device_calls.c")
    with tempfile.TemporaryDirectory(prefix="calls-") as room:
        library, folder = f"{room}/device_calls.so", f"{os.path.realpath(room)}/files"
        os.mkdir(folder)
        is_made = compiler and not subprocess.run([compiler, "-shared", "-fPIC", "-o", library, source]).returncode
        yield Files(os.path.abspath(program), library, folder) if is_made else None


def counted(calls):
    """Those calls that the library counts: all but the program's output; without those by which at the end a closed log is cut, of which none
    matters to what is answered."""
    end = next((place for place, it in enumerate(calls) if it.kind == "cut"), len(calls))
    while end < len(calls) and end and calls[end - 1].kind in ("length", "read"):
        end -= 1
    return [it for it in calls[:end] if it.kind != "print"]
