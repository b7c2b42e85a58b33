"""A folder with policy.bin and trace.bin, as the program takes it. What is missing is an error with its name."""

from contextlib import contextmanager
from dataclasses import dataclass
from pathlib import Path

from .errors import Refused, Wrong
from .formats import REFUSALS, words_of
from .policies import Names, Policy, names_beside, policy_of
from .words import policy_refusal_words


# A name of a file need not be text; where it stands in a text, it is escaped.
ESCAPED = "backslashreplace"


def read_file(path):
    """The bytes of a file that must be there."""
    path = Path(path)
    if path.is_dir():
        raise Wrong("%s: a folder, where a file is wanted" % path)
    try:
        return path.read_bytes()
    except FileNotFoundError:
        raise Wrong("%s: no such file" % path) from None
    except OSError as error:
        raise Wrong("%s: %s" % (path, error.strerror)) from None


def write_file(path, data):
    """Writes bytes or text to a file."""
    path = Path(path)
    try:
        if isinstance(data, bytes):
            path.write_bytes(data)
        else:
            path.write_text(data, encoding="utf-8", errors=ESCAPED)
    except OSError as error:
        raise Wrong("%s: %s" % (path, error.strerror)) from None


@contextmanager
def writing(path):
    """A file that is written bit by bit, as text."""
    try:
        with open(path, "w", encoding="utf-8", errors=ESCAPED) as file:
            yield file
    except OSError as error:
        raise Wrong("%s: %s" % (path, error.strerror)) from None


def policy_path(given):
    """The policy file that is named by itself or by its folder."""
    path = Path(given)
    return path / "policy.bin" if path.is_dir() else path


def taken_file(library, path):
    """The bytes of a policy file that the proved reader must take."""
    data = read_file(path)
    status = library.read(data)
    if status != 0:
        raise Refused("%s: %s" % (path, policy_refusal_words(status)))
    return data


@dataclass
class Folder:
    """What stands in a folder: the policy file's bytes, the trace's words, the bytes left over after them, and the names of the classes."""

    path: Path
    policy_bytes: bytes
    trace: object
    left_over: int
    names: Names

    @property
    def name(self):
        """The folder's own name, without the way to it."""
        return self.path.resolve().name


def folder_at(path):
    path = Path(path)
    if not path.is_dir():
        raise Wrong("%s: no such folder" % path if not path.exists() else "%s: not a folder" % path)
    policy_bytes = read_file(path / "policy.bin")
    trace, left_over = words_of(read_file(path / "trace.bin"))
    return Folder(path, policy_bytes, trace, left_over, names_beside(path / "policy.bin"))


@dataclass
class Ran:
    """A folder's run by the proved library: its policy, and the log, four numbers for each trace number."""

    folder: Folder
    policy: Policy
    log: object

    @property
    def names(self):
        return self.folder.names

    @property
    def trace(self):
        return self.folder.trace


def run_folder(library, folder):
    """Runs a folder's trace under its policy; a policy that is refused ends the command."""
    status, log = library.run(folder.policy_bytes, folder.trace)
    if status != 0:
        raise Refused("%s: %s" % (folder.path / "policy.bin", policy_refusal_words(status)))
    return Ran(folder, policy_of(folder.policy_bytes), log)


def extract_of(library, ran, members):
    """The numbers that a set of classes may see of a run's log, by the proved extract. One class is asked for as such, which a library of before W-211 answers as well."""
    extract, whose = (library.extract, *members) if len(members) == 1 else (library.extract_set, members)
    status, out = extract(ran.folder.policy_bytes, whose, ran.trace, ran.log)
    if status != 0:
        raise Refused("extract refused %d: %s" % (status, REFUSALS[status].when))
    return out
