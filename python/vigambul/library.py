"""The proved library, include/vigambul.h: the run, the extracts for a class and for a set of classes, the bound of a walk, the two recordings of a log, which events of two
recordings have partners, and the policies of every small order."""

import ctypes
from array import array

from .errors import Wrong
from .policies import LARGEST_FILE, class_mask

_WORD = "I" if array("I").itemsize == 4 else "L"


def _lent(numbers):
    """A slice for C: a pointer and the number of elements. The array must outlive the call."""
    address, length = numbers.buffer_info()
    return ctypes.c_void_p(address), ctypes.c_size_t(length)


_SLICE = [ctypes.c_void_p, ctypes.c_size_t]
_NUMBER = [ctypes.POINTER(ctypes.c_uint32)]
_EXTRACT = _SLICE + [ctypes.c_uint32] + _SLICE * 3 + _NUMBER
_SIZE = [ctypes.POINTER(ctypes.c_size_t)]
_MATCH = _SLICE * 2 + [ctypes.c_uint8] + _NUMBER + _SIZE
_RECORD = _SLICE * 2 + [ctypes.c_uint32] + _SLICE + _SIZE
_ORDER = [ctypes.c_uint32] * 2 + _SLICE * 2 + _SIZE


def _function(shared, name, answer, arguments):
    """A function of the library; None where it lacks that. One that was built before a request landed does, and may be in use where it cannot be built anew."""
    function = getattr(shared, name, None)
    if function:
        function.restype, function.argtypes = answer, arguments
    return function


def _there(function, what):
    """A function that is to be called, unless the library is too old to have it."""
    if not function:
        raise Wrong("the built library is too old to say %s: it is built anew where the Rattle kit's command rt is on the path" % what)
    return function


def _extracted(function, policy, whose, trace, log):
    """The status of an extract, for a class or a set as the function takes it, and its numbers."""
    file, calls, lines = array("B", policy), array(_WORD, trace), array(_WORD, log)
    out = array(_WORD, bytes(16 * len(calls)))
    status = ctypes.c_uint32()
    count = function(*_lent(file), whose, *_lent(calls), *_lent(lines), *_lent(out), ctypes.byref(status))
    return status.value, out[:count]


def _recorded(function, trace, log, start):
    """The status of a recording of a log that begins at a cycle, and its numbers: cycle, word, cycle, word."""
    function = _there(function, "what a lab would record of a run")
    calls, lines = array(_WORD, trace), array(_WORD, log)
    out = array(_WORD, bytes(8 * len(calls)))
    count = ctypes.c_size_t()
    status = function(*_lent(calls), *_lent(lines), start, *_lent(out), ctypes.byref(count))
    return status, out[: count.value]


class Library:
    """The functions of a shared object that was linked from the proved static library."""

    def __init__(self, path):
        shared = ctypes.CDLL(str(path))
        self._run = _function(shared, "vigambul_run", ctypes.c_uint32, _SLICE * 3)
        self._extract = _function(shared, "vigambul_extract", ctypes.c_size_t, _EXTRACT)
        # New with W-212, W-211, W-204 and W-208.
        self._walk_bound = _function(shared, "vigambul_walk_bound", ctypes.c_uint32, _SLICE + [ctypes.c_uint32] + _NUMBER)
        self._extract_set = _function(shared, "vigambul_extract_set", ctypes.c_size_t, _EXTRACT)
        self._match = _function(shared, "vigambul_match", ctypes.c_uint32, _MATCH)
        self._wires = _function(shared, "vigambul_wires", ctypes.c_uint32, _RECORD)
        self._cores = _function(shared, "vigambul_cores", ctypes.c_uint32, _RECORD)
        self._order = _function(shared, "vigambul_order", ctypes.c_uint32, _ORDER)

    def read(self, policy):
        """The proved reader's answer to a policy file's bytes: 0, or the number that refuses it."""
        return self.run(policy, ())[0]

    def run(self, policy, trace):
        """The status of a run from the policy's fresh state, and its log."""
        file, calls = array("B", policy), array(_WORD, trace)
        log = array(_WORD, bytes(16 * len(calls)))
        status = self._run(*_lent(file), *_lent(calls), *_lent(log))
        return status, log

    def extract(self, policy, seen_by, trace, log):
        """The status of an extract for a class, and its numbers."""
        return _extracted(self._extract, policy, seen_by, trace, log)

    def extract_set(self, policy, classes, trace, log):
        """The status of an extract for a set of classes, and its numbers: what may flow to at least one of them."""
        function = _there(self._extract_set, "what several classes see together, or none")
        return _extracted(function, policy, sum(map(class_mask, set(classes))), trace, log)

    def walk_bound(self, policy, first):
        """The status of the question how many classes a walk that starts at a class tries at most, and the answer: the classes on the longest rising chain from it, itself counted."""
        function = _there(self._walk_bound, "how many classes a walk may try")
        file = array("B", policy)
        status = ctypes.c_uint32()
        bound = function(*_lent(file), first, ctypes.byref(status))
        return status.value, bound

    def wires(self, trace, log, start):
        """The status of the recording of a log's activates, and its numbers; `start` is the number of ticks that were made before the log."""
        return _recorded(self._wires, trace, log, start)

    def cores(self, trace, log, start):
        """The same of a log's answers."""
        return _recorded(self._cores, trace, log, start)

    def match(self, wires, cores, delay):
        """Two recordings held together under an answer delay, 0 to 255. The status, 0 or 18; which recording it is about, 1 the wires' and 2 the cores' (the one that is unsound, or
        holds the first event without a partner), 0 where all have partners; and the place in it at which the rest begins, which is the wires' end where there is none."""
        function = _there(self._match, "which events of two recordings have partners")
        activates, answers = array(_WORD, wires), array(_WORD, cores)
        which, at = ctypes.c_uint32(), ctypes.c_size_t()
        status = function(*_lent(activates), *_lent(answers), delay, ctypes.byref(which), ctypes.byref(at))
        return status, which.value, at.value

    def order(self, classes, place, timing):
        """The status of the question for an order of so many classes by its place, from 0, and the bytes of its policy file, with the bytes of a timing body in it; none where it is
        refused, and none, with status 0, past the last. The two numbers are of 32 bits."""
        function = _there(self._order, "which small orders there are")
        body, file = array("B", timing), array("B", bytes(LARGEST_FILE))
        length = ctypes.c_size_t()
        status = function(classes, place, *_lent(body), *_lent(file), ctypes.byref(length))
        return status, file[: length.value].tobytes()
