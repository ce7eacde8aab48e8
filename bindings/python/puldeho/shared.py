"""The shared library: where it is found, and the types of its functions."""
import ctypes
import functools
import os

from .calls import ABI, OWN, SIGNATURES, SONAME, WIDE, WORLD

VALUES = {"u32": ctypes.c_uint32, "u64": ctypes.c_uint64}
HERE = os.path.dirname(os.path.abspath(__file__))


class World(ctypes.Structure):
    """struct puldeho_world."""

    _fields_ = [(letter, ctypes.c_uint32) for letter in "wrkn"] + [
        field for name in WORLD for field in ((name, ctypes.c_void_p), (name + "_length", ctypes.c_size_t))
    ] + [("own_" + name, ctypes.c_uint32 * most) for name, most in OWN.items()]


def place():
    """Where the library is: as PULDEHO_LIBRARY says; in the repository, target/lib; installed, the prefix of this package."""
    top = os.path.join(HERE, "..", "..", "..")
    folder = os.path.join(top, "target", "lib") if os.path.exists(os.path.join(top, "crates.txt")) else os.path.join(top, "..", "lib")
    return os.environ.get("PULDEHO_LIBRARY") or os.path.normpath(os.path.join(folder, SONAME))


@functools.lru_cache(maxsize=None)
def library():
    """The library, loaded once."""
    try:
        found = ctypes.CDLL(place())
    except OSError as error:
        advice = "tools/library builds it in the repository, tools/install PREFIX puts it under a prefix, and PULDEHO_LIBRARY may name the file"
        raise OSError("%s cannot be loaded (%s): %s" % (place(), error, advice)) from None
    if not hasattr(found, ABI):
        raise OSError("%s is the library of another version; this package wants %s" % (place(), SONAME))
    return found


def types(parameters):
    """The ctypes types of parameters: a list is a pointer and a length."""
    for _, kind in parameters:
        yield from [VALUES[kind]] if kind in VALUES else [ctypes.c_void_p, ctypes.c_size_t]


@functools.lru_cache(maxsize=None)
def raw(call, ending, returned):
    """A proved function of a call, by the ending of its name and the type that it returns."""
    function = getattr(library(), "puldeho_raw_" + call + ending)
    function.restype = returned
    function.argtypes = [ctypes.c_uint32] * 4 + list(types(SIGNATURES[call]))
    return function


def outcome(call, *arguments):
    """The refusal's number, 0 if the call was accepted, and the count."""
    if call in WIDE:
        refusal = raw(call, "", ctypes.c_uint32)(*arguments)
        return refusal, raw(call, "_number", ctypes.c_uint64)(*arguments)
    return divmod(raw(call, "", ctypes.c_uint64)(*arguments), 1 << 32)


@functools.lru_cache(maxsize=None)
def why(call):
    """The function that says why a call is refused."""
    function = getattr(library(), "puldeho_why_" + call)
    own = [parameter for parameter in SIGNATURES[call] if parameter[0] not in WORLD]
    function.restype = ctypes.c_int
    function.argtypes = [ctypes.POINTER(World)] + list(types(own)) + [ctypes.c_char_p, ctypes.c_size_t]
    return function
