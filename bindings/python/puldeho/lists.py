"""Numbers and lists as the library takes them: each number tested for its range, each list with its length."""
import array
import copy
import ctypes
import math
import operator

# For each type of a list's numbers: its array code, the formats of a buffer that holds them, its ctypes type.
NUMBERS = {"u32": ("I", ("I", "=I", "<I"), ctypes.c_uint32), "i32": ("i", ("i", "=i", "<i"), ctypes.c_int32)}
NUMPY = {"u32": "numpy.uint32", "i32": "numpy.int32"}


class Lent:
    """A list lent to the library: where it is, how many numbers it has, and what must not be freed meanwhile."""

    def __init__(self, block, length):
        self.block, self.length = block, length
        self.address = ctypes.addressof(block) if length else 0

    @property
    def pair(self):
        """Pointer and length."""
        return self.address, self.length


def whole(name, value, most):
    """A whole number from 0 to the most; ctypes would cut off any other without a word."""
    try:
        number = operator.index(value)
    except TypeError:
        raise TypeError("%s: %r is not a whole number" % (name, value)) from None
    if not 0 <= number <= most:
        raise ValueError("%s: %d is %s" % (name, number, "below 0" if number < 0 else "above %d" % most))
    return number


def u32(name, value):
    """A whole number of 32 bits without a sign."""
    return whole(name, value, 0xFFFFFFFF)


def u64(name, value):
    """A whole number of 64 bits without a sign."""
    return whole(name, value, 0xFFFFFFFFFFFFFFFF)


# The types of numbers by value.
VALUES = {"u32": u32, "u64": u64}


def flat(value):
    """The numbers of a list whose entries may be lists, such as pairs."""
    for one in value:
        yield from flat(one) if isinstance(one, (list, tuple)) else [one]


def nesting(value):
    """The shape of a list of lists, by the first entry of each."""
    return (len(value),) + nesting(value[0]) if isinstance(value, (list, tuple)) and value else ()


def owner(name, value, kind, shape):
    """The object whose memory is lent: the value itself if it has the buffer protocol, else an array with its numbers."""
    if isinstance(value, (dict, set, frozenset)):
        raise TypeError("%s: wants a list or an array, and has a %s" % (name, type(value).__name__))
    mask = getattr(value, "mask", None)
    if mask is not None and mask.any():
        raise ValueError("%s: has masked entries, whose numbers mean nothing" % name)
    try:
        memoryview(value)
        return value
    except TypeError:
        pass
    check_shape(name, nesting(value), shape)
    try:
        return array.array(NUMBERS[kind][0], flat(value))
    except (TypeError, OverflowError) as error:
        raise type(error)("%s: %s; its numbers are whole and of 32 bits" % (name, error)) from None


def copied(value):
    """A list with the same numbers in memory of its own."""
    return array.array("I", value.tobytes()) if isinstance(value, memoryview) else copy.copy(value)


def check_shape(name, has, wants):
    """Fails at several dimensions with as many numbers as wanted, in another order. Dimensions of 1 do not count."""
    several = [[size for size in shape if size != 1] for shape in (has, wants)]
    if len(has) > 1 and math.prod(has) == math.prod(wants) and several[0] != several[1]:
        raise ValueError("%s: has the shape %s, and wants %s, or one dimension" % (name, tuple(has), wants))


def lent(name, value, kind, shape):
    """A list that is lent as it is: the numbers must be of 32 bits and lie side by side."""
    numbers = kind[-4:-1]
    view = memoryview(value)
    _, formats, c_type = NUMBERS[numbers]
    if view.format not in formats or view.itemsize != 4:
        sort = "unsigned" if numbers == "u32" else "signed"
        raise TypeError(
            "%s: wants 32-bit %s numbers, and has items of format '%s'; an array of numpy becomes one by .astype(%s), "
            "after numpy.rint if it has fractions" % (name, sort, view.format, NUMPY[numbers])
        )
    if not view.c_contiguous:
        raise ValueError("%s: the numbers do not lie side by side; numpy.ascontiguousarray makes a copy that does" % name)
    check_shape(name, view.shape, shape)
    length = view.nbytes // 4
    if kind.startswith("&mut") and view.readonly:
        raise ValueError("%s: the calls change it, and it is read-only; give a copy" % name)
    block = c_type * length
    if length == 0:
        return Lent(None, 0)
    return Lent(block.from_buffer_copy(view) if view.readonly else block.from_buffer(value), length)


def argument(name, value, kind, shape):
    """One of a call's own arguments: a number, or a list of some shape."""
    if kind in VALUES:
        return VALUES[kind](name, value)
    return lent(name, owner(name, value, kind[-4:-1], shape), kind, shape)


def parts(one):
    """An argument as the proved function takes it: a number, or pointer and length."""
    return one.pair if isinstance(one, Lent) else (one,)
