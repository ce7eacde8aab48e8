"""NetCDF files: opened with errors that name file and variable, written whole or not at all, and known by their checksums."""
import contextlib
import hashlib
import os

import netCDF4
import numpy as np


class Bad(Exception):
    """Bad input or bad usage, in words for the user. Nothing has been written."""


def cause(error):
    """What the system or the NetCDF library says, without the file's name, which stands before it already."""
    return getattr(error, "strerror", None) or str(error)


def classic_length(path, data):
    """The least length in bytes of a file in the classic format: all values of its variables and records. 0 for another format."""
    if not data.data_model.startswith("NETCDF3"):
        return 0
    return sum(one.size * one.dtype.itemsize for one in data.variables.values())


@contextlib.contextmanager
def opened(path):
    """The NetCDF file for reading. A file that is cut off, or is none, is told by its name."""
    try:
        data = netCDF4.Dataset(path)
    except OSError as error:
        advice = "; is it cut off, or no NetCDF file?" if os.path.isfile(path) else ""
        raise Bad("%s: cannot be read: %s%s" % (path, cause(error), advice)) from None
    with data:
        if os.path.getsize(path) < classic_length(path, data):
            raise Bad("%s: is cut off: it has %d bytes, and its variables alone want %d"
                      % (path, os.path.getsize(path), classic_length(path, data)))
        yield data


def variable(data, name):
    """A variable that must be there."""
    if name not in data.variables:
        raise Bad("%s: has no variable %s; it has %s" % (data.filepath(), name, ", ".join(sorted(data.variables)) or "none"))
    return data.variables[name]


def values(data, one, index=Ellipsis):
    """The numbers of a variable, or of a part of it. None may be missing or infinite."""
    try:
        found = one[index]
    except (OSError, RuntimeError, IndexError) as error:
        raise Bad("%s: %s cannot be read: %s; is the file cut off?" % (data.filepath(), one.name, cause(error))) from None
    numbers = np.ma.filled(np.ma.asarray(found, dtype=np.float64), np.nan)
    wrong = ~np.isfinite(numbers)
    if wrong.any():
        first = np.argwhere(np.atleast_1d(wrong))[0].tolist()
        raise Bad("%s: %s has %d of %d values that are missing, not a number or infinite, the first at %s%s"
                  % (data.filepath(), one.name, wrong.sum(), numbers.size, first, place_in(index)))
    return numbers


def place_in(index):
    """Which part of a variable was read, in words."""
    return " of time %d (counted from 0)" % index[0] if isinstance(index, tuple) and index else ""


def checksum(path):
    """The SHA-256 of a file."""
    found = hashlib.sha256()
    with open(path, "rb") as file:
        for block in iter(lambda: file.read(1 << 20), b""):
            found.update(block)
    return found.hexdigest()


@contextlib.contextmanager
def made(path):
    """A NetCDF file to be written. It has its name only when it is whole; if anything fails, nothing is left."""
    folder, name = os.path.split(os.path.abspath(path))
    part = os.path.join(folder, ".%s.%d.part" % (name, os.getpid()))
    try:
        data = netCDF4.Dataset(part, "w", format="NETCDF4")
    except OSError as error:
        raise Bad("%s: cannot be written: %s" % (path, cause(error))) from None
    try:
        with data:
            data.Conventions = "CF-1.8"
            yield data
        os.replace(part, path)
    finally:
        if os.path.exists(part):
            os.remove(part)


def put(data, name, kind, dimensions, numbers, **attributes):
    """One variable with its numbers and attributes."""
    packed = {"zlib": True, "complevel": 4, "shuffle": True} if np.size(numbers) > 64 and kind is not str else {}
    one = data.createVariable(name, kind, dimensions, **packed)
    one.setncatts(attributes)
    one[...] = np.array(numbers, dtype=object) if kind is str else numbers


def kind_of(data):
    """Which of this package's files it is, "day" or "run"; None for another."""
    return getattr(data, "puldeho_file", None)


def wanted(data, kind):
    """Fails unless the file is of that kind and of this format."""
    found = kind_of(data)
    if found != kind:
        what = "a file of winds or another" if found is None else "a %s file" % found
        raise Bad("%s: is %s, and a %s file is wanted (puldeho %s writes it)"
                  % (data.filepath(), what, kind, {"day": "fluxes", "run": "run"}[kind]))
