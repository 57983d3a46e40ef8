"""The momenta on record, "ask, then commit": a text of their bits, which a start replaces. `slewtext record`, `start` and `problem --record` call it."""

import contextlib
import fcntl
import itertools
import os
import tempfile

from slewforms import Fault, floats, form, read_forms, reason, to_hex


def record_text(momenta):
    return "(record\n " + form("momenta", momenta) + ")\n"


def read_record(text):
    forms = read_forms(text, "record")
    if len(forms) != 1 or forms[0][:1] != ["momenta"] or len(forms[0]) > 9:
        raise Fault("A record is one line (momenta ..) of at most 8 floats.")
    return floats(forms[0])


def first_different(record, began):
    """The first wheel whose bits differ or that only one of them has; None where there is none. -0 differs from 0; all NaNs are one."""
    pairs = itertools.zip_longest(map(to_hex, record), map(to_hex, began))
    return next((wheel for wheel, (a, b) in enumerate(pairs) if a != b), None)


@contextlib.contextmanager
def locked(name):
    """The record's folder is this start's alone meanwhile: the file itself is replaced."""
    try:
        folder = os.open(os.path.dirname(os.path.realpath(name)), os.O_RDONLY)
    except OSError as fault:
        raise Fault(f"{name} cannot be read: {reason(fault)}.")
    try:
        fcntl.flock(folder, fcntl.LOCK_EX)
        yield
    finally:
        os.close(folder)


def replace_file(name, text):
    """The file has the old text or the new one, whatever happens meanwhile."""
    target = os.path.realpath(name)
    try:
        handle, beside = tempfile.mkstemp(dir=os.path.dirname(target), prefix=".record-")
        try:
            with os.fdopen(handle, "w", encoding="ascii") as file:
                file.write(text)
                file.flush()
                os.fsync(file.fileno())
            os.chmod(beside, os.stat(target).st_mode & 0o777)
            os.replace(beside, target)
        except BaseException:
            os.unlink(beside)
            raise
    except OSError as fault:
        raise Fault(f"{name} cannot be written: {reason(fault)}.")
