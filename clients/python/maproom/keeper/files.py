"""Files that survive a crash of the program or of the machine.

An operator may run a command as root in a folder that belongs to another user. So no call follows a link from there,
or waits for whoever writes to a pipe.
"""
from __future__ import annotations

import errno
import os
import stat
from typing import BinaryIO, Iterable


def sync_folder(path: str) -> None:
    """Makes new, renamed and deleted names in a folder durable."""
    folder = os.open(path, os.O_RDONLY | os.O_DIRECTORY)
    try:
        os.fsync(folder)
    finally:
        os.close(folder)


def write_all(file: int, content: bytes) -> None:
    """Writes the whole content to an open file."""
    rest = memoryview(content)
    while rest:
        rest = rest[os.write(file, rest) :]


def opened_to_read(path: str, more: int = 0) -> BinaryIO:
    """Opens a regular file, to read it or as the flags `more` say.

    Raises OSError, also for a link, a pipe, or anything else that is no regular file."""
    file = os.open(path, os.O_RDONLY | os.O_NOFOLLOW | os.O_NONBLOCK | os.O_CLOEXEC | more)
    if not stat.S_ISREG(os.fstat(file).st_mode):
        os.close(file)
        raise OSError(errno.EINVAL, "Not a regular file", path)
    return os.fdopen(file, "r+b" if more & os.O_RDWR else "rb")


def is_no_file(fault: OSError) -> bool:
    """Whether `opened_to_read` raised an exception for a link or for what is no regular file."""
    return fault.errno in (errno.ELOOP, errno.EINVAL, errno.ENXIO, errno.EISDIR)


def replace_durably(path: str, parts: Iterable[bytes]) -> None:
    """Replaces a file by new content. After a crash, the file has either its old content or all of the new content.

    Raises OSError if the new content cannot be saved; the old content then stays.
    """
    new = f"{path}.new"
    try:
        if os.path.lexists(new):
            os.unlink(new)
        file = os.open(new, os.O_WRONLY | os.O_CREAT | os.O_EXCL | os.O_NOFOLLOW | os.O_CLOEXEC, 0o644)
        try:
            for part in parts:
                write_all(file, part)
            os.fsync(file)
        finally:
            os.close(file)
        os.rename(new, path)
    except BaseException:
        remove(new)
        raise
    sync_folder(os.path.dirname(path) or ".")


def remove(path: str) -> None:
    """Removes a file, if it is there and can be removed."""
    try:
        os.unlink(path)
    except OSError:
        pass
