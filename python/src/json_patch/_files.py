"""Files for the command: read whole, and written so that nothing is lost if it is killed."""
from __future__ import annotations

import errno
import os
import signal
import stat
import tempfile
from contextlib import contextmanager, suppress
from typing import Iterator, Optional, Union

STANDARD = "-"
_INPUT, OUTPUT, ERRORS = 0, 1, 2
_SIGNALS = signal.valid_signals()
_ACL = "system.posix_acl_access"
# what a folder's name ends with
_FOLDERS = ("", os.curdir, os.pardir)
# as many as the system follows
_MOST_LINKS = 40
# where a text comes from or goes: a file's name, or the number of one that is open
Place = Union[str, int]


def source(name: str) -> Place:
    return _INPUT if name == STANDARD else name


def read(name: str) -> bytes:
    """The bytes of a file, or of standard input for `-`."""
    with open(source(name), "rb", closefd=name != STANDARD) as file:
        return file.read()


def backup_of(name: str) -> str:
    """Where the old content of a file is kept: beside the file itself, where the name is a link."""
    return os.path.realpath(name) + ".orig"


def _known(place: Place) -> Optional[os.stat_result]:
    """What the system knows of what is there, or None."""
    try:
        return os.stat(place)
    except OSError:
        return None


def _is_one(first: Place, second: Place) -> bool:
    """Whether both are one file, terminal or pipe, or would be if there were one."""
    there, other = _known(first), _known(second)
    if there and other:
        return os.path.samestat(there, other)
    return isinstance(first, str) and isinstance(second, str) and os.path.realpath(first) == os.path.realpath(second)


def overwrites(result: Place, given: Place) -> bool:
    """Whether what is written to the one place would stand over what is read from the other. A terminal
    and a pipe may be both."""
    there = _known(given)
    passes_on = there and not stat.S_ISREG(there.st_mode) and not stat.S_ISBLK(there.st_mode)
    return not passes_on and _is_one(result, given)


def collide(first: Place, second: Place) -> bool:
    """Whether two results would go to one place, other than that which keeps nothing."""
    return _is_one(first, second) and not _is_one(first, os.devnull)


def is_no_file(name: str) -> bool:
    """Whether something is there that a new file can't replace."""
    there = _known(name)
    return _descriptor(name) is not None or (there is not None and not stat.S_ISREG(there.st_mode))


def _descriptor(name: str) -> Optional[int]:
    """The number of the open file that the name stands for, as /dev/stdout and /dev/fd/3 do."""
    own = os.path.realpath("/proc/self/fd")
    for _ in range(_MOST_LINKS):
        folder, last = os.path.split(name)
        if last.isascii() and last.isdecimal() and os.path.realpath(folder) == own:
            return int(last)
        if not os.path.islink(name):
            return None
        name = os.path.join(folder, os.readlink(name))
    return None


def write_to(descriptor: int, content: bytes) -> None:
    """Writes it all, with no buffer that would be written again at the process's end."""
    left = memoryview(content)
    while left:
        left = left[os.write(descriptor, left) :]


@contextmanager
def _signals_wait() -> Iterator[None]:
    """A signal that ends the process comes after the block, so that no file is left lying."""
    before = signal.pthread_sigmask(signal.SIG_BLOCK, _SIGNALS)
    try:
        yield
    finally:
        signal.pthread_sigmask(signal.SIG_SETMASK, before)


def replace(name: str, content: bytes, keeps_old: bool = False) -> None:
    """Gives a file another content, all or nothing, and keeps its owner and permissions: a new file is
    written beside it, and renamed over it. With `keeps_old` the old content is in a file NAME.orig
    before. Of a link the file is replaced that it leads to. What is no regular file is written to, and so
    is an open one, such as /dev/stdout, from where it stands."""
    there, descriptor = _known(name), _descriptor(name)
    if descriptor is not None:
        write_to(descriptor, content)
        return
    if there and not stat.S_ISREG(there.st_mode):
        _write_over(name, content)
        return
    # of a folder that isn't there realpath would make a file's name
    if os.path.basename(name) in _FOLDERS:
        raise IsADirectoryError(errno.EISDIR, os.strerror(errno.EISDIR))
    name = os.path.realpath(name)
    with _signals_wait():
        like = name if there else None
        if keeps_old and there:
            _renamed_over(backup_of(name), read(name), like)
        _renamed_over(name, content, like)
        _settle(os.path.dirname(name))


def _write_over(name: str, content: bytes) -> None:
    descriptor = os.open(name, os.O_WRONLY)
    try:
        write_to(descriptor, content)
    finally:
        os.close(descriptor)


def _renamed_over(name: str, content: bytes, like: Optional[str]) -> None:
    """Writes a new file beside one of this name, with the permissions of another, and renames it over that when it
    is on the disk."""
    folder, last = os.path.split(name)
    descriptor, new = tempfile.mkstemp(prefix=f".{last[:60]}.", dir=folder)
    try:
        try:
            write_to(descriptor, content)
            _permit(descriptor, like)
            os.fsync(descriptor)
        finally:
            os.close(descriptor)
        os.replace(new, name)
    except BaseException:
        os.unlink(new)
        raise


def _permit(descriptor: int, like: Optional[str]) -> None:
    """Gives an open file the owner, the group and the permissions of another, or those of a new one."""
    if not like:
        os.fchmod(descriptor, 0o666 & ~_mask())
        return
    there, acl = os.stat(like), _acl_of(like)
    # one who isn't root can't give a file away, and keeps it; but may give it to a group of his
    for owner, group in (-1, there.st_gid), (there.st_uid, -1):
        with suppress(PermissionError):
            os.fchown(descriptor, owner, group)
    # where there is a list for access, the mode has its mask in place of the group's permissions
    if acl:
        os.setxattr(descriptor, _ACL, acl)
    else:
        # a folder can give its new files one
        with suppress(OSError):
            os.removexattr(descriptor, _ACL)
    os.fchmod(descriptor, stat.S_IMODE(there.st_mode))


def _acl_of(name: str) -> Optional[bytes]:
    """The list for access of a file, if it has one."""
    try:
        return os.getxattr(name, _ACL)
    except OSError:
        return None


def _mask() -> int:
    """The permissions that a new file doesn't get."""
    mask = os.umask(0)
    os.umask(mask)
    return mask


def _settle(folder: str) -> None:
    """Has the disk know the names of a folder."""
    with suppress(OSError):
        descriptor = os.open(folder, os.O_RDONLY)
        try:
            os.fsync(descriptor)
        finally:
            os.close(descriptor)
