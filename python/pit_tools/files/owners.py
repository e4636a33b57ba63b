"""The files and folders that are this user's own: code is run from no others.

It imports only modules of Python, since the launcher uses it before packages are found.
"""
import grp
import os
import pwd
import stat


def is_own(path: str, kind: int) -> bool:
    """Returns whether a path is a folder or a file of this user, not a link, which nobody else may
    write."""
    try:
        status = os.lstat(path)
    except OSError:
        return False
    return (stat.S_IFMT(status.st_mode) == kind and status.st_uid == os.geteuid()
            and not status.st_mode & 0o022)


def _lets_others(status: os.stat_result) -> bool:
    """Returns whether others than its owner may write in a folder: all, or a group that is not the
    user's own, which has the user's name."""
    if status.st_mode & 0o002:
        return True
    try:
        is_own_group = grp.getgrgid(status.st_gid).gr_name == pwd.getpwuid(os.geteuid()).pw_name
    except KeyError:
        is_own_group = False
    return bool(status.st_mode & 0o020) and not is_own_group


def nobody_moves(folder: str) -> bool:
    """Returns whether no folder above lets others replace this one."""
    while True:
        status = os.stat(folder)
        if status.st_uid not in (0, os.geteuid()) or (_lets_others(status)
                                                      and not status.st_mode & stat.S_ISVTX):
            return False
        if folder == os.path.dirname(folder):
            return True
        folder = os.path.dirname(folder)


def may_add(folder: str) -> bool:
    """Returns whether Python may look for packages in the folder of a user, and run its `.pth`
    files: the folder and these are the user's own, and others write to none of them."""
    try:
        real = os.path.realpath(folder)
        status = os.stat(real)
        if status.st_uid != os.geteuid() or _lets_others(status) or not nobody_moves(real):
            return False
        runs = [os.stat(os.path.join(real, name)) for name in os.listdir(real)
                if name.endswith(".pth")]
    except OSError:
        return False
    return all(one.st_uid in (0, os.geteuid()) and not _lets_others(one) for one in runs)
