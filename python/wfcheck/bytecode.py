"""The module's bytecode, for commands that run from a folder in which Python keeps none: a clone, or an installation that root made.

It is kept in the user's cache folder, below `wfcheck`, so that a command doesn't compile the module each time. A folder counts if it is
the user's own, and nobody else may write into it: whoever can write bytecode decides what runs. Where Python is told to keep none, or none
can be kept, the module is compiled in memory."""
import gc
import importlib.machinery
import os
import stat
import sys
from types import CodeType, ModuleType
from typing import Optional, Sequence

from .version import VERSION

NAME = __name__.partition(".")[0]
FOLDER = os.path.dirname(os.path.abspath(__file__))


class Loader(importlib.machinery.SourceFileLoader):
    """Loads a part of the module. Its bytecode stands below another folder than its source."""
    folder = ""

    def get_code(self, fullname: str) -> Optional[CodeType]:
        """The code of a part. For all others Python keeps bytecode as it did before."""
        before = sys.pycache_prefix, sys.dont_write_bytecode
        sys.pycache_prefix, sys.dont_write_bytecode = self.folder, False
        try:
            return super().get_code(fullname)
        finally:
            sys.pycache_prefix, sys.dont_write_bytecode = before


class Finder:
    """Finds the parts of the module that are sources, and has them loaded by a loader."""

    @staticmethod
    def find_spec(fullname: str, path: Optional[Sequence[str]] = None,
                  target: Optional[ModuleType] = None) -> Optional[importlib.machinery.ModuleSpec]:
        """Where a part of the module is; None for all that is none."""
        if not fullname.startswith(f"{NAME}."):
            return None
        found = importlib.machinery.PathFinder.find_spec(fullname, path, target)
        if found and type(found.loader) is importlib.machinery.SourceFileLoader:
            found.loader = Loader(fullname, found.loader.path)
        return found


def keep() -> None:
    """Has the module's bytecode kept in the user's cache folder, if it stands nowhere else and may be kept. Until the command calls `gc.enable`,
    no garbage is looked for: importing leaves next to none."""
    gc.disable()
    own = getattr(sys.modules[__name__].__spec__, "cached", None)
    if sys.flags.dont_write_bytecode or own and os.path.isfile(own):
        return
    folder = cache_folder()
    if folder:
        Loader.folder = folder
        sys.meta_path.insert(0, Finder)


def cache_folder() -> Optional[str]:
    """The folder for bytecode of this version, which is made if it is not there; None if there is none that is the user's own."""
    base = os.environ.get("XDG_CACHE_HOME", "")
    if not os.path.isabs(base):
        home = os.environ.get("HOME", "")
        if not os.path.isabs(home):
            return None
        base = os.path.join(home, ".cache")
    mine = os.path.join(base, NAME)
    try:
        os.makedirs(base, mode=0o700, exist_ok=True)
        try:
            os.mkdir(mine, 0o700)
        except FileExistsError:
            pass
        about = os.lstat(mine)
    except OSError:
        return None
    is_own = stat.S_ISDIR(about.st_mode) and about.st_uid == os.geteuid() and not about.st_mode & (stat.S_IWGRP | stat.S_IWOTH)
    return os.path.join(mine, f"bytecode-{VERSION}") if is_own else None
