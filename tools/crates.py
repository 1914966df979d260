"""Shared by the Python scripts: how they end, the crates of crates.txt, and rt's own functions.

tools/build and tools/edits do for many crates at once what `rt` does for one, so they load its functions."""

from __future__ import annotations

import importlib.util
import os
import shutil
import signal
import sys

TOP = os.path.dirname(os.path.dirname(os.path.realpath(__file__)))


class Refused(Exception):
    """Why a command can't do what it was asked: a line for standard error."""


def load_rt():
    """Returns the module of rt's own functions, which lies beside the command."""
    found = shutil.which("rt")
    if not found:
        raise Refused("this needs the Rattle toolchain's command rt on the path")
    spec = importlib.util.spec_from_file_location("rtlib", f"{os.path.dirname(os.path.realpath(found))}/rtlib.py")
    rt = importlib.util.module_from_spec(spec)
    spec.loader.exec_module(rt)
    # All that rt starts from now on ends when this process does, however it ends. (Only the main thread may begin that.)
    rt.guarded()
    return rt


def crates_of(rt, names: list[str]) -> list:
    """Returns the crates of these names; of no names, all. Each stands after those below it."""
    known = {it.name: it for it in rt.crates_below(f"{TOP}/crates")}
    for it in names:
        if it not in known:
            raise Refused(f"crates.txt has no crate {it}")
    return [it for it in known.values() if it.name in names or not names]


def with_those_below(crates: list) -> list:
    """Returns the crates and all that they stand on, each after those below it."""
    found = []
    for crate in crates:
        found += [it for it in [*crate.below(), crate] if it not in found]
    return found


def run(name: str, main) -> None:
    """Runs a command, whose result is its status. Where it can't do what it was asked, that is said in one line, and the status is 2; where the
    system refuses it, 1; where it is interrupted, 130."""
    for it in (signal.SIGTERM, signal.SIGHUP):
        signal.signal(it, signal.default_int_handler)
    try:
        status, why = main(sys.argv[1:]), ""
    except Refused as refused:
        status, why = 2, refused
    except OSError as refused:
        status, why = 1, f"{refused.filename or 'this machine'}: {refused.strerror}"
    except KeyboardInterrupt:
        status, why = 130, "interrupted"
    if why:
        print(f"{name}: {why}", file=sys.stderr, flush=True)
    # Threads may still wait for what they have started, which ends with this process.
    sys.stdout.flush()
    os._exit(status)
