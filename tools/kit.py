"""The toolchain's own modules, for tools/rt, tools/prove and tools/archive, with the files of each crate summed up once.

The toolchain sums up what lies below a crate anew for every way down to it, which in the uppermost crates takes minutes. Here a thread
keeps its sums until a prover that it called has ended, and then makes them anew: what was changed meanwhile is seen as without this.
"""
import importlib.machinery
import importlib.util
import subprocess
import sys
import threading
from pathlib import Path


def said(word):
    return subprocess.run(["rt", word], check=True, capture_output=True, text=True).stdout.strip()


def folder():
    """The toolchain's folder."""
    return Path(said("doc")).parent


def is_known():
    """Whether the toolchain's inside is the one of which this file knows. Later ones keep sums by themselves."""
    return said("version").startswith("rattle-kit-13b")


def library():
    """The toolchain's module on crates."""
    sys.path.insert(0, str(folder() / "bin"))
    import rtlib

    sum_once(rtlib)
    return rtlib


def command():
    """The module of the command `rt`, whose `rtlib` is the one on crates."""
    loader = importlib.machinery.SourceFileLoader("rt_command", str(folder() / "bin/rt"))
    made = importlib.util.module_from_spec(importlib.util.spec_from_loader("rt_command", loader))
    loader.exec_module(made)
    # (a wrong body is checked by a call of its own)
    made.checked = sum_once(made.rtlib)(made.checked)
    return made


def sum_once(rtlib):
    """Has the module on crates sum up each of them once, and list what is below each once. Returns what has a function forget the sums."""
    stamp_of, below_of, sums = rtlib.Crate.stamp, rtlib.Crate.below, threading.local()

    def stamp(crate):
        kept = sums.__dict__
        if crate.folder not in kept:
            kept[crate.folder] = stamp_of(crate)
        return kept[crate.folder]

    def below(crate):
        if not hasattr(crate, "known_below"):
            crate.known_below = below_of(crate)
        return list(crate.known_below)

    def forgetting(run):
        def ran(*given, **named):
            try:
                return run(*given, **named)
            finally:
                sums.__dict__.clear()

        return ran

    rtlib.Crate.stamp, rtlib.Crate.below = stamp, below
    for name in {"call", "prove"} & set(dir(rtlib.Crate)):
        setattr(rtlib.Crate, name, forgetting(getattr(rtlib.Crate, name)))
    return forgetting
