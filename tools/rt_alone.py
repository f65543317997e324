"""`rt` as the tools here run it: python3 tools/rt_alone.py WORDS OF rt ..

Some kits begin a check with what another checkout on this machine kept. With RT_ALONE in the environment nothing is taken from
another checkout and nothing is offered to one, so that a check rests on what stands in its own folder.

Some kits reckon the sum of a library once for each path to it in crates.txt, of which thousands lead down from the highest
crates, and so read sources for minutes before and after each command. Here each sum below another is reckoned once while that
one is: the same sum, in a fraction of a second.
"""
import importlib.machinery
import importlib.util
import os
import shutil
import sys
import threading


def share_nothing(rt):
    """Has no command take or offer what checks kept. A kit that has none of these shares nothing anyway."""
    for name in ("adopt", "offer", "take_rlib"):
        if hasattr(rt, name):
            setattr(rt, name, lambda *_given, **_named: None)


def reckon_once(kind):
    """Has the method `stamp` of a crate reckon those of the crates below it once each."""
    plain, under_way = kind.stamp, threading.local()

    def stamp(crate):
        outermost = not hasattr(under_way, "sums")
        if outermost:
            under_way.sums = {}
        try:
            if crate.folder not in under_way.sums:
                under_way.sums[crate.folder] = plain(crate)
            return under_way.sums[crate.folder]
        finally:
            if outermost:
                del under_way.sums

    kind.stamp = stamp


def main():
    path = os.path.realpath(shutil.which("rt") or sys.exit("rt_alone: there is no rt"))
    # (`rt` looks for its modules beside itself, and none of them is here)
    sys.path[0] = os.path.dirname(path)
    sys.argv[0] = path
    loader = importlib.machinery.SourceFileLoader("rt", path)
    rt = importlib.util.module_from_spec(importlib.util.spec_from_loader("rt", loader))
    loader.exec_module(rt)
    if os.environ.get("RT_ALONE"):
        share_nothing(rt)
    kind = getattr(getattr(rt, "rtlib", None), "Crate", None)
    if hasattr(kind, "stamp") and not hasattr(rt, "stamp_once"):
        reckon_once(kind)
    return rt.main(sys.argv[1:])


if __name__ == "__main__":
    sys.exit(main())
