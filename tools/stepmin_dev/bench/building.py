"""Builds the programs of bench/, each over some crates of the repository."""
import os
import shutil

from .. import unproved
from ..repository import ROOT, copy_crates, proved, write_manifest

SOURCES = os.path.join(ROOT, "bench")


def build(asked, folder, name, stands_on):
    """The program of bench/NAME/main.rt.in over crates of the repository and the toolchain; unproved if that is asked for."""
    source, own = os.path.join(SOURCES, name, "main.rt.in"), os.path.join(folder, f"building-{name}")
    os.makedirs(own)
    if asked.unproved:
        unproved.build(os.path.join(own, name), source, stands_on)
        return os.path.join(own, name)
    copy_crates(own, stands_on)
    sources = os.path.join(own, "crates", name, "src")
    os.makedirs(sources)
    shutil.copy(source, os.path.join(sources, "main.rt"))
    write_manifest(own, {name: stands_on})
    return proved(own, name)
