"""FreeBSD's kqueue, simulated: a client of the program kqstep.

Sim is a virtual system: one method for each record of a trace. kqueue and kevent have the form of Python's select,
over the real descriptors of this process, and install() gives them to the module select.
"""
from .constants import CONSTANTS
from .kqueues import install, kevent, kqueue
from .sim import Ended, Fault, Impossible, Sim
from .version import VERSION as __version__

__all__ = ["Ended", "Fault", "Impossible", "Sim", "__version__", "install", "kevent", "kqueue", *CONSTANTS]


def __getattr__(name: str) -> int:
    """The constants that select has where there is a kqueue, as KQ_FILTER_READ."""
    if name not in CONSTANTS:
        raise AttributeError(f"module {__name__!r} has no attribute {name!r}")
    return CONSTANTS[name]
