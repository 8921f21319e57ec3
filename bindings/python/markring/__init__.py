"""markring: a garbage-collected object heap over several nodes, with a machine-checked proof.

`Node` is one node, whose frames and images the caller moves and stores. `Space` makes cells, which are the nodes of one
process, if the library exports them. A call that is refused raises a subclass of `Refusal`. docs/RULES.md of the repository has the rules.

The library is the file that the variable MARKRING_LIBRARY names. Without that variable it is `libmarkring.so` in the
package, beside it, or in the folder above that; or else the system's `libmarkring.so.1`.

Calls keep the interpreter's lock, so any thread may use any of these objects.
"""
from . import errors
from ._space import Again, Age, Batch, Cell, Ended, Freed, Gone, Image, Letter, Link, Node, Object, Passed, Ref, Shape, Space, State
from ._space import Taken, Watch, Work, collect
from .errors import Refusal
from .weak import WeakTable, upgrade

__version__ = "0.1.0"

__all__ = [
    "Again",
    "Age",
    "Batch",
    "Cell",
    "Ended",
    "Freed",
    "Gone",
    "Image",
    "Letter",
    "Link",
    "Node",
    "Object",
    "Passed",
    "Ref",
    "Refusal",
    "Shape",
    "Space",
    "State",
    "Taken",
    "Watch",
    "WeakTable",
    "Work",
    "collect",
    "errors",
    "upgrade",
]
