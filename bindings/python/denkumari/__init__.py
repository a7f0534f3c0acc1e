r"""Denkumari: from a table of banks and a list of nodes to the image that is flashed, and from the flash back again.

Every answer is the library's, by the C that is printed from its proved code (the printer and the C compiler are not proved, and neither is this package,
which packs lists and finds names). Positions, sizes and offsets are in bits, addresses in their bank's units.

>>> from denkumari import Layout, Refused, Records, verify
>>> brake = Layout()
>>> flash = brake.bank(unit=8, start=0x8000, size=256, offset=0)
>>> _ = brake.switch(flash)
>>> table = brake.data(value=bytes(range(16)), name="clamp_force")
>>> back = brake.addr(64)
>>> other = brake.data(value=b"\1\2\3\4", name="release_force")
>>> try:
...     built = brake.build()
... except Refused as refused:
...     print(refused.number, refused.node, refused.name)
...     print(refused.words)  # doctest: +ELLIPSIS
12 3 release_force
release_force (node 3, data, bank 1, position 64, address 32776 = 0x8008, 32 bits at output bit 64) overlaps ...: clamp_force (node 1, ...

A call holds the interpreter's lock and keeps nothing, so any thread may call at any time. Memory that another process writes meanwhile, a shared mmap,
should be copied first.
"""
from ._bench import Kept, Overlay, Store, bench, hex_digits
from ._c import lib as _lib
from ._form import convert
from ._layout import Built, Layout
from ._names import BadNames, cksum, read_names
from ._recorder import Misuse, Recorder
from ._records import BadRecords, Records, Run, extent, read_records, write_hex, write_srec
from ._types import Bank, Block, Kind, Map, Node, Padding, Placed, Refused, Span, State
from ._verify import Difference, Differing, Verified, verify

__all__ = [
    "BadNames", "BadRecords", "Bank", "Block", "Built", "Difference", "Differing", "Kept", "Kind", "Layout", "Map", "Misuse", "Node", "Overlay",
    "Padding", "Placed", "Recorder", "Records", "Refused", "Run", "Span", "State", "Store", "Verified", "bench", "cksum", "convert", "extent",
    "hex_digits", "read_names", "read_records", "verify", "write_hex", "write_srec"
]
for _name in __all__:  # they are the package's own, for tracebacks and pickles
    globals()[_name].__module__ = __name__
__version__: str = _lib.dk_py_version().decode("ascii")
