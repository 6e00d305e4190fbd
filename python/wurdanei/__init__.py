"""Records of power networks beside a simulated one: reading, writing, drawing and comparing COMTRADE, cases of `emtp`,
sweeps and studies over them.

What needs numpy is imported once it is asked for, so that the package itself goes without.
"""

from __future__ import annotations

import importlib
from typing import TYPE_CHECKING, Any

if TYPE_CHECKING:
    from .case import Case, CaseError
    from .record import Record, RecordError, read

__version__ = "1.2"
__all__ = ["Case", "CaseError", "Record", "RecordError", "read"]

_PLACES = {"Case": "case", "CaseError": "case", "Record": "record", "RecordError": "record", "read": "record"}


def __getattr__(name: str) -> Any:
    if name not in _PLACES:
        raise AttributeError(f"module {__name__!r} has no attribute {name!r}")
    return getattr(importlib.import_module("." + _PLACES[name], __name__), name)


def __dir__() -> list[str]:
    return sorted([*globals(), *__all__])
