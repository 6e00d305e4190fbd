"""From the paper on the desk to the cards: towers, nameplates and data sheets as values of a case's calls.

    from wurdanei.data import Conductor, overhead
    line = overhead(phases=[Conductor(x_m=-7, y_m=20, radius_mm=15.3, r_ohm_km=.059), ..], rho_ohm_m=100)
    case.line3("SA SB SC".split(), "RA RB RC".split(), length=100, zero=line.zero, positive=line.positive)

Each function answers what it made with the numbers behind it; `told` says which are typical ones and not those of the paper.
docs/data.md has the formulas with their sources.
"""

from .nameplates import Bank, Cable, Reactor, bank, busbar_ohm, cable, reactor, tower_ohm
from .overhead_line import Conductor, Overhead, overhead
from .residual_voltages import ArresterData, arrester
from .sources import Source3, source3
from .transformers import Transformer, transformer

__all__ = [
    "ArresterData",
    "Bank",
    "Cable",
    "Conductor",
    "Overhead",
    "Reactor",
    "Source3",
    "Transformer",
    "arrester",
    "bank",
    "busbar_ohm",
    "cable",
    "overhead",
    "reactor",
    "source3",
    "tower_ohm",
    "transformer",
]
