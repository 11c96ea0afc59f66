"""A client of `diag`, the verified diagnosis of digital devices: `Service` serves a device, and its sessions answer.

The program that is started is proved; this client is not. It needs Python's standard library alone. docs/PYTHON.md shows it by
examples.

>>> with Service("examples/c17.bench") as service, service.session() as session:
...     session.see({"1": 0, "2": 0, "3": 0, "6": 0, "7": 0, "22": 1, "23": 0})
...     for diagnosis in session.diagnoses():
...         print(diagnosis)
...     print(session.best_probe())
10
22
measure 10: of 2 diagnoses 1 goes on with 0 and 1 with 1, so that 1.0 are expected to be left
"""

from . import interrupts as interrupts  # noqa: F401 # First, for what an interrupt does while the rest is loaded.
from .advice import Proposal
from .boards.batch import diagnose_boards
from .boards.holding import JointProgress
from .boards.joint import Joint, JointProposal
from .boards.results import Result
from .boards.tables import BadTable
from .case import Board, Case, Mode
from .errors import BadScript, Changed, DiagError, Ended, Inconsistent, NoGraph, NotBuilt, OtherProcess, Refused, TimedOut
from .program import find_program
from .replies import Blame, Diagnosis, Graph, Level, Minimum, Probe, Verdict
from .service import Service
from .session import Session

__version__ = "0"

__all__ = [
    "BadScript",
    "BadTable",
    "Blame",
    "Board",
    "Case",
    "Changed",
    "DiagError",
    "Diagnosis",
    "Ended",
    "Graph",
    "Inconsistent",
    "Joint",
    "JointProgress",
    "JointProposal",
    "Level",
    "Minimum",
    "Mode",
    "NoGraph",
    "NotBuilt",
    "OtherProcess",
    "Probe",
    "Proposal",
    "Refused",
    "Result",
    "Service",
    "Session",
    "TimedOut",
    "Verdict",
    "diagnose_boards",
    "find_program",
]
