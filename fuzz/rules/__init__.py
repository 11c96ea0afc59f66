"""The rules of `diag` once more, plain and slow, written from docs/ alone: what each run has to write, found by trying all values.

Tables are not written once more: gates and the numbers of options are those of the Python client, forms, options and commands those of
the launcher's help, and refusals those of docs/SCRIPT.md.
"""

import pathlib
import sys

sys.path.append(str(pathlib.Path(__file__).resolve().parents[2] / "python"))
