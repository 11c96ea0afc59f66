"""Truth tables. Over n variables one is a number of 2^n bits: bit i says whether row i is in it, and in row i the variable v is
bit v - 1 of i."""

from functools import lru_cache


def all_rows(vars):
    return (1 << (1 << vars)) - 1


@lru_cache(maxsize=4096)
def literal(number, vars):
    """The rows in which a variable is true, or in which it is false if the number is below 0."""
    half = 1 << (abs(number) - 1)
    true = (((1 << half) - 1) << half) * (all_rows(vars) // ((1 << 2 * half) - 1))
    return true if number > 0 else all_rows(vars) ^ true


def conjunction(literals, vars):
    rows = all_rows(vars)
    for number in literals:
        rows &= literal(number, vars)
    return rows


def over_first(table, vars, few):
    """The rows over the first few variables that some bits of the others bring into the table."""
    for last in range(vars, few, -1):
        half = 1 << (last - 1)
        table = (table | table >> half) & ((1 << half) - 1)
    return table


def rows_of(table, vars):
    """Each row as a tuple of bits, in order: of two rows the one with 0 where they first differ comes first."""
    numbers = (row for row in range(1 << vars) if table >> row & 1)
    return sorted(tuple(row >> var & 1 for var in range(vars)) for row in numbers)


def table_of(rows):
    """The truth table of rows, each a tuple of bits."""
    return sum(1 << sum(bit << var for var, bit in enumerate(row)) for row in rows)
