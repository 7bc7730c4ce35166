"""Attributes, rules, lots and the mode: what a town is derived from; and what is made of them."""
from dataclasses import dataclass
from fractions import Fraction
from typing import Tuple

from .fraction import ZERO
from .frame import BASE_FRAME, Scope, scope_of
from .rule import Grammar

BREADTH, DEPTH = "breadth", "depth"


@dataclass(frozen=True)
class Lot:
    name: str
    seed: int
    x: Fraction
    z: Fraction
    width: Fraction
    depth: Fraction
    symbol: str


@dataclass(frozen=True)
class Sources:
    grammar: Grammar
    lots: Tuple
    mode: str


EMPTY_SOURCES = Sources(Grammar((), ()), (), BREADTH)


@dataclass(frozen=True)
class Shape:
    """An instance has the symbol of the shape that emitted it, and no arguments."""

    lot: str
    path: Tuple
    symbol: str
    args: Tuple
    scope: Scope
    seed: int


def names_of(lots):
    return [lot.name for lot in lots]


def root_scope(lot):
    """The lot's ground along the world's axes, where that is a scope."""
    return scope_of((lot.x, ZERO, lot.z), BASE_FRAME, (lot.width, ZERO, lot.depth))


def root_of(lot):
    return Shape(lot.name, (), lot.symbol, (), root_scope(lot), lot.seed)
