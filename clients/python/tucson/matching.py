"""Which values a template's variables have, where a tuple matches it."""

from __future__ import annotations

from typing import Any, Dict, List, Optional, Tuple

from .terms import Compound, Term, Var, head_and_tail, is_cell, text_of


def match(template: Term, value: Term) -> Optional[Dict[str, Term]]:
    """The values of the template's variables by their names; None where the tuple doesn't match.

    A variable that stands at several places has the same value at each. `_` has none.
    """
    bindings: Dict[str, Term] = {}
    todo: List[Tuple[Any, Any]] = [(template, value)]
    while todo:
        pattern, part = todo.pop()
        if isinstance(pattern, Var):
            if pattern.name != "_" and not _same(bindings.setdefault(pattern.name, part), part):
                return None
            continue
        pairs = _pairs(pattern, part)
        if pairs is None:
            return None
        todo.extend(reversed(pairs))
    return bindings


def _same(one: Term, other: Term) -> bool:
    return text_of(one) == text_of(other)


def _pairs(pattern: Any, part: Any) -> Optional[List[Tuple[Any, Any]]]:
    """What has to match so that these do; None where they can't."""
    if isinstance(pattern, list) and isinstance(part, list):
        return list(zip(pattern, part)) if len(pattern) == len(part) else None
    if is_cell(pattern) and is_cell(part):
        return list(zip(head_and_tail(pattern), head_and_tail(part)))
    if isinstance(pattern, Compound) and isinstance(part, Compound):
        if pattern.name == part.name and len(pattern.args) == len(part.args):
            return list(zip(pattern.args, part.args))
        return None
    return [] if _same(pattern, part) else None
