"""What the front end refuses before it lowers anything: types, operands, calls and instructions."""

from __future__ import annotations

import re
from collections.abc import Collection

from wavescalar.c.ir import Address, Instr, Module, Operand, Type, Unread, within

FLOATS = ("half", "float", "double", "x86_fp80", "fp128")
CALLS = ("ws_read", "ws_print", "exit")  # the functions without a body that the machine has a form for


def check(module: Module, known: Collection[str]) -> None:
    """Raises Refusal for the first instruction that has no form. known: the words of those that have one."""
    for it in module.instrs:
        if it.op == "call":
            _check_call(it, module)
        _check_types(it)
        for operand in (*it.operands, *([it.element.base] if it.element else [])):
            _check_operand(it, operand, module)
        if it.op not in known:
            raise it.refused(f"the instruction {it.op}")


def _check_types(it: Instr) -> None:
    """An intrinsic's pair of a result and a flag is the one struct that may be a value."""
    own = it.types if it.op != "extractvalue" else it.types[1:]
    for kind in (*own, *([it.type] if not (it.op == "call" and it.type.kind == "struct") else [])):
        fault = _fault_of(kind)
        if fault:
            raise it.refused(fault)


def _fault_of(own: Type) -> str | None:
    if own.kind == "int" and own.width > 64:
        return f"an integer of {own.width} bits"
    if own.kind == "struct":
        return "a struct as a value"
    if own.kind != "other":
        return None
    if own.text in FLOATS:
        return f"floating point ({own.text})"
    return f"{'a vector' if own.text.startswith('<') else 'a value'} of the type {own.text}"


def _check_operand(it: Instr, operand: Operand, module: Module) -> None:
    for part in within(operand):
        if isinstance(part, Unread):
            raise it.refused(part.reason)
        if isinstance(part, Address) and part.object in module.globals:
            for datum in module.globals[part.object].data:
                if isinstance(datum.value, Unread):
                    raise it.refused(f"{part.object} has {datum.value.reason} as a value at the start")


def _check_call(it: Instr, module: Module) -> None:
    if it.callee is None:
        is_inline = re.search(r"\basm\b", it.text)
        raise it.refused("inline assembly" if is_inline else "a call by a pointer to no function that is known here")
    if it.callee not in CALLS and not it.callee.startswith("llvm."):
        raise it.refused(f"a call of {it.callee}, which has no body here")
