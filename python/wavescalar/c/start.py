"""A `main` with parameters gets another one in front of it, which takes the arguments from the input's first words."""

from __future__ import annotations

import re

from wavescalar.c import llvm_c as c
from wavescalar.c.edit import Edited, array

WITH_PARAMETERS = re.compile(rb"^define [^\n]*@main\((?!\))", re.MULTILINE)
OWN = "wscc_main"  # the program's


def begin(edited: Edited) -> None:
    """Makes the `main` that calls the program's with the results of `wscc_arguments` and `wscc_vector` (library.c).

    A third parameter is an environment without variables: it is where the arguments end.
    """
    llvm, build = edited.llvm, edited.builder
    own = llvm.GetNamedFunction(edited.module, b"main")
    edited.renamed(own, OWN)
    main = llvm.AddFunction(edited.module, b"main", edited.function_type(edited.int, []))
    llvm.PositionBuilderAtEnd(build, llvm.AppendBasicBlockInContext(edited.context, main, b"start"))
    llvm.SetCurrentDebugLocation2(build, None)
    vector = llvm.PointerType(edited.pointer, 0)
    count, strings = (edited.call(edited.function(name, kind), kind, []) for name, kind in (
        ("wscc_arguments", edited.function_type(edited.int, [])), ("wscc_vector", edited.function_type(vector, []))))
    after = llvm.BuildGEP2(build, edited.pointer, strings, array([count]), 1, b"")
    wanted = edited.parameters(llvm.GlobalGetValueType(own))
    given = [edited.cast(value, kind) if k else value for k, (value, kind) in enumerate(zip([count, strings, after], wanted))]
    result = edited.call(own, llvm.GlobalGetValueType(own), given)
    is_number = llvm.GetTypeKind(llvm.TypeOf(result)) == c.INTEGER
    llvm.BuildRet(build, result if is_number else llvm.ConstInt(edited.int, 0, 0))
