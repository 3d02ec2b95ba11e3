"""LLVM's C library, by ctypes: it comes with clang, and tells what the IR's text says without a parser of our own.

Handles are addresses. The calls are those of llvm-c/Core.h, Target.h and IRReader.h, by their names.
"""

from __future__ import annotations

import ctypes
import ctypes.util
import os
from collections.abc import Iterator
from ctypes import POINTER, byref, c_char_p, c_int, c_longlong, c_size_t, c_uint, c_ulonglong, c_void_p
from typing import Any

from wavescalar.c.faults import ToolFault

# llvm-c/Core.h: LLVMOpcode, LLVMTypeKind, LLVMValueKind, LLVMIntPredicate.
OPCODES = {
    1: "ret", 2: "br", 3: "switch", 4: "indirectbr", 5: "invoke", 7: "unreachable", 8: "add", 9: "fadd", 10: "sub",
    11: "fsub", 12: "mul", 13: "fmul", 14: "udiv", 15: "sdiv", 16: "fdiv", 17: "urem", 18: "srem", 19: "frem",
    20: "shl", 21: "lshr", 22: "ashr", 23: "and", 24: "or", 25: "xor", 26: "alloca", 27: "load", 28: "store",
    29: "getelementptr", 30: "trunc", 31: "zext", 32: "sext", 33: "fptoui", 34: "fptosi", 35: "uitofp", 36: "sitofp",
    37: "fptrunc", 38: "fpext", 39: "ptrtoint", 40: "inttoptr", 41: "bitcast", 42: "icmp", 43: "fcmp", 44: "phi",
    45: "call", 46: "select", 49: "va_arg", 50: "extractelement", 51: "insertelement", 52: "shufflevector",
    53: "extractvalue", 54: "insertvalue", 55: "fence", 56: "cmpxchg", 57: "atomicrmw", 60: "addrspacecast",
    66: "fneg", 67: "callbr", 68: "freeze",
}
VOID, INTEGER, STRUCT, ARRAY, POINTER_TYPE, VECTOR, METADATA = 0, 8, 10, 11, 12, 13, 14
FLOATS = {2: 32, 3: 64}  # types of floating point, and their bits: float and double
REALS = ("false", "oeq", "ogt", "oge", "olt", "ole", "one", "ord", "uno", "ueq", "ugt", "uge", "ult", "ule", "une", "true")
(ARGUMENT, FUNCTION, GLOBAL, BLOCK_ADDRESS, EXPRESSION, CONSTANT_ARRAY, CONSTANT_STRUCT, UNDEF, ZEROS, DATA_ARRAY,
 CONSTANT_INT, CONSTANT_REAL, NULL, METADATA_VALUE, INSTRUCTION, POISON) = (
    0, 5, 8, 9, 10, 11, 12, 14, 15, 16, 18, 19, 20, 22, 24, 25)
PREDICATES = dict(zip(range(32, 42), ("eq", "ne", "ugt", "uge", "ult", "ule", "sgt", "sge", "slt", "sle")))

HANDLE, NUMBER, TEXT = c_void_p, c_uint, c_char_p
LETTERS = {"h": HANDLE, "n": NUMBER, "l": c_ulonglong}
# Results of calls, by the letters of their arguments: h a handle, n a number, l a long one.
SIGNATURES: dict[str, tuple[Any, str]] = {
    "LLVMContextCreate": (HANDLE, ""), "LLVMGetModuleDataLayout": (HANDLE, "h"),
    "LLVMGetFirstGlobal": (HANDLE, "h"), "LLVMGetNextGlobal": (HANDLE, "h"),
    "LLVMGetFirstFunction": (HANDLE, "h"), "LLVMGetNextFunction": (HANDLE, "h"),
    "LLVMGetFirstBasicBlock": (HANDLE, "h"), "LLVMGetNextBasicBlock": (HANDLE, "h"),
    "LLVMGetFirstInstruction": (HANDLE, "h"), "LLVMGetNextInstruction": (HANDLE, "h"),
    "LLVMBasicBlockAsValue": (HANDLE, "h"), "LLVMGetInitializer": (HANDLE, "h"),
    "LLVMGlobalGetValueType": (HANDLE, "h"), "LLVMGetAllocatedType": (HANDLE, "h"),
    "LLVMTypeOf": (HANDLE, "h"), "LLVMGetElementType": (HANDLE, "h"), "LLVMStructGetTypeAtIndex": (HANDLE, "hn"),
    "LLVMGetOperand": (HANDLE, "hn"), "LLVMGetElementAsConstant": (HANDLE, "hn"),
    "LLVMGetIncomingValue": (HANDLE, "hn"), "LLVMGetIncomingBlock": (HANDLE, "hn"), "LLVMGetSuccessor": (HANDLE, "hn"),
    "LLVMGetCalledValue": (HANDLE, "h"), "LLVMGetGEPSourceElementType": (HANDLE, "h"),
    "LLVMGetTypeKind": (c_int, "h"), "LLVMGetValueKind": (c_int, "h"), "LLVMIsDeclaration": (c_int, "h"),
    "LLVMGetInstructionOpcode": (c_int, "h"), "LLVMGetConstOpcode": (c_int, "h"), "LLVMGetICmpPredicate": (c_int, "h"),
    "LLVMGetNumOperands": (c_int, "h"), "LLVMGetIntTypeWidth": (NUMBER, "h"), "LLVMGetArrayLength": (NUMBER, "h"),
    "LLVMCountStructElementTypes": (NUMBER, "h"), "LLVMCountIncoming": (NUMBER, "h"),
    "LLVMGetNumSuccessors": (NUMBER, "h"), "LLVMGetNumArgOperands": (NUMBER, "h"), "LLVMGetDebugLocLine": (NUMBER, "h"),
    "LLVMConstIntGetZExtValue": (c_ulonglong, "h"), "LLVMConstIntGetSExtValue": (c_longlong, "h"),
    "LLVMABISizeOfType": (c_ulonglong, "hh"), "LLVMOffsetOfElement": (c_ulonglong, "hhn"),
    "LLVMGetNumIndices": (NUMBER, "h"), "LLVMGetIndices": (POINTER(NUMBER), "h"),
    "LLVMGetSubprogram": (HANDLE, "h"), "LLVMDISubprogramGetLine": (NUMBER, "h"),
    "LLVMGetOrdering": (c_int, "h"), "LLVMIsGlobalConstant": (c_int, "h"),
    "LLVMPrintModuleToString": (HANDLE, "h"), "LLVMPrintTypeToString": (HANDLE, "h"),
    "LLVMPrintValueToString": (HANDLE, "h"),
    # What whole.py makes. Arrays and texts are given as handles.
    "LLVMLinkModules2": (c_int, "hh"), "LLVMCreateBuilderInContext": (HANDLE, "h"),
    "LLVMPositionBuilderAtEnd": (None, "hh"), "LLVMPositionBuilderBefore": (None, "hh"),
    "LLVMInstructionGetDebugLoc": (HANDLE, "h"), "LLVMSetCurrentDebugLocation2": (None, "hh"),
    "LLVMGetFirstUse": (HANDLE, "h"), "LLVMGetNextUse": (HANDLE, "h"), "LLVMGetUser": (HANDLE, "h"),
    "LLVMGetCalledFunctionType": (HANDLE, "h"), "LLVMGetReturnType": (HANDLE, "h"),
    "LLVMCountParamTypes": (NUMBER, "h"), "LLVMGetParamTypes": (None, "hh"), "LLVMIsFunctionVarArg": (c_int, "h"),
    "LLVMFunctionType": (HANDLE, "hhnn"), "LLVMAddFunction": (HANDLE, "hhh"), "LLVMSetLinkage": (None, "hn"),
    "LLVMGetParam": (HANDLE, "hn"), "LLVMCountParams": (NUMBER, "h"), "LLVMAppendBasicBlockInContext": (HANDLE, "hhh"),
    "LLVMConstBitCast": (HANDLE, "hh"), "LLVMReplaceAllUsesWith": (None, "hh"),
    "LLVMInstructionEraseFromParent": (None, "h"), "LLVMBuildICmp": (HANDLE, "hnhhh"),
    "LLVMBuildCondBr": (HANDLE, "hhhh"), "LLVMBuildCall2": (HANDLE, "hhhhnh"), "LLVMBuildRetVoid": (HANDLE, "h"),
    # What printing.py makes.
    "LLVMIntTypeInContext": (HANDLE, "hn"), "LLVMVoidTypeInContext": (HANDLE, "h"), "LLVMPointerType": (HANDLE, "hn"),
    "LLVMGetNamedFunction": (HANDLE, "hh"), "LLVMBuildTrunc": (HANDLE, "hhhh"),
    "LLVMBuildSExt": (HANDLE, "hhhh"), "LLVMBuildZExt": (HANDLE, "hhhh"), "LLVMConstInt": (HANDLE, "hln"),
    "LLVMBuildRet": (HANDLE, "hh"), "LLVMBuildBitCast": (HANDLE, "hhhh"),
    # What edit.py, variadic.py, labels.py and start.py make.
    "LLVMSetValueName2": (None, "hhl"), "LLVMDeleteFunction": (None, "h"), "LLVMDeleteBasicBlock": (None, "h"),
    "LLVMMoveBasicBlockBefore": (None, "hh"), "LLVMSetSubprogram": (None, "hh"),
    "LLVMGetAttributeCountAtIndex": (NUMBER, "hn"), "LLVMGetAttributesAtIndex": (None, "hnh"),
    "LLVMAddAttributeAtIndex": (None, "hnh"), "LLVMGetCallSiteAttributeCount": (NUMBER, "hn"),
    "LLVMGetCallSiteAttributes": (None, "hnh"), "LLVMAddCallSiteAttribute": (None, "hnh"),
    "LLVMGetEnumAttributeKindForName": (NUMBER, "hl"), "LLVMGetCallSiteEnumAttribute": (HANDLE, "hnn"),
    "LLVMGetTypeAttributeValue": (HANDLE, "h"), "LLVMABIAlignmentOfType": (NUMBER, "hh"),
    "LLVMBuildGEP2": (HANDLE, "hhhhnh"), "LLVMBuildStore": (HANDLE, "hhh"), "LLVMBuildAlloca": (HANDLE, "hhh"),
    "LLVMBuildMemCpy": (HANDLE, "hhnhnh"), "LLVMConstNull": (HANDLE, "h"), "LLVMArrayType": (HANDLE, "hn"),
    "LLVMGetEntryBasicBlock": (HANDLE, "h"), "LLVMGetBasicBlockParent": (HANDLE, "h"),
    "LLVMGetInstructionParent": (HANDLE, "h"), "LLVMAddGlobal": (HANDLE, "hhh"), "LLVMSetInitializer": (None, "hh"),
    "LLVMBlockAddress": (HANDLE, "hh"), "LLVMConstInBoundsGEP2": (HANDLE, "hhhn"), "LLVMBuildUnreachable": (HANDLE, "h"),
    "LLVMBuildSub": (HANDLE, "hhhh"), "LLVMBuildPtrToInt": (HANDLE, "hhhh"), "LLVMConstPtrToInt": (HANDLE, "hh"),
    "LLVMBuildSwitch": (HANDLE, "hhhn"), "LLVMAddCase": (None, "hhh"),
    # What division.py makes.
    "LLVMStructTypeInContext": (HANDLE, "hhnn"), "LLVMBuildExtractValue": (HANDLE, "hhnh"),
    "LLVMBuildLShr": (HANDLE, "hhhh"), "LLVMBuildShl": (HANDLE, "hhhh"), "LLVMBuildOr": (HANDLE, "hhhh"),
    # What floats.py makes.
    "LLVMGetFCmpPredicate": (c_int, "h"), "LLVMGetTypeContext": (HANDLE, "h"),
    "LLVMBuildXor": (HANDLE, "hhhh"), "LLVMBuildAnd": (HANDLE, "hhhh"),
}


class Llvm:
    """The library's calls as attributes, without the letters `LLVM` before their names."""

    def __init__(self, version: int) -> None:
        """Loads the library of this major version; the environment's WSCC_LIBLLVM names another file."""
        names = [os.environ.get("WSCC_LIBLLVM"), f"libLLVM-{version}.so.1", f"libLLVM.so.{version}.1",
                 f"/usr/lib/llvm-{version}/lib/libLLVM.so.1", ctypes.util.find_library(f"LLVM-{version}")]
        self.library = self._load([name for name in names if name], version)
        for name, (result, letters) in SIGNATURES.items():
            call = getattr(self.library, name)
            call.restype, call.argtypes = result, [LETTERS[letter] for letter in letters]
            setattr(self, name[4:], call)

    @staticmethod
    def _load(names: list[str], version: int) -> ctypes.CDLL:
        for name in names:
            try:
                return ctypes.CDLL(name)
            except OSError:
                continue
        raise ToolFault(f"there is no libLLVM {version} (Debian: libllvm{version}; WSCC_LIBLLVM names a file)")

    def __getattr__(self, name: str) -> Any:  # for type checkers: calls are set above
        raise AttributeError(name)

    def parse(self, text: bytes, context: int | None = None) -> int:
        """The module of a text of IR, or of bitcode, in a context, or in its own; ToolFault where it is none."""
        lib, context = self.library, context or self.ContextCreate()
        create = lib.LLVMCreateMemoryBufferWithMemoryRangeCopy
        create.restype, create.argtypes = HANDLE, [TEXT, c_size_t, TEXT]
        read = lib.LLVMParseIRInContext
        read.restype, read.argtypes = c_int, [HANDLE, HANDLE, POINTER(HANDLE), POINTER(TEXT)]
        module, fault = HANDLE(), TEXT()
        if read(context, create(text, len(text), b"ir"), byref(module), byref(fault)):
            raise ToolFault(f"LLVM can't read the IR: {(fault.value or b'').decode(errors='replace')}")
        assert module.value is not None
        return module.value

    def text(self, handle: int | None) -> str:
        """A string that the library made, which is given back to it."""
        if not handle:
            return ""
        made = ctypes.cast(handle, TEXT).value or b""
        self.library.LLVMDisposeMessage(HANDLE(handle))
        return made.decode(errors="replace")

    def name(self, value: int) -> str:
        """The name of a value; empty where it has none."""
        call, length = self.library.LLVMGetValueName2, c_size_t()
        call.restype, call.argtypes = TEXT, [HANDLE, POINTER(c_size_t)]
        return (call(value, byref(length)) or b"").decode(errors="replace")

    def file(self, value: int) -> str:
        """The file of an instruction's debug location; empty where it has none."""
        call, length = self.library.LLVMGetDebugLocFilename, c_uint()
        call.restype, call.argtypes = HANDLE, [HANDLE, POINTER(c_uint)]
        address = call(value, byref(length))
        return ctypes.string_at(address, length.value).decode(errors="replace") if address else ""

    def chain(self, parent: int, first: str, following: str) -> Iterator[int]:
        """The items of a list of the library: globals, functions, blocks, instructions."""
        item = getattr(self, first)(parent)
        while item:
            yield item
            item = getattr(self, following)(item)
