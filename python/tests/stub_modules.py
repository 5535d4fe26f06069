"""Small modules of WebAssembly that replace the program, for its rare ends. The bytes are those of the WebAssembly core
specification, version 1."""

MAGIC_AND_VERSION = b"\0asm\1\0\0\0"
TYPES, FUNCTIONS, MEMORIES, GLOBALS, EXPORTS, CODE = 1, 3, 5, 6, 7, 10  # sections
FUNCTION, MEMORY, GLOBAL = 0, 2, 3  # kinds of exports
FUNCTION_TYPE, I32 = b"\x60", b"\x7f"
# Instructions.
UNREACHABLE, END, CALL, LOCAL_GET = b"\0", b"\x0b", b"\x10", b"\x20"
I32_LOAD, I32_CONST, I32_ADD = b"\x28", b"\x41", b"\x6a"


def section(number: int, content: bytes) -> bytes:
    return bytes([number, len(content)]) + content


def export(name: str, kind: int) -> bytes:
    """The export of the first object of this kind."""
    return bytes([len(name)]) + name.encode() + bytes([kind, 0])


def module_of(code: bytes) -> bytes:
    """A module whose `main`, with two parameters, consists of these instructions."""
    no_locals = b"\0"
    body = no_locals + code + END
    heap_base = I32 + b"\0" + I32_CONST + b"\x80\x08" + END  # a constant: 1024
    return b"".join([
        MAGIC_AND_VERSION,
        section(TYPES, b"\1" + FUNCTION_TYPE + b"\2" + I32 + I32 + b"\1" + I32),  # main: two numbers give one
        section(FUNCTIONS, b"\1\0"),  # one function, of the first type
        section(MEMORIES, b"\1\0\1"),  # one memory, of one page and without a maximum
        section(GLOBALS, b"\1" + heap_base),
        section(EXPORTS, b"\3" + export("memory", MEMORY) + export("__heap_base", GLOBAL) + export("main", FUNCTION)),
        section(CODE, b"\1" + bytes([len(body)]) + body),
    ])


MEMORY_RAN_OUT = module_of(I32_CONST + b"\3")  # returns 3, the exit status if memory runs out
UNKNOWN_STATUS = module_of(I32_CONST + b"\7")  # returns 7, which no program of trlab does
TRAP = module_of(UNREACHABLE)
# Reads at address -1, which is beyond the memory, as an overflow of the program's stack does.
OUTSIDE = module_of(I32_CONST + b"\x7f" + I32_LOAD + b"\2\0")
# Calls itself with the same parameters, and adds 1 to the result.
ENDLESS_CALLS = module_of(LOCAL_GET + b"\0" + LOCAL_GET + b"\1" + CALL + b"\0" + I32_CONST + b"\1" + I32_ADD)
