"""check.py LIBRARY DICTIONARY MESSAGE: checks the message of a file of hexadecimal digits against the dictionary of a file."""
import ctypes as c
import sys


class Handle(c.Structure):
    _fields_ = [("private", c.c_void_p), ("state", c.c_uint32)]


class Problem(c.Structure):
    _fields_ = [(name, c.c_uint32) for name in ("kind", "line", "token")]


class Fault(c.Structure):
    _fields_ = [(name, c.c_size_t) for name in ("at", "name_count", "slot_count")] \
        + [(name, c.c_uint32) for name in ("kind", "token", "has_place")] \
        + [(name, c.c_uint8 * 128) for name in ("name", "slot")]


class Verdict(c.Structure):
    _fields_ = [(name, c.c_uint32) for name in
                ("outcome", "command", "code", "place", "reason", "subject", "avp_code", "avp_vendor")] \
        + [("reserved", c.c_uint32 * 4)]


KEPT, ANY_LEVELS = c.c_uint32(0), c.c_uint32(0xFFFFFFFF)
VALID, FAULT, TRUNCATED = 0, 1, 2


def tell_faults(lib, path, text):
    """All that is wrong with the dictionary's text."""
    faults, fault, count, line, column = Handle(), Fault(), c.c_size_t(), c.c_size_t(), c.c_size_t()
    length = c.c_size_t(len(text))
    if lib.dia_faults_open(text, length, c.byref(faults), c.byref(count)) != 0:
        return
    for index in range(count.value):
        lib.dia_faults_get(c.byref(faults), c.c_size_t(index), c.byref(fault))
        lib.dia_line_column(text, length, c.c_size_t(fault.at), c.byref(line), c.byref(column))
        names = [bytes(fault.name[:fault.name_count]).decode(), bytes(fault.slot[:fault.slot_count]).decode()]
        print(f"{path}:{line.value}:{column.value}: kind {fault.kind}", *names, file=sys.stderr)
    lib.dia_faults_close(c.byref(faults))


def main():
    lib = c.CDLL(sys.argv[1])
    if lib.dia_abi_version() != 1:
        sys.exit("libdia has another version")
    with open(sys.argv[2], "rb") as file:
        text = file.read()
    with open(sys.argv[3], encoding="ascii") as file:
        message = bytes.fromhex(file.read())
    book, problem, verdict = Handle(), Problem(), Verdict()
    if lib.dia_dict_open(text, c.c_size_t(len(text)), c.byref(book), c.byref(problem)) != 0:
        tell_faults(lib, sys.argv[2], text)
        sys.exit(2)
    status = lib.dia_check(c.byref(book), KEPT, ANY_LEVELS, message, c.c_size_t(len(message)), c.byref(verdict))
    if status == 0 and verdict.outcome == VALID:
        name, count = c.create_string_buffer(128), c.c_size_t()
        lib.dia_command_name(c.byref(book), c.c_uint32(verdict.command), name, c.c_size_t(128), c.byref(count))
        print("valid", name.raw[:count.value].decode())
    elif status == 0:
        print(f"fault {verdict.code} at {verdict.place}" if verdict.outcome == FAULT
              else "truncated" if verdict.outcome == TRUNCATED else "trailing")
    lib.dia_dict_close(c.byref(book))
    sys.exit(3 if status else verdict.outcome != VALID)


main()
