#!/usr/bin/env python3
"""libpcap's own answers, by the library that is installed (libpcap0.8).

    libpcap.py EXPRESSION                       compiles it: `ok`, or libpcap's message
    libpcap.py EXPRESSION FRAME [WIRE_LENGTH]   `true` or `false` for a frame in hex

A program is compiled for Ethernet, with and without libpcap's optimiser. The two differ on frames
that are cut, so `Libpcap.matches` asks for one of them by name."""
import ctypes
import ctypes.util
import sys

ETHERNET = 1
# the greatest snapshot length that tcpdump uses
SNAP_LENGTH = 262144
NO_NETMASK = 0xffffffff


class Instruction(ctypes.Structure):
    _fields_ = [('code', ctypes.c_ushort), ('jump_true', ctypes.c_ubyte),
                ('jump_false', ctypes.c_ubyte), ('operand', ctypes.c_uint)]


class Program(ctypes.Structure):
    _fields_ = [('length', ctypes.c_uint), ('instructions', ctypes.POINTER(Instruction))]


class RecordHeader(ctypes.Structure):
    _fields_ = [('seconds', ctypes.c_long), ('microseconds', ctypes.c_long),
                ('captured', ctypes.c_uint), ('on_the_wire', ctypes.c_uint)]


class CompileError(Exception):
    pass


class Libpcap:
    """one handle, for a link type"""

    def __init__(self, link_type=ETHERNET):
        name = ctypes.util.find_library('pcap') or 'libpcap.so.0.8'
        self.library = ctypes.CDLL(name)
        self.library.pcap_open_dead.restype = ctypes.c_void_p
        self.library.pcap_open_dead.argtypes = [ctypes.c_int, ctypes.c_int]
        self.library.pcap_compile.argtypes = [
            ctypes.c_void_p, ctypes.POINTER(Program), ctypes.c_char_p, ctypes.c_int, ctypes.c_uint]
        self.library.pcap_geterr.restype = ctypes.c_char_p
        self.library.pcap_geterr.argtypes = [ctypes.c_void_p]
        self.library.pcap_freecode.argtypes = [ctypes.POINTER(Program)]
        self.library.pcap_offline_filter.argtypes = [
            ctypes.POINTER(Program), ctypes.POINTER(RecordHeader), ctypes.c_char_p]
        self.library.pcap_lib_version.restype = ctypes.c_char_p
        self.handle = self.library.pcap_open_dead(link_type, SNAP_LENGTH)

    def version(self):
        return self.library.pcap_lib_version().decode()

    def compile(self, text, optimised=True):
        """a program; CompileError with libpcap's message if there is none"""
        program = Program()
        given = text if isinstance(text, bytes) else text.encode('latin-1')
        if b'\0' in given:
            raise CompileError('a text of C ends at its first zero byte')
        if self.library.pcap_compile(self.handle, ctypes.byref(program), given, int(optimised),
                                     NO_NETMASK) != 0:
            raise CompileError(self.library.pcap_geterr(self.handle).decode('latin-1'))
        return program

    def free(self, program):
        self.library.pcap_freecode(ctypes.byref(program))

    def matches(self, program, frame, on_the_wire=None):
        header = RecordHeader(0, 0, len(frame), len(frame) if on_the_wire is None else on_the_wire)
        return self.library.pcap_offline_filter(
            ctypes.byref(program), ctypes.byref(header), bytes(frame)) != 0


def main(arguments):
    if not 1 <= len(arguments) <= 3:
        sys.exit(__doc__)
    library = Libpcap()
    try:
        program = library.compile(arguments[0])
    except CompileError as error:
        print(error)
        sys.exit(1)
    if len(arguments) == 1:
        print('ok')
        return
    wire = int(arguments[2]) if len(arguments) == 3 else None
    print('true' if library.matches(program, bytes.fromhex(arguments[1]), wire) else 'false')


if __name__ == '__main__':
    main(sys.argv[1:])
