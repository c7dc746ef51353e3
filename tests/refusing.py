"""Runs a static program again and again, and lets its first allocation fail, then its second one, and so on, until a
run has no allocation of that number: refusing.py PROGRAM CALLS WORD.., with the input of each run. CALLS are the places
of main, malloc, calloc and realloc, as programs/made has them, with commas between them. It prints a line of JSON for
each run: whether there was such an allocation, the status, the output, and what was printed on standard error. What
the C library allocates before main is not counted.

A static program takes no other malloc by LD_PRELOAD. So this is a debugger: it stops the program at each call, as
ptrace(2) has it, on x86-64, and lets a call fail by asking for more than there is."""
import contextlib
import ctypes
import itertools
import json
import os
import signal
import sys
import tempfile

LIBC = ctypes.CDLL(None, use_errno=True)
LIBC.ptrace.argtypes = [ctypes.c_long, ctypes.c_long, ctypes.c_void_p, ctypes.c_void_p]
LIBC.ptrace.restype = ctypes.c_long
# Requests of ptrace, two of its options, and of waitpid that it waits for threads too.
TRACEME, CONT, GETREGS, SETREGS, SETOPTIONS = 0, 7, 12, 13, 0x4200
TRACECLONE, EXITKILL, WALL = 8, 1 << 20, 0x40000000
BREAK = b"\xcc"
NAMES = "r15 r14 r13 r12 rbp rbx r11 r10 r9 r8 rax rcx rdx rsi rdi orig_rax rip cs eflags rsp ss fs_base gs_base ds es"
# The registers by the number that push has for them.
PUSHED = "rax rcx rdx rbx rsp rbp rsi rdi r8 r9 r10 r11 r12 r13 r14 r15".split()
# The calls in the order of the arguments, and which of their registers have a size.
CALLS = {"main": [], "malloc": ["rdi"], "calloc": ["rdi", "rsi"], "realloc": ["rsi"]}
TOO_MUCH = (1 << 63) - 1


class Registers(ctypes.Structure):
    _fields_ = [(it, ctypes.c_ulong) for it in [*NAMES.split(), "fs", "gs"]]


def traced(request, thread, address=None, data=None):
    if LIBC.ptrace(request, thread, address, data) < 0:
        raise OSError(ctypes.get_errno(), f"ptrace {request}")


class Run:
    """A run of a program in which the allocation of this number fails."""

    def __init__(self, program, calls, words, given, number):
        # The allocations are counted from main on.
        self.number, self.count, self.calls = number, None, dict(zip(calls, CALLS.values()))
        self.files = [tempfile.TemporaryFile() for _ in range(3)]
        self.files[0].write(given)
        self.files[0].seek(0)
        self.process = os.fork()
        if self.process == 0:
            try:
                for to, file in enumerate(self.files):
                    os.dup2(file.fileno(), to)
                traced(TRACEME, 0)
                os.execv(program, [program, *words])
            finally:
                os._exit(127)
        os.waitpid(self.process, 0)
        traced(SETOPTIONS, self.process, None, TRACECLONE | EXITKILL)
        self.memory = open(f"/proc/{self.process}/mem", "r+b", buffering=0)
        self.first = {it: self.read(it, 2) for it in calls}
        for it in calls:
            self.write(it, BREAK)
        traced(CONT, self.process)

    def read(self, place, size):
        self.memory.seek(place)
        return self.memory.read(size)

    def write(self, place, data):
        self.memory.seek(place)
        self.memory.write(data)

    def end(self):
        """Lets the program run to its end. Returns whether there was such an allocation, and the status and output."""
        ended = None
        with contextlib.suppress(ChildProcessError):
            while True:
                thread, status = os.waitpid(-1, WALL)
                if not os.WIFSTOPPED(status):
                    ended = os.waitstatus_to_exitcode(status) if thread == self.process else ended
                    continue
                number = os.WSTOPSIG(status)
                if number == signal.SIGTRAP and status >> 16 == 0:
                    self.at_call(thread)
                # A thread begins with SIGSTOP, and an event of a clone is no signal of its own.
                passed = 0 if number in (signal.SIGTRAP, signal.SIGSTOP) else number
                with contextlib.suppress(ProcessLookupError):
                    traced(CONT, thread, None, passed)
        texts = []
        for file in self.files:
            file.seek(0)
            texts.append(file.read().decode())
            file.close()
        self.memory.close()
        return (self.count or 0) >= self.number, ended, *texts[1:]

    def at_call(self, thread):
        """Notes the call, and has it fail if it is the one. Then does the push in whose place the break is."""
        found = Registers()
        traced(GETREGS, thread, None, ctypes.addressof(found))
        place = found.rip - 1
        sizes = self.calls[place]
        if not sizes:
            self.count = 0
        elif self.count is not None:
            self.count += 1
        for it in sizes if self.count == self.number else []:
            setattr(found, it, TOO_MUCH)
        is_high = self.first[place][0] == 0x41
        code = self.first[place][is_high] - 0x50
        if not 0 <= code < 8:
            raise ValueError(f"the call at {place:x} does not begin with a push")
        found.rsp -= 8
        self.write(found.rsp, getattr(found, PUSHED[code + 8 * is_high]).to_bytes(8, "little"))
        found.rip = place + 1 + is_high
        traced(SETREGS, thread, None, ctypes.addressof(found))


def main():
    program, calls, *words = sys.argv[1:]
    given = sys.stdin.buffer.read()
    for number in itertools.count(1):
        found = Run(program, [int(it, 16) for it in calls.split(",")], words, given, number).end()
        print(json.dumps(found), flush=True)
        if not found[0]:
            break


if __name__ == "__main__":
    main()
