"""One step of qemu-riscv32, watched through its debugging socket."""

import os
import socket
import struct
import subprocess
import tempfile
import time

# RV32I and nothing more, so that no extension answers for it.
EXTENSIONS = ("m", "a", "f", "d", "c", "Zicsr", "Zifencei", "zba", "zbb", "zbc", "zbs")
CPU = "rv32," + ",".join(name + "=false" for name in EXTENSIONS)

# Where pc stands among the registers.
PC = 32

# The most bytes that are read at once.
CHUNK = 1024


class IllegalInstruction(Exception):
    """The word is no instruction of this processor."""


class Debugger:
    """The part of the GDB remote protocol that is wanted here."""

    def __init__(self, path):
        self.socket = socket.socket(socket.AF_UNIX)
        self.unread = b""
        for _ in range(500):
            try:
                self.socket.connect(path)
                return
            except OSError:
                time.sleep(0.01)
        raise TimeoutError("qemu opens no debugging socket")

    def ask(self, request):
        self.socket.sendall(b"$%s#%02x" % (request, sum(request) % 256))
        while True:
            start = self.unread.find(b"$")
            end = self.unread.find(b"#", start)
            if 0 <= start < end and len(self.unread) >= end + 3:
                answer = self.unread[start + 1 : end]
                self.unread = self.unread[end + 3 :]
                self.socket.sendall(b"+")
                return answer
            more = self.socket.recv(4096)
            if not more:
                raise EOFError("qemu is gone")
            self.unread += more

    def order(self, request):
        answer = self.ask(request)
        if answer != b"OK":
            raise ValueError(f"{request} is answered by {answer}")

    def registers(self):
        """x0 to x31, then pc."""
        read = bytes.fromhex(self.ask(b"g").decode())
        return list(struct.unpack("<33I", read[: 4 * 33]))

    def set_registers(self, words):
        self.order(b"G" + struct.pack("<33I", *words).hex().encode())

    def memory(self, count):
        """The first `count` words."""
        read = b""
        while len(read) < 4 * count:
            size = min(CHUNK, 4 * count - len(read))
            read += bytes.fromhex(self.ask(b"m%x,%x" % (len(read), size)).decode())
        return list(struct.unpack(f"<{count}I", read))

    def set_word(self, index, word):
        self.order(b"M%x,4:%s" % (4 * index, struct.pack("<I", word).hex().encode()))

    def step(self):
        signal = self.ask(b"s")[:3]
        if signal == b"T04":
            raise IllegalInstruction
        if signal != b"T05":
            raise ValueError(f"the step ends with {signal}")


def step(program, registers, memory):
    """Runs one instruction of a program that is a plain memory from address 0 on, with these
    registers and these words in it. Answers the registers and the memory after it."""
    with tempfile.TemporaryDirectory() as folder:
        path = os.path.join(folder, "socket")
        qemu = subprocess.Popen(["qemu-riscv32", "-cpu", CPU, "-g", path, program])
        try:
            debugger = Debugger(path)
            for index, (old, new) in enumerate(zip(debugger.memory(len(memory)), memory)):
                if old != new:
                    debugger.set_word(index, new)
            debugger.set_registers(registers)
            debugger.step()
            return debugger.registers(), debugger.memory(len(memory))
        finally:
            qemu.kill()
            qemu.wait()
