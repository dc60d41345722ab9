"""How `timorun` ends when it cannot read or write, and how much stack it needs.

A failed read prints nothing, a failed write ends the printout, and each is told in one line on standard error; a line is written as its step is done.
Usage: timorun_ends.py PROGRAM EXAMPLES
"""

import os
import resource
import signal
import socket
import subprocess
import sys

PROGRAM, EXAMPLES = sys.argv[1:]
NOT_READ = b"timorun: standard input could not be read\n"
NOT_WRITTEN = b"timorun: the printout could not be written\n"
PLAIN_KIB = 1024
DEEPEST_KIB = 2560


def contents(path):
    with open(path, "rb") as file:
        return file.read()


SCRIPT = contents(f"{EXAMPLES}/document_01.timo")
PRINTOUT = contents(f"{EXAMPLES}/document_01.out")


def run(**options):
    """The program's end: status, standard output if it is a pipe, standard error. It must end within ten seconds."""
    options.setdefault("stdout", subprocess.PIPE)
    done = subprocess.run([PROGRAM], stderr=subprocess.PIPE, timeout=10, **options)
    return done.returncode, done.stdout, done.stderr


def expect(what, got, wanted):
    if got != wanted:
        sys.exit(f"timorun: {what}: got {got}, wanted {wanted}")


def failed_reads():
    def close_input():
        os.close(0)

    expect("closed standard input", run(preexec_fn=close_input), (0, b"", NOT_READ))
    folder = os.open(EXAMPLES, os.O_RDONLY)
    expect("a folder as input", run(stdin=folder), (0, b"", NOT_READ))
    os.close(folder)
    # a pipe that is not ready, before the first byte and behind a text that is whole
    for text in (b"", SCRIPT):
        reader, writer = os.pipe()
        os.write(writer, text)
        os.set_blocking(reader, False)
        expect("a pipe that is not ready", run(stdin=reader), (0, b"", NOT_READ))
        os.close(reader)
        os.close(writer)


def failed_writes():
    with open("/dev/full", "wb") as full:
        expect("a full disk", run(input=SCRIPT, stdout=full), (0, None, NOT_WRITTEN))

    def close_output():
        os.close(1)

    expect("closed standard output", run(input=SCRIPT, stdout=None, preexec_fn=close_output), (0, None, NOT_WRITTEN))


def closed_pipe():
    """Nobody reads: the program ignores the signal, as every program in Rattle does, whatever it was started with; the write fails and is told."""
    def ignore():
        signal.signal(signal.SIGPIPE, signal.SIG_IGN)

    for prepare, wanted in ((None, (0, None, NOT_WRITTEN)), (ignore, (0, None, NOT_WRITTEN))):
        reader, writer = os.pipe()
        os.close(reader)
        expect("a closed pipe", run(input=SCRIPT, stdout=writer, preexec_fn=prepare), wanted)
        os.close(writer)


def nearly_full_disk():
    def small_file():
        signal.signal(signal.SIGXFSZ, signal.SIG_IGN)
        resource.setrlimit(resource.RLIMIT_FSIZE, (20, 20))

    path = "target/timorun_cut.out"
    with open(path, "wb") as out:
        expect("a disk that is full after 20 bytes", run(input=SCRIPT, stdout=out, preexec_fn=small_file), (0, None, NOT_WRITTEN))
    expect("what such a disk has", contents(path), PRINTOUT[:20])


def line_by_line():
    """Through a socket that keeps writes apart: one write for each step's line, then one for the definitions and the network, then one for the mean."""
    ours, theirs = socket.socketpair(socket.AF_UNIX, socket.SOCK_SEQPACKET)
    expect("a socket", run(input=SCRIPT, stdout=theirs), (0, None, b""))
    theirs.close()
    written = list(iter(lambda: ours.recv(65536), b""))
    lines = PRINTOUT.splitlines(keepends=True)
    expect("writes", written, lines[:8] + [b"".join(lines[8:-1]), lines[-1]])


def on_a_stack_of(kib, script):
    def limit():
        resource.setrlimit(resource.RLIMIT_STACK, (kib * 1024, kib * 1024))

    return run(input=script, preexec_fn=limit)


def small_stacks():
    plain = sorted(name[:-5] for name in os.listdir(EXAMPLES) if name.endswith(".timo"))
    for name in plain:
        path = f"{EXAMPLES}/{name}"
        expect(f"{name} on {PLAIN_KIB} KiB", on_a_stack_of(PLAIN_KIB, contents(f"{path}.timo")), (0, contents(f"{path}.out"), b""))
    many = b" | ".join([b"stop"] * 4095)
    hostile = {
        "the deepest text": ((b"A[" + b"go(0,A," * 9361)[:65535], b"refused 2\n"),
        "the deepest inputs": ((b"A[" + b"in(c,0,x," * 7300)[:65535], b"refused 2\n"),
        "the deepest outputs": ((b"A[" + b"out(c,0,A,stop," * 4400)[:65535], b"refused 2\n"),
        "bars in depth": ((b"A[" + b"a|go(0,A," * 7300)[:65535], b"refused 2\n"),
        "bars in a row": (b"A[" + b"a|" * 32764 + b"a] .", b"refused 4\n"),
        "a definition of 4,095 parts": (b"D = " + many + b" .\nA[stop] .", b"A\n" * 4 + b"D = " + many + b" .\nA[stop] .\n-\n"),
        "65,536 bytes": (b" " * 65536, b"refused 1\n"),
    }
    for name, (script, printout) in hostile.items():
        expect(f"{name} on {DEEPEST_KIB} KiB", on_a_stack_of(DEEPEST_KIB, script), (0, printout, b""))


failed_reads()
failed_writes()
closed_pipe()
nearly_full_disk()
line_by_line()
small_stacks()
print("timorun: failed reads and writes are told, and the stack is small")
