"""Runs `milter_tool record` before filters, and reads the traces that it writes."""
import os
import signal
import socket
import subprocess
import threading

from lib import serving, sessions, tables
from lib.checks import expect


def heed_interrupts():
    """Has a run end by SIGINT. What a shell runs in the background ignores it, and so would the runs of a test there."""
    signal.signal(signal.SIGINT, signal.SIG_DFL)


class Recorder:
    """A run of `milter_tool record` on a socket of this kind, before a filter at this address, with these options."""

    def __init__(self, program, kind, folder, address, directory, *options):
        self.at, self.address = serving.place_of(kind, folder)
        self.process = subprocess.Popen(
            [program, 'record', self.address, address, directory, *options], stdin=subprocess.DEVNULL,
            stdout=subprocess.PIPE, stderr=subprocess.PIPE, preexec_fn=heed_interrupts)

    def __enter__(self):
        return self

    def __exit__(self, *_):
        self.process.kill()
        self.process.communicate()

    def connected(self):
        """A connection, made as soon as the recorder listens."""
        return serving.connected(self.at, lambda: self.process.poll() is not None)

    def end(self, signalled=None):
        """How it ended, by itself or by a signal."""
        if signalled is not None:
            self.process.send_signal(signalled)
        out, err = self.process.communicate(timeout=serving.SECONDS)
        return self.process.returncode, out.decode(), err.decode()

    def memory(self):
        """The KiB of memory that it had at most."""
        with open('/proc/%d/status' % self.process.pid, encoding='ascii') as status:
            return next(int(line.split()[1]) for line in status if line.startswith('VmHWM:'))


class Answers:
    """Answers each connection to a place by a run of `milter_tool answer` of its own, as a super-server does."""

    def __init__(self, program, kind, place):
        self.program = program
        self.listener = socket.socket(socket.AF_UNIX) if kind == 'unix' else socket.create_server(place)
        if kind == 'unix':
            self.listener.bind(place)
            self.listener.listen()
        self.runs = []
        threading.Thread(target=self.serve, daemon=True).start()

    def serve(self):
        """Takes the connections, until the socket is closed."""
        while True:
            try:
                connection, _ = self.listener.accept()
            except OSError:
                return
            with connection:
                self.runs.append(subprocess.Popen(
                    [self.program, 'answer'], stdin=connection, stdout=connection, stderr=subprocess.DEVNULL))

    def __enter__(self):
        return self

    def __exit__(self, *_):
        self.listener.shutdown(socket.SHUT_RDWR)
        self.listener.close()
        for run in self.runs:
            run.kill()
            run.wait()


def conversation_of(name):
    """The packets of a connection by the client of this name, each with its reply."""
    lines = sessions.OPENING + sessions.BEGINNING + sessions.ENDING + ['> Q']
    packets = {mark: [tables.packet_of(text[2:].replace('h.example', name).encode(), None)
                      for text in lines if text[0] == mark] for mark in '><'}
    return list(zip(packets['>'], packets['<'] + [b'']))


def trace_of(conversation):
    """The trace of a connection, each packet of which is a line."""
    return ''.join('> %s\n' % given.hex() + ('< %s\n' % reply.hex() if reply else '') for given, reply in conversation)


def say(connection, conversation):
    """Sends these packets, each after the reply to the one before."""
    for given, reply in conversation:
        connection.sendall(given)
        serving.expect_replies(connection, reply)


def traces_in(directory):
    """The traces of a directory, by the names of their files."""
    found = {}
    for name in os.listdir(directory):
        with open(os.path.join(directory, name), encoding='ascii') as file:
            found[name] = file.read()
    return found


def bytes_of(trace, mark):
    """What the sender of this mark sent, as a trace has it."""
    return b''.join(bytes.fromhex(line[2:]) for line in trace.splitlines() if line[0] == mark)


def expect_traces(program, directory, *conversations):
    """Compares the files of a directory with the traces of these connections, which the program reads."""
    found = traces_in(directory)
    expected = {'%d.trace' % number: trace_of(one) for number, one in enumerate(conversations, 1)}
    expect('the traces', found, expected)
    for name in found:
        read = subprocess.run([program, 'trace', os.path.join(directory, name)], stdin=subprocess.DEVNULL,
                              capture_output=True, check=False)
        expect('the end of ' + name, (read.returncode, read.stderr), (0, b''))
