"""Plays of filters on the library for C: those of examples/, docs/C.md and README.md, as programs, and handlers of the
Python binding's server."""
import asyncio
import contextlib
import importlib
import os
import re
import shutil
import socket
import struct
import subprocess
import sys
import tempfile
import threading
import time

from lib import c_library, programs, serving
from lib.checks import expect
from lib.packets import packet_of
from lib.conversations import CONTINUE, packet

REFUSAL = 'code "550 5.1.1 This address takes no mail"'
SESSION = '''client 4 "client.example.org" 12345 "192.0.2.17"
helo "client.example.org"
macro connect "j" "mx.example.org"
''' + 2 * '''message
sender "<ada@example.org>"
recipient "<bob@example.net>"
recipient "<noreply@example.net>"
header "Subject" " first"
body "a body\\r\\n"
end
'''
STAGES = ['connect', 'helo', 'mail', 'rcpt', 'data', 'header', 'eoh', 'eob']
# The stages at which the filter in Python is asked.
PYTHON_STAGES = ['rcpt', 'eob']
ADDED = 'header "X-Filtered" " mx.example.org"\n'
PYTHON = os.path.join(programs.TOP, 'examples', 'python')
# Calls the tests of a module, as pytest does, and prints how many these are.
CALL_TESTS = 'import %s as it; print(len([getattr(it, name)() for name in dir(it) if name.startswith("test_")]))'


def reports(stages, added):
    """The reports of the session's messages, by a filter that is asked at these stages and adds this."""
    acted = {'rcpt': 'acted rcpt 1 continue\nacted rcpt 2 %s\n' % REFUSAL}
    lines = ''.join(acted.get(stage, 'acted %s 1 continue\n' % stage) for stage in stages)
    text = 'sender "<ada@example.org>"\nrecipient "<bob@example.net>"\nheader "Subject" " first"\n' + added
    whole = lines + text + 'body "a body\\r\\n"\nend\n'
    return ''.join('message %d filter released\n%s' % (number, whole) for number in [1, 2])


@contextlib.contextmanager
def running(command, place, **options):
    """A run of a filter that listens at a place."""
    with subprocess.Popen(command, stdin=subprocess.DEVNULL, **options) as process:
        try:
            serving.connected(place, lambda: process.poll() is not None).close()
            yield process
        finally:
            process.kill()


def by_mta(tool, address, stages, added, folder):
    """Plays the session by `milter_tool mta`."""
    session = programs.written(os.path.join(folder, 'session'), SESSION)
    end = programs.ended([tool, 'mta', address, session], timeout=serving.SECONDS)
    expect('the reports', (end[0], end[1].decode(), end[2]), (0, reports(stages, added), b''))


def by_miltertest(address, adds):
    """Plays the script of miltertest."""
    script = os.path.join(programs.TOP, 'tests', 'lib', 'c_library.lua')
    end = programs.ended(['miltertest', '-s', script, '-D', 'address=' + address, '-D', 'adds=' + adds],
                         timeout=serving.SECONDS)
    expect('miltertest', end, (0, b'', b''))


def example(tool, library, folder, language):
    """The filter of examples/ in a compiled language. The one in C adds a header field."""
    program, adds = c_library.example(library, language), language == 'c'
    (host, port), address = serving.place_of('inet', folder)
    words = ['%s:%d' % (host, port)] if language in ['go', 'rust'] else [host, str(port)]
    environment = {**os.environ, 'LD_LIBRARY_PATH': os.path.join(library, 'lib')}
    with running([program, *words], (host, port), env=environment) as process:
        by_mta(tool, address, STAGES, ADDED if adds else '', folder)
        if shutil.which('miltertest'):
            by_miltertest(address, 'yes' if adds else 'no')
        expect('it runs', process.poll(), None)


def mail_server(library, folder):
    """The mail server's side of examples/c, which shows messages to the filter beside it; under valgrind where that is
    installed."""
    source = os.path.join(programs.TOP, 'examples', 'c', 'mail_server.c')
    program, its_filter = c_library.compiled(library, source, 'mail_server'), c_library.example(library, 'c')
    checker = ['valgrind', '-q', '--leak-check=full', '--error-exitcode=9'] if shutil.which('valgrind') else []
    (host, port), _ = serving.place_of('inet', folder)

    def shown(recipient, message):
        command = [*checker, program, host, str(port), '<ada@example.org>', recipient]
        return programs.ended(command, message, timeout=serving.SECONDS)

    with running([its_filter, host, str(port)], (host, port)):
        for message in [MESSAGE, MESSAGE.replace(b'\n', b'\r\n'), b'', b'\n' + 100000 * b'a line\n', MESSAGE[:-1]]:
            edit = b'edit 1 0 "X-Filtered" "mx.example.net"\ncontinue\n'
            expect('it passes', shown('<bob@example.net>', message), (0, edit, b''))
        refused = b'code 550 5.1.1 This address takes no mail\n'
        expect('it is refused', shown('<noreply@example.net>', MESSAGE), (1, refused, b''))
    expect('no filter', shown('<bob@example.net>', MESSAGE)[:2], (2, b''))


def blocks_of(language, path=os.path.join('docs', 'C.md')):
    """The blocks of a document in a language."""
    with open(os.path.join(programs.TOP, path), encoding='utf-8') as document:
        return re.findall(r'(?s)```%s\n(.*?)```' % language, document.read())


def of_binding(library, *paths):
    """The environment of programs in Python with the binding, and modules in these folders."""
    return {**os.environ, 'PYTHONPATH': os.pathsep.join([c_library.BINDING, *paths]), 'PYTHONDONTWRITEBYTECODE': '1',
            'DEIRUSKA_LIBRARY': c_library.shared(library)}


def tests_in_python(library):
    """The tests of the filters of examples/python. docs/C.md has parts of one and of its filter."""
    texts = ''
    for name in ['filter.py', 'test_filter.py']:
        with open(os.path.join(PYTHON, name), encoding='utf-8') as file:
            texts += file.read()
    expect('docs/C.md has parts of them', [block for block in blocks_of('python') if block not in texts], [])
    for name in sorted(it[:-3] for it in os.listdir(PYTHON) if it.startswith('test_')):
        end = programs.ended([sys.executable, '-c', CALL_TESTS % name], env=of_binding(library, PYTHON),
                             timeout=serving.SECONDS)
        expect('the tests of ' + name, (end[0], end[1] != b'0\n'), (0, True))


def example_in_python(tool, library, folder, kind):
    """The filter of examples/python."""
    place, address = serving.place_of(kind, folder)
    command = [sys.executable, os.path.join(PYTHON, 'filter.py'), address]
    with tempfile.TemporaryFile() as said, contextlib.ExitStack() as stack:
        process = stack.enter_context(running(command, place, env=of_binding(library), stderr=said))
        by_mta(tool, address, PYTHON_STAGES, ADDED, folder)
        if shutil.which('miltertest'):
            by_miltertest(address, 'yes')
        process.terminate()
        process.wait(serving.SECONDS)
        said.seek(0)
        expect('what it says', said.read(), b'')


def readme_in_python(tool, library, folder):
    """The filter in Python of README.md, at another address than there."""
    [block] = blocks_of('python', 'README.md')
    place, address = serving.place_of('unix', folder)
    text = block.replace('inet:8891@127.0.0.1', address)
    program = programs.written(os.path.join(folder, 'readme.py'), text)
    with running([sys.executable, program], place, env=of_binding(library)) as process:
        by_mta(tool, address, PYTHON_STAGES, '', folder)
        expect('it runs', process.poll(), None)


def first_in_c(tool, library, folder):
    """The first filter of docs/C.md, which has a connection as its standard input and output."""
    [block] = blocks_of('c')
    source = programs.written(os.path.join(library, 'first.c'), block)
    program = c_library.compiled(library, source, 'first')
    place, address = serving.place_of('unix', folder)
    with socket.socket(socket.AF_UNIX) as listener:
        listener.bind(place)
        listener.listen()

        def serve():
            connection, _ = listener.accept()
            with connection:
                subprocess.run([program], stdin=connection, stdout=connection, check=False)

        thread = threading.Thread(target=serve, daemon=True)
        thread.start()
        by_mta(tool, address, STAGES, '', folder)
        thread.join(serving.SECONDS)


OFFER = packet_of(b'O' + struct.pack('>III', 6, 0x1ff, 0x1ff7ff))
SENDER, RECIPIENT, END = packet(b'M', b'<a@x>'), packet(b'R', b'<b@y>'), packet(b'E')
TEMPFAIL, PROGRESS = packet(b't'), packet(b'p')


@contextlib.contextmanager
def server(handler, **options):
    """A server of the binding, with this handler; the place at which it listens."""
    with importlib.import_module('deiruska.testing').served(handler, **options) as address:
        yield address[len('unix:'):]


@contextlib.contextmanager
def connection_to(place, protocol):
    """A connection that has negotiated these protocol bits."""
    with serving.connected(place, lambda: False) as connection:
        connection.sendall(OFFER)
        options = serving.received(connection, 17)
        expect('protocol bits', '%x' % struct.unpack('>I', options[13:])[0], '%x' % protocol)
        yield connection


def raises(deiruska, _):
    """Where a handler raises, or its answer isn't one of the stage, the answer is Tempfail, and the connection goes
    on."""
    answers = iter([ValueError('meant to be raised'), deiruska.Verdict.SKIP, deiruska.Answer(code='no code'), None])

    class Handler:
        """At each recipient, the next of the answers."""

        async def rcpt(self, shown):
            """Raises, or answers."""
            answer = next(answers)
            if isinstance(answer, Exception):
                raise answer
            expect('what is shown', (shown.sender, shown.recipients[-1]), (b'<a@x>', b'<b@y>'))
            return answer

    # What comes before the recipients isn't answered, and what comes after them isn't sent.
    with server(Handler()) as place, connection_to(place, 0x7370) as connection:
        connection.sendall(SENDER + 4 * RECIPIENT)
        serving.expect_replies(connection, 3 * TEMPFAIL + CONTINUE)


def takes_long(deiruska, _):
    """Progress is reported at the end of a message, while the handler takes its time; other connections go on."""
    gate = threading.Event()

    async def handler(stage, _):
        """Waits at the end of a message."""
        while stage == deiruska.Stage.EOB and not gate.is_set():
            await asyncio.sleep(0.01)
        return deiruska.Verdict.ACCEPT if stage == deiruska.Stage.EOB else None

    with server(handler, progress=0.2) as place, \
            connection_to(place, 0x500) as slow, connection_to(place, 0x500) as other:
        slow.sendall(SENDER + RECIPIENT + END)
        serving.expect_replies(slow, 2 * CONTINUE + 2 * PROGRESS)
        other.sendall(SENDER + RECIPIENT)
        serving.expect_replies(other, 2 * CONTINUE)
        gate.set()
        found = serving.received(slow, 5)
        while found.endswith(PROGRESS):
            found = serving.received(slow, 5)
        expect('the reply', found, packet(b'a'))


def is_left(_deiruska, _folder):
    """A handler is cancelled where its mail server hangs up, and where the server is."""
    begun, cancelled = [], []

    class Handler:
        """One for each connection."""

        async def mail(self, _):
            """Never ends by itself."""
            begun.append(self)
            try:
                await asyncio.sleep(serving.SECONDS)
            except asyncio.CancelledError:
                cancelled.append(self)
                raise

    with server(Handler) as place:
        with connection_to(place, 0x3378) as connection:
            connection.sendall(SENDER)
            expect('it has begun', bool(serving.waited_for(lambda: begun)), True)
        expect('it is cancelled', serving.waited_for(lambda: cancelled), begun)
        stays = serving.connected(place, lambda: False)
        stays.sendall(OFFER + SENDER)
        expect('another has begun', bool(serving.waited_for(lambda: len(begun) == 2)), True)
        start = time.monotonic()
    with stays:
        expect('both are cancelled', cancelled, begun)
        expect('each has its own handler', len(set(map(id, begun))), 2)
        expect('it ended at once', time.monotonic() - start < serving.SECONDS / 2, True)


MESSAGE = b'Subject: first\nX-Twice: one\nX-Twice: two\n\tand more\nTo: bob\n\na body\nof two lines\n'
EDITED = (b'X-Top: inserted\r\nSubject: first\r\nX-Twice: changed\r\n and more\r\nX-Added: added\r\n\r\n'
          b'another body\r\nin two pieces\r\n')


def does_edits(deiruska, _):
    """A player of messages does each edit."""
    testing = importlib.import_module('deiruska.testing')

    async def handler(stage, _):
        """At the end of a message an edit of each kind."""
        if stage != deiruska.Stage.EOB:
            return None
        answer = deiruska.Answer().add_header('X-Added', 'added').insert_header(0, 'X-Top', 'inserted')
        answer.change_header(2, 'x-twice', 'changed\n and more').delete_header(1, 'X-Twice').delete_header(1, 'to')
        answer.delete_header(7, 'X-Twice').change_sender('<changed@example.org>', 'RET=HDRS')
        answer.add_recipient('<added@example.net>').delete_recipient('<bob@example.net>').quarantine('looked at')
        return answer.replace_body('another body\r\n').replace_body('in two pieces\r\n')

    played = testing.play(handler, MESSAGE)
    expect('the edits', [edit.name for edit in played.edits].count('change_header'), 4)
    expect('the message', played.edited, EDITED)
    expect('the rest', (played.sender, played.recipients, played.quarantined),
           (b'<changed@example.org>', [b'<added@example.net>'], b'looked at'))
    expect('the verdict', (played.verdict, played.stage), (deiruska.Answer(), deiruska.Stage.EOB))


def ends_there(deiruska, _):
    """A player of messages ends where the filter's verdict ends the dialogue, and has the macros and the stages."""
    testing = importlib.import_module('deiruska.testing')
    refusal = deiruska.Answer(code='550 5.7.1 No')

    def handler(last):
        """A filter that refuses at a stage."""
        async def by_stage(stage, shown):
            expect('a macro', shown.macro('j'), b'mx.example.net')
            return refusal if stage == last else None

        return by_stage

    macros = {deiruska.Stage.CONNECT: {'j': 'mx.example.net'}}
    for stage in deiruska.Stage:
        played = testing.play(handler(stage), MESSAGE, macros=macros)
        expect('the end', (played.verdict, played.stage, played.edits), (refusal, stage, []))
        is_of_recipient = stage == deiruska.Stage.RCPT
        expect('the refusals', played.refusals, {b'<bob@example.net>': refusal} if is_of_recipient else {})
    with testing.served(handler(None), macros={deiruska.Stage.CONNECT: 'i'}) as address:
        played = testing.play(address, MESSAGE, macros=macros)
    # The macro that was asked for isn't there, and the other one isn't sent: the handler fails.
    expect('the end', (played.verdict, played.stage),
           (deiruska.Answer(deiruska.Verdict.TEMPFAIL), deiruska.Stage.CONNECT))


def is_lost(deiruska, folder):
    """A filter that closes the connection, or sends what it may not, is lost."""
    testing, path = importlib.import_module('deiruska.testing'), os.path.join(folder, 'lost')
    for replies, error in [(b'', testing.FilterLost), (TEMPFAIL, deiruska.LossFault)]:
        with socket.socket(socket.AF_UNIX) as listener:
            listener.bind(path)
            listener.listen()
            thread = threading.Thread(target=_reply_once, args=(listener, replies), daemon=True)
            thread.start()
            try:
                found = testing.play('unix:' + path, MESSAGE)
            except (testing.FilterLost, deiruska.LossFault) as fault:
                found = type(fault)
            expect('it is lost', found, error)
            thread.join(serving.SECONDS)
        os.remove(path)


def _reply_once(listener, replies):
    """Takes a connection, replies to its offer, and closes it."""
    connection, _ = listener.accept()
    with connection:
        serving.received(connection, len(OFFER))
        connection.sendall(replies)
