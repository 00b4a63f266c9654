#!/usr/bin/env python3
"""Plays the captured conversations cases/captures/* on the filter's end and on both mail server's ends, as both compilers
built them.

The mail server's half is fed to `milter_tool answer`. What is replied is written out here from the protocol: the
options with what both ends have, which is nothing but the version, and `Continue` to each command that has a reply.
Where the captured filter let a command go on too, its reply is the same.

The filter's half is fed to a mail server's end by the program of the tables `mta_*`, each reply after its command,
packet by packet and then byte by byte. The session file has what the captured mail server sent. Compared are the
packets that are sent, when a reply is wanted, and the reports with the messages after the filter's edits. All captures
are played to their end. A mail server's end differs from those that were captured in this:

- It offers no RCPT_REJ (0x800), which all of them offered, and nothing else is left out of their offers. Some filters
  answered with it; it is taken out of their answers, since what isn't offered can't be negotiated.
- It has one list of macros for each stage, sends these before each command of the stage, and has no macros for header
  fields and the body. The list is that of the stage's first macros in the capture: Postfix and Sendmail have others for
  each recipient and each message, and miltertest sends those of the recipients once. Where the stage has no macros,
  nothing is sent for it; Postfix and Sendmail send macros without any.
- It sends the macros that the filter asked for by a symbol list, and no others; miltertest sends all.
- It aborts no message that came to its end; Postfix does, and once more before it quits.
- It quits where the script of `raw_quitnc` begins another connection on the same stream. What comes after that
  is played as a connection of its own, which begins with the same options.

The filter's half is also fed to the mail server's end that is called stage by stage, by the program of the tables
`connection_*`. Its script has a call for each captured command, with the macros that went before it, and feeds each
reply after its command, again packet by packet and byte by byte. Compared are the packets that each call sends, what
comes of each reply, and the edits. The offer is the captured one, and so are the macros of each call; so it differs from
the captured mail servers in less:

- It has no macros for header fields and the body, and sends no packet without any; Postfix sends both. It sends none
  before a command that is left out; Postfix does, in `pf_opendkim`.
- It sends the macros that the filter asked for by a symbol list, and no others; miltertest sends all.
- An abort after a message that came to its end is left out; Postfix sends it, and once more before it quits.
- `raw_quitnc` is two connections, as above.
"""
import os
import sys

from lib import captures, programs, runner

REPLIED = b'CHMRTLNBEU'
NOT_REPLIED = b'DAKQ'
OPTIONS = bytes.fromhex('0000000d4f000000060000000000000000')
CONTINUE = bytes.fromhex('0000000163')


def expected(command):
    """The reply to a command."""
    code = command[4]
    if code == ord('O'):
        return OPTIONS
    assert code in REPLIED + NOT_REPLIED, command
    return CONTINUE if code in REPLIED else b''


def fault_of_answers(path, build):
    """What is wrong of the replies to a capture's mail server, or None."""
    conversation = captures.halves(path)
    wanted = [expected(command) for command, _ in conversation]
    end = programs.ended([programs.tool(build), 'answer'], b''.join(command for command, _ in conversation))
    wrong = programs.compared('answer', end, (0, b''.join(wanted), b''))
    if wrong is not None:
        return wrong
    for (command, replies), reply in zip(conversation, wanted):
        if replies[-1:] == [CONTINUE] and reply != CONTINUE:
            return f'the captured filter let {command.hex()} go on'
    return None


def script_of(conversation, feeds):
    """The script that plays a conversation, and what it prints; `feeds` has the commands that feed replies."""
    lines = conversation.session + ['%%', 'config %x %x tempfail' % conversation.offer, 'dialled']
    printed = []
    for command, replies in conversation.exchanges:
        fed = feeds(replies) if replies else []
        lines += ['send', 'want'] + fed
        printed += [command.hex(), 'receive' if replies else 'done' if command[4:] == b'Q' else 'send']
        printed += ['ok'] * len(fed)
    return lines + ['reports messages'], printed + conversation.reports


def by_packets(replies):
    """Feeds replies one by one."""
    return ['feed ' + reply.hex() for reply in replies]


def by_bytes(replies):
    """Feeds replies byte by byte."""
    return ['feed_bytes ' + b''.join(replies).hex()]


def fault_of_script(program, build, script, printed):
    """What is wrong of what a program prints of a script, or None."""
    status, out, errors = programs.ended(programs.command_of(program, build), '\n'.join(script + ['']).encode())
    lines = out.decode().splitlines()
    if status or errors:
        return f'status {status}, errors {errors!r}'
    for number, (line, wanted) in enumerate(zip(lines + [''] * len(printed), printed), 1):
        if line != wanted:
            return f'line {number} of what is printed is {line}, and not {wanted}'
    if len(lines) > len(printed):
        return f'more is printed: {lines[len(printed)]}'
    return None


def fault_of_commands(path, build):
    """What is wrong of the commands to a capture's filter and of the reports, or None."""
    for conversation in captures.conversations(path):
        for feeds in by_packets, by_bytes:
            fault = fault_of_script('mail server', build, *script_of(conversation, feeds))
            if fault is not None:
                return fault
    return None


def printed_of(reply):
    """What is printed of a captured reply: of an edit that the filter is at work."""
    what = chr(reply[4])
    if what == 'O':
        return 'negotiated %x %x %x' % tuple(int.from_bytes(reply[at:at + 4], 'big') for at in (5, 9, 13))
    return 'verdict ' + captures.VERDICTS[what] if what in captures.VERDICTS else 'in progress'


def script_of_calls(connection, feeds):
    """The script that makes the calls of a connection, and what it prints; `feeds` has the commands that feed replies."""
    lines, printed = ['offer ' + connection.offer], []
    for call, answer, packets, replies in connection.calls:
        lines += call + ['send', 'want'] + (feeds(replies) if replies else [])
        printed += answer + [packet.hex() for packet in packets]
        printed += ['receive' if replies else 'nothing' if packets and packets[-1][4:] == b'Q' else 'command']
        printed += [printed_of(reply) for reply in replies]
        if call[-1:] == ['end']:
            lines += ['edits']
            printed += ['edits %d' % (len(replies) - 1)] + [reply.hex() for reply in replies[:-1]]
    return lines, printed


def fault_of_calls(path, build):
    """What is wrong of the calls for a capture's mail server, or None."""
    for connection in captures.calls(path):
        for feeds in by_packets, by_bytes:
            fault = fault_of_script('connection', build, *script_of_calls(connection, feeds))
            if fault is not None:
                return fault
    return None


def play_of(path, build, fault_of):
    """A play of a capture on one end, by a function that answers what is wrong of it."""

    def play():
        fault = fault_of(path, build)
        yield fault and f'{os.path.basename(os.path.dirname(path))}{build}: {fault}'

    return play


if __name__ == '__main__':
    programs.need('tool', 'mail server', 'connection')
    sys.exit(runner.run_all(
        play_of(path, build, fault_of) for path in captures.paths() for build in programs.BUILDS
        for fault_of in (fault_of_answers, fault_of_commands, fault_of_calls)))
