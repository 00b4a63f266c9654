"""The numbers of deiruska.h, as enums."""
import enum


class Stage(enum.IntEnum):
    """The stages of a connection and of its messages, in their order."""

    CONNECT = 1
    HELO = 2
    MAIL = 3
    RCPT = 4
    DATA = 5
    HEADER = 6
    EOH = 7
    BODY = 8
    EOB = 9


class Step(enum.IntEnum):
    """What the caller of a `FilterConnection` does next."""

    FEED = 0
    SEND = 1
    ANSWER = 2
    DONE = 3


class Verdict(enum.IntEnum):
    """What becomes of a message, or of a recipient. DISCARD isn't given at connect and helo, SKIP at body alone."""

    CONTINUE = 0
    ACCEPT = 1
    REJECT = 2
    TEMPFAIL = 3
    DISCARD = 4
    SKIP = 5


class Want(enum.IntEnum):
    """What the caller of an `MtaConnection` does next."""

    SEND = 0
    RECEIVE = 1
    COMMAND = 2
    NOTHING = 3


class Outcome(enum.IntEnum):
    """What came of a call of an `MtaConnection`: nothing is sent, it is sent and no verdict comes, or one does."""

    LEFT_OUT = 0
    NO_REPLY = 1
    VERDICT_DUE = 2


class Event(enum.IntEnum):
    """What a filter sent last: no whole reply, an edit or progress, the options, or the verdict that was due."""

    NOTHING = 0
    IN_PROGRESS = 1
    NEGOTIATED = 2
    VERDICT = 3


class Direction(enum.IntEnum):
    """Which end bytes go to."""

    TO_FILTER = 0
    TO_MTA = 1


class Family(enum.IntEnum):
    """The family of a client's address."""

    UNKNOWN = 0
    UNIX = 1
    INET = 2
    INET6 = 3


class Actions(enum.IntFlag):
    """What a filter may do (SMFIF_ of mfapi.h)."""

    ADDHDRS = 0x01
    CHGBODY = 0x02
    ADDRCPT = 0x04
    DELRCPT = 0x08
    CHGHDRS = 0x10
    QUARANTINE = 0x20
    CHGFROM = 0x40
    ADDRCPT_PAR = 0x80
    SETSYMLIST = 0x100
    ALL = 0x1ff


class Protocol(enum.IntFlag):
    """What isn't sent (NO..), what isn't answered (NR_..), and how (SMFIP_ of mfapi.h)."""

    NOCONNECT = 0x000001
    NOHELO = 0x000002
    NOMAIL = 0x000004
    NORCPT = 0x000008
    NOBODY = 0x000010
    NOHDRS = 0x000020
    NOEOH = 0x000040
    NR_HDR = 0x000080
    NOUNKNOWN = 0x000100
    NODATA = 0x000200
    SKIP = 0x000400
    NR_CONN = 0x001000
    NR_HELO = 0x002000
    NR_MAIL = 0x004000
    NR_RCPT = 0x008000
    NR_DATA = 0x010000
    NR_UNKN = 0x020000
    NR_EOH = 0x040000
    NR_BODY = 0x080000
    HDR_LEADSPC = 0x100000
