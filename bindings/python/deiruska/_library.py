"""libdeiruska, loaded by ctypes, with the types of its functions.

The library is looked for by the dynamic loader, as libdeiruska.so.0; the environment variable DEIRUSKA_LIBRARY has
another path. It is loaded by the first call that needs it.
"""
import ctypes
import functools
import os
from typing import Any, Dict, Iterable, List, Tuple, Union

# The version that the functions below are those of, without the patch.
VERSION = 0x0001
SONAME = "libdeiruska.so.0"
# Set in the number of the version of a library that was built without its proof.
UNPROVED = 0x8000_0000

Text = Union[bytes, bytearray, memoryview, str]


class Bytes(ctypes.Structure):
    """A deiruska_bytes: borrowed bytes."""

    _fields_ = [("at", ctypes.c_void_p), ("len", ctypes.c_size_t)]


class BorrowedPacket(ctypes.Structure):
    """A deiruska_packet: a borrowed packet."""

    _fields_ = [("at", ctypes.c_void_p), ("len", ctypes.c_size_t), ("code", ctypes.c_uint8)]


class BorrowedPart(ctypes.Structure):
    """A deiruska_part: a borrowed part of a command or a reply."""

    _fields_ = [("first", Bytes), ("second", Bytes), ("kind", ctypes.c_uint32), ("number", ctypes.c_uint32)]


class BorrowedEdit(ctypes.Structure):
    """A deiruska_edit: a borrowed edit."""

    _fields_ = [("first", Bytes), ("second", Bytes), ("kind", ctypes.c_uint32), ("index", ctypes.c_uint32)]


class Handle(ctypes.Structure):
    """A deiruska_handle. What it has is freed with it."""

    _fields_ = [("private_at", ctypes.c_void_p), ("private_full", ctypes.c_bool)]

    def __del__(self) -> None:
        if self.private_full:
            library().deiruska_free(ctypes.byref(self))


# What borrowed bytes begin with: a valid address of none.
EMPTY = ctypes.create_string_buffer(1)
IN = [ctypes.c_void_p, ctypes.c_size_t]
HANDLE, NUMBER, WORD = ctypes.POINTER(Handle), ctypes.c_uint32, ctypes.c_size_t
TO_BYTES, TO_PACKET = ctypes.POINTER(Bytes), ctypes.POINTER(BorrowedPacket)
TO_NUMBER, TO_WORD = ctypes.POINTER(NUMBER), ctypes.POINTER(WORD)
LINE, PORT, CODE = ctypes.c_uint64, ctypes.c_uint16, ctypes.c_uint8
TO_PART, TO_EDIT = ctypes.POINTER(BorrowedPart), ctypes.POINTER(BorrowedEdit)
# The parameters of each function that answers a deiruska_result or a deiruska_step.
PARAMETERS = {
    "packet_first": [*IN, TO_PACKET],
    "stream_new": [HANDLE],
    "stream_feed": [HANDLE, *IN, TO_WORD],
    "stream_next": [HANDLE, TO_PACKET],
    "decoded_command": [HANDLE, CODE, *IN],
    "decoded_reply": [HANDLE, CODE, *IN],
    "decoded_part": [HANDLE, WORD, TO_PART],
    "trace_new": [HANDLE],
    "trace_feed": [HANDLE, NUMBER, *IN],
    "trace_text": [HANDLE, TO_BYTES],
    "trace_clear": [HANDLE],
    "filter_new": [HANDLE, NUMBER, NUMBER, NUMBER],
    "filter_ask_macros": [HANDLE, NUMBER, *IN],
    "filter_restart": [HANDLE],
    "filter_step": [HANDLE],
    "filter_feed": [HANDLE, *IN, TO_WORD],
    "filter_asked": [HANDLE, TO_NUMBER],
    "filter_pending": [HANDLE, TO_BYTES],
    "filter_sent": [HANDLE, WORD],
    "filter_unread": [HANDLE, TO_WORD],
    "filter_state": [HANDLE],
    "filter_release": [HANDLE],
    "filter_answer": [HANDLE, HANDLE],
    "filter_progress": [HANDLE],
    "filter_host": [HANDLE, TO_BYTES],
    "filter_address": [HANDLE, TO_BYTES, TO_NUMBER, TO_NUMBER],
    "filter_helo": [HANDLE, TO_BYTES],
    "filter_sender": [HANDLE, TO_BYTES],
    "filter_recipients": [HANDLE, TO_WORD],
    "filter_recipient": [HANDLE, WORD, TO_BYTES],
    "filter_headers": [HANDLE, TO_WORD],
    "filter_header_name": [HANDLE, WORD, TO_BYTES],
    "filter_header_value": [HANDLE, WORD, TO_BYTES],
    "filter_body": [HANDLE, TO_BYTES],
    "filter_macro": [HANDLE, *IN, TO_BYTES],
    "answer_new": [HANDLE],
    "answer_verdict": [HANDLE, NUMBER],
    "answer_code": [HANDLE, *IN],
    "answer_add_header": [HANDLE, *IN, *IN],
    "answer_insert_header": [HANDLE, NUMBER, *IN, *IN],
    "answer_change_header": [HANDLE, NUMBER, *IN, *IN],
    "answer_change_sender": [HANDLE, *IN, *IN],
    "answer_add_recipient": [HANDLE, *IN],
    "answer_delete_recipient": [HANDLE, *IN],
    "answer_replace_body": [HANDLE, *IN],
    "answer_quarantine": [HANDLE, *IN],
    "rules_read": [HANDLE, *IN, ctypes.POINTER(LINE)],
    "filter_new_by": [HANDLE, HANDLE],
    "filter_answer_by": [HANDLE, HANDLE],
    "mta_new": [HANDLE, NUMBER, NUMBER, NUMBER],
    "mta_want": [HANDLE],
    "mta_pending": [HANDLE, TO_BYTES],
    "mta_sent": [HANDLE, WORD],
    "mta_feed": [HANDLE, *IN],
    "mta_event": [HANDLE],
    "mta_verdict": [HANDLE, TO_NUMBER, TO_BYTES],
    "mta_negotiated": [HANDLE, TO_NUMBER, TO_NUMBER, TO_NUMBER],
    "mta_is_under_way": [HANDLE],
    "mta_lost": [HANDLE],
    "mta_release": [HANDLE],
    "mta_macro": [HANDLE, *IN, *IN],
    "mta_parameter": [HANDLE, *IN],
    "mta_clear": [HANDLE],
    "mta_connect": [HANDLE, *IN, NUMBER, PORT, *IN, TO_NUMBER],
    "mta_helo": [HANDLE, *IN, TO_NUMBER],
    "mta_mail": [HANDLE, *IN, TO_NUMBER],
    "mta_rcpt": [HANDLE, *IN, TO_NUMBER],
    "mta_data": [HANDLE, TO_NUMBER],
    "mta_header": [HANDLE, *IN, *IN, TO_NUMBER],
    "mta_eoh": [HANDLE, TO_NUMBER],
    "mta_body": [HANDLE, *IN, TO_NUMBER],
    "mta_end": [HANDLE, TO_NUMBER],
    "mta_unknown": [HANDLE, *IN, TO_NUMBER],
    "mta_abort": [HANDLE, TO_NUMBER],
    "mta_quit": [HANDLE, TO_NUMBER],
    "mta_edits": [HANDLE, TO_WORD],
    "mta_edit": [HANDLE, WORD, TO_EDIT],
    "message_new": [HANDLE, *IN],
    "message_add_recipient": [HANDLE, *IN],
    "message_add_header": [HANDLE, *IN, *IN],
    "message_add_body": [HANDLE, *IN],
    "message_edit": [HANDLE, HANDLE],
    "message_sender": [HANDLE, TO_BYTES],
    "message_recipients": [HANDLE, TO_WORD],
    "message_recipient": [HANDLE, WORD, TO_BYTES],
    "message_headers": [HANDLE, TO_WORD],
    "message_header_name": [HANDLE, WORD, TO_BYTES],
    "message_header_value": [HANDLE, WORD, TO_BYTES],
    "message_body": [HANDLE, TO_BYTES],
    "message_quarantine": [HANDLE, TO_BYTES],
}


@functools.lru_cache(maxsize=None)
def library() -> Any:
    """The library, with the types of its functions. Raises OSError where it isn't found, or is of another version."""
    path = os.environ.get("DEIRUSKA_LIBRARY", SONAME)
    loaded = ctypes.CDLL(path)
    loaded.deiruska_version.restype, loaded.deiruska_version.argtypes = ctypes.c_uint32, []
    found = loaded.deiruska_version() & ~UNPROVED
    if found >> 8 != VERSION:
        raise OSError("%s has version %d.%d, and not %d.%d" % (path, *_parts(found), *_parts(VERSION << 8)))
    loaded.deiruska_free.restype, loaded.deiruska_free.argtypes = None, [HANDLE]
    for name, parameters in PARAMETERS.items():
        function = getattr(loaded, "deiruska_" + name)
        function.restype, function.argtypes = ctypes.c_int32, parameters
    return loaded


@functools.lru_cache(maxsize=None)
def functions() -> Dict[str, Any]:
    """The functions of the library that answer a number, by their names without `deiruska_`."""
    return {name: getattr(library(), "deiruska_" + name) for name in PARAMETERS}


def _parts(number: int) -> Tuple[int, int]:
    return number >> 16, number >> 8 & 0xff


def version() -> str:
    """The version of the library that is loaded, and whether it was built without its proof."""
    found = library().deiruska_version()
    number = "%d.%d.%d" % (*_parts(found & ~UNPROVED), found & 0xff)
    return number + " (built without its proof)" if found & UNPROVED else number


def bytes_of(text: Text) -> bytes:
    """The bytes of a text; a str is encoded as UTF-8, and what `surrogateescape` decoded becomes its bytes again."""
    return text.encode("utf-8", "surrogateescape") if isinstance(text, str) else bytes(text)


def parameters_of(values: Iterable[Union[int, Text]]) -> List[Union[int, bytes]]:
    """The parameters of a function for these values: numbers as they are, and of texts their bytes and how many."""
    parameters: List[Union[int, bytes]] = []
    for value in values:
        if isinstance(value, int):
            parameters.append(value)
        else:
            given = bytes_of(value)
            parameters += [given, len(given)]
    return parameters


def address_of(text: bytes) -> int:
    """The address at which bytes lie, for as long as they live."""
    return ctypes.cast(ctypes.c_char_p(text), ctypes.c_void_p).value or 0


def no_bytes() -> Bytes:
    """Borrowed bytes, before a function has put some there: DEIRUSKA_NO_BYTES."""
    return Bytes(ctypes.addressof(EMPTY), 0)


def no_packet() -> BorrowedPacket:
    """A borrowed packet, before a function has put one there: DEIRUSKA_NO_PACKET."""
    return BorrowedPacket(ctypes.addressof(EMPTY), 0, 0)


def no_part() -> BorrowedPart:
    """A borrowed part, before a function has put one there: DEIRUSKA_NO_PART."""
    return BorrowedPart(no_bytes(), no_bytes(), 0, 0)


def no_edit() -> BorrowedEdit:
    """A borrowed edit, before a function has put one there: DEIRUSKA_NO_EDIT."""
    return BorrowedEdit(no_bytes(), no_bytes(), 0, 0)


def copied(borrowed: Any) -> bytes:
    """A copy of borrowed bytes, or of the payload of a borrowed packet."""
    return ctypes.string_at(borrowed.at, borrowed.len)
