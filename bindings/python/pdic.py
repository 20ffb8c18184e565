"""PDIC Hyper dictionaries, versions 4 and 5, in code order: the calls of pdic.h in Python, over the shared library by ctypes.

    import pdic

    glossary = pdic.Dictionary.open('terms.dic')
    entry = glossary.look_up(b'bleed screw')
    print(entry.text.decode('cp932') if entry else 'absent')

Headwords and texts are bytes. The format means Shift JIS (Python's cp932) with CR LF between lines; the library tests neither.

A Dictionary is an image in memory. Nothing here writes a file: the program `glossary` does, under a lock, as a new file that is renamed
over the old one.

Reading calls on one Dictionary may run in several threads at a time; a changing call needs it alone.

The library is the one that the variable PDIC_LIBRARY names, else the installed one with the interface that this module was written for.
"""
from __future__ import annotations

import ctypes
import hashlib
import os
import secrets
from typing import Iterator, NamedTuple, Optional

# the interface of the library: later ones have other calls, so that libpdic.so is not good enough
SONAME = 'libpdic.so.0.2'

# what a call returns
DONE = 0
ABSENT = 100
BAD_LENGTH = 1
SHORT_WORK = 2
BAD_VERSION = 3
LEFT_OUT = 4
BAD_AREAS = 5
BAD_INDEX = 6
BAD_PLACE = 7
BAD_RUN = 8
BAD_BLOCKS = 9
BAD_COUNTS = 10
READ_ONLY = 11
BAD_HEADWORD = 12
BAD_TEXT = 13
SHORT_OUTPUT = 14
FULL = 15

# the versions of a dictionary, and where its image has the version and, in version 5, the identifier
FORMAT_4 = 4
FORMAT_5 = 5
AT_VERSION = 140
AT_IDENT = 216

# limits, in bytes
MAX_HEADWORD = 248
MAX_TEXT = 3000
MAX_IMAGE = 25165824

# the bits of an attribute
LEVEL = 0x0F
PARTS = 0x10
LEARN = 0x20
CHANGED = 0x40
PLAIN = 0x80


class PdicError(Exception):
    """A refusal: its number, as pdic.h lists them, and the library's words for it. The dictionary is as it was."""

    def __init__(self, number: int):
        self.number = number
        self.meaning = _library.pdic_strerror(number).decode('ascii')
        super().__init__(f'refused {number}: {self.meaning}')

    def __reduce__(self):
        return PdicError, (self.number,)


class SealError(Exception):
    """A file that is not the one that `glossary seal` sealed."""


class Entry(NamedTuple):
    headword: bytes
    attribute: int
    text: bytes


class Counts(NamedTuple):
    headwords: int
    index_blocks: int
    data_blocks: int
    free_blocks: int


def _load() -> ctypes.CDLL:
    """The library, with the types of its calls as pdic.h declares them."""
    library = ctypes.CDLL(os.environ.get('PDIC_LIBRARY') or SONAME)
    size, byte, slice_of = ctypes.c_size_t, ctypes.c_uint8, [ctypes.c_void_p, ctypes.c_size_t]
    given, length = [ctypes.c_char_p, size], ctypes.POINTER(size)
    attribute, count = ctypes.POINTER(byte), ctypes.POINTER(ctypes.c_uint64)
    image = slice_of + [size]
    calls = {
        'check': image + 4 * [count],
        'look_up': image + given + slice_of + [attribute, length],
        'walk': image + given + [byte] + slice_of + slice_of + [attribute, length, length],
        'create': slice_of + [byte, ctypes.c_uint64, length],
        'insert': image + slice_of + given + [byte] + given + [length],
        'delete': image + slice_of + given + [length],
        'optimise': image + slice_of + [length],
    }
    for name, types in calls.items():
        call = getattr(library, f'pdic_{name}')
        call.argtypes, call.restype = types, ctypes.c_uint32
    library.pdic_strerror.argtypes, library.pdic_strerror.restype = [ctypes.c_uint32], ctypes.c_char_p
    return library


_library = _load()


def _given(data: bytes) -> tuple[bytes, int]:
    """A headword or text as the calls take it."""
    if not isinstance(data, bytes):
        raise TypeError(f'headwords and texts are bytes, not {type(data).__name__}')
    return data, len(data)


def _done(number: int) -> bool:
    """What a call returned: True for done or found, False for absent; anything else is raised."""
    if number not in (DONE, ABSENT):
        raise PdicError(number)
    return number == DONE


class Dictionary:
    """A dictionary in memory, at first empty. Its memory grows with it up to `most` bytes; a change that needs more is refused with 15.

    `version` is FORMAT_4 or FORMAT_5, the high byte; another one raises PdicError 3. A dictionary of version 5 has the identifier
    `ident`, or else one that is drawn at random; `ident` with another version is a ValueError.
    """

    def __init__(self, most: int = MAX_IMAGE, version: int = FORMAT_4, ident: Optional[int] = None):
        if ident is None:
            ident = secrets.randbits(64) if version == FORMAT_5 else 0
        elif version != FORMAT_5:
            raise ValueError('only a dictionary of version 5 has an identifier')
        if not 0 <= version < 1 << 8 or not 0 <= ident < 1 << 64:
            raise ValueError('a version is one byte, an identifier eight')
        self._most = most
        self._lend(256)
        length = ctypes.c_size_t()
        _done(_library.pdic_create(self._image, len(self._image), version, ident, length))
        self._len = length.value

    def _lend(self, size: int, content: bytes = b'') -> None:
        """Takes memory for an image of so many bytes, with its content so far."""
        self._image = ctypes.create_string_buffer(content, size)
        self._work: Optional[ctypes.Array] = None

    @classmethod
    def from_bytes(cls, image: bytes, most: int = MAX_IMAGE) -> Dictionary:
        """The dictionary that the bytes are. An image that breaks a rule is refused."""
        dictionary = cls(most)
        dictionary._lend(len(image), image)
        dictionary._len = len(image)
        dictionary.check()
        return dictionary

    @classmethod
    def open(cls, path: str | os.PathLike, most: int = MAX_IMAGE) -> Dictionary:
        """The dictionary of a file, read whole. The file is only read, now and later. One that `glossary seal` sealed must have the
        bytes that were sealed."""
        with open(path, 'rb') as file:
            image = file.read(MAX_IMAGE + 1)
        seal = os.path.realpath(path) + '.sha256'
        if os.path.lexists(seal):
            with open(seal, 'rb') as file:
                if file.read(66).lstrip(b'\\').split(b' ')[0] != hashlib.sha256(image).hexdigest().encode():
                    raise SealError(f'{os.fspath(path)}: not the bytes that were sealed')
        return cls.from_bytes(image, most)

    def __bytes__(self) -> bytes:
        """The image."""
        return self._image.raw[:self._len]

    def __iter__(self) -> Iterator[Entry]:
        """All entries in headword order."""
        return self.walk()

    def _slice(self) -> tuple[ctypes.Array, int, int]:
        return self._image, len(self._image), self._len

    def _number(self, at: int, size: int) -> int:
        """A number of the header."""
        return int.from_bytes(self._image[at:at + size], 'little')

    @property
    def version(self) -> int:
        """Both bytes of the version: 0x0400, 0x0500 or one with another low byte."""
        return self._number(AT_VERSION, 2)

    @property
    def ident(self) -> Optional[int]:
        """The identifier that a dictionary of version 5 has."""
        return self._number(AT_IDENT, 8) if self.version >> 8 == FORMAT_5 else None

    def check(self) -> Counts:
        """Tests the image and counts what it holds."""
        counts = [ctypes.c_uint64() for _ in Counts._fields]
        _done(_library.pdic_check(*self._slice(), *counts))
        return Counts(*(count.value for count in counts))

    def look_up(self, headword: bytes) -> Optional[Entry]:
        """The entry with this headword, or None."""
        text, attribute, length = ctypes.create_string_buffer(MAX_TEXT), ctypes.c_uint8(), ctypes.c_size_t()
        found = _done(_library.pdic_look_up(*self._slice(), *_given(headword), text, MAX_TEXT, attribute, length))
        return Entry(headword, attribute.value, text.raw[:length.value]) if found else None

    def walk(self, start: bytes = b'', above: bool = False) -> Iterator[Entry]:
        """The entries in headword order (unsigned bytes): those not below `start`, or those above it.

        Each step is a call that tests the whole image and finds the next headword in the dictionary as it then is.
        """
        headword, text = ctypes.create_string_buffer(MAX_HEADWORD), ctypes.create_string_buffer(MAX_TEXT)
        attribute, headword_len, text_len = ctypes.c_uint8(), ctypes.c_size_t(), ctypes.c_size_t()
        while _done(_library.pdic_walk(*self._slice(), *_given(start), above, headword, MAX_HEADWORD, text, MAX_TEXT, attribute,
                                       headword_len, text_len)):
            start, above = headword.raw[:headword_len.value], True
            yield Entry(start, attribute.value, text.raw[:text_len.value])

    def _call(self, call, *arguments) -> int:
        """Makes a changing call in the memory that there is; gives its number."""
        size = len(self._image)
        if self._work is None:
            self._work = ctypes.create_string_buffer(size)
        length = ctypes.c_size_t()
        number = call(*self._slice(), self._work, size, *arguments, length)
        if number == DONE:
            self._len = length.value
        return number

    def _change(self, call, *arguments) -> bool:
        """Makes a changing call, again in more memory where it is refused for want of room."""
        while (number := self._call(call, *arguments)) == FULL and len(self._image) < self._most:
            self._lend(min(2 * len(self._image), self._most), bytes(self))
        return _done(number)

    def insert(self, headword: bytes, text: bytes, attribute: int = PLAIN) -> None:
        """Adds an entry, or replaces the one with this headword."""
        if not 0 <= attribute <= 255:
            raise ValueError('an attribute is one byte')
        self._change(_library.pdic_insert, *_given(headword), attribute, *_given(text))

    def delete(self, headword: bytes) -> bool:
        """Removes the entry with this headword; False where there is none."""
        return self._change(_library.pdic_delete, *_given(headword))

    def optimise(self) -> None:
        """Puts the entries in headword order without a free block. This takes no more memory and is never refused with 15."""
        _done(self._call(_library.pdic_optimise))
