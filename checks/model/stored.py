"""Snapshots by docs/IMAGES.md alone: the first reason against bytes, and what they have."""
import struct
from typing import NamedTuple

# What an image begins with, and a snapshot.
IMAGE, MAGIC = b"mC2I", b"mC2W"
RECORDS, FRONT, OFFER, RECORD, FRAME = 12, 1556, 16, 4116, 4096
# The reasons against bytes, by their numbers in the library.
NOT_IMAGE, BAD_LENGTH, BAD_VERSION, BAD_FIELD = 1, 2, 3, 4


class Offer(NamedTuple):
    offerer: int
    page: int
    target: int
    write: int


def word_at(image, place):
    return struct.unpack_from("<I", image, place)[0]


def words_at(image, place, count):
    return struct.unpack_from(f"<{count}I", image, place)


def bad_process(image, number, frames):
    """The place of the first field of a process's record that breaks its rule, or None."""
    place = RECORDS + 24 * number
    live, parent, *rest = words_at(image, place, 6)
    if live > 1:
        return place
    if live == 0:
        return next((place + 4 * at for at, it in enumerate((live, parent, *rest)) if it), None)
    if parent > 63 or (number == 0 and parent):
        return place + 4
    return place + 20 if rest[-1] >= frames else None


def bad_offer(image, place, before):
    """The same of an offer, after the one before it."""
    offer = Offer(*words_at(image, place, 4))
    broken = (offer.offerer > 63, offer.page >= 0xF0000, offer.target > 63, offer.write > 1)
    bad = next((place + 4 * at for at, it in enumerate(broken) if it), None)
    return place if bad is None and before is not None and offer[:3] <= before[:3] else bad


def bad_record(image, place, before, frames):
    """The same of a frame's record, after that of the frame before it."""
    frame, role, pid, slot, count = words_at(image, place, 5)
    if frame <= before or frame >= frames:
        return place
    if role == 1 or role > 4:
        return place + 4
    if pid > 63 if role in (2, 3) else pid:
        return place + 8
    if slot > 1023 if role == 3 else slot:
        return place + 12
    return place + 16 if role != 4 and count else None


def bad_field(image):
    """The place of the first field that breaks its rule, or None."""
    frames, offers, stored = word_at(image, 8), word_at(image, 1548), word_at(image, 1552)
    for number in range(64):
        bad = bad_process(image, number, frames)
        if bad is not None:
            return bad
    if stored > frames:
        return 1552
    before = None
    for place in range(FRONT, FRONT + OFFER * offers, OFFER):
        bad = bad_offer(image, place, before)
        if bad is not None:
            return bad
        before = Offer(*words_at(image, place, 4))
    frame = -1
    for place in range(FRONT + OFFER * offers, len(image), RECORD):
        bad = bad_record(image, place, frame, frames)
        if bad is not None:
            return bad
        frame = word_at(image, place)
    return None


def refusal(image):
    """The first reason against bytes, and the place of the field; None if they encode a snapshot."""
    if image[:4] != MAGIC:
        return NOT_IMAGE, 0
    if len(image) < 12:
        return BAD_LENGTH, 0
    if word_at(image, 4) != 1:
        return BAD_VERSION, 0
    if not 16 <= word_at(image, 8) <= 1048576:
        return BAD_FIELD, 8
    if len(image) < FRONT or len(image) != FRONT + OFFER * word_at(image, 1548) + RECORD * word_at(image, 1552):
        return BAD_LENGTH, 0
    bad = bad_field(image)
    return None if bad is None else (BAD_FIELD, bad)


def offers(image):
    """Its offers."""
    return [Offer(*words_at(image, FRONT + OFFER * at, 4)) for at in range(word_at(image, 1548))]


def of_version_2(image):
    """The image of version 2 of the same memory and the same accounts, without offers."""
    frames, begins = word_at(image, 8), FRONT + OFFER * word_at(image, 1548)
    roles, contents = [struct.pack("<4I", 1, 0, 0, 0)] * frames, [bytes(FRAME)] * frames
    for place in range(begins, len(image), RECORD):
        frame = word_at(image, place)
        roles[frame] = image[place + 4 : place + 20]
        contents[frame] = image[place + 20 : place + RECORD]
    return b"".join([IMAGE, struct.pack("<I", 2), image[8:1548], *roles, *contents])
