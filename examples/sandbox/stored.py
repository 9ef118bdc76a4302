"""Files that `--save` wrote: their parts, and changed files with what the sandbox says of each."""
import struct


def parts_of(data):
    """The head's numbers, the records and the snapshot."""
    magic, version, size, tenants = struct.unpack_from("<8sIII", data)
    records = [data[20 + i * size : 20 + (i + 1) * size] for i in range(tenants)]
    return (magic, version, size), records, data[20 + tenants * size :]


def whole_of(head, records, image):
    return struct.pack("<8sIII", *head, len(records)) + b"".join(records) + image


def offers_of(image):
    """The pending offers of a snapshot: offerer, page, target and right."""
    count = struct.unpack_from("<I", image, 1548)[0]
    return [struct.unpack_from("<4I", image, 1556 + 16 * i) for i in range(count)]


def with_offers(image, offers):
    """The same snapshot with other offers."""
    packed = b"".join(struct.pack("<4I", *offer) for offer in offers)
    rest = image[1556 + 16 * len(offers_of(image)) :]
    return image[:1548] + struct.pack("<I", len(offers)) + image[1552:1556] + packed + rest


def with_word(data, at, word):
    return data[:at] + struct.pack("<I", word) + data[at + 4 :]


def wrong_files(good):
    """Files that are wrong in one thing, with what is said of each."""
    head, records, image = parts_of(good)
    at, offers = len(good) - len(image), offers_of(image)
    giver, page, target, right = offers[0]
    frames, stored = 1556 + 16 * len(offers), struct.unpack_from("<I", image, 1552)[0]
    roles = [struct.unpack_from("<5I", image, frames + 4116 * i) for i in range(stored)]
    mapped = next(i for i in range(stored) if roles[i][1] == 4)
    free = next((i for i in range(stored) if roles[i][0] != i), stored)
    none, made = "no file of --save: ", "no core can be made of its snapshot: "
    for length in (0, 7, 19, 20, at - 1):
        yield good[:length], none + "it is too short"
    for length in (at, at + 3):
        yield good[:length], made + "not an image"
    for length in (at + 11, at + 12, at + 1555, at + frames - 1, at + frames, len(good) - 4116, len(good) - 1):
        yield good[:length], made + "wrong image length"
    for more in (b"x", bytes(4116), image):
        yield good + more, made + "wrong image length"
    yield with_word(good, 0, 0), none + "it begins with something else"
    yield image, none + "it begins with something else"
    for version in (1, 2, 3, 5):
        yield with_word(good, 8, version), none + "it is of another version"
    yield with_word(good, 12, head[2] + 8), none + "it is of another version"
    yield with_word(good, 16, 65), none + "it has too many tenants"
    yield with_word(good, 16, len(records) - 1), made + "not an image"
    for version in (0, 2, 3, 4):
        yield with_word(good, at + 4, version), made + "unknown image version"
    for count in (0, 15, 1048577):
        yield with_word(good, at + 8, count), made + "bad field at byte 8"
    for count in (4097, 1048576):
        yield with_word(good, at + 8, count), made + "more than 4096 frames"
    yield with_word(good, at + 12 + 8, 4094), made + "process 0 P1"
    yield with_word(good, at + 12 + 24 + 12, 1), made + "process 1 P5"
    yield with_word(good, at + frames + 4116 * mapped + 16, 77), made + f"frame {roles[mapped][0]} F4"
    yield with_word(good, at + frames + 4116 * mapped + 4, 5), made + f"bad field at byte {frames + 4116 * mapped + 4}"
    yield with_word(good, at + frames + 4116, 0), made + f"bad field at byte {frames + 4116}"
    for place, word in ((0, 64), (4, 0xF0000), (8, 64), (12, 2)):
        yield with_word(good, at + 1556 + place, word), made + f"bad field at byte {1556 + place}"
    # to itself, to no process, of no page, of a page that is nobody's, of no process
    wrong = [(giver, page, giver, right), (giver, page, 63, right), (giver, 0xEFFFF, target, right)]
    for one in (*wrong, (giver, 7, target, right), (63, page, target, right)):
        yield whole_of(head, records, with_offers(image, [one])), made + "offer 0"
    yield whole_of(head, records, with_offers(image, [offers[0]] * 2)), made + "bad field at byte 1572"
    one, at = struct.pack("<5I", free, 4, 0, 0, 1) + bytes(4096), frames + 4116 * free
    more = with_word(image[:at] + one + image[at:], 1552, stored + 1)
    yield whole_of(head, records, more), made + f"frame {free} F4"
