"""A second reader of FIT files: the text that `fitrec show` has to print, or the refusal that it has to give.

It follows the description of the format (docs/FORMAT.md) and shares nothing with the program."""

import datetime

# Base type byte: name, size of a value, invalid value.
BASE_TYPES = {
    0x00: ("enum", 1, 0xFF),
    0x01: ("sint8", 1, 0x7F),
    0x02: ("uint8", 1, 0xFF),
    0x83: ("sint16", 2, 0x7FFF),
    0x84: ("uint16", 2, 0xFFFF),
    0x85: ("sint32", 4, 0x7FFFFFFF),
    0x86: ("uint32", 4, 0xFFFFFFFF),
    0x07: ("string", 1, 0x00),
    0x88: ("float32", 4, 0xFFFFFFFF),
    0x89: ("float64", 8, 0xFFFFFFFFFFFFFFFF),
    0x0A: ("uint8z", 1, 0),
    0x8B: ("uint16z", 2, 0),
    0x8C: ("uint32z", 4, 0),
    0x0D: ("byte", 1, 0xFF),
    0x8E: ("sint64", 8, 0x7FFFFFFFFFFFFFFF),
    0x8F: ("uint64", 8, 0xFFFFFFFFFFFFFFFF),
    0x90: ("uint64z", 8, 0),
}

# The types of whole numbers of at most four bytes.
WHOLE = {"enum", "uint8", "uint16", "uint32", "uint8z", "uint16z", "uint32z", "byte", "sint8", "sint16", "sint32"}

COMMON = {253: "timestamp", 254: "message_index"}

SUMMARY = {
    0: "event", 1: "event_type", 2: "start_time", 7: "total_elapsed_time", 8: "total_timer_time", 9: "total_distance"}

MESSAGES = {
    0: ("file_id", {0: "type", 1: "manufacturer", 2: "product", 3: "serial_number", 4: "time_created"}),
    12: ("sport", {0: "sport", 1: "sub_sport"}),
    18: ("session", SUMMARY | {
        5: "sport", 6: "sub_sport", 14: "avg_speed", 15: "max_speed", 16: "avg_heart_rate", 17: "max_heart_rate",
        20: "avg_power", 21: "max_power", 25: "first_lap_index", 26: "num_laps", 28: "trigger"}),
    19: ("lap", SUMMARY | {
        13: "avg_speed", 14: "max_speed", 15: "avg_heart_rate", 16: "max_heart_rate", 19: "avg_power", 20: "max_power",
        24: "lap_trigger"}),
    20: ("record", {
        0: "position_lat", 1: "position_long", 2: "altitude", 3: "heart_rate", 4: "cadence", 5: "distance", 6: "speed",
        7: "power", 13: "temperature", 73: "enhanced_speed", 78: "enhanced_altitude"}),
    21: ("event", {0: "event", 1: "event_type"}),
    34: ("activity", {0: "total_timer_time", 1: "num_sessions", 2: "type", 3: "event", 4: "event_type"}),
}

# The fields of each message that are dates with --utc, beside timestamps.
DATES = {0: {4}, 18: {2}, 19: {2}}

EPOCH = datetime.datetime(1989, 12, 31)


class Refused(Exception):
    """A file that is refused. The text is the kind and the place."""

    @property
    def lines(self):
        """What the program reports."""
        return "fitrec: %s\n" % self


def checksum(data):
    """The checksum, bit by bit."""
    register = 0
    for byte in data:
        for bit in range(8):
            taken = (register ^ (byte >> bit)) & 1
            register = (register >> 1) ^ (0xA001 if taken else 0)
    return register


def number(data, big):
    return int.from_bytes(data, "big" if big else "little")


def whole_number(base, big, data):
    """The one whole number of a field, of at most four bytes, or None."""
    name, size, invalid = BASE_TYPES.get(base, ("raw", 1, None))
    if name not in WHOLE or len(data) != size or number(data, big) == invalid:
        return None
    return int.from_bytes(data, "big" if big else "little", signed=name.startswith("sint"))


def hexadecimal(data):
    return "0x" + data.hex().upper()


def value_text(base, big, data):
    """The text of a field's bytes."""
    if not data:
        return ""
    name, size, invalid = BASE_TYPES.get(base, ("raw", 1, None))
    if name == "raw" or len(data) % size:
        return hexadecimal(data)
    if name == "byte":
        return "-" if set(data) == {0xFF} else hexadecimal(data)
    if name == "string":
        plain = (chr(b) if 0x20 <= b <= 0x7E and b not in b'"\\' else "\\x%02X" % b for b in data.split(b"\0")[0])
        return '"' + "".join(plain) + '"'
    texts = []
    for at in range(0, len(data), size):
        value = number(data[at:at + size], big)
        if value == invalid:
            texts.append("-")
        elif name.startswith("float"):
            texts.append("0x%0*X" % (2 * size, value))
        elif name.startswith("sint") and value >= 1 << (8 * size - 1):
            texts.append(str(value - (1 << 8 * size)))
        else:
            texts.append(str(value))
    return ",".join(texts)


def date_text(time):
    """A time as a date. None if it is before the first calendar time, or invalid."""
    if not 0x10000000 <= time < 0xFFFFFFFF:
        return None
    return (EPOCH + datetime.timedelta(seconds=time)).strftime("%Y-%m-%dT%H:%M:%SZ")


def read_header(data):
    """The size of the header and of the records."""
    if not data:
        raise Refused("Truncated at 0")
    if data[0] not in (12, 14):
        raise Refused("HeaderSize at 0")
    wait(data, 2)
    if data[1] >> 4 not in (1, 2):
        raise Refused("Protocol at 1")
    wait(data, 12)
    if data[8:12] != b".FIT":
        raise Refused("Magic at 8")
    wait(data, data[0])
    if data[0] == 14 and number(data[12:14], False) not in (0, checksum(data[:12])):
        raise Refused("HeaderCrc at 12")
    return data[0], number(data[4:8], False)


def wait(data, count):
    """Refuses the data as cut short if it does not have so many bytes."""
    if len(data) < count:
        raise Refused("Truncated at %d" % len(data))


def whole(data, at, end, size):
    """Checks an item of this size at this place: it has to be within the records first, and then present."""
    if at + size > end:
        raise Refused("SplitMessage at %d" % at)
    wait(data, at + size)


def triples(data):
    """Pieces of three bytes each."""
    return [tuple(data[at:at + 3]) for at in range(0, len(data), 3)]


def messages(data, utc, value, time=None):
    """What a file states: its size of the header, its versions and its size of records; and for each message its number, its fields and
    its developer fields. Each field has its number and the `value` of its base type, whether its high byte is first, and its bytes. A
    developer field has its index, its number, whether its high byte is first, and its bytes. Times are dates or numbers. The time of a
    compressed timestamp is a field 253, of which `time` gives the value if there is one."""
    header, size = read_header(data)
    at, end = header, header + size
    definitions, before, found, needless = {}, 0, [], 0
    while at < end:
        wait(data, at + 1)
        first = data[at]
        if first & 0xC0 == 0x40:
            whole(data, at, end, 6)
            is_announced = first >> 5 & 1
            size = 6 + 3 * data[at + 5] + is_announced
            whole(data, at, end, size)
            count = is_announced and data[at + size - 1]
            whole(data, at, end, size + 3 * count)
            big = bool(data[at + 2] & 1)
            fields, developer = triples(data[at + 6:at + size - is_announced]), triples(data[at + size:at + size + 3 * count])
            definitions[first & 15] = big, number(data[at + 3:at + 5], big), fields, developer
            # an announcement of no developer fields is not written
            needless += is_announced and not count
            at += size + 3 * count
            continue
        compressed = first & 0x80
        local = first >> 5 & 3 if compressed else first & 15
        if local not in definitions:
            raise Refused("UndefinedLocal(%d) at %d" % (local, at))
        big, message, fields, developer = definitions[local]
        whole(data, at, end, 1 + sum(size for _, size, _ in fields + developer))
        at += 1
        shown, stated = [], None
        if compressed:
            # the first time from the last one on with this offset modulo 32
            while before % 32 != first & 31:
                before += 1
            before %= 1 << 32
            shown.append((253, time(before) if time else utc and date_text(before) or value(0x86, True, before.to_bytes(4, "big"))))
        for field, length, base in fields:
            content = data[at:at + length]
            at += length
            is_date = utc and (length, base) == (4, 0x86) and field in {253} | DATES.get(message, set())
            shown.append((field, is_date and date_text(number(content, big)) or value(base, big, content)))
            if stated is None and (field, length, base) == (253, 4, 0x86) and content != b"\xFF" * 4:
                stated = number(content, big)
        if stated is not None and not compressed:
            before = stated
        after = []
        for field, length, index in developer:
            after.append((index, field, big, data[at:at + length]))
            at += length
        found.append((message, shown, after))
    wait(data, end + 2)
    if number(data[end:end + 2], False) != checksum(data[:end]):
        raise Refused("FileCrc at %d" % end)
    if len(data) > end + 2:
        raise Refused("TrailingBytes at %d" % (end + 2))
    return header, (data[1] >> 4, data[1] & 15, number(data[2:4], False)), end - header - needless, found


def names_of(message):
    """The name of a message, or None, and the names of its fields."""
    name, names = MESSAGES.get(message, (None, {}))
    return name, names | COMMON


def show(data, utc=False):
    """The text of a file. Times are shown as dates or as numbers."""
    header, versions, size, found = messages(data, utc, value_text)
    lines = []
    for message, shown, developer in found:
        name, names = names_of(message)
        pairs = "".join(" %s=%s" % (names.get(field, "field_%d" % field), text) for field, text in shown)
        pairs += "".join(" developer_%d_%d=%s" % (index, field, hexadecimal(it) if it else "") for index, field, _, it in developer)
        lines.append("%d %s%s\n" % (len(lines), name or "message_%d" % message, pairs))
    return "header %d protocol %d.%d profile %d data %d\n" % (header, *versions, size) + "".join(lines) + "messages %d\n" % len(lines)


def text_of(data):
    """The text of a string, up to its first zero byte: as UTF-8, or else as Latin-1."""
    text = data.split(b"\0")[0]
    try:
        return text.decode()
    except UnicodeDecodeError:
        return text.decode("latin-1")


def value_json(base, big, data):
    """The value of a field's bytes in JSON."""
    name, size, invalid = BASE_TYPES.get(base, ("raw", 1, None))
    if name == "raw" or len(data) % size:
        return hexadecimal(data) if data else ""
    if not data:
        return None
    if name == "byte":
        return None if set(data) == {0xFF} else hexadecimal(data)
    if name == "string":
        return text_of(data)
    values = []
    for at in range(0, len(data), size):
        value = number(data[at:at + size], big)
        if value == invalid:
            values.append(None)
        elif name.startswith("float"):
            values.append("0x%0*X" % (2 * size, value))
        else:
            values.append(int.from_bytes(data[at:at + size], "big" if big else "little", signed=name.startswith("sint")))
    return values if len(values) > 1 else values[0]


def show_json(data, utc=False):
    """The values of the lines of a file as JSON, each a list of pairs, since a name may be there twice."""
    left_out = object()  # a field of size 0
    header, versions, size, found = messages(data, utc, lambda base, big, it: value_json(base, big, it) if it else left_out)
    lines = [[("header", header), ("protocol", "%d.%d" % versions[:2]), ("profile", versions[2]), ("data", size)]]
    for message, shown, developer in found:
        name, names = names_of(message)
        fields = [(names.get(field, "field_%d" % field), value) for field, value in shown if value is not left_out]
        after = [[("index", index), ("number", field), ("bytes", hexadecimal(it))] for index, field, _, it in developer if it]
        place = len(lines) - 1
        lines.append([("number", place), ("message", message), ("name", name), ("fields", fields), ("developer", after)])
    return lines + [[("messages", len(lines) - 1)]]


def wanted(data, utc=False):
    """The status of `fitrec show`, its standard output and its standard error, over a file of these bytes."""
    try:
        return 0, show(data, utc), ""
    except Refused as refused:
        return 1, "", refused.lines


def item_size(data, sizes):
    """The size of the item at the front, given the size of each local number's data. None if no whole item is there. A definition sets the
    size of its local number's data."""
    if not data:
        return None
    first = data[0]
    if first & 0xC0 == 0x40:
        fields = size = 6 + 3 * data[5] if len(data) >= 6 else len(data) + 1
        if first & 0x20:
            size += 1 + 3 * data[size] if size < len(data) else 1
        if size <= len(data):
            sizes[first & 15] = sum(data[7:fields:3]) + sum(data[fields + 2:size:3])
    else:
        size = 1 + sizes.get(first >> 5 & 3 if first & 0x80 else first & 15, len(data))
    return size if size <= len(data) else None


def salvaged(data, everything=False):
    """What `fitrec salvage` has to keep of these bytes, with --all or without: how many bytes, of how many, how many were not read, and
    the new file."""
    start = data[:12] + bytes(len(data[12:14])) + data[14:]
    header, size = read_header(start)
    is_whole = everything or not size
    records = data[header:] if is_whole else data[header:header + size]
    not_read = 0 if is_whole else max(0, len(data) - (header + size + 2))
    front, sizes = 0, {}
    while size := item_size(records[front:], sizes):
        front += size
    kept = bytes([14]) + data[1:4] + front.to_bytes(4, "little") + b".FIT"
    kept += checksum(kept).to_bytes(2, "little") + records[:front]
    return front, len(records), not_read, kept + checksum(kept).to_bytes(2, "little")


NOT_READ = "fitrec: %d bytes after the end that the header gives were not read; salvage --all reads them\n"
UNREAD_FROM = "fitrec: %s could not be read from byte %d on\n"


def wanted_salvage(data, everything=False):
    """The status of `fitrec salvage`, its standard output and its standard error, over a file of these bytes; and the new file, or None."""
    try:
        kept, looked_at, not_read, file = salvaged(data, everything)
        return (0, "kept %d of %d\n" % (kept, looked_at), NOT_READ % not_read if not_read else ""), file
    except Refused as refused:
        return (1, "", refused.lines), None


def plained(data):
    """What `fitrec plain` has to make of these bytes: how many messages, and the file."""
    times = [line.partition(" timestamp=")[2].split(" ")[0] for line in show(data).splitlines()[1:-1]]
    (header, size), count, out, kept, sizes = read_header(data), 0, b"", {}, {}
    at, end = header, header + size
    while at < end:
        own = data[at:at + item_size(data[at:end], sizes)]
        if own[0] & 0xC0 == 0x40:
            # developer fields that are announced and not present are not written
            fields = 6 + 3 * own[5]
            after = own[fields:] if len(own) > fields + 1 else b""
            first = 0x40 | (0x20 if after else 0) | own[0] & 15
            # the bytes of the definition, and whether the last one written has the time in front
            kept[own[0] & 15] = bytes([first, 0, own[2] & 1]) + own[3:fields] + after, False
            out += kept[own[0] & 15][0]
        else:
            compressed = own[0] > 0x7F
            local = own[0] >> 5 & 3 if compressed else own[0] & 15
            bare, timed = kept[local]
            if compressed and bare[5] == 255:
                raise Refused("TooLong at %d" % at)
            if timed != compressed:
                kept[local] = bare, compressed
                out += bare[:5] + bytes([bare[5] + 1, 253, 4, 0x86]) + bare[6:] if compressed else bare
            out += bytes([local])
            if compressed:
                time = int(times[count]) if times[count] != "-" else 0xFFFFFFFF
                out += time.to_bytes(4, "big" if bare[2] else "little")
            out += own[1:]
            count += 1
        at += len(own)
    start = data[:4] + len(out).to_bytes(4, "little") + b".FIT"
    if header == 14:
        start += checksum(start).to_bytes(2, "little")
    return count, start + out + checksum(start + out).to_bytes(2, "little")
