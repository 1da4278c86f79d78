"""A plain reading of the texts that `ptab set` takes, as docs/table.md and the command's help describe them: what is at fault in a text."""
import json
import re
import struct
import uuid

MOST = 8 * 1024 * 1024
WORDS = {"RequiredPartition": 1, "NoBlockIOProtocol": 2, "LegacyBIOSBootable": 4}
WORDED = 0xFFFF000000000007
UNITS = {"KiB": 1 << 10, "MiB": 1 << 20, "GiB": 1 << 30, "TiB": 1 << 40}
OF_TABLE = ("label", "device", "unit", "sectorsize", "sectors", "id", "firstlba", "lastlba", "entries", "table-length", "grain",
            "partitions", "chain")
OF_PART = ("number", "node", "start", "size", "last", "offset", "type", "type_name", "uuid", "name", "name_units", "attributes", "attrs",
           "bootable", "boot", "start_chs", "end_chs", "record", "bsd")
OF_LABEL = {"kind": 2, "subtype": 2, "type_name": 16, "pack_name": 16, "geometry": 4, "unit": 4, "kept": 68, "bbsize": 4, "sbsize": 4,
            "entries": 8}
OF_LABEL_ENTRY = {"size": 4, "offset": 4, "fragment": 4, "fstype": 1, "frag": 1, "cpg": 2}
# (name, code, GUID): the first of a GUID is its printed name
TYPES = (("esp", "EF00", "c12a7328-f81f-11d2-ba4b-00a0c93ec93b"), ("bios-boot", "EF02", "21686148-6449-6e6f-744e-656564454649"),
         ("linux-generic", "8300", "0fc63daf-8483-4772-8e79-3d69d8477de4"), ("swap", "8200", "0657fd6d-a4ab-43c4-84e5-0933c84b4f4f"),
         ("home", "8302", "933ac7e1-2eb4-4f13-b844-0e14e2aef915"), ("lvm", "8E00", "e6d6d379-f507-44c2-a23c-238f2a3df928"),
         ("raid", "FD00", "a19d880f-05fc-4d3b-a006-743f0f84911e"), ("root-x86-64", "8304", "4f68bce3-e8cd-4db1-96e7-fbcaf984b709"),
         ("root-alpha", None, "6523f8ae-3eb1-4e2a-a05a-18b695ae656f"), ("microsoft-basic", "0700", "ebd0a0a2-b9e5-4433-87c0-68b6b72699c7"),
         ("freebsd", "A500", "516e7cb4-6ecf-11d6-8ff8-00022d09712b"), ("freebsd-ufs", "A503", "516e7cb6-6ecf-11d6-8ff8-00022d09712b"),
         ("microsoft-ldm-data", "4200", "af9b60a0-1431-4f62-bc68-3311714a69ad"), ("chromeos-kernel", "7F00",
         "fe3a2a5d-4f32-41a7-b725-accc3285a309"), ("apple-apfs", "AF0A", "7c3457ef-0000-11aa-aa11-00306543ecac"),
         ("efi", None, "c12a7328-f81f-11d2-ba4b-00a0c93ec93b"), ("linux", None, "0fc63daf-8483-4772-8e79-3d69d8477de4"))
# names of an MBR's types; some of them are a GPT's too
OF_RECORDS = {"fat12": 0x01, "extended": 0x05, "ntfs": 0x07, "exfat": 0x07, "fat32": 0x0B, "fat32-lba": 0x0C, "extended-lba": 0x0F,
              "hidden-ntfs": 0x17, "hurd": 0x63, "minix": 0x81, "swap": 0x82, "linux-swap": 0x82, "linux": 0x83, "lvm": 0x8E,
              "freebsd": 0xA5, "openbsd": 0xA6, "solaris": 0xBF, "esp": 0xEF, "efi": 0xEF, "uefi": 0xEF, "raid": 0xFD}


class Fault(Exception):
    """KEY, and N of an object of `partitions`; or another line."""

    def __init__(self, key, part=None, line=None, status=3):
        super().__init__(key)
        self.line = line or f"refused: table {key}" + (f" {part}" if part else "")
        self.answer = ("", f"{self.line}\n", status)


class Number(int):
    """A whole number of JSON from 0 to 2^64 - 1."""


class Wrong:
    """A number of JSON that isn't one."""


def integer(text):
    return Number(text) if text[0] != "-" and int(text) < 2 ** 64 else Wrong() if text[0] == "-" else real(text)


def real(text):
    if float(text) in (float("inf"), float("-inf")):
        raise ValueError("too large")
    return Wrong()


def constant(text):
    raise ValueError(text)


def depth_of(text):
    """How many brackets are open at once."""
    deep = most = 0
    for one in re.sub(r'"(?:[^"\\]|\\.)*"', "", text):
        deep += (one in "[{") - (one in "]}")
        most = max(most, deep)
    return most


def halves(value):
    """Whether a text in the value has half a surrogate pair."""
    if isinstance(value, str):
        return any(0xD800 <= ord(one) <= 0xDFFF for one in value)
    if isinstance(value, dict):
        return any(halves(name) or halves(it) for name, it in value.items())
    return isinstance(value, list) and any(halves(it) for it in value)


def pairs_of(pairs):
    """Of two members with one name the last counts; halves of pairs are no text in either."""
    if any(halves(list(pair)) for pair in pairs):
        raise ValueError("half a pair")
    return dict(pairs)


def value_of(text):
    """The value of a text of JSON, or ValueError."""
    if text.startswith("\ufeff") or depth_of(text) > 127:
        raise ValueError("no JSON")
    value = json.loads(text, parse_int=integer, parse_float=real, parse_constant=constant, object_pairs_hook=pairs_of)
    if halves(value):
        raise ValueError("half a pair")
    return value


def whole(value, below=2 ** 64):
    return int(value) if isinstance(value, Number) and value < below else None


def digits(text):
    """The number of a text of decimal digits, where it fits 64 bits."""
    return int(text) if re.fullmatch("[0-9]+", text) and int(text) < 2 ** 64 else None


def given(members, name, read, key=None, part=None):
    """What stands under the name, or None where nothing does."""
    if name not in members:
        return None
    found = read(members[name])
    if found is None:
        raise Fault(key or name, part)
    return found


def text_as(read):
    return lambda value: read(value) if isinstance(value, str) else None


def guid_text(text):
    return text.lower() if re.fullmatch("[0-9A-Fa-f]{8}(-[0-9A-Fa-f]{4}){3}-[0-9A-Fa-f]{12}", text) else None


def disk_id(text):
    return "signature" if re.fullmatch("0x[0-9A-Fa-f]{1,8}", text) else guid_text(text)


def entry_type(text):
    """The GUID that a text names, or None."""
    if guid_text(text):
        return guid_text(text)
    by_code = len(text) == 4 and re.fullmatch("[0-9A-Fa-f]{4}", text)
    return next((guid for name, code, guid in TYPES if (text.upper() == code if by_code else text == name)), None)


def record_type(text):
    """The type of a record that a text names, or None."""
    if re.fullmatch("[0-9A-Fa-f]{1,2}", text):
        return None if int(text, 16) in (0, 0xEE) else int(text, 16)
    return OF_RECORDS.get(text)


def kind_of(text):
    """(its type on a GPT or None, and on an MBR or None), where the text names one on either."""
    kinds = entry_type(text), record_type(text)
    return None if kinds == (None, None) else kinds


def size_of(value):
    """("sectors" or "bytes", how many)."""
    if whole(value) is not None:
        return "sectors", int(value)
    found = re.fullmatch("([0-9]+)([KMGT]iB)", value) if isinstance(value, str) else None
    amount = digits(found.group(1)) if found else None
    if amount is None or amount * UNITS[found.group(2)] >= 2 ** 64:
        return None
    return "bytes", amount * UNITS[found.group(2)]


def units_of(text):
    units = struct.unpack(f"<{len(text.encode('utf-16-le')) // 2}H", text.encode("utf-16-le"))
    return units if "\0" not in text and len(units) <= 36 else None


def list_of(read, most=None, exactly=None):
    """The values of an array."""
    def found(value):
        if not isinstance(value, list) or most is not None and len(value) > most or exactly is not None and len(value) != exactly:
            return None
        read_all = [read(it) for it in value]
        return None if any(it is None for it in read_all) else read_all
    return found


def bits_of(text):
    """The attributes that sfdisk's words name."""
    bits = 0
    for word in text.split(" "):
        if word in WORDS or word == "":
            bits |= WORDS.get(word, 0)
        elif word.startswith("GUID:"):
            for one in word[5:].split(","):
                bit = digits(one)
                if bit is None or not 48 <= bit < 64:
                    return None
                bits |= 1 << bit
        else:
            return None
    return bits


def hexadecimal(count):
    return text_as(lambda text: text.lower() if re.fullmatch(f"[0-9A-Fa-f]{{{2 * count}}}", text) else None)


def numbers_in(widths):
    """An object of these numbers and no others."""
    def found(value):
        if not isinstance(value, dict) or set(value) != set(widths):
            return None
        told = {name: whole(value[name], 256 ** width) for name, width in widths.items()}
        return None if None in told.values() else told
    return found


def label_of(value):
    """A label, in the form of show --json, or None."""
    if not isinstance(value, dict) or set(value) != set(OF_LABEL):
        return None
    told = {name: whole(value[name], 256 ** OF_LABEL[name]) for name in ("kind", "subtype", "unit", "bbsize", "sbsize")}
    told |= {name: hexadecimal(OF_LABEL[name])(value[name]) for name in ("type_name", "pack_name", "kept")}
    told["geometry"] = list_of(lambda it: whole(it, 2 ** 32), exactly=4)(value["geometry"])
    entries = list_of(lambda it: (None,) if it is None else (numbers_in(OF_LABEL_ENTRY)(it),), exactly=8)(value["entries"])
    if entries is None or any(one == (None,) and it is not None for one, it in zip(entries, value["entries"])):
        return None
    told["entries"] = [one[0] for one in entries]
    return None if None in (value for name, value in told.items() if name != "entries") else told


def number_of(members, n):
    number = given(members, "number", whole, part=n)
    at_end = given(members, "node", text_as(lambda text: (digits(re.search(r"[0-9]*\Z", text).group()),)), part=n)
    return number if number is not None else at_end[0] if at_end else None


def attributes_of(members, n):
    number = given(members, "attributes", whole, part=n)
    words = given(members, "attrs", lambda value: ("none",) if value is None else text_as(bits_of)(value), part=n)
    if words is None or words == ("none",):
        return number
    if number is not None and number & WORDED != words:
        raise Fault("attrs", n)
    return words if number is None else number


def part_of(members, n):
    """What an object of `partitions` says, by its names; what is left out is None."""
    if not isinstance(members, dict):
        raise Fault("partitions", n)
    if set(members) - set(OF_PART):
        raise Fault("unknown", n)
    told = {"number": number_of(members, n), "start": given(members, "start", whole, part=n)}
    size, last = given(members, "size", size_of, part=n), given(members, "last", whole, part=n)
    if size is not None and last is not None:
        raise Fault("last", n)
    told["extent"] = size if last is None else ("last", last)
    told["offset"] = given(members, "offset", whole, part=n)
    told["type"] = given(members, "type", text_as(kind_of), part=n)
    given(members, "type_name", text_as(lambda text: True), part=n)
    told["uuid"] = given(members, "uuid", text_as(guid_text), part=n)
    name = given(members, "name", text_as(units_of), part=n)
    units = given(members, "name_units", list_of(lambda it: whole(it, 65536), most=36), part=n)
    if name is not None and units is not None:
        raise Fault("name_units", n)
    told["name"] = name if units is None else units
    told["attributes"] = attributes_of(members, n)
    bootable = given(members, "bootable", lambda value: value if isinstance(value, bool) else None, part=n)
    boot = given(members, "boot", lambda value: whole(value, 256), part=n)
    if bootable is not None and boot is not None:
        raise Fault("boot", n)
    told["bootable"] = bootable if boot is None else boot
    for name in ("start_chs", "end_chs"):
        told[name] = given(members, name, hexadecimal(3), part=n)
    told["record"] = given(members, "record", whole, part=n)
    told["bsd"] = given(members, "bsd", lambda value: (None,) if value is None else (lambda it: it and (it,))(label_of(value)), part=n)
    return told


def draft_of(content, most=MOST):
    """What the bytes of a table's file say, or the first fault."""
    if len(content) > most:
        raise Fault("", line="table: too long", status=2)
    try:
        text = content.decode("utf-8")
    except UnicodeDecodeError:
        raise Fault("", line="table: not text", status=2) from None
    try:
        value = value_of(text)
    except (ValueError, RecursionError):
        raise Fault("text") from None
    members = value.get("partitiontable") if isinstance(value, dict) and set(value) == {"partitiontable"} else None
    if not isinstance(members, dict):
        raise Fault("partitiontable")
    if set(members) - set(OF_TABLE):
        raise Fault("unknown")
    told = {"label": given(members, "label", text_as(lambda text: text if text in ("gpt", "dos") else None))}
    given(members, "device", text_as(lambda text: True))
    given(members, "unit", text_as(lambda text: True if text == "sectors" else None))
    told |= {name: given(members, name, whole) for name in ("sectorsize", "sectors")}
    told["id"] = given(members, "id", text_as(disk_id))
    told |= {name: given(members, name, whole) for name in ("firstlba", "lastlba", "entries")}
    length = given(members, "table-length", lambda it: digits(it) if isinstance(it, str) else whole(it))
    if None not in (told["entries"], length) and told["entries"] != length:
        raise Fault("table-length")
    told["entries"] = length if told["entries"] is None else told["entries"]
    given(members, "partitions", lambda value: True if isinstance(value, list) else None)
    told["chain"] = given(members, "chain", list_of(whole))
    told["partitions"] = [part_of(it, n) for n, it in enumerate(members.get("partitions", []), 1)]
    return told


def fresh_guids(text):
    """The GUIDs of --fresh: sixteen drawn bytes each, as those of version 4; None where it isn't hexadecimal digits of such."""
    if len(text) % 32 or not re.fullmatch("[0-9A-Fa-f]*", text):
        return None
    return [str(uuid.UUID(hex=text[at:at + 32], version=4)) for at in range(0, len(text), 32)]
