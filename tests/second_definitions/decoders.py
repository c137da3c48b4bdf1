"""The decoders of the Encoding Standard, written step by step from the standard as handlers that read a byte at a time and may put
bytes back. `decoded(name, bytes)` returns the text, with U+FFFD for each error, and the number of errors."""
import prescan

DATA = prescan.DATA
INDEX, SINGLE, RANGES = (prescan.ALL[name] for name in ("idx", "single", "gb18030_ranges"))
END = None
ERROR = object()


def at(name, pointer):
    index = INDEX[name]
    return index[pointer] if pointer is not None and 0 <= pointer < len(index) else None


class Handler:
    """Gives for each byte a list of codes, ERROR, or nothing to go on; `back` holds the bytes that are put back."""

    def __init__(self):
        self.lead = self.second = self.third = 0
        self.back = b""

    def ascii_back(self, byte):
        if byte < 0x80:
            self.back = bytes([byte])
        return ERROR


class Gb18030(Handler):
    def byte(self, byte):
        if byte is END:
            cut = self.lead or self.second or self.third
            self.lead = self.second = self.third = 0
            return ERROR if cut else []
        if self.third:
            return self.fourth(byte)
        if self.second:
            if 0x81 <= byte <= 0xFE:
                self.third = byte
                return []
            self.back = bytes([self.second, byte])
            self.lead = self.second = 0
            return ERROR
        if self.lead:
            return self.behind_lead(byte)
        if byte < 0x80:
            return [byte]
        if byte == 0x80:
            return [0x20AC]
        if byte <= 0xFE:
            self.lead = byte
            return []
        return ERROR

    def fourth(self, byte):
        lead, second, third = self.lead, self.second, self.third
        self.lead = self.second = self.third = 0
        if not 0x30 <= byte <= 0x39:
            self.back = bytes([second, third, byte])
            return ERROR
        pointer = ((lead - 0x81) * 10 + second - 0x30) * 1260 + (third - 0x81) * 10 + byte - 0x30
        if 39419 < pointer < 189000 or pointer > 1237575:
            return ERROR
        if pointer == 7457:
            return [0xE7C7]
        first, code = max(row for row in RANGES + [[189000, 0x10000]] if row[0] <= pointer)
        return [code + pointer - first]

    def behind_lead(self, byte):
        if 0x30 <= byte <= 0x39:
            self.second = byte
            return []
        lead, self.lead, pointer = self.lead, 0, None
        if 0x40 <= byte <= 0x7E or 0x80 <= byte <= 0xFE:
            pointer = (lead - 0x81) * 190 + byte - (0x40 if byte < 0x7F else 0x41)
        return at("gb18030", pointer) or self.ascii_back(byte)


class Pairs(Handler):
    """Two bytes a character."""

    def byte(self, byte):
        if byte is END:
            cut, self.lead = self.lead, 0
            return ERROR if cut else []
        if self.lead:
            lead, self.lead = self.lead, 0
            return self.pair(lead, byte) or self.ascii_back(byte)
        return self.alone(byte)

    def alone(self, byte):
        if byte < 0x80:
            return [byte]
        if 0x81 <= byte <= 0xFE:
            self.lead = byte
            return []
        return ERROR


class Big5(Pairs):
    def pair(self, lead, byte):
        if 0x40 <= byte <= 0x7E or 0xA1 <= byte <= 0xFE:
            return at("big5", (lead - 0x81) * 157 + byte - (0x40 if byte < 0x7F else 0x62))
        return None


class EucKr(Pairs):
    def pair(self, lead, byte):
        return at("euc-kr", (lead - 0x81) * 190 + byte - 0x41) if 0x41 <= byte <= 0xFE else None


class ShiftJis(Pairs):
    def pair(self, lead, byte):
        if not (0x40 <= byte <= 0x7E or 0x80 <= byte <= 0xFC):
            return None
        pointer = (lead - (0x81 if lead < 0xA0 else 0xC1)) * 188 + byte - (0x40 if byte < 0x7F else 0x41)
        return [0xE000 - 8836 + pointer] if 8836 <= pointer <= 10715 else at("jis0208s", pointer)

    def alone(self, byte):
        if byte <= 0x80:
            return [byte]
        if 0xA1 <= byte <= 0xDF:
            return [0xFF61 - 0xA1 + byte]
        if 0x81 <= byte <= 0x9F or 0xE0 <= byte <= 0xFC:
            self.lead = byte
            return []
        return ERROR


class EucJp(Handler):
    jis0212 = False

    def byte(self, byte):
        if byte is END:
            cut, self.lead = self.lead, 0
            return ERROR if cut else []
        if self.lead == 0x8E and 0xA1 <= byte <= 0xDF:
            self.lead = 0
            return [0xFF61 - 0xA1 + byte]
        if self.lead == 0x8F and 0xA1 <= byte <= 0xFE:
            self.jis0212, self.lead = True, byte
            return []
        if self.lead:
            return self.behind_lead(byte)
        if byte < 0x80:
            return [byte]
        if byte in (0x8E, 0x8F) or 0xA1 <= byte <= 0xFE:
            self.lead = byte
            return []
        return ERROR

    def behind_lead(self, byte):
        lead, self.lead, found = self.lead, 0, None
        if 0xA1 <= lead <= 0xFE and 0xA1 <= byte <= 0xFE:
            found = at("jis0212" if self.jis0212 else "jis0208", (lead - 0xA1) * 94 + byte - 0xA1)
        self.jis0212 = False
        return found or self.ascii_back(byte)


class Iso2022Jp(Handler):
    state = output = "ascii"
    flag = False

    def byte(self, byte):
        if self.state == "trail":
            return self.trail(byte)
        if self.state == "escape start":
            return self.escape_start(byte)
        if self.state == "escape":
            return self.escape(byte)
        if byte == 0x1B:
            self.state = "escape start"
            return []
        if byte is END:
            return []
        self.flag = False
        return self.first(byte)

    def first(self, byte):
        if self.state == "katakana":
            return [0xFF61 - 0x21 + byte] if 0x21 <= byte <= 0x5F else ERROR
        if self.state == "lead":
            if not 0x21 <= byte <= 0x7E:
                return ERROR
            self.lead, self.state = byte, "trail"
            return []
        if byte > 0x7F or byte in (0x0E, 0x0F):
            return ERROR
        return [{0x5C: 0xA5, 0x7E: 0x203E}.get(byte, byte) if self.state == "roman" else byte]

    def trail(self, byte):
        if byte == 0x1B:
            self.state = "escape start"
            return ERROR
        self.state = "lead"
        if byte is END or not 0x21 <= byte <= 0x7E:
            return ERROR
        return at("jis0208", (self.lead - 0x21) * 94 + byte - 0x21) or ERROR

    def escape_start(self, byte):
        if byte in (0x24, 0x28):
            self.lead, self.state = byte, "escape"
            return []
        self.back = b"" if byte is END else bytes([byte])
        self.flag, self.state = False, self.output
        return ERROR

    def escape(self, byte):
        lead, self.lead = self.lead, 0
        found = {
            (0x28, 0x42): "ascii",
            (0x28, 0x4A): "roman",
            (0x28, 0x49): "katakana",
            (0x24, 0x40): "lead",
            (0x24, 0x42): "lead",
        }.get((lead, byte))
        if found:
            flag, self.flag = self.flag, True
            self.state = self.output = found
            return ERROR if flag else []
        self.back = bytes([lead]) if byte is END else bytes([lead, byte])
        self.flag, self.state = False, self.output
        return ERROR


class Utf8(Handler):
    needed, code, lower, upper = 0, 0, 0x80, 0xBF

    def byte(self, byte):
        if byte is END:
            cut, self.needed = self.needed, 0
            return ERROR if cut else []
        if not self.needed:
            return self.first(byte)
        if not self.lower <= byte <= self.upper:
            self.needed, self.lower, self.upper = 0, 0x80, 0xBF
            self.back = bytes([byte])
            return ERROR
        self.lower, self.upper = 0x80, 0xBF
        self.code = self.code << 6 | byte & 0x3F
        self.needed -= 1
        return [] if self.needed else [self.code]

    def first(self, byte):
        if byte < 0x80:
            return [byte]
        for least, greatest, needed, mask in ((0xC2, 0xDF, 1, 0x1F), (0xE0, 0xEF, 2, 0xF), (0xF0, 0xF4, 3, 7)):
            if least <= byte <= greatest:
                self.needed, self.code = needed, byte & mask
                self.lower = {0xE0: 0xA0, 0xF0: 0x90}.get(byte, 0x80)
                self.upper = {0xED: 0x9F, 0xF4: 0x8F}.get(byte, 0xBF)
                return []
        return ERROR


class Utf16(Handler):
    big = True
    high = 0
    half = None

    def byte(self, byte):
        if byte is END:
            cut = self.half is not None or self.high
            self.half, self.high = None, 0
            return ERROR if cut else []
        if self.half is None:
            self.half = byte
            return []
        unit = self.half * 256 + byte if self.big else byte * 256 + self.half
        self.half = None
        if self.high:
            high, self.high = self.high, 0
            if 0xDC00 <= unit <= 0xDFFF:
                return [0x10000 + ((high - 0xD800) << 10) + unit - 0xDC00]
            pair = unit.to_bytes(2, "big" if self.big else "little")
            self.back = pair
            return ERROR
        if 0xD800 <= unit <= 0xDBFF:
            self.high = unit
            return []
        return ERROR if 0xDC00 <= unit <= 0xDFFF else [unit]


class Utf16Le(Utf16):
    big = False


HANDLERS = {
    "UTF-8": Utf8,
    "UTF-16BE": Utf16,
    "UTF-16LE": Utf16Le,
    "gb18030": Gb18030,
    "GBK": Gb18030,
    "Big5": Big5,
    "EUC-KR": EucKr,
    "EUC-JP": EucJp,
    "Shift_JIS": ShiftJis,
    "ISO-2022-JP": Iso2022Jp,
}


def decoded(name, data):
    if name == "replacement":
        return ("\ufffd", 1) if data else ("", 0)
    if name in SINGLE:
        codes = [byte if byte < 128 else SINGLE[name][byte - 128] for byte in data]
        return "".join(map(chr, codes)), codes.count(0xFFFD)
    handler, text, errors = HANDLERS[name](), [], 0
    queue = list(reversed(data))
    while True:
        byte = queue.pop() if queue else END
        given = handler.byte(byte)
        queue.extend(reversed(handler.back))
        handler.back = b""
        if given is ERROR:
            errors += 1
            given = [0xFFFD]
        text += map(chr, given)
        if byte is END and not queue and not given:
            return "".join(text), errors
