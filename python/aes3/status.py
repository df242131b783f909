"""Channel status: what a line says of its samples."""

from __future__ import annotations

from typing import TYPE_CHECKING, Dict, Optional, Union

from aes3 import calls

if TYPE_CHECKING:
    from aes3.calls import Octets

# The codes of sampling frequencies in hertz: of consumer use (IEC 60958-3) in bits 0 to 3 of byte 3, and of professional use (AES3-2)
# in bits 6 and 7 of byte 0 or, where these are 0, in bits 3 to 6 of byte 4.
_CONSUMER = {44100: 0, 48000: 2, 32000: 3, 22050: 4, 24000: 6, 88200: 8, 768000: 9, 96000: 10, 176400: 12, 192000: 14}
_BYTE_0 = {44100: 1, 48000: 2, 32000: 3}
_BYTE_4 = {24000: 1, 96000: 2, 192000: 3, 22050: 9, 88200: 10, 176400: 11}


_UNKNOWN, _LEFT = 1, 2  # what aes3_status_set answers of a setting that it does not take


def _rate_with(codes: Dict[int, int], code: int) -> Optional[int]:
    return next((rate for rate, each in codes.items() if each == code), None)


def _known(rate: int, codes: Dict[int, int]) -> int:
    """A sampling frequency that has a code."""
    if rate not in codes:
        raise ValueError(f"channel status has no code for {rate} Hz: it has codes for {', '.join(map(str, sorted(codes)))}, and None names no rate")
    return rate


class Status:
    """The channel status of a channel, 24 bytes: equal where its bytes are.

    `status["rate"]` is the text of a field, by the names and words of `aes3 show`, and `fields` has all of them in their order.
    `bytes(status)` gives the bytes.
    """

    __slots__ = ("_bytes", "_text")
    __match_args__ = ("use", "fields")

    def __init__(self, octets: Octets) -> None:
        self._bytes = bytes(calls._status_in(octets))
        self._text: Optional[str] = None

    @classmethod
    def consumer(cls, rate: Optional[int] = None) -> Status:
        """The usual status for consumer use: linear PCM, no copyright asserted, words of 24 bits, and this sampling frequency in hertz.

        It is that of `aes3 from-pcm --preset consumer --rate HZ`. Without a rate it says that none is indicated.
        """
        octets = bytearray([0x04, 0, 0, 0x01, 0x0B] + 19 * [0])
        if rate is not None:
            octets[3] = _CONSUMER[_known(rate, _CONSUMER)]
        return cls(octets)

    @classmethod
    def professional(cls, rate: Optional[int] = None) -> Status:
        """The usual status for professional use: linear PCM, no emphasis, two channels, words of 24 bits, this sampling frequency in
        hertz, and the check byte.

        It is that of `aes3 from-pcm --preset professional --rate HZ`. Without a rate it says that none is indicated.
        """
        octets = bytearray([0x05, 0x08, 0x2C] + 21 * [0])
        if rate is not None:
            rate = _known(rate, {**_BYTE_0, **_BYTE_4})
            octets[0] |= _BYTE_0.get(rate, 0) << 6
            octets[4] |= _BYTE_4.get(rate, 0) << 3
        octets[23] = calls.check_byte(octets)
        return cls(octets)

    def replace(self, **fields: Union[str, int]) -> Status:
        """This status with other fields, as `aes3 rewrite --set` sets them: `status.replace(emphasis="50/15", rate=44100)`.

        Names and words are those of `aes3 show` and `aes3 show --names`, also `use="professional"` and `use="consumer"`. They are set in
        this order: a word length needs the right `aux` or `greatest` before it. For professional use the check byte is that of the new
        status.
        """
        octets = calls._Status(*self._bytes)
        for name, word in fields.items():
            if isinstance(word, bool) or not isinstance(word, (str, int)):
                raise TypeError(f"the word of a field is a text or a whole number, not {calls._named(word)}")
            text = f"{name}={word}".encode(errors="surrogatepass")
            answer = calls._status_set(octets, text, len(text))
            if answer == _UNKNOWN:
                raise ValueError(f"no field of channel status is printed as {name}={word}")
            if answer == _LEFT:
                use = "professional" if octets[0] & 1 else "consumer"
                raise ValueError(f"this status for {use} use has no code for {name}={word}")
        if octets[0] & 1:
            octets[23] = calls._check_byte(octets)
        return Status(octets)

    @property
    def use(self) -> str:
        """`professional` or `consumer`."""
        return "professional" if self._bytes[0] & 1 else "consumer"

    @property
    def fields(self) -> Dict[str, str]:
        """The names of the fields and their texts, in the order of `aes3 show`."""
        return dict(field.split("=", 1) for field in str(self).split(" ")[1:])

    @property
    def rate(self) -> Optional[int]:
        """The sampling frequency in hertz, or None where the status names none."""
        if self.use == "consumer":
            return _rate_with(_CONSUMER, self._bytes[3] & 15)
        return _rate_with(_BYTE_0, self._bytes[0] >> 6) or _rate_with(_BYTE_4, self._bytes[4] >> 3 & 15)

    def __getitem__(self, name: str) -> str:
        """The text of a field."""
        return self.fields[name]

    def __bytes__(self) -> bytes:
        return self._bytes

    def __str__(self) -> str:
        """The line of the status, as `aes3 show` prints it."""
        if self._text is None:
            self._text = calls.status_text(self._bytes)
        return self._text

    def __repr__(self) -> str:
        return f"Status({self})"

    def __eq__(self, other: object) -> bool:
        if not isinstance(other, Status):
            return NotImplemented
        return self._bytes == other._bytes

    def __hash__(self) -> int:
        return hash(self._bytes)
