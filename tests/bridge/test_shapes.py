"""Messages in BSER that are not one value, or are too deep: the codec, which is written in C, is not to read them."""

import struct
from typing import Optional

from bridged import NO_CODEC, Bridge, BserClient, codec
from case import Case

from bridge.shape import NoValue, TooDeep, Walk


def number(value: int) -> bytes:
    return b"\x06" + struct.pack("=q", value)


def text(data: bytes) -> bytes:
    return b"\x02" + number(len(data)) + data


ONE_KEY = b"\x00\x03\x01" + text(b"a")

# Values, and what is wrong with each.
VALUES = [
    (b"\x00\x03\x01" + text(b"version"), None),
    (b"\x01\x03\x01" + text(b"a") + b"\x0a", None),
    (b"\x0b" + ONE_KEY + b"\x03\x02\x08\x0c", None),
    (b"\x00\x03\x00", None),
    (b"\x0d\x03\x01a", None),
    (b"\x07" + bytes(8), None),
    (b"\x00\x03\x01" * 128 + b"\x0a", None),
    (b"\x00\x03\x01" * 129 + b"\x0a", "too deep"),
    (b"\x00\x03\x01" * 300_000 + b"\x0a", "too deep"),
    (b"\x0b" + ONE_KEY + b"\x03\x01" + (b"\x01\x03\x01" + text(b"a")) * 200 + b"\x0a", "too deep"),
    (b"", "it ends in the middle of a value"),
    (b"\x05\x01", "it ends in the middle of a value"),
    (b"\x7f", "no value begins with the byte 7f"),
    (b"\x0a\x0a", "there are bytes after the value"),
    (b"\x00" + number(2**62), f"a length is {2**62}, and 0 bytes follow"),
    (b"\x00" + number(-1), "a length is -1, and 0 bytes follow"),
    (b"\x02" + number(-(2**62)), f"a length is {-2**62}, and 0 bytes follow"),
    (b"\x02\x03\x02a", "a length is 2, and 1 bytes follow"),
    (b"\x02\x08", "a length is no integer"),
    (b"\x01\x03\x01\x03\x05\x0a", "a key is no text"),
    (b"\x0b\x0a\x03\x01\x0a", "a template begins with an array of keys"),
    (b"\x0b\x00\x03\x00" + number(2**40), f"a length is {2**40}, and 0 bytes follow"),
    (b"\x0b" + ONE_KEY + b"\x03\x02\x08", "a length is 2, and 1 bytes follow"),
]


def fault_of(data: bytes) -> Optional[str]:
    try:
        Walk(data, 0).check()
    except NoValue as fault:
        return str(fault)
    except TooDeep:
        return "too deep"
    return None


class Shapes(Case):
    def test_shapes(self) -> None:
        """Each value is looked at, and a bridge with the codec answers each that is bad and goes on."""
        for data, fault in VALUES:
            self.same(f"the value {data[:20]!r}", fault_of(data), fault)
        bser = codec()
        if bser is None:
            self.skipTest(NO_CODEC)
        with Bridge(self.room) as bridge:
            for data, fault in VALUES:
                if fault is not None and data:
                    self.same(f"the bridge is sent {data[:20]!r}", answered(bridge, bser, data), fault)
            for length in (b"\x05\xff\xff\xff\x7f", b"\x03\x80", b"\x02", b"\x06" + b"\xff" * 8):
                self.same(f"the length {length!r}", is_refused_in_bser(bridge, bser, length), True)
            with BserClient(bridge.sockname, bser) as client:
                for capabilities in (b"\xff\xff\xff\xff", b"\x00\x00\x00\x80", b"\x01\x00\x00\x00"):
                    data = bser.dumps(["version"], version=2, capabilities=0)
                    client.stream.sendall(data[:2] + capabilities + data[6:])
                    self.same(f"the capabilities {capabilities!r}", client.reply(2).get("version"), "4.9.0")
            self.same("the bridge goes on", bridge.process.poll(), None)


def answered(bridge: Bridge, bser, data: bytes) -> str:
    """The error that a message is answered with, without its first words."""
    with BserClient(bridge.sockname, bser) as client:
        client.stream.sendall(b"\x00\x01\x05" + struct.pack("=i", len(data)) + data)
        error = str(client.reply(1)["error"])
    return "too deep" if "too deep" in error else error.replace("this is no BSER: ", "", 1)


def is_refused_in_bser(bridge: Bridge, bser, length: bytes) -> bool:
    """Whether a first message of this length has an error as its reply, in its own encoding."""
    with BserClient(bridge.sockname, bser) as client:
        client.stream.sendall(b"\x00\x02" + bytes(4) + length)
        return "error" in client.reply(2)
