"""The PCRs that a TCG event log leads to, in the SHA-256 bank.

The log is that of the TCG PC Client Platform Firmware Profile, as /sys/kernel/security/tpm0/binary_bios_measurements
has it: a first event in the SHA-1 form, which says that the others are in the crypto-agile form (TCG_PCR_EVENT2) and
of which hashes. A log without such a first event has SHA-1 digests alone, and tells nothing of SHA-256.
"""

import hashlib
import struct

NO_ACTION = 3
SHA256 = 0x000b
AGILE = b"Spec ID Event03\0"
LOCALITY = b"StartupLocality\0"


class BadLog(Exception):
    """The log is cut off, or of a form that gives no SHA-256 digests."""


class Reader:
    """Bytes that are taken from the front, little-endian."""

    def __init__(self, data):
        self.data = data
        self.place = 0

    def is_at_end(self):
        return self.place == len(self.data)

    def take(self, size):
        if self.place + size > len(self.data):
            raise BadLog(f"it is cut off at byte {len(self.data)}")
        self.place += size
        return self.data[self.place - size:self.place]

    def number(self, size):
        return int.from_bytes(self.take(size), "little")

    def sized(self, size):
        return self.take(self.number(size))


def first_event(reader):
    """The first event, in the SHA-1 form: its type and its data."""
    _, kind, _ = reader.number(4), reader.number(4), reader.take(20)
    return kind, reader.sized(4)


def hash_sizes(data):
    """The hashes of a crypto-agile log with the sizes of their digests, of the first event's data."""
    reader = Reader(data)
    reader.take(24)
    return {reader.number(2): reader.number(2) for _ in range(reader.number(4))}


def events(log):
    """The events behind the first: PCR, type, SHA-256 digest and data."""
    reader = Reader(log)
    kind, data = first_event(reader)
    if kind != NO_ACTION or not data.startswith(AGILE):
        raise BadLog("it has SHA-1 digests alone, and a scene has the SHA-256 bank")
    sizes = hash_sizes(data)
    if sizes.get(SHA256) != 32:
        raise BadLog("it has no SHA-256 digests")
    while not reader.is_at_end():
        pcr, kind = reader.number(4), reader.number(4)
        digests = {}
        for _ in range(reader.number(4)):
            name = reader.number(2)
            if name not in sizes:
                raise BadLog(f"it has a digest of the hash {name:04x}, which its head does not name")
            digests[name] = reader.take(sizes[name])
        yield pcr, kind, digests.get(SHA256), reader.sized(4)


def replayed(log):
    """The values of the PCRs that the log extends, by number."""
    values, locality = {}, 0
    for pcr, kind, digest, data in events(log):
        if kind == NO_ACTION:
            if data.startswith(LOCALITY) and len(data) > len(LOCALITY):
                locality = data[len(LOCALITY)]
            continue
        if pcr > 23 or digest is None:
            raise BadLog(f"it has an event of PCR {pcr} without a place in the SHA-256 bank")
        before = values.get(pcr, at_start(pcr, locality))
        values[pcr] = hashlib.sha256(before + digest).digest()
    return values


def at_start(pcr, locality):
    """A PCR as TPM2_Startup leaves it: PCR 0 tells the locality of the start, and 17 to 22 are all ones."""
    if pcr == 0:
        return struct.pack(">31xB", locality)
    return b"\xff" * 32 if 17 <= pcr <= 22 else bytes(32)
