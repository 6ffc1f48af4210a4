"""What the scripts that print vectors have in common: bytes of sheets, and of frames. Nothing here judges a call."""

UNIT = 65536


def figure(n):
    return n.to_bytes(8, 'little', signed=True)


def old_sheet(n):
    """The old sheet of these numbers, which stand in the order of the vectors' README."""
    ctn, cln = n[4], n[20]
    sections = [(4, n[:4]), (ctn, n[5:5 + 3 * ctn]), (cln, n[21:21 + 2 * cln]), (5, n[35:40]), (2, n[40:])]
    return b''.join(bytes([count]) + b''.join(map(figure, listed)) for count, listed in sections)


def sealed(frame):
    """With the checksum of Modbus, low byte first."""
    checksum = 0xffff
    for byte in bytes.fromhex(frame):
        checksum ^= byte
        for _ in range(8):
            checksum = checksum >> 1 ^ (0xa001 if checksum & 1 else 0)
    return frame + checksum.to_bytes(2, 'little').hex()
