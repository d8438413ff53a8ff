"""The reader as the scripts have it, from docs/RULES.md, section 5."""
from binascii import crc_hqx


def number(octets):
    return int.from_bytes(octets, "big")


def reading(octets, fecf):
    """The reader's answer: the length of the frame at the front of the octets, or a refusal as the bench prints it."""
    found = len(octets)
    if found < 4:
        return f"1 {found} 4"
    if octets[3] & 1:
        return "3"
    if found < 7:
        return f"1 {found} 7"
    if octets[0] >> 4 != 12:
        return f"4 {octets[0] >> 4}"
    header, total = 7 + (octets[6] & 7), number(octets[4:6]) + 1
    if found < header or found < total:
        return f"1 {found} {header if found < header else total}"
    if found < header + 1:
        return "1 0 1"
    rule, protocol = octets[header] >> 5, octets[header] & 31
    if rule < 3 and found < header + 3:
        return f"1 {found - header} 3"
    if 8 < protocol < 31:
        return f"5 {protocol}"
    needed = header + (3 if rule < 3 else 1) + (4 if octets[6] & 8 else 0) + 2 * fecf
    if total < needed:
        return f"7 {total} {needed}"
    stored, computed = number(octets[total - 2: total]), crc_hqx(octets[: total - 2], 0xFFFF)
    return f"6 {stored} {computed}" if fecf and stored != computed else total
