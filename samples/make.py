#!/usr/bin/env python3
"""Writes the sample sheets beside this file from parts.txt, one sheet a line.

A sheet is a map byte (bit 0: corner count, bit 1: pairs, bit 3: angles), then the fields whose bits stand: the corner count in two
bytes, the pairs in two bytes a corner as they are listed, the angles in two bytes each, signed, in the same order. High byte first. Where
bit 2 stands, once the part number's, four bytes that are skipped come between the pairs and the angles.
"""
from pathlib import Path

HERE = Path(__file__).parent


def sheet(corners, pairs, angles, skipped=b""):
    marks = 1 | (2 if corners > 3 else 0) | (4 if skipped else 0) | (8 if angles else 0)
    out = bytes([marks]) + corners.to_bytes(2, "big")
    for a, b in pairs:
        out += a.to_bytes(2, "big") + b.to_bytes(2, "big")
    out += skipped
    for angle in angles:
        out += angle.to_bytes(2, "big", signed=True)
    return out


for line in (HERE / "parts.txt").read_text().splitlines():
    line = line.split("#")[0].strip()
    if not line:
        continue
    name, corners, pairs, *skipped = (field.strip() for field in line.split(";"))
    bends = [bend.split(":") for bend in pairs.split()]
    pairs = [tuple(int(c) for c in bend[0].split("-")) for bend in bends]
    angles = [int(angle) for bend in bends for angle in bend[1:]]
    data = sheet(int(corners), pairs, angles, *map(bytes.fromhex, skipped))
    (HERE / f"{name}.sheet").write_bytes(data)
