"""A card's bytes from its fields, for the tests in Python. What is not given is example A's."""


def card(m=3, q=2, up=3, down=2, table=(1, 2, 4), loads=(6, 0, 2), version=1):
    out = b"DLS" + version.to_bytes(2, "little") + bytes([m, q]) + len(loads).to_bytes(2, "little")
    out += up.to_bytes(4, "little") + down.to_bytes(4, "little")
    return out + b"".join(f.to_bytes(4, "little") for f in table) + b"".join(l.to_bytes(2, "little") for l in loads)
