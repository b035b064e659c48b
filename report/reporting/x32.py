"""How far x32 calls get: those of x86-64 whose numbers have bit 30 set, and bit 31 not."""

X86_64 = 0xC000003E
FIRST, LAST = 0x40000000, 0x7FFFFFFF
FREE = 0x3FFFFFFF


def least_of_bits(mask, least):
    """The least number from `least` on that has only bits of the mask, or None."""
    if not least & ~mask:
        return least
    highest = (least & ~mask).bit_length() - 1
    free = [bit for bit in range(highest + 1, 32) if mask >> bit & 1 and not least >> bit & 1]
    return (least >> free[0] | 1) << free[0] if free else None


def can_meet(condition):
    """Whether some x32 call meets a condition on bits of its number or architecture."""
    word, mask, spans = condition
    if word == "arch":
        return any(low <= X86_64 & mask <= high for low, high in spans)
    start = FIRST & mask
    for low, high in spans:
        found = least_of_bits(mask & FREE, max(low - start, 0))
        if found is not None and found <= high - start:
            return True
    return False


def effect_of_x32(picture):
    """How far x32 calls get, taken together. A row counts whose conditions some x32 call meets, each by itself."""
    kinds = {kind for _, _, found in picture.numbers_of(X86_64).between(FIRST, LAST) for kind in found}
    met = (kind for kind in sorted(kinds) if all(map(can_meet, picture.row_of_kind[kind].on_call)))
    return picture.told_of(tuple(met))[0]
