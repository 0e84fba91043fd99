"""The text of an answer, as docs/FORMAT.md, section 11, has it."""

SHORT, UNKNOWN_CODE, NO_ARM, TOO_LONG, TOO_MANY_ITEMS, BAD_VALUE = 1, 2, 3, 4, 5, 6
MISMATCH, BAD_SPAN, NO_ROOM, NO_FIELD, TRAILING, BAD_KIND, OVERSIZE = 7, 8, 9, 10, 11, 12, 13


def short(place, size, length):
    """Short in a slice of so many bytes: the fourth number is how many it has from the place on, none past its end."""
    return SHORT, place, size, max(length - place, 0)


def refused(kind, number, place, value, had=None):
    """The line of a refusal. Short alone says how many bytes there were."""
    if (number == SHORT) != (had is not None):
        raise SystemExit(f'refusal {number} at {place} had {had}')
    words = f' had {had}' if number == SHORT else ''
    return f'kind {kind} refused {number} at {place} value {value}{words}\n'


def read(kind, fields, tail):
    """The listing of a record that was read: its first line, and a line for each field."""
    lines = [f'kind {kind} read {fields[-1].end} tail {tail}']
    lines += [f'{f.place} {f.size} {f.what} {f.value if f.value != "" else "-"}' for f in fields]
    return '\n'.join(lines) + '\n'


def again(data):
    """The line for the bytes that a record that was read is written as."""
    return f'again {data.hex()}\n'
