"""Places in our answers, by their sort, and single changes there that leave each line in its form.

So a change is reported for what it says, not for how it looks: a digit becomes another digit, and no number begins with a 0 by it.
"""

import re
from bisect import bisect_right
from itertools import accumulate

DIGITS, HEX, FLAGS = b'0123456789', b'0123456789abcdef', b'01'

READING_LINE = re.compile(
    rb'^(?:kind (?P<kind>\d+) (?P<answer>read|refused) '
    rb'(?:(?P<consumed>\d+) tail (?P<tail>\d+)|(?P<number>\d+) at (?P<place>\d+) value (?P<value>\d+)(?: had (?P<had>\d+))?)'
    rb'|(?P<field_place>\d+) (?P<field_size>\d+) (?P<what>code|number|bytes) '
    rb'(?:-|(?<=bytes )(?P<field_bytes>[0-9a-f]+)|(?<!bytes )(?P<field_value>\d+))'
    rb'|again (?P<again_bytes>[0-9a-f]+))\n', re.M)
WRITING_LINE = re.compile(
    rb'^(?P<word>m|again|kind|tail|field|item) '
    rb'(?:(?<=m )(?P<flag>[01])'
    rb'|(?<=kind )(?P<kind>\d+) refused (?P<number>\d+) at (?P<place>\d+) value (?P<value>\d+)(?: had (?P<had>\d+))?'
    rb'|(?<=again )(?P<again_bytes>[0-9a-f]+)|(?<=tail )(?P<tail_bytes>[0-9a-f]+)|(?<=field )(?P<field_bytes>[0-9a-f]+)'
    rb'|(?<=item )(?P<item_bytes>[0-9a-f]+)|-)\n', re.M)

# The sorts, each with the groups of a line that it has; each sort is chosen as often as the others.
READING_SORTS = {
    name: (name,) for name in ('kind', 'consumed', 'tail', 'number', 'place', 'value', 'had', 'field_place', 'field_size', 'field_value',
                               'field_bytes', 'again_bytes')} | {'word': ('answer', 'what')}
WRITING_SORTS = {
    name: (name,) for name in ('flag', 'kind', 'number', 'place', 'value', 'had', 'again_bytes', 'tail_bytes', 'field_bytes', 'item_bytes', 'word')}
WORDS = {
    'answer': (b'read', b'refused'),
    'what': (b'code', b'number', b'bytes'),
    'word': (b'm', b'again', b'kind', b'tail', b'field', b'item'),
}


class Answers:
    """Answers of ours as one text, where each begins, and what each is an answer to. FOLDER has the files of these, if there are any."""

    def __init__(self, line, text, starts, asked, folder=None):
        self.line, self.text, self.starts, self.asked, self.folder = line, text, starts, asked, folder
        if sum(1 for _ in line.finditer(text)) != text.count(b'\n') or len(starts) != len(asked):
            raise SystemExit('tests/crate/places.py: an answer of ours is missing, or has a line of no known form')

    def number(self, place):
        """Which answer the place is in, from 0 on."""
        return bisect_right(self.starts, place) - 1

    def bounds(self, number):
        return self.starts[number], (self.starts + [len(self.text)])[number + 1]

    def chosen(self, r, group, is_held):
        """A place of that group, where what was asked is held; None if there is none."""
        spans = [hit.span(group) for hit in self.line.finditer(self.text) if hit[group] is not None]
        r.shuffle(spans)
        return next((span for span in spans if is_held(self.asked[self.number(span[0])])), None)


def of_reading(text, inputs, folder):
    return Answers(READING_LINE, text, [hit.start() for hit in re.finditer(rb'^kind ', text, re.M)], inputs, folder)


def of_writing(every):
    pieces = [''.join(line + '\n' for line in one.ours).encode() for one in every]
    return Answers(WRITING_LINE, b''.join(pieces), [0, *accumulate(map(len, pieces))][:-1], every)


def other_word(r, group, old):
    return r.choice([word for word in WORDS[group] if word != old])


def other_digit(r, group, old):
    """One digit of the old text becomes another."""
    at = r.randrange(len(old))
    letters = HEX if group.endswith('_bytes') else FLAGS if group == 'flag' else DIGITS
    is_first = letters == DIGITS and at == 0 and len(old) > 1
    new = r.choice([letter for letter in letters if letter != old[at] and not (is_first and letter == ord('0'))])
    return old[:at] + bytes([new]) + old[at + 1:]


def other(r, group, old):
    return (other_word if group in WORDS else other_digit)(r, group, old)
