#!/usr/bin/env python3
"""Makes the adapted text: the crate's, with our layout in those points in which docs/DIFFERENCES.md says that ours is another (2.1, 2.10, 2.11).

    adapt.py TEXT OUT

TEXT is the folder of the text, OUT a new one. It ends where the text does not have once what is to be changed.
"""

import shutil
import sys
from pathlib import Path

SIGNING = 'TpmAlgId::Rsassa|TpmAlgId::Rsapss|TpmAlgId::Ecdsa|{}TpmAlgId::Sm2|TpmAlgId::Ecschnorr'
WITHOUT, WITH = SIGNING.format(''), SIGNING.format('TpmAlgId::Ecdaa|')
ECDAA = 'Ecdaa(crate::data::TpmsSchemeEcdaa)'
MODES = 'Camellia(TpmAlgId): TpmAlgId::Camellia;\n    '

# The lists that take another number of items here, with their items: how many in the crate, and how many here.
LISTS = {
    'TpmlAlgProperty, TpmsAlgProperty': (64, 128), 'TpmlCca, TpmaCc': (256, 128), 'TpmlCc, TpmCc': (256, 128),
    'TpmlPcrSelection, TpmsPcrSelection': (8, 16), 'TpmlTaggedTpmProperty, TpmsTaggedProperty': (64, 128),
    'TpmlEccCurve, TpmEccCurve': (64, 128), 'TpmlTaggedPolicy, TpmsTaggedPolicy': (8, 16), 'TpmlActData, TpmsActData': (8, 16),
}

# The tickets, and the tags that each has here.
TICKETS = {
    'TpmtTkCreation': '0x8021, 0x8021', 'TpmtTkVerified': '0x8022, 0x8022', 'TpmtTkHashcheck': '0x8024, 0x8024', 'TpmtTkAuth': '0x8023, 0x8025',
}

# The points, each a change of one table or structure: the file, what stands there, and what is put there.
POINTS = {
    **{f'{name}: {ours} items': ('data/mod.rs', f'tpml!({name}, {crates});', f'tpml!({name}, {ours});') for name, (crates, ours) in LISTS.items()},
    'the cipher Xor has no mode': (
        'data/tpmu.rs', f'{MODES}Xor(TpmAlgId): TpmAlgId::Xor;\n    @null Null: TpmAlgId::Null;', f'{MODES}@null Null: TpmAlgId::Xor|TpmAlgId::Null;'),
    'the asymmetric scheme Ecdaa has a count': (
        'data/tpmu.rs', f'Hash(TpmsSchemeHash): {WITH}|', f'{ECDAA}: TpmAlgId::Ecdaa;\n    Hash(TpmsSchemeHash): {WITHOUT}|'),
    'the signing scheme Ecdaa has a count': (
        'data/tpmu.rs', f'Hash(TpmsSchemeHash): {WITH};', f'{ECDAA}: TpmAlgId::Ecdaa;\n    Hash(TpmsSchemeHash): {WITHOUT};'),
    **{f'the tag of {name} is judged': (
        'data/tpmt.rs', f'struct {name} {{\n        pub tag: TpmSt,', f'struct {name} {{\n        pub tag: crate::data::TpmTicketTag<{tags}>,')
       for name, tags in TICKETS.items()},
}

# The variants that the two points of Ecdaa need. (The mode's variant Xor stays, and no selector chooses it.)
VARIANTS = [
    ('data/tpmu.rs', old, f'{old}\n{new}') for old, new in (
        ('pub enum TpmuAsymScheme {', f'    {ECDAA},'),
        ('            Self::Hash(s) => s.len(),', '            Self::Ecdaa(s) => s.len(),'),
        ('            Self::Hash(s) => s.marshal(writer),', '            Self::Ecdaa(s) => s.marshal(writer),'),
        ('pub enum TpmuSigScheme {', f'    {ECDAA},'),
        ('            Self::Hash(s) | Self::Hmac(s) => s.len(),', '            Self::Ecdaa(s) => s.len(),'),
        ('            Self::Hash(s) | Self::Hmac(s) => s.marshal(writer),', '            Self::Ecdaa(s) => s.marshal(writer),'),
    )]


def adapt(text, out, points):
    """A copy of the text with these points changed."""
    shutil.copytree(text, out)
    for path, old, new in [*VARIANTS, *points]:
        file = Path(out) / path
        before = file.read_text(encoding='utf-8')
        if before.count(old) != 1:
            raise SystemExit(f'tests/crate/adapt.py: {path} has not once {old!r}')
        file.write_text(before.replace(old, new), encoding='utf-8')


if __name__ == '__main__':
    adapt(*sys.argv[1:], POINTS.values())
