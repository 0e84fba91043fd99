"""Single changes of the published text, each of which a comparison or a claim has to report.

Not tried is what nothing here compares: `available` of an UnexpectedEnd that no kind comes to (lib.rs:166, list.rs:65 and 119), the calls of 2.9
in docs/DIFFERENCES.md, and what can only come up on a 16-bit machine or behind another test that says the same.
"""

import re
from typing import NamedTuple

from adapt import LISTS

UNION = re.compile(r'^tpmu_view!\(.*?^\}\);', re.M | re.S)
MARSHAL = re.compile(r'^impl TpmMarshal for (\w+) \{.*?^\}', re.M | re.S)
# A code of each type of selector that has no arm.
WITHOUT_ARM = {'TpmSt': 'TpmSt::FuManifest', 'TpmAlgId': 'TpmAlgId::Cmac', 'TpmCap': 'TpmCap::PcrProperties', 'TpmHt': 'TpmHt::Permanent'}
TAG, HIERARCHY, DIGEST = 'pub tag: TpmSt,', 'pub hierarchy: TpmRh,', 'pub digest: Tpm2bDigest,'
LINE = '\n        '

# What is read. Each is made wherever the old text stands, one at a time.
READING = {
    'data/mod.rs': [
        ('Tpm2bAuth, MAX_DIGEST_SIZE', 'Tpm2bAuth, MAX_SYM_KEY_BYTES'),
        ('Tpm2bDigest, MAX_DIGEST_SIZE', 'Tpm2bDigest, MAX_ECC_KEY_BYTES'),
        ('Tpm2bEccParameter, MAX_ECC_KEY_BYTES', 'Tpm2bEccParameter, MAX_DIGEST_SIZE'),
        ('Tpm2bMaxNvBuffer, MAX_NV_BUFFER_SIZE', 'Tpm2bMaxNvBuffer, MAX_RSA_KEY_BYTES'),
        ('Tpm2bName, { MAX_DIGEST_SIZE + 2 }', 'Tpm2bName, { MAX_DIGEST_SIZE + 1 }'),
        ('Tpm2bPublicKeyRsa, MAX_RSA_KEY_BYTES', 'Tpm2bPublicKeyRsa, MAX_SENSITIVE_DATA'),
        ('Tpm2bSymKey, MAX_SYM_KEY_BYTES', 'Tpm2bSymKey, MAX_DIGEST_SIZE'),
        ('Tpm2bData, MAX_DATA_SIZE', 'Tpm2bData, MAX_DIGEST_SIZE'),
        *((f'{name}, {most}', f'{name}, {most + more}')
          for name, most in (*((name, crates) for name, (crates, _) in LISTS.items()), ('TpmlHandle, crate::basic::TpmUint32', 128))
          for more in (-1, 1)),
        ('TpmlHandle, crate::basic::TpmUint32', 'TpmlHandle, crate::basic::TpmUint16'),
    ],
    'data/tpmu.rs': [
        ('Some(20)', 'Some(21)'), ('Some(24)', 'Some(20)'), ('Some(32)', 'Some(24)'), ('Some(48)', 'Some(64)'), ('Some(64)', 'Some(48)'),
        ('if tag == TpmAlgId::Null {', 'if tag == TpmAlgId::Rsa {'),
        ('if buf.len() < digest_size {', 'if buf.len() <= digest_size {'),
        ('needed: digest_size', 'needed: digest_size + 1'),
        ('available: buf.len(),', 'available: digest_size,'), ('available: buf.len(),', 'available: 0,'),
        ('value: u64::from(tag.value())', 'value: u64::from(tag.value()) + 1'),
        ('Self::PpCommands(cmds) | Self::AuditCommands(cmds) => cmds.len()', 'Self::PpCommands(cmds) | Self::AuditCommands(cmds) => cmds.len() + 1'),
        *((f'Self::{arm}(s) => s.len(),', f'Self::{arm}(s) => s.len() + 1,') for arm in ('NvIndex', 'ExternalNv', 'PermanentNv')),
    ],
    'data/tpmt.rs': [
        ('        if algorithm == TpmAlgId::Null {\n            return Ok((\n', '        if algorithm == TpmAlgId::Xor {\n            return Ok((\n'),
        ('        let (seed_value, buffer) = Tpm2bDigest::unmarshal(buffer)?;', '        let (seed_value, _) = Tpm2bDigest::unmarshal(buffer)?;'),
        ('TpmuPublicId::unmarshal_tagged(object_type, buffer)', 'TpmuPublicId::unmarshal_tagged(name_alg, buffer)'),
        ('TpmuSymMode::unmarshal_tagged(algorithm, buffer)', 'TpmuSymMode::unmarshal_tagged(TpmAlgId::Aes, buffer)'),
        ('        let (name_alg, buffer) = TpmAlgId::unmarshal(buffer)?;',
         '        let (_, buffer) = TpmAlgId::unmarshal(buffer)?; let name_alg = TpmAlgId::Null;'),
        ('                        rest,\n', '                        &rest[rest.len().min(1)..],\n'),
        ('e.rebase(offset)', 'e.rebase(offset + 1)'),
        ('            + self.unique.len()', ''), ('+ self.key_bits.len() + self.mode.len()', '+ self.key_bits.len()'),
        ('            + self.sensitive.len()', ''),
        # Of each ticket another type of each field, and two fields in another order.
        (TAG, 'pub tag: TpmAlgId,'), (HIERARCHY, 'pub hierarchy: crate::data::TpmCap,'), (DIGEST, 'pub digest: crate::data::Tpm2bName,'),
        (f'{TAG}{LINE}{HIERARCHY}', f'{HIERARCHY}{LINE}{TAG}'), (f'{HIERARCHY}{LINE}{DIGEST}', f'{DIGEST}{LINE}{HIERARCHY}'),
    ],
    'basic/list.rs': [
        ('        if count > CAPACITY {', '        if count >= CAPACITY {'), ('        if count > CAPACITY {', '        if count > CAPACITY + 1 {'),
        ('                actual: count,', '                actual: count + 1,'),
        ('            cursor = tail;\n        }\n\n        Ok((list, cursor))',
         '            if list.len < 2 { cursor = tail; }\n        }\n\n        Ok((list, cursor))'),
        ('            let (item, tail) = T::unmarshal(cursor)?;', '            let Ok((item, tail)) = T::unmarshal(cursor) else { break };'),
        ('        self.len += 1;', '        self.len += usize::from(self.len < 3);'),
        ('T::SIZE * CAPACITY', 'T::SIZE * 2'),
        ('if item_count > CAPACITY {', 'if item_count >= CAPACITY {'), ('actual: item_count', 'actual: item_count + 1'),
        ('needed: TPML_COUNT_LEN,', 'needed: TPML_COUNT_LEN + 1,'),
        ('needed: TPML_COUNT_LEN,\n                available: buf.len(),', 'needed: TPML_COUNT_LEN,\n                available: 0,'),
        ('if buf.len() > wire_len {', 'if buf.len() > wire_len + 1 {'),
        ('actual: buf.len() - wire_len,', 'actual: buf.len(),'),
    ],
}

# What is written, and matches_tag.
WRITING = {
    'lib.rs': [
        ('if end > self.buffer.len() {', 'if end >= self.buffer.len() {'),
        ('self.buffer[self.cursor..end].copy_from_slice(bytes);', ''),
        ('self.cursor = end;', 'self.cursor = end; if end < self.buffer.len() { self.buffer[end] = 0; }'),
        ('offset: self.cursor,\n                needed: bytes.len(),\n                available: self', 'offset: 0, needed: bytes.len(), available: self'),
        ('needed: bytes.len(),\n                available: self', 'needed: bytes.len() + 1, available: self'),
        ('&self.buffer[..self.cursor]', '&self.buffer[..self.cursor / 2]'),
    ],
    'data/tpmu.rs': [
        ('(Self::$variant(_), $($tag)|+) => true', '(Self::$variant(_), $($tag)|+) => false'),
        ('(Self::$null_variant, $($null_tag)|+) => true', '(Self::$null_variant, $($null_tag)|+) => false'),
        ('_ => false,', '_ => true,'),
        ('(Self::Null, TpmAlgId::Null) => true', '(Self::Null, TpmAlgId::Null) => false'),
        ('digest.deref().len() == size', 'digest.deref().len() >= size'),
        ('digest_size(tag).is_some_and(|size| digest.deref().len() == size)', '!digest.deref().is_empty()'),
        ('Self::Digest(d) => writer.write_bytes(d)', 'Self::Digest(d) => writer.write_bytes(&d[1..])'),
        ('PpCommands(TpmlCc): TpmCap::PpCommands', 'PpCommands(TpmlCc): TpmCap::PpCommands|TpmCap::AuditCommands'),
        ('NvIndex(TpmsNvPublic): TpmHt::NvIndex;', 'NvIndex(TpmsNvPublic): TpmHt::NvIndex|TpmHt::PermanentNv;'),
        ('Self::Digest(d) => d.deref().len()', 'Self::Digest(d) => d.deref().len() + 2'),
    ],
    'data/tpmt.rs': [
        ('if !self.$value_field.matches_tag(self.$tag_field) {', 'if false {'),
        ('value: u64::from(self.$tag_field.value()),', 'value: u64::from(self.$tag_field.value()) + 1,'),
        ('offset: writer.len(),', 'offset: writer.len() + 1,'),
        ('$crate::TpmMarshal::marshal(&self.$tag_field, writer)?;', ''),
        ('$crate::TpmMarshal::marshal(&self.$value_field, writer)', 'Ok(())'),
        ('if !self.parameters.matches_tag(self.object_type)\n            || !self.unique', 'if !self.unique'),
        ('            || !self.unique.matches_tag(self.object_type)\n', ''),
        ('value: u64::from(self.object_type.value()),', 'value: u64::from(self.name_alg.value()),'),
        ('self.object_type.marshal(writer)?;', ''), ('self.name_alg.marshal(writer)?;', ''), ('self.object_attributes.marshal(writer)?;', ''),
        ('self.auth_policy.marshal(writer)?;', ''), ('self.parameters.marshal(writer)?;', ''), ('self.unique.marshal(writer)', 'Ok(())'),
        ('if !self.sensitive.matches_tag(self.sensitive_type) {', 'if false {'),
        ('value: u64::from(self.sensitive_type.value()),', 'value: 0,'),
        ('self.sensitive_type.marshal(writer)?;', ''), ('self.auth_value.marshal(writer)?;', ''), ('self.seed_value.marshal(writer)?;', ''),
        ('self.sensitive.marshal(writer)', 'Ok(())'),
        ('if self.algorithm != TpmAlgId::Null\n            && (', 'if true && ('),
        ('(!self.key_bits.matches_tag(self.algorithm)\n                || !self.mode', '(!self.mode'),
        ('\n                || !self.mode.matches_tag(self.algorithm))', ')'),
        ('value: u64::from(self.algorithm.value()),', 'value: 0,'),
        ('        if self.algorithm != TpmAlgId::Null {', '        if true {'),
        ('        if self.algorithm == TpmAlgId::Null {', '        if false {'),
        ('self.key_bits.marshal(writer)?;', ''), ('self.mode.marshal(writer)?;', ''), ('self.algorithm.marshal(writer)?;', ''),
    ],
    'basic/list.rs': [
        ('        TpmMarshal::marshal(&len, writer)?;\n', ''),
        ('        for item in &**self {', '        for item in self.iter().take(2) {'),
    ],
}

# What no record shows, and the claims alone look at: the limit and the room in an error, what is put into a list, the views that walk no
# items, the offset of a view, the greatest sizes.
CLAIMS = {
    'lib.rs': [
        ('available: self.buffer.len().saturating_sub(self.cursor)', 'available: self.buffer.len()'),
        ('Ok((value, &buf[buf.len()..]))', 'Ok((value, buf))'),
    ],
    'basic/list.rs': [
        *((f'limit: CAPACITY,\n                actual: {actual},', f'limit: CAPACITY + 1,\n                actual: {actual},')
          for actual in ('item_count', 'self.len + 1', 'new_len', 'count')),
        ('actual: self.len + 1', 'actual: self.len'), ('actual: new_len', 'actual: CAPACITY'),
        ('if self.len >= CAPACITY {', 'if self.len + 1 >= CAPACITY {'),
        ('if buf.len() < TPML_COUNT_LEN {', 'if buf.len() <= TPML_COUNT_LEN {'),
        ('remaining: self.count()', 'remaining: 1'), ('self.buf = tail;', ''), ('Some(Err(err))', 'None'),
    ],
    'data/tpmu.rs': [('Self::Null => &[],', 'Self::Null => &[0],')],
    'data/tpmt.rs': [
        ('                        $tag_field,\n                        buf,\n                    )?;',
         '                        $tag_field,\n                        buf,\n                    ).map_err(|e| e.rebase(2))?;'),
        ('<$tag_ty>::SIZE + <$value_ty>::SIZE', '<$value_ty>::SIZE'),
        ('TpmAlgId::SIZE + TpmuSymKeyBits::SIZE + TpmAlgId::SIZE', 'TpmuSymKeyBits::SIZE + TpmAlgId::SIZE'),
    ],
}


class Change(NamedTuple):
    path: str
    what: str
    text: str  # of the whole file
    first: str  # `reading` or `writing`, the comparison that is tried first; or `claims`, which are tried alone


def replaced(path, text, pairs, first):
    for old, new in pairs:
        count = text.count(old)
        if not count:
            raise SystemExit(f'{path} has no {old!r}')
        at = -1
        for turn in range(count):
            at = text.index(old, at + 1)
            what = f'{old.strip()!r} is {new.strip()!r} ({turn + 1} of {count})'
            yield Change(path, what, text[:at] + new + text[at + len(old):], first)


def selectors(path, text):
    """Each selector of each union's table replaced by a code that has no arm there."""
    for table in UNION.finditer(text):
        union = table.group().split(',')[1].strip()
        for hit in re.finditer(r'(?<=[:|] )Tpm\w+::\w+|(?<=\|)Tpm\w+::\w+', table.group()):
            at = table.start() + hit.start()
            other = WITHOUT_ARM[hit.group().split('::')[0]]
            yield Change(path, f'{union}: {hit.group()} is {other}', text[:at] + other + text[at + len(hit.group()):], 'reading')


def arms(path, text):
    """Each arm of each union is not written."""
    for block in MARSHAL.finditer(text):
        for hit in re.finditer(r'\b(\w+)\.marshal\(writer\)', block.group()):
            at, end = block.start() + hit.start(), block.start() + hit.end()
            nothing = f'{{ let _ = {hit[1]}; Ok(()) }}'
            yield Change(path, f'{block[1]}: {hit.group()} is {nothing} ({hit.start()})', text[:at] + nothing + text[end:], 'writing')


def changes(folder):
    for first, files in (('reading', READING), ('writing', WRITING), ('claims', CLAIMS)):
        for path, pairs in files.items():
            yield from replaced(path, (folder / path).read_text(encoding='utf-8'), pairs, first)
    path = 'data/tpmu.rs'
    text = (folder / path).read_text(encoding='utf-8')
    yield from selectors(path, text)
    yield from arms(path, text)
