// Each test names one field, list or union, and the values there for which the two part; no test looks at an answer.
#include "rules.h"

static bool is_unlisted(const struct field *field, enum role role, uint64_t value)
{
    return field->what == CODE && field->of == (int)role && !listed(role, (unsigned)value);
}

static bool is_length(const struct field *field, enum buffer buffer, uint64_t value, uint64_t from, uint64_t to)
{
    return field->what == BUFFER && field->of == (int)buffer && from <= value && value <= to;
}

static bool is_selector(const struct field *field, const struct arm *arms, uint64_t value, unsigned selector)
{
    return field->what == UNION && field->arms == arms && value == selector;
}

static bool is_count(const struct field *field, const struct field *item, uint64_t value, uint64_t from, uint64_t to)
{
    return field->what == ITEMS && field->part == item && from <= value && value <= to;
}

static bool hash(const struct field *field, uint64_t value)
{
    return is_unlisted(field, HASH, value);
}

static bool kdf(const struct field *field, uint64_t value)
{
    return is_unlisted(field, KDF, value);
}

static bool mode(const struct field *field, uint64_t value)
{
    return is_unlisted(field, MODE, value);
}

static bool curve(const struct field *field, uint64_t value)
{
    return is_unlisted(field, CURVE, value);
}

static bool name_algorithm(const struct field *field, uint64_t value)
{
    return is_unlisted(field, NAME_ALGORITHM, value);
}

static bool audited(const struct field *field, uint64_t value)
{
    return is_unlisted(field, AUDITED, value);
}

static bool bank(const struct field *field, uint64_t value)
{
    return is_unlisted(field, BANK, value);
}

static bool algorithm_in_a_list(const struct field *field, uint64_t value)
{
    return is_unlisted(field, ALGORITHM_ITEM, value);
}

static bool hierarchy(const struct field *field, uint64_t value)
{
    return is_unlisted(field, HIERARCHY, value);
}

static bool ticket_tag(const struct field *field, uint64_t value)
{
    return field->what == TAG && !is_tag((enum ticket)field->of, (unsigned)value);
}

static bool magic(const struct field *field, uint64_t value)
{
    return field->what == MAGIC && value != MAGIC_NUMBER;
}

static bool yes_no(const struct field *field, uint64_t value)
{
    return field->what == YES_NO && value > 1;
}

static bool symcipher_cipher(const struct field *field, uint64_t value)
{
    return is_selector(field, cipher_arms, value, 0x25);
}

static bool null_sensitive(const struct field *field, uint64_t value)
{
    return is_selector(field, sensitive_arms, value, 0x10);
}

// Two places, one difference: the type is let through, and its arm is empty.
static bool null_attestation(const struct field *field, uint64_t value)
{
    bool is_type = field->what == CODE && field->of == ATTESTATION && value == 0x10;
    return is_type || is_selector(field, attested_arms, value, 0x10);
}

// Two places as well.
static bool null_capability(const struct field *field, uint64_t value)
{
    bool is_code = field->what == CODE && field->of == CAPABILITY && value == 0x10;
    return is_code || is_selector(field, capability_arms, value, 0x10);
}

static bool pcr_capability(const struct field *field, uint64_t value)
{
    return is_selector(field, capability_arms, value, 7);
}

static bool long_ecc(const struct field *field, uint64_t value)
{
    return is_length(field, ECC_PARAMETER, value, 67, 128);
}

static bool long_unique(const struct field *field, uint64_t value)
{
    return is_length(field, SYM_UNIQUE, value, 33, 64);
}

static bool long_name(const struct field *field, uint64_t value)
{
    return is_length(field, NAME, value, 67, 68);
}

static bool many_handles(const struct field *field, uint64_t value)
{
    return is_count(field, handle_item, value, 129, 254);
}

static bool many_command_attributes(const struct field *field, uint64_t value)
{
    return is_count(field, command_attributes_item, value, 129, 256);
}

static bool many_commands(const struct field *field, uint64_t value)
{
    return is_count(field, command_item, value, 129, 256);
}

static bool many_curves(const struct field *field, uint64_t value)
{
    return is_count(field, curve_item, value, 129, 508);
}

static bool many_acts(const struct field *field, uint64_t value)
{
    return is_count(field, act_item, value, 17, 84);
}

static bool long_data(const struct field *field, uint64_t value)
{
    return is_length(field, DATA, value, 65, 66);
}

static bool many_algorithms(const struct field *field, uint64_t value)
{
    return is_count(field, algorithm_item, value, 128, 128);
}

static bool many_properties(const struct field *field, uint64_t value)
{
    return is_count(field, property_item, value, 128, 128);
}

static bool many_policies(const struct field *field, uint64_t value)
{
    return is_count(field, policy_item, value, 15, 16);
}

static bool new_digest(const struct field *field, uint64_t value)
{
    bool is_sha3 = 0x27 <= value && value <= 0x29, is_shake = 0x2C <= value && value <= 0x2E;
    return field->what == UNION && field->arms == digest_arms && (is_sha3 || is_shake);
}

static bool kdf2(const struct field *field, uint64_t value)
{
    return is_selector(field, kdf_arms, value, 0x21);
}

static bool nv_digest(const struct field *field, uint64_t value)
{
    return is_selector(field, attested_arms, value, 0x801C);
}

static bool external_nv(const struct field *field, uint64_t value)
{
    return is_selector(field, nv_arms, value, 0x11);
}

static bool handle_type(const struct field *field, uint64_t value)
{
    return is_unlisted(field, HANDLE_TYPE, value);
}

// Not the format's: a list of tags, each with a PCR size and bits.
static const struct field pcr_property_item[] = {
    {NUMBER, 4, NULL, NULL}, {BUFFER, PCR_BITS, NULL, NULL}, {END, 0, NULL, NULL}};
static const struct field pcr_properties[] = {{ITEMS, 84, pcr_property_item, NULL}, {END, 0, NULL, NULL}};

const struct rule rules[] = {
    {"hash-not-judged", "it takes any hash code in a scheme, a signature or the cipher Xor", hash, READS_ON, NULL},
    {"kdf-not-judged", "it takes any KDF code in the keyed hash scheme's Xor", kdf, READS_ON, NULL},
    {"mode-not-judged", "it takes any mode of a cipher", mode, READS_ON, NULL},
    {"curve-not-judged", "it takes any curve", curve, READS_ON, NULL},
    {"name-algorithm-not-judged", "it takes any name algorithm", name_algorithm, READS_ON, NULL},
    {"audited-not-judged", "it takes any algorithm in a command audit", audited, READS_ON, NULL},
    {"bank-not-judged", "it takes any PCR bank", bank, READS_ON, NULL},
    {"algorithm-item-not-judged", "it takes any algorithm in a list of algorithms", algorithm_in_a_list, READS_ON, NULL},
    {"hierarchy-not-judged", "it takes any hierarchy of a ticket", hierarchy, READS_ON, NULL},
    {"ticket-tag-not-judged", "it takes any tag of a ticket", ticket_tag, READS_ON, NULL},
    {"magic-not-judged", "it takes any magic", magic, READS_ON, NULL},
    {"yes-no-not-judged", "it takes any yes/no byte", yes_no, READS_ON, NULL},
    {"symcipher-cipher", "cipher selector 0025 has key bits and a mode there, and no arm in the format", symcipher_cipher,
     READS_ON, key_bits_and_mode},
    {"null-sensitive", "Null is an empty arm of its sensitive union", null_sensitive, READS_ON, nothing},
    {"null-attestation", "attestation type 0010 has an empty arm there", null_attestation, READS_ON, nothing},
    {"null-capability", "capability code 00000010 has an empty arm there", null_capability, READS_ON, nothing},
    {"pcr-properties", "capability code 00000007 has a list of PCR properties there, and no arm in the format",
     pcr_capability, READS_ON, pcr_properties},
    {"ecc-to-128", "it takes ECC parameters to 128 bytes, the format to 66", long_ecc, READS_ON, NULL},
    {"unique-to-64", "the unique part of SymCipher is a digest there, to 64 bytes; in the format a key, to 32",
     long_unique, READS_ON, NULL},
    {"name-to-68", "it takes names to 68 bytes, the format to 66", long_name, READS_ON, NULL},
    {"handles-to-254", "it takes lists of handles to 254, the format to 128", many_handles, READS_ON, NULL},
    {"command-attributes-to-256", "it takes lists of command attributes to 256, the format to 128",
     many_command_attributes, READS_ON, NULL},
    {"commands-to-256", "it takes lists of commands to 256, the format to 128", many_commands, READS_ON, NULL},
    {"curves-to-508", "it takes lists of curves to 508, the format to 128", many_curves, READS_ON, NULL},
    {"acts-to-84", "it takes lists of ACT data to 84, the format to 16", many_acts, READS_ON, NULL},
    {"data-to-64", "it takes attestation data to 64 bytes, the format to 66", long_data, REFUSES, NULL},
    {"algorithms-to-127", "it takes lists of algorithms to 127, the format to 128", many_algorithms, REFUSES, NULL},
    {"properties-to-127", "it takes lists of TPM properties to 127, the format to 128", many_properties, REFUSES, NULL},
    {"policies-to-14", "it takes lists of policies to 14, the format to 16", many_policies, REFUSES, NULL},
    {"no-sha3-shake", "it has no plain digest of SHA3 or SHAKE256", new_digest, REFUSES, NULL},
    {"no-kdf2", "its KDF scheme has no KDF2", kdf2, REFUSES, NULL},
    {"no-nv-digest", "it has no attestation type 801C", nv_digest, REFUSES, NULL},
    {"external-nv", "not asked: it has no NV area with attributes of 8 bytes", external_nv, NOT_ASKED, NULL},
    {"handle-type", "not asked: its NV area has no handle type, and this one is not listed", handle_type, NOT_ASKED, NULL},
};

const int rule_count = sizeof rules / sizeof *rules;

int rule_at(const struct field *field, uint64_t value, int left_out)
{
    for (int i = 0; i < rule_count; i++)
        if (i != left_out && rules[i].parts_at(field, value))
            return i;
    return NO_RULE;
}
