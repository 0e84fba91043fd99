// Written from docs/FORMAT.md alone; nothing here comes from our reader or from libtss2-mu.
#include "layouts.h"

#define STOP {END, 0, NULL, NULL}
#define NUMBER_OF(width) {NUMBER, width, NULL, NULL}
#define CODE_OF(role) {CODE, role, NULL, NULL}
#define BUFFER_OF(buffer) {BUFFER, buffer, NULL, NULL}
#define PLAIN_OF(size) {PLAIN, size, NULL, NULL}
#define ITEMS_OF(item, most) {ITEMS, most, item, NULL}
#define PART_OF(part) {PART, 0, part, NULL}
#define UNION_OF(arms) {UNION, 0, NULL, arms}
#define TICKET_OF(ticket) {{TAG, ticket, NULL, NULL}, CODE_OF(HIERARCHY), BUFFER_OF(DIGEST_BUFFER), STOP}
#define ROW(...) (const struct field[]) {__VA_ARGS__, STOP}
#define LAST {0, NULL}

enum algorithm {
    RSA = 0x01, SHA1 = 0x04, HMAC = 0x05, AES = 0x06, MGF1 = 0x07, KEYED_HASH = 0x08, XOR = 0x0A, SHA256 = 0x0B,
    SHA384 = 0x0C, SHA512 = 0x0D, NULL_CODE = 0x10, SM3_256 = 0x12, SM4 = 0x13, RSASSA = 0x14, RSAES = 0x15,
    RSAPSS = 0x16, OAEP = 0x17, ECDSA = 0x18, ECDH = 0x19, ECDAA = 0x1A, SM2 = 0x1B, ECSCHNORR = 0x1C, ECMQV = 0x1D,
    KDF1_56A = 0x20, KDF2 = 0x21, KDF1_108 = 0x22, ECC = 0x23, SYM_CIPHER = 0x25, CAMELLIA = 0x26, SHA3_256 = 0x27,
    SHA3_384 = 0x28, SHA3_512 = 0x29, SHAKE256_192 = 0x2C, SHAKE256_256 = 0x2D, SHAKE256_512 = 0x2E
};

enum attestation {
    NV = 0x8014, COMMAND_AUDIT = 0x8015, SESSION_AUDIT = 0x8016, CERTIFY = 0x8017, QUOTE = 0x8018, TIME = 0x8019,
    CREATION = 0x801A, NV_DIGEST = 0x801C
};

enum capability {
    ALGS = 0, HANDLES = 1, COMMANDS = 2, PP_COMMANDS = 3, AUDIT_COMMANDS = 4, PCRS = 5, TPM_PROPERTIES = 6,
    ECC_CURVES = 8, AUTH_POLICIES = 9, ACT = 10
};

enum handle_type { NV_INDEX = 0x01, EXTERNAL_NV = 0x11, PERMANENT_NV = 0x12 };

struct range {
    unsigned from, to;
};

static const struct range algorithms[] = {
    {0x01, 0x01}, {0x03, 0x08}, {0x0A, 0x0D}, {0x10, 0x10}, {0x12, 0x1D}, {0x20, 0x23}, {0x25, 0x2E}, {0x3F, 0x44}, {1, 0}};
static const struct range curves[] = {{0x00, 0x05}, {0x10, 0x11}, {0x20, 0x20}, {0x30, 0x32}, {0x40, 0x41}, {1, 0}};
static const struct range attestations[] = {{0x8014, 0x801A}, {0x801C, 0x801C}, {1, 0}};
static const struct range capabilities[] = {{0, 10}, {1, 0}};
static const struct range handle_types[] = {{0x01, 0x01}, {0x11, 0x12}, {1, 0}};
static const struct range hierarchies[] = {
    {0x40000001, 0x40000001}, {0x40000007, 0x40000007}, {0x4000000B, 0x4000000C}, {1, 0}};
static const struct range ticket_tags[][3] = {
    [CREATION_TICKET] = {{0x8021, 0x8021}, {1, 0}}, [VERIFIED_TICKET] = {{0x8022, 0x8022}, {1, 0}},
    [HASHCHECK_TICKET] = {{0x8024, 0x8024}, {1, 0}}, [AUTH_TICKET] = {{0x8023, 0x8023}, {0x8025, 0x8025}, {1, 0}}};

const struct field nothing[] = {STOP};
const struct field key_bits_and_mode[] = {NUMBER_OF(2), CODE_OF(MODE), STOP};
static const struct field a_hash[] = {CODE_OF(HASH), STOP};
static const struct field a_hash_and_a_count[] = {CODE_OF(HASH), NUMBER_OF(2), STOP};

const struct arm digest_arms[] = {
    {SHA1, ROW(PLAIN_OF(20))}, {SHAKE256_192, ROW(PLAIN_OF(24))},
    {SHA256, ROW(PLAIN_OF(32))}, {SM3_256, ROW(PLAIN_OF(32))},
    {SHA3_256, ROW(PLAIN_OF(32))}, {SHAKE256_256, ROW(PLAIN_OF(32))},
    {SHA384, ROW(PLAIN_OF(48))}, {SHA3_384, ROW(PLAIN_OF(48))},
    {SHA512, ROW(PLAIN_OF(64))}, {SHA3_512, ROW(PLAIN_OF(64))}, {SHAKE256_512, ROW(PLAIN_OF(64))},
    {NULL_CODE, nothing}, LAST};

const struct arm cipher_arms[] = {
    {AES, key_bits_and_mode}, {SM4, key_bits_and_mode}, {CAMELLIA, key_bits_and_mode},
    {XOR, a_hash}, {NULL_CODE, nothing}, LAST};

const struct arm kdf_arms[] = {
    {MGF1, a_hash}, {KDF1_56A, a_hash}, {KDF2, a_hash}, {KDF1_108, a_hash}, {NULL_CODE, nothing}, LAST};

const struct arm keyedhash_arms[] = {
    {HMAC, a_hash}, {XOR, ROW(CODE_OF(HASH), CODE_OF(KDF))}, {NULL_CODE, nothing}, LAST};

const struct arm signing_arms[] = {
    {HMAC, a_hash}, {RSASSA, a_hash}, {RSAPSS, a_hash}, {ECDSA, a_hash}, {ECDAA, a_hash_and_a_count}, {SM2, a_hash},
    {ECSCHNORR, a_hash}, {NULL_CODE, nothing}, LAST};

const struct arm asymmetric_arms[] = {
    {RSASSA, a_hash}, {RSAPSS, a_hash}, {ECDSA, a_hash}, {ECDAA, a_hash_and_a_count}, {SM2, a_hash},
    {ECSCHNORR, a_hash}, {OAEP, a_hash}, {ECDH, a_hash}, {ECMQV, a_hash}, {RSAES, nothing}, {NULL_CODE, nothing}, LAST};

static const struct field tagged_digest[] = {CODE_OF(SELECTOR), UNION_OF(digest_arms), STOP};
static const struct field cipher[] = {CODE_OF(SELECTOR), UNION_OF(cipher_arms), STOP};
static const struct field kdf_scheme[] = {CODE_OF(SELECTOR), UNION_OF(kdf_arms), STOP};
static const struct field keyedhash_scheme[] = {CODE_OF(SELECTOR), UNION_OF(keyedhash_arms), STOP};
static const struct field signing_scheme[] = {CODE_OF(SELECTOR), UNION_OF(signing_arms), STOP};
static const struct field asymmetric_scheme[] = {CODE_OF(SELECTOR), UNION_OF(asymmetric_arms), STOP};

const struct arm parameter_arms[] = {
    {KEYED_HASH, ROW(PART_OF(keyedhash_scheme))},
    {SYM_CIPHER, ROW(PART_OF(cipher))},
    {RSA, ROW(PART_OF(cipher), PART_OF(asymmetric_scheme), NUMBER_OF(2), NUMBER_OF(4))},
    {ECC, ROW(PART_OF(cipher), PART_OF(asymmetric_scheme), CODE_OF(CURVE), PART_OF(kdf_scheme))},
    {NULL_CODE, nothing}, LAST};

const struct arm unique_arms[] = {
    {KEYED_HASH, ROW(BUFFER_OF(DIGEST_BUFFER))}, {SYM_CIPHER, ROW(BUFFER_OF(SYM_UNIQUE))},
    {RSA, ROW(BUFFER_OF(RSA_PUBLIC))}, {ECC, ROW(BUFFER_OF(ECC_PARAMETER), BUFFER_OF(ECC_PARAMETER))},
    {NULL_CODE, nothing}, LAST};

const struct arm sensitive_arms[] = {
    {RSA, ROW(BUFFER_OF(RSA_PRIVATE))}, {ECC, ROW(BUFFER_OF(ECC_PARAMETER))},
    {KEYED_HASH, ROW(BUFFER_OF(SENSITIVE_DATA))}, {SYM_CIPHER, ROW(BUFFER_OF(SYM_KEY))}, LAST};

static const struct field rsa_signature[] = {CODE_OF(HASH), BUFFER_OF(RSA_PUBLIC), STOP};
static const struct field ecc_signature[] = {CODE_OF(HASH), BUFFER_OF(ECC_PARAMETER), BUFFER_OF(ECC_PARAMETER), STOP};

const struct arm signature_arms[] = {
    {RSASSA, rsa_signature}, {RSAPSS, rsa_signature},
    {ECDSA, ecc_signature}, {ECDAA, ecc_signature}, {SM2, ecc_signature}, {ECSCHNORR, ecc_signature},
    {HMAC, ROW(PART_OF(tagged_digest))}, {NULL_CODE, nothing}, LAST};

static const struct field pcr_selection[] = {CODE_OF(BANK), BUFFER_OF(PCR_BITS), STOP};
static const struct field pcr_selections[] = {ITEMS_OF(pcr_selection, 16), STOP};
static const struct field clock_info[] = {NUMBER_OF(8), NUMBER_OF(4), NUMBER_OF(4), {YES_NO, 0, NULL, NULL}, STOP};

const struct arm attested_arms[] = {
    {CERTIFY, ROW(BUFFER_OF(NAME), BUFFER_OF(NAME))},
    {CREATION, ROW(BUFFER_OF(NAME), BUFFER_OF(DIGEST_BUFFER))},
    {QUOTE, ROW(PART_OF(pcr_selections), BUFFER_OF(DIGEST_BUFFER))},
    {COMMAND_AUDIT, ROW(NUMBER_OF(8), CODE_OF(AUDITED), BUFFER_OF(DIGEST_BUFFER), BUFFER_OF(DIGEST_BUFFER))},
    {SESSION_AUDIT, ROW({YES_NO, 0, NULL, NULL}, BUFFER_OF(DIGEST_BUFFER))},
    {TIME, ROW(NUMBER_OF(8), PART_OF(clock_info), NUMBER_OF(8))},
    {NV, ROW(BUFFER_OF(NAME), NUMBER_OF(2), BUFFER_OF(NV_CONTENTS))},
    {NV_DIGEST, ROW(BUFFER_OF(NAME), BUFFER_OF(DIGEST_BUFFER))}, LAST};

const struct field algorithm_item[] = {CODE_OF(ALGORITHM_ITEM), NUMBER_OF(4), STOP};
const struct field handle_item[] = {NUMBER_OF(4), STOP};
const struct field command_attributes_item[] = {NUMBER_OF(4), STOP};
const struct field command_item[] = {NUMBER_OF(4), STOP};
const struct field property_item[] = {NUMBER_OF(4), NUMBER_OF(4), STOP};
const struct field curve_item[] = {CODE_OF(CURVE), STOP};
const struct field policy_item[] = {NUMBER_OF(4), PART_OF(tagged_digest), STOP};
const struct field act_item[] = {NUMBER_OF(4), NUMBER_OF(4), NUMBER_OF(4), STOP};

const struct arm capability_arms[] = {
    {ALGS, ROW(ITEMS_OF(algorithm_item, 128))}, {HANDLES, ROW(ITEMS_OF(handle_item, 128))},
    {COMMANDS, ROW(ITEMS_OF(command_attributes_item, 128))},
    {PP_COMMANDS, ROW(ITEMS_OF(command_item, 128))}, {AUDIT_COMMANDS, ROW(ITEMS_OF(command_item, 128))},
    {PCRS, ROW(PART_OF(pcr_selections))}, {TPM_PROPERTIES, ROW(ITEMS_OF(property_item, 128))},
    {ECC_CURVES, ROW(ITEMS_OF(curve_item, 128))}, {AUTH_POLICIES, ROW(ITEMS_OF(policy_item, 16))},
    {ACT, ROW(ITEMS_OF(act_item, 16))}, LAST};

static const struct field nv_area[] = {
    NUMBER_OF(4), CODE_OF(NAME_ALGORITHM), NUMBER_OF(4), BUFFER_OF(DIGEST_BUFFER), NUMBER_OF(2), STOP};
static const struct field external_nv_area[] = {
    NUMBER_OF(4), CODE_OF(NAME_ALGORITHM), NUMBER_OF(8), BUFFER_OF(DIGEST_BUFFER), NUMBER_OF(2), STOP};

const struct arm nv_arms[] = {
    {NV_INDEX, nv_area}, {EXTERNAL_NV, external_nv_area}, {PERMANENT_NV, nv_area}, LAST};

static const struct field parameters[] = {CODE_OF(SELECTOR), UNION_OF(parameter_arms), STOP};
static const struct field signature[] = {CODE_OF(SELECTOR), UNION_OF(signature_arms), STOP};
static const struct field public_area[] = {
    CODE_OF(SELECTOR), CODE_OF(NAME_ALGORITHM), NUMBER_OF(4), BUFFER_OF(DIGEST_BUFFER), UNION_OF(parameter_arms),
    UNION_OF(unique_arms), STOP};
static const struct field sensitive_area[] = {
    CODE_OF(SELECTOR), BUFFER_OF(AUTH), BUFFER_OF(DIGEST_BUFFER), UNION_OF(sensitive_arms), STOP};
static const struct field attestation[] = {
    {MAGIC, 0, NULL, NULL}, CODE_OF(ATTESTATION), BUFFER_OF(NAME), BUFFER_OF(DATA), PART_OF(clock_info), NUMBER_OF(8),
    UNION_OF(attested_arms), STOP};
static const struct field capability_data[] = {CODE_OF(CAPABILITY), UNION_OF(capability_arms), STOP};
static const struct field typed_nv_area[] = {CODE_OF(HANDLE_TYPE), UNION_OF(nv_arms), STOP};
static const struct field creation_ticket[] = TICKET_OF(CREATION_TICKET);
static const struct field verified_ticket[] = TICKET_OF(VERIFIED_TICKET);
static const struct field hashcheck_ticket[] = TICKET_OF(HASHCHECK_TICKET);
static const struct field auth_ticket[] = TICKET_OF(AUTH_TICKET);

const struct field *layout_of(int kind)
{
    static const struct field *const kinds[KINDS + 1] = {
        NULL, tagged_digest, cipher, kdf_scheme, keyedhash_scheme, signing_scheme, asymmetric_scheme, asymmetric_scheme,
        asymmetric_scheme, parameters, signature, public_area, sensitive_area, attestation, pcr_selections,
        capability_data, typed_nv_area, creation_ticket, verified_ticket, hashcheck_ticket, auth_ticket};
    return kinds[kind];
}

const struct field *arm_for(const struct arm *arms, unsigned selector)
{
    while (arms->fields != NULL && arms->selector != selector)
        arms++;
    return arms->fields;
}

bool chooses_an_arm(enum role role)
{
    return role == SELECTOR || role == ATTESTATION || role == CAPABILITY || role == HANDLE_TYPE;
}

static const struct range *list_of(enum role role)
{
    switch (role) {
    case CURVE:
        return curves;
    case ATTESTATION:
        return attestations;
    case CAPABILITY:
        return capabilities;
    case HANDLE_TYPE:
        return handle_types;
    case HIERARCHY:
        return hierarchies;
    default:
        return algorithms;
    }
}

static bool is_within(const struct range *range, unsigned value)
{
    while (range->from <= range->to && !(range->from <= value && value <= range->to))
        range++;
    return range->from <= range->to;
}

bool listed(enum role role, unsigned code)
{
    return is_within(list_of(role), code);
}

bool is_tag(enum ticket ticket, unsigned tag)
{
    return is_within(ticket_tags[ticket], tag);
}

size_t code_width(enum role role)
{
    return role == HANDLE_TYPE ? 1 : role == CAPABILITY || role == HIERARCHY ? 4 : 2;
}

size_t limit_of(enum buffer buffer)
{
    static const size_t limits[] = {
        [DIGEST_BUFFER] = 64, [AUTH] = 64, [RSA_PUBLIC] = 512, [RSA_PRIVATE] = 256, [SENSITIVE_DATA] = 256,
        [ECC_PARAMETER] = 66, [SYM_KEY] = 32, [SYM_UNIQUE] = 32, [NAME] = 66, [DATA] = 66, [NV_CONTENTS] = 2048,
        [PCR_BITS] = 4};
    return limits[buffer];
}

size_t length_width(enum buffer buffer)
{
    return buffer == PCR_BITS ? 1 : 2;
}
