// The format as tables: its codes, buffers, lists, unions and the kinds (docs/FORMAT.md, sections 3 to 7).
#ifndef LAYOUTS_H
#define LAYOUTS_H

#include <stdbool.h>
#include <stddef.h>
#include <stdint.h>

enum { KINDS = 20, LARGEST_INPUT = 4096 };

static const uint32_t MAGIC_NUMBER = 0xFF544347;

enum what { END, NUMBER, CODE, YES_NO, MAGIC, TAG, BUFFER, PLAIN, ITEMS, PART, UNION };

// What a code is for. The first four choose arms.
enum role {
    SELECTOR, ATTESTATION, CAPABILITY, HANDLE_TYPE, HASH, KDF, MODE, CURVE, NAME_ALGORITHM, AUDITED, BANK,
    ALGORITHM_ITEM, HIERARCHY
};

// Which ticket a tag is for.
enum ticket { CREATION_TICKET, VERIFIED_TICKET, HASHCHECK_TICKET, AUTH_TICKET };

// A PCR selection's size and bits are a buffer whose length has one byte.
enum buffer {
    DIGEST_BUFFER, AUTH, RSA_PUBLIC, RSA_PRIVATE, SENSITIVE_DATA, ECC_PARAMETER,
    SYM_KEY, SYM_UNIQUE, NAME, DATA, NV_CONTENTS, PCR_BITS
};

struct arm;

struct field {
    enum what what;
    int of; // a number's width, a code's role, a tag's ticket, which buffer, a plain digest's size, the most ITEMS
    const struct field *part; // of a PART, and each item's of ITEMS
    const struct arm *arms; // of a UNION; chosen by the selector of the same row of fields
};

struct arm {
    unsigned selector;
    const struct field *fields; // NULL ends a table
};

extern const struct arm digest_arms[], cipher_arms[], kdf_arms[], keyedhash_arms[], signing_arms[], asymmetric_arms[],
    parameter_arms[], unique_arms[], sensitive_arms[], signature_arms[], attested_arms[], capability_arms[], nv_arms[];

// Rows of fields that arms are made of.
extern const struct field nothing[], key_bits_and_mode[];

// Items. A list is known by its item, so lists with other limits have other rows, even with the same fields.
extern const struct field algorithm_item[], handle_item[], command_attributes_item[], command_item[], property_item[],
    curve_item[], policy_item[], act_item[];

const struct field *layout_of(int kind);
const struct field *arm_for(const struct arm *arms, unsigned selector);
bool chooses_an_arm(enum role role);
bool listed(enum role role, unsigned code);
bool is_tag(enum ticket ticket, unsigned tag);
size_t code_width(enum role role);
size_t limit_of(enum buffer buffer);
size_t length_width(enum buffer buffer);

#endif
