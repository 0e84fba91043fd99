#include "reference.h"

#include <stdlib.h>
#include <string.h>
#include <tss2/tss2_mu.h>

typedef void reader(const struct input *input, struct reply *reply);

// Reads one structure from the input's front and marshals it again. When it cannot marshal what it read, nothing is
// written again, and that differs from every record.
#define READER(TYPE) \
    static void read_##TYPE(const struct input *input, struct reply *reply) \
    { \
        static TYPE value; \
        memset(&value, 0, sizeof value); \
        reply->consumed = reply->again_size = 0; \
        reply->read = Tss2_MU_##TYPE##_Unmarshal(input->bytes, input->size, &reply->consumed, &value) == TSS2_RC_SUCCESS; \
        if (reply->read \
            && Tss2_MU_##TYPE##_Marshal(&value, reply->again, sizeof reply->again, &reply->again_size) != TSS2_RC_SUCCESS) \
            reply->again_size = 0; \
    }

READER(TPMT_HA)
READER(TPMT_SYM_DEF)
READER(TPMT_SYM_DEF_OBJECT)
READER(TPMT_KDF_SCHEME)
READER(TPMT_KEYEDHASH_SCHEME)
READER(TPMT_SIG_SCHEME)
READER(TPMT_RSA_SCHEME)
READER(TPMT_ECC_SCHEME)
READER(TPMT_RSA_DECRYPT)
READER(TPMT_PUBLIC_PARMS)
READER(TPMT_SIGNATURE)
READER(TPMT_PUBLIC)
READER(TPMT_SENSITIVE)
READER(TPMS_ATTEST)
READER(TPML_PCR_SELECTION)
READER(TPMS_CAPABILITY_DATA)
READER(TPMS_NV_PUBLIC)
READER(TPMT_TK_CREATION)
READER(TPMT_TK_VERIFIED)
READER(TPMT_TK_HASHCHECK)
READER(TPMT_TK_AUTH)

// An NV area behind a handle type, which libtss2-mu's structure has not: it is passed over, and stands in front again.
static void read_nv_area(const struct input *input, struct reply *reply)
{
    static struct input area;
    area.size = input->size > 0 ? input->size - 1 : 0;
    memcpy(area.bytes, input->bytes + 1, area.size);
    read_TPMS_NV_PUBLIC(&area, reply);
    if (!reply->read)
        return;
    memmove(reply->again + 1, reply->again, reply->again_size);
    reply->again[0] = input->bytes[0];
    reply->again_size++;
    reply->consumed++;
}

struct reference {
    const char *name;
    reader *read;
    reader *also; // a second function for the same kind, or NULL
};

// The format has one cipher for TPMT_SYM_DEF and TPMT_SYM_DEF_OBJECT.
static const struct reference references[KINDS + 1] = {
    {NULL, NULL, NULL},
    {"TPMT_HA", read_TPMT_HA, NULL},
    {"TPMT_SYM_DEF and TPMT_SYM_DEF_OBJECT", read_TPMT_SYM_DEF, read_TPMT_SYM_DEF_OBJECT},
    {"TPMT_KDF_SCHEME", read_TPMT_KDF_SCHEME, NULL},
    {"TPMT_KEYEDHASH_SCHEME", read_TPMT_KEYEDHASH_SCHEME, NULL},
    {"TPMT_SIG_SCHEME", read_TPMT_SIG_SCHEME, NULL},
    {"TPMT_RSA_SCHEME", read_TPMT_RSA_SCHEME, NULL},
    {"TPMT_ECC_SCHEME", read_TPMT_ECC_SCHEME, NULL},
    {"TPMT_RSA_DECRYPT", read_TPMT_RSA_DECRYPT, NULL},
    {"TPMT_PUBLIC_PARMS", read_TPMT_PUBLIC_PARMS, NULL},
    {"TPMT_SIGNATURE", read_TPMT_SIGNATURE, NULL},
    {"TPMT_PUBLIC", read_TPMT_PUBLIC, NULL},
    {"TPMT_SENSITIVE", read_TPMT_SENSITIVE, NULL},
    {"TPMS_ATTEST", read_TPMS_ATTEST, NULL},
    {"TPML_PCR_SELECTION", read_TPML_PCR_SELECTION, NULL},
    {"TPMS_CAPABILITY_DATA", read_TPMS_CAPABILITY_DATA, NULL},
    {"TPMS_NV_PUBLIC behind 01 and behind 12", read_nv_area, NULL},
    {"TPMT_TK_CREATION", read_TPMT_TK_CREATION, NULL},
    {"TPMT_TK_VERIFIED", read_TPMT_TK_VERIFIED, NULL},
    {"TPMT_TK_HASHCHECK", read_TPMT_TK_HASHCHECK, NULL},
    {"TPMT_TK_AUTH", read_TPMT_TK_AUTH, NULL},
};

void reference_start(void)
{
    setenv("TSS2_LOG", "all+none", 1);
}

const char *reference_name(int kind)
{
    return references[kind].name;
}

bool reference_reply(const struct input *input, struct reply *reply)
{
    static struct reply other;
    const struct reference *reference = &references[input->kind];
    reference->read(input, reply);
    if (reference->also == NULL)
        return true;
    reference->also(input, &other);
    return replies_alike(reply, &other);
}
