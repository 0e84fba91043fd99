#include "reply.h"

#include <string.h>

bool replies_alike(const struct reply *one, const struct reply *other)
{
    if (!one->read || !other->read)
        return one->read == other->read;
    return one->consumed == other->consumed && one->again_size == other->again_size
        && memcmp(one->again, other->again, one->again_size) == 0;
}

void text_add_reply(struct text *text, const struct reply *reply)
{
    if (!reply->read) {
        text_add(text, "refused\n");
        return;
    }
    text_add(text, "read %zu, again ", reply->consumed);
    text_add_hex(text, reply->again, reply->again_size);
    text_add(text, "\n");
}
