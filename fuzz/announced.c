// A mutator of AFL++ that changes nothing: it puts a line before each input, so that what is mutated is a copy alone.
#include <stdlib.h>
#include <string.h>

static const char LINE[] = "{\"do\":\"adopt\",\"lines\":1000000}\n";

struct buffer {
    unsigned char *bytes;
    size_t size;
};

void *afl_custom_init(void *fuzzer, unsigned int seed) {
    (void)fuzzer, (void)seed;
    return calloc(1, sizeof(struct buffer));
}

// An input that is tried several times is what was put out for it the first time, with its first size.
size_t afl_custom_post_process(void *data, unsigned char *input, size_t size, unsigned char **output) {
    struct buffer *buffer = data;
    size_t whole = sizeof LINE - 1 + size;
    if (input == buffer->bytes) {
        *output = buffer->bytes;
        return whole <= buffer->size ? whole : buffer->size;
    }
    if (buffer->size < whole) {
        unsigned char *bytes = realloc(buffer->bytes, whole);
        if (!bytes) return 0;
        *buffer = (struct buffer){bytes, whole};
    }
    memcpy(buffer->bytes, LINE, sizeof LINE - 1);
    memcpy(buffer->bytes + sizeof LINE - 1, input, size);
    *output = buffer->bytes;
    return whole;
}

void afl_custom_deinit(void *data) {
    free(((struct buffer *)data)->bytes);
    free(data);
}
