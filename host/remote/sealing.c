/* The form in which something is stored: its bytes, compressed where that pays, and, where a key is set, a code that shows that somebody who has the
 * key stored them under this name. docs/FORMATS.md has the layout.
 */
#define _GNU_SOURCE
#include "remote.h"
#include "../questions.h"
#include <fcntl.h>
#include <sodium.h>
#include <stdlib.h>
#include <string.h>
#include <unistd.h>
#include <zstd.h>

#define FRONT 17                    /* how many bytes come before what is stored: a mark, how it is stored, and its size */
#define IS_COMPRESSED 1
#define HAS_CODE 2
#define LEAST_KEY 16                /* how many bytes a key must have */
#define CODE crypto_auth_hmacsha256_BYTES

static const char mark[8] = "gulmaat\1";
static crypto_auth_hmacsha256_state keyed;
static int has_key;

int add_bytes(struct bytes *bytes, const void *more, size_t size) {
    if (size > SIZE_MAX / 4 - bytes->size) return -1;
    if (bytes->size + size > bytes->room) {
        size_t room = (bytes->size + size) * 2;
        unsigned char *at = realloc(bytes->at, room);
        if (!at) return -1;
        bytes->at = at;
        bytes->room = room;
    }
    if (size) memcpy(bytes->at + bytes->size, more, size);
    bytes->size += size;
    return 0;
}

void free_bytes(struct bytes *bytes) {
    free(bytes->at);
    *bytes = (struct bytes){NULL, 0, 0};
}

/* Takes the key from that file, without the end of its line. */
int take_key(const char *path) {
    unsigned char key[4096];
    int file = open(path, O_RDONLY | O_CLOEXEC);
    ssize_t size = file < 0 ? -1 : read(file, key, sizeof key);
    if (file >= 0) close(file);
    while (size > 0 && (key[size - 1] == '\n' || key[size - 1] == '\r')) size--;
    if (size < LEAST_KEY) return -1;
    crypto_auth_hmacsha256_init(&keyed, key, size);
    has_key = 1;
    return 0;
}

/* The code, by the key, of what is stored under a name. */
static void find_code(const char *name, const struct bytes *stored, size_t size, unsigned char code[CODE]) {
    crypto_auth_hmacsha256_state state = keyed;
    unsigned char length[8];
    put_number(length, strlen(name));
    crypto_auth_hmacsha256_update(&state, length, sizeof length);
    crypto_auth_hmacsha256_update(&state, (const unsigned char *)name, strlen(name));
    crypto_auth_hmacsha256_update(&state, stored->at, size);
    crypto_auth_hmacsha256_final(&state, code);
}

/* Makes the form in which these bytes are stored under that name. */
int seal(const char *name, const struct bytes *sealed, struct bytes *stored) {
    unsigned char front[FRONT] = {0}, code[CODE];
    size_t room = ZSTD_compressBound(sealed->size), packed = 0;
    void *compressed = malloc(room);
    if (compressed) packed = ZSTD_compress(compressed, room, sealed->at, sealed->size, 1);
    int pays = compressed && !ZSTD_isError(packed) && packed < sealed->size - sealed->size / 16;
    memcpy(front, mark, sizeof mark);
    front[8] = (pays ? IS_COMPRESSED : 0) | (has_key ? HAS_CODE : 0);
    put_number(front + 9, sealed->size);
    int fails = add_bytes(stored, front, FRONT) || (pays ? add_bytes(stored, compressed, packed) : add_bytes(stored, sealed->at, sealed->size));
    free(compressed);
    if (fails || !has_key) return fails;
    find_code(name, stored, stored->size, code);
    return add_bytes(stored, code, sizeof code);
}

/* Gets back the bytes of which this is the stored form under that name, at most so many. Where a key is set and the code isn't right, nothing is
 * found. */
enum came_to unseal(const char *name, const struct bytes *stored, struct bytes *sealed, size_t most) {
    unsigned char code[CODE];
    if (stored->size < FRONT || memcmp(stored->at, mark, sizeof mark)) return FAILED;
    int how = stored->at[8];
    uint64_t size = number_at(stored->at + 9);
    size_t end = stored->size - (how & HAS_CODE ? sizeof code : 0);
    if (end > stored->size || end < FRONT) return FAILED;
    if (has_key) {
        if (!(how & HAS_CODE)) return MISSED;
        find_code(name, stored, end, code);
        if (sodium_memcmp(code, stored->at + end, sizeof code)) return MISSED;
    }
    const unsigned char *bytes = stored->at + FRONT;
    size_t length = end - FRONT;
    if (how & ~(IS_COMPRESSED | HAS_CODE) || size > most) return FAILED;
    if (!(how & IS_COMPRESSED)) return length != size || add_bytes(sealed, bytes, length) ? FAILED : CAME;
    if (ZSTD_getFrameContentSize(bytes, length) != size) return FAILED;
    sealed->at = malloc(size + 1);
    if (!sealed->at) return FAILED;
    sealed->room = size + 1;
    sealed->size = ZSTD_decompress(sealed->at, size, bytes, length);
    return ZSTD_isError(sealed->size) || sealed->size != size ? FAILED : CAME;
}
