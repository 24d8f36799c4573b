/* All mappings of a map, and the text of mappings. */
#include "addon.h"
#include <string.h>

/* mappings(map): those of the map as a Uint32Array, eight numbers each, as smap_mapping has them. */
napi_value mappings(napi_env env, struct held *held) {
    napi_value array = NULL, room;
    void *place;
    smap_bytes bytes = {0};
    if (smap_map_mappings(&held->map, &bytes) != SMAP_DONE) return refuse(env, "out of memory");
    smap_text text = SMAP_TEXT;
    smap_bytes_text(&bytes, &text);
    if (napi_create_arraybuffer(env, text.length, &place, &room) == napi_ok &&
        napi_create_typedarray(env, napi_uint32_array, text.length / sizeof(uint32_t), room, 0, &array) == napi_ok)
        memcpy(text.length ? place : nothing, text.bytes, text.length);
    smap_bytes_free(&bytes);
    return array ? array : refuse(env, "out of memory");
}

void end_list(struct addon *addon) {
    if (addon->listed.at) smap_bytes_free(&addon->listed);
    addon->listed.at = NULL;
}

/* Puts the next ones into a room, and gives how many numbers those are. Once all were put, nothing is kept of them. */
static size_t put_next(struct addon *addon, struct numbers given) {
    smap_text text = SMAP_TEXT;
    if (!addon->listed.at) return 0;
    smap_bytes_text(&addon->listed, &text);
    size_t left = text.length - addon->handed, size = given.count * sizeof *given.at;
    size -= size % sizeof(smap_mapping);
    if (size > left) size = left;
    memcpy(given.at, text.bytes + addon->handed, size);
    addon->handed += size;
    if (!size || size == left) end_list(addon);
    return size / sizeof *given.at;
}

/* listMappings(map, numbers, last): begins to hand out the mappings of the map piece by piece, as nextMappings does. In a Float64Array the
 * line of the last one of all stands then, or -1 where there is none. */
napi_value list_mappings(napi_env env, struct held *held, struct numbers given, double *last) {
    struct addon *addon = addon_of(env);
    smap_bytes bytes = {0};
    smap_text text = SMAP_TEXT;
    end_list(addon);
    if (smap_map_mappings(&held->map, &bytes) != SMAP_DONE) return refuse(env, "out of memory");
    smap_bytes_text(&bytes, &text);
    const smap_mapping *end = (const smap_mapping *)(text.bytes + text.length);
    last[0] = text.length ? (double)end[-1].line : -1;
    addon->listed = bytes, addon->handed = 0;
    return number(env, (double)put_next(addon, given));
}

/* nextMappings(numbers): puts the next ones into a Uint32Array, as `mappings` has them, and gives how many numbers those are. Where it has no
 * room, no more are kept. */
napi_value next_mappings(napi_env env, struct numbers given) {
    return number(env, (double)put_next(addon_of(env), given));
}

/* encode(mappings, refusal): the text of mappings in a Uint32Array, as `mappings` has them, as a Buffer; or null, with the
 * code of the refusal and the number of the mapping in a Float64Array of 2. */
napi_value encode(napi_env env, struct numbers given, double *numbers) {
    smap_encode_refusal refusal = {0};
    smap_bytes bytes = {0};
    const size_t count = given.count / (sizeof(smap_mapping) / sizeof(uint32_t));
    uint32_t status = smap_encode((const smap_mapping *)given.at, count, &bytes, &refusal);
    if (status == SMAP_DONE) return buffer(env, &bytes);
    if (status != SMAP_REFUSED) return refuse(env, "out of memory");
    numbers[0] = refusal.code, numbers[1] = (double)refusal.mapping;
    return null(env);
}
