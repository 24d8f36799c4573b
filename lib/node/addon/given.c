/* What is given is checked, and what is handed back is made. */
#include "addon.h"
#include <stdio.h>

uint64_t nothing[1];

napi_value refuse(napi_env env, const char *why) {
    napi_throw_error(env, NULL, why);
    return NULL;
}

napi_value refuse_range(napi_env env, const char *why) {
    napi_throw_range_error(env, NULL, why);
    return NULL;
}

napi_value refuse_type(napi_env env, const char *why) {
    napi_throw_type_error(env, NULL, why);
    return NULL;
}

bool words_of(napi_env env, napi_callback_info info, size_t wanted, napi_value *words) {
    size_t count = WORDS;
    napi_get_cb_info(env, info, &count, words, NULL, NULL);
    if (count < wanted) refuse_type(env, "too few arguments");
    return count >= wanted;
}

/* Where the numbers are of a typed array of this type, whose memory is shared or not, and how many; or false. One that was
 * detached has none. */
static bool array_of(napi_env env, napi_value value, napi_typedarray_type wanted, bool shared, void **data, size_t *length) {
    napi_typedarray_type type;
    napi_value room;
    bool alone = false;
    if (napi_get_typedarray_info(env, value, &type, length, data, &room, NULL) != napi_ok || type != wanted ||
        napi_is_arraybuffer(env, room, &alone) != napi_ok || alone == shared)
        return false;
    if (!*length) *data = nothing;
    return true;
}

bool bytes_of(napi_env env, napi_value value, smap_text *bytes) {
    void *data;
    bool is = array_of(env, value, napi_uint8_array, false, &data, &bytes->length);
    if (is) bytes->bytes = data;
    else refuse_type(env, "no Uint8Array, or one that is shared");
    return is;
}

bool numbers_of(napi_env env, napi_value value, struct numbers *numbers) {
    void *data;
    bool is = array_of(env, value, napi_uint32_array, false, &data, &numbers->count);
    if (is) *numbers = (struct numbers){data, numbers->count, value};
    else refuse_type(env, "no Uint32Array, or one that is shared");
    return is;
}

bool flag_of(napi_env env, napi_value value, bool *flag) {
    if (napi_get_value_bool(env, value, flag) == napi_ok) return true;
    refuse_type(env, "no boolean");
    return false;
}

uint32_t *shared_of(napi_env env, napi_value value, size_t wanted) {
    void *data;
    size_t length;
    if (array_of(env, value, napi_uint32_array, true, &data, &length) && length >= wanted) return data;
    refuse_type(env, "no Uint32Array in shared memory, or one that is too short");
    return NULL;
}

bool number_of(napi_env env, napi_value value, uint32_t *number) {
    double given;
    if (napi_get_value_double(env, value, &given) == napi_ok && given >= 0 && given <= UINT32_MAX && given == (uint32_t)given) {
        *number = (uint32_t)given;
        return true;
    }
    refuse_type(env, "no whole number of 32 bits");
    return false;
}

bool count_of(napi_env env, napi_value value, uint64_t *count) {
    double given;
    if (napi_get_value_double(env, value, &given) == napi_ok && given >= 0 && given < 1LL << 53 && given == (double)(uint64_t)given) {
        *count = (uint64_t)given;
        return true;
    }
    refuse_type(env, "no whole number up to 2^53 - 1");
    return false;
}

double *doubles_of(napi_env env, napi_value value, size_t wanted) {
    void *data;
    size_t length;
    if (array_of(env, value, napi_float64_array, false, &data, &length) && length >= wanted) return data;
    refuse_type(env, "no Float64Array, or one that is too short");
    return NULL;
}

napi_value number(napi_env env, double value) {
    napi_value result;
    napi_create_double(env, value, &result);
    return result;
}

napi_value string(napi_env env, smap_text text) {
    napi_value result = NULL;
    if (napi_create_string_utf8(env, (const char *)text.bytes, text.length, &result) != napi_ok) refuse(env, "out of memory");
    return result;
}

napi_value null(napi_env env) {
    napi_value result;
    napi_get_null(env, &result);
    return result;
}

napi_value buffer(napi_env env, smap_bytes *bytes) {
    smap_text text = SMAP_TEXT;
    smap_bytes_text(bytes, &text);
    napi_value result = NULL;
    if (napi_create_buffer_copy(env, text.length, text.bytes, NULL, &result) != napi_ok) refuse(env, "out of memory");
    smap_bytes_free(bytes);
    return result;
}

bool define(napi_env env, napi_value object, const char *name, napi_value value) {
    const napi_property_attributes all = napi_writable | napi_enumerable | napi_configurable;
    const napi_property_descriptor property = {.utf8name = name, .value = value, .attributes = all};
    return value && napi_define_properties(env, object, 1, &property) == napi_ok;
}

napi_value list_of(napi_env env, const napi_value *values, size_t count) {
    napi_value list;
    char index[24];
    if (napi_create_array_with_length(env, count, &list) != napi_ok) return refuse(env, "out of memory");
    for (size_t i = 0; i < count; i++) {
        snprintf(index, sizeof index, "%zu", i);
        if (!define(env, list, index, values[i])) return NULL;
    }
    return list;
}
