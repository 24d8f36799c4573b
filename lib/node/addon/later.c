/* A map that is read by another thread, while node goes on. */
#include "addon.h"
#include <math.h>
#include <stdlib.h>
#include <string.h>

/* What is read, how, and what that comes to. The text is that of an array that nobody else has; its reference holds it. */
struct reading {
    napi_async_work work;
    napi_deferred deferred;
    napi_ref array;
    smap_text text;
    uint8_t *base;
    size_t base_length;
    bool or_at_none;
    uint32_t interval, status;
    uint64_t most;
    struct held *held;
    struct parts members, contents;
    bool has_contents;
    smap_refusal refusal;
    smap_reason reason;
    smap_bytes why, id;
};

static void free_reading(napi_env env, struct reading *reading) {
    if (reading->array) napi_delete_reference(env, reading->array);
    if (reading->work) napi_delete_async_work(env, reading->work);
    if (reading->held && reading->status == SMAP_DONE) smap_map_free(&reading->held->map);
    if (reading->why.at) smap_bytes_free(&reading->why);
    if (reading->id.at) smap_bytes_free(&reading->id);
    free(reading->base);
    free(reading->held);
    free(reading->members.numbers);
    free(reading->contents.numbers);
    free(reading);
}

/* Where the members of the map stand, and where those of its contents. */
static bool find_members(struct reading *reading) {
    static const char key[] = "\"sourcesContent\"";
    const uint8_t *text = reading->text.bytes, *end;
    const size_t length = reading->text.length;
    size_t at = text[0] == 0xef ? 3 : 0;
    if (text[at] == ')' && (end = memchr(text + at, '\n', length - at))) at = (size_t)(end - text);
    if (!find_parts(text, length, at, &reading->members)) return false;
    const uint32_t *part = reading->members.numbers;
    for (size_t i = 0; i + 3 < reading->members.count; i += 4, part += 4) {
        bool is = part[1] - part[0] == sizeof key - 1 && !memcmp(text + part[0], key, sizeof key - 1);
        if (!is || text[part[2]] != '[') continue;
        reading->has_contents = true;
        reading->contents.count = 0;
        if (!find_parts(text, length, part[2], &reading->contents)) return false;
    }
    return true;
}

/* Runs beside node, and calls nothing of it. */
static void read_beside(napi_env env, void *data) {
    (void)env;
    struct reading *r = data;
    const smap_text base = {r->base, r->base_length};
    r->status = read_so(r->text, base, r->or_at_none, r->interval, r->most, &r->held->map, &r->id, &r->refusal);
    if (r->status == SMAP_REFUSED) {
        uint32_t explained = smap_refusal_explain(r->text.bytes, r->text.length, &r->refusal, &r->reason, &r->why);
        if (explained == SMAP_NO_MEMORY) r->status = SMAP_NO_MEMORY;
        if (explained != SMAP_DONE) r->why.at = NULL;
    } else if (r->status == SMAP_DONE && !find_members(r)) {
        smap_map_free(&r->held->map);
        r->status = SMAP_NO_MEMORY;
    }
}

/* The numbers of a refusal and of its reason, and the lines, or null. */
static napi_value refusal_of(napi_env env, struct reading *r) {
    const smap_reason *reason = &r->reason;
    double numbers[] = {
        0, 0, 0, 0, 0, 0, reason->has_value ? (double)reason->value : NAN, reason->has_least ? (double)reason->least : NAN,
        reason->has_most ? (double)reason->most : NAN, reason->has_column ? (double)reason->generated_column : NAN,
    };
    napi_value values[11];
    put_refusal(&r->refusal, numbers);
    for (size_t i = 0; i < 10; i++) values[i] = number(env, numbers[i]);
    values[10] = r->why.at ? buffer(env, &r->why) : null(env);
    r->why.at = NULL;
    return values[10] ? list_of(env, values, 11) : NULL;
}

/* The map, where its members stand, and how many contents it has, or null. */
static napi_value map_of_reading(napi_env env, struct reading *r) {
    struct held *held = r->held;
    r->held = NULL;
    napi_value map = object_of_map(env, held, r->text.length, &r->id);
    napi_value members = map ? array_of_parts(env, &r->members) : NULL;
    if (!members) return NULL;
    const napi_value values[] = {map, members, r->has_contents ? number(env, (double)(r->contents.count / 4)) : null(env)};
    return list_of(env, values, 3);
}

static void tell_read(napi_env env, napi_status ended, void *data) {
    struct reading *r = data;
    napi_value result = NULL, error, text;
    if (ended == napi_ok && r->status == SMAP_REFUSED) result = refusal_of(env, r);
    else if (ended == napi_ok && r->status == SMAP_DONE) result = map_of_reading(env, r);
    napi_get_and_clear_last_exception(env, &error);
    if (result) {
        napi_resolve_deferred(env, r->deferred, result);
    } else {
        napi_create_string_utf8(env, "out of memory", NAPI_AUTO_LENGTH, &text);
        napi_create_error(env, NULL, text, &error);
        napi_reject_deferred(env, r->deferred, error);
    }
    free_reading(env, r);
}

/* readLater(bytes, base, orAtNone, interval, mostNames): a promise of the map, where its members stand and how many contents it has; or of
 * the numbers of the refusal and of its reason, with the sentences. Nobody else may have the bytes. */
napi_value read_later(napi_env env, smap_text bytes, napi_value array, smap_text base, bool or_at_none, uint32_t interval,
                      uint64_t most) {
    napi_value name, promise = NULL;
    struct reading *r = calloc(1, sizeof *r);
    if (!r) return refuse(env, "out of memory");
    r->status = SMAP_NO_MEMORY;
    r->text = bytes, r->or_at_none = or_at_none;
    r->interval = interval, r->most = most;
    sweep(env, addon_of(env));
    r->held = calloc(1, sizeof *r->held);
    r->base = malloc(base.length + 1);
    if (r->held && r->base && napi_create_reference(env, array, 1, &r->array) == napi_ok) {
        memcpy(r->base, base.bytes, base.length);
        r->base_length = base.length;
        napi_create_string_utf8(env, "smap", NAPI_AUTO_LENGTH, &name);
        if (napi_create_promise(env, &r->deferred, &promise) == napi_ok &&
            napi_create_async_work(env, NULL, name, read_beside, tell_read, r, &r->work) == napi_ok && napi_queue_async_work(env, r->work) == napi_ok)
            return promise;
    }
    free_reading(env, r);
    return refuse(env, "out of memory");
}
