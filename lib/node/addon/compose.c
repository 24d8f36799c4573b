/* Maps of the steps of a build, composed into one. */
#include "addon.h"
#include <stdlib.h>

/* What a composition hands out: the text of the map, or the code of the refusal. */
static napi_value text_or_number(napi_env env, uint32_t status, smap_bytes *bytes, smap_code why) {
    if (status == SMAP_DONE) return buffer(env, bytes);
    return status == SMAP_REFUSED ? number(env, why) : refuse(env, "out of memory");
}

/* compose(outer, source, inner, hasId, id): the text of the map, with this debug id, if there is one; or the code of the refusal. The maps are
 * two. */
napi_value compose(napi_env env, struct held *outer, uint32_t source, struct held *inner, bool has_id, smap_text id) {
    smap_code why = 0;
    if (outer == inner) return refuse_type(env, "one map twice");
    smap_bytes bytes = {0};
    uint32_t status = with_id(smap_compose(&outer->map, source, &inner->map, &bytes, &why), &bytes, has_id, id);
    return text_or_number(env, status, &bytes, why);
}

/* newInners(outer): a place for the map of each source of this map. */
napi_value new_inners(napi_env env, struct held *outer) {
    struct held *held = calloc(1, sizeof *held);
    if (!held || smap_inners_new(&outer->map, &held->inners) != SMAP_DONE) {
        free(held);
        return refuse(env, "out of memory");
    }
    held->kind = INNERS;
    return object_of(env, held, 0);
}

/* putInner(inners, source, map): whether the map has the place of this source, and is closed then. */
napi_value put_inner(napi_env env, struct held *inners, uint32_t source, struct held *map) {
    napi_value is;
    bool put = smap_inners_put(&inners->inners, source, &map->map) == SMAP_DONE;
    if (put) hand_over(env, map, inners);
    return napi_get_boolean(env, put, &is) == napi_ok ? is : NULL;
}

/* nextInner(outer, inners): the source of which a map is wanted next, or null; or the code of the refusal, below 0. */
napi_value next_inner(napi_env env, struct held *outer, struct held *inners) {
    uint32_t source = 0;
    smap_code why = 0;
    uint32_t status = smap_inners_next(&outer->map, &inners->inners, &source, &why);
    if (status == SMAP_DONE) return number(env, source);
    if (status != SMAP_REFUSED) return refuse(env, "out of memory");
    return why ? number(env, -(double)why) : null(env);
}

/* innerName(outer, inners, source): the name of this source, or null. */
napi_value inner_name(napi_env env, struct held *outer, struct held *inners, uint32_t source) {
    smap_text text = SMAP_TEXT;
    return smap_inners_name(&outer->map, &inners->inners, source, &text) == SMAP_DONE ? string(env, text) : null(env);
}

/* composeAll(outer, inners, prune, noContent, hasId, id): the same of a map and the maps of its sources. */
napi_value compose_all(napi_env env, struct held *outer, struct held *inners, bool prune, bool no_content, bool has_id, smap_text id) {
    smap_code why = 0;
    const smap_compose_options options = {prune, no_content};
    smap_bytes bytes = {0};
    uint32_t status = with_id(smap_compose_all(&outer->map, &inners->inners, &options, &bytes, &why), &bytes, has_id, id);
    return text_or_number(env, status, &bytes, why);
}
