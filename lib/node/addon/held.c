/* What the objects of the addon hold of the library. */
#include "addon.h"
#include <stdlib.h>

/* The GNU C library keeps what is freed between what is not. After so many bytes it gives back the pages of it. Another has not this
 * call, which then is null. */
#define TRIM (32 << 20)
int malloc_trim(size_t kept) __attribute__((weak));

/* So many bytes more than the fewest since the last sweep, and what was collected is freed before another map is read. */
#define SWEEP (32 << 20)

/* By what is held: the tag of an object, and what is said of one that has another, or holds nothing any more. */
static const struct { napi_type_tag tag; const char *other, *closed; } kinds[] = {
    [MAP] = {{0x8d3f0b6a91c24e55, 0xb1a7c05e2f6d4a01}, "no map", "the map is closed"},
    [TABLE] = {{0x8d3f0b6a91c24e55, 0xb1a7c05e2f6d4a02}, "no table", "the table is closed"},
    [INNERS] = {{0x8d3f0b6a91c24e55, 0xb1a7c05e2f6d4a03}, "no inner maps", "the inner maps are closed"},
    [REWRITING] = {{0x8d3f0b6a91c24e55, 0xb1a7c05e2f6d4a04}, "no rewriting", "the rewriting is closed"},
};

/* The addon that this thread asked for last, and its environment: so a look-up need not ask node for it. */
static _Thread_local struct { napi_env env; struct addon *addon; } last;

/* The collector may run last, and free other things that are held. */
void report_size(napi_env env, struct held *held, int64_t size) {
    struct addon *addon = held->addon;
    int64_t all, more = size - held->size;
    held->size = size;
    if (addon) addon->reported += more;
    if (addon && addon->reported < addon->swept) addon->swept = addon->reported;
    napi_adjust_external_memory(env, more, &all);
}

/* So many bytes were freed. */
static void give_back(struct addon *addon, int64_t size) {
    if (malloc_trim && addon && (addon->freed += size) >= TRIM) {
        malloc_trim(0);
        addon->freed = 0;
    }
}

void let_go(napi_env env, struct held *held) {
    if (held->originals.at) smap_originals_free(&held->originals);
    if (held->names.at) smap_names_free(&held->names);
    held->originals.at = held->names.at = NULL;
    if (held->full) {
        if (held->kind == MAP) smap_map_free(&held->map);
        else if (held->kind == INNERS) smap_inners_free(&held->inners);
        else if (held->kind == REWRITING) smap_rewriting_free(&held->rewriting);
        else smap_table_free(&held->table), smap_store_free(&held->store);
        give_back(held->addon, held->size);
    }
    held->full = false;
    report_size(env, held, 0);
}

/* Gives what is held a place. */
static bool take_place(struct addon *addon, struct held *held) {
    if (addon->free == addon->count) {
        uint32_t count = 2 * addon->count + 16;
        struct place *places = realloc(addon->places, count * sizeof *places);
        if (!places) return false;
        for (uint32_t i = addon->count; i < count; i++) places[i] = (struct place){NULL, i + 1};
        addon->places = places, addon->count = count;
    }
    held->addon = addon;
    held->place = addon->free;
    addon->free = addon->places[held->place].next;
    addon->places[held->place].held = held;
    return true;
}

void drop(napi_env env, void *data, void *hint) {
    (void)hint;
    struct held *held = data;
    struct addon *addon = held->addon;
    let_go(env, held);
    if (addon) {
        addon->places[held->place] = (struct place){NULL, addon->free};
        addon->free = held->place;
    }
    if (held->itself) napi_delete_reference(env, held->itself);
    free(held);
}

napi_value object_of(napi_env env, struct held *held, int64_t size) {
    napi_value object;
    held->full = true;
    if (napi_create_object(env, &object) != napi_ok || napi_type_tag_object(env, object, &kinds[held->kind].tag) != napi_ok ||
        !take_place(addon_of(env), held) || !define(env, object, "place", number(env, held->place)) ||
        napi_wrap(env, object, held, drop, NULL, &held->itself) != napi_ok) {
        held->itself = NULL;
        drop(env, held, NULL);
        return refuse(env, "out of memory");
    }
    report_size(env, held, size);
    return object;
}

void hand_over(napi_env env, struct held *map, struct held *taker) {
    map->full = false;
    report_size(env, taker, taker->size + map->size);
    report_size(env, map, 0);
}

void sweep(napi_env env, struct addon *addon) {
    napi_handle_scope scope;
    if (addon->reported - addon->swept < SWEEP || napi_open_handle_scope(env, &scope) != napi_ok) return;
    for (uint32_t i = 0; i < addon->count; i++) {
        struct held *held = addon->places[i].held;
        napi_value object = NULL;
        if (held && napi_get_reference_value(env, held->itself, &object) == napi_ok && !object) let_go(env, held);
    }
    napi_close_handle_scope(env, scope);
    addon->swept = addon->reported;
}

void drop_addon(napi_env env, void *data, void *hint) {
    (void)env, (void)hint;
    struct addon *addon = data;
    for (uint32_t i = 0; i < addon->count; i++)
        if (addon->places[i].held) addon->places[i].held->addon = NULL;
    if (last.addon == addon) last.env = NULL;
    end_list(addon);
    free(addon->places);
    free(addon);
}

struct held *held_of(napi_env env, napi_value value, enum kind kind) {
    bool is = false;
    void *data = NULL;
    if (napi_check_object_type_tag(env, value, &kinds[kind].tag, &is) != napi_ok || !is || napi_unwrap(env, value, &data) != napi_ok) {
        refuse_type(env, kinds[kind].other);
        return NULL;
    }
    struct held *held = data;
    if (held->full) return held;
    refuse(env, kinds[kind].closed);
    return NULL;
}

struct addon *addon_of(napi_env env) {
    if (last.env != env) {
        void *data = NULL;
        napi_get_instance_data(env, &data);
        last.env = env, last.addon = data;
    }
    return last.addon;
}

/* closeMap(map), closeTable(table), closeInners(inners): what is held is freed now. */
napi_value close_held(napi_env env, struct held *held) {
    let_go(env, held);
    return NULL;
}
