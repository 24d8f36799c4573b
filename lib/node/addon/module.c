/* The module: its calls, and the room of a look-up. */
#include "addon.h"
#include <stdio.h>
#include <stdlib.h>

/* The room of a look-up, which stays as long as the addon. It is in shared memory, since nobody can take this away: the memory
 * of another array goes where the user transfers it. Node-API makes no such array. */
static napi_value room_of(napi_env env, struct addon *addon) {
    char text[64];
    napi_value script, room;
    napi_ref kept;
    snprintf(text, sizeof text, "new Uint32Array(new SharedArrayBuffer(%zu))", ROOM * sizeof(uint32_t));
    if (napi_create_string_utf8(env, text, NAPI_AUTO_LENGTH, &script) != napi_ok || napi_run_script(env, script, &room) != napi_ok)
        return NULL;
    addon->room = shared_of(env, room, ROOM);
    return addon->room && napi_create_reference(env, room, 1, &kept) == napi_ok ? room : NULL;
}

/* The Array of the texts of a look-up, whose only element is its own. */
static napi_value texts_of(napi_env env, struct addon *addon) {
    napi_value texts;
    const napi_value none[] = {null(env)};
    texts = list_of(env, none, 1);
    return texts && napi_create_reference(env, texts, 1, &addon->texts) == napi_ok ? texts : NULL;
}

NAPI_MODULE_INIT() {
    struct addon *addon = calloc(1, sizeof *addon);
    if (!addon || napi_set_instance_data(env, addon, drop_addon, NULL) != napi_ok) {
        free(addon);
        return refuse(env, "out of memory");
    }
    napi_value room = room_of(env, addon);
    napi_value texts = room ? texts_of(env, addon) : NULL;
    if (!room || !define(env, exports, "room", room) || !define(env, exports, "texts", texts) || !define(env, exports, "codes", codes_of(env))) return NULL;
    for (size_t i = 0; i < CALLS; i++) {
        napi_value function;
        if (napi_create_function(env, calls[i].name, NAPI_AUTO_LENGTH, calls[i].call, NULL, &function) != napi_ok ||
            !define(env, exports, calls[i].name, function))
            return NULL;
    }
    return exports;
}
