/* The URLs that a text names, and the files that a folder has for them. */
#include "addon.h"
#include <stdlib.h>
#include <string.h>

/* URLs, each with LF behind it, and room for one with a backslash for each two. */
struct found { uint8_t *bytes, *scratch; size_t count, room, length; };

static bool put_bytes(struct found *found, smap_text url) {
    if (found->count + url.length + 1 > found->room) {
        size_t room = 2 * found->room + url.length + 4096;
        uint8_t *larger = realloc(found->bytes, room);
        if (!larger) return false;
        found->bytes = larger, found->room = room;
    }
    memcpy(found->bytes + found->count, url.bytes, url.length);
    found->count += url.length;
    found->bytes[found->count++] = '\n';
    return true;
}

/* A URL with one backslash for each two, as it stands; it is copied only where that is so. */
static smap_text whole_of(struct found *found, smap_text url, bool halved) {
    if (!halved) return url;
    if (found->length < url.length) {
        free(found->scratch);
        found->length = url.length;
        if (!(found->scratch = malloc(url.length))) return found->length = 0, (smap_text){url.bytes, 0};
    }
    size_t length = 0;
    for (size_t i = 0; i < url.length; i++) {
        found->scratch[length++] = url.bytes[i];
        i += url.bytes[i] == '\\' && i + 1 < url.length && url.bytes[i + 1] == '\\';
    }
    return (smap_text){found->scratch, length};
}

/* Whether a URL is UTF-8, as all of ASCII are. */
static bool is_text(napi_env env, smap_text url) {
    napi_value text;
    return is_ascii(url) || (text_of_url(env, url, &text) && text);
}

/* Puts a URL without its query and its fragment, where that is a text and a map may be asked for under it. */
static bool put_location(napi_env env, struct found *found, smap_text place, bool halved) {
    smap_text cut = SMAP_TEXT;
    smap_cut_url(place.bytes, place.length, &cut);
    smap_text url = whole_of(found, cut, halved);
    return smap_is_location(url.bytes, url.length) != SMAP_DONE || !is_text(env, url) || put_bytes(found, url);
}

static bool find_frames(napi_env env, struct found *found, const uint8_t *text, size_t length) {
    smap_frame_url url = {0};
    while (smap_next_frame_url(text, length, url.next, &url) == SMAP_DONE)
        if (!put_location(env, found, (smap_text){text + url.start, url.length}, false)) return false;
    return true;
}

static bool find_places(napi_env env, struct found *found, const uint8_t *text, size_t length) {
    smap_url_finder finder = {0};
    smap_place_url url = {0};
    bool whole = smap_url_finder_new(&finder) == SMAP_DONE;
    if (!whole) return false;
    while (whole && smap_next_place_url(&finder, text, length, url.next, &url) == SMAP_DONE)
        whole = put_location(env, found, (smap_text){text + url.start, url.length}, url.halved != 0);
    smap_url_finder_free(&finder);
    return whole;
}

/* locations(text, anywhere): the URLs of the frames of a text for whose maps may be asked, without query and fragment, or those of its
 * places, as one text in which each has LF behind it. */
napi_value locations(napi_env env, smap_text text, bool anywhere) {
    napi_value result = NULL;
    struct found found = {0};
    bool whole = (anywhere ? find_places : find_frames)(env, &found, text.bytes, text.length);
    if (whole) result = string(env, (smap_text){found.count ? found.bytes : (const uint8_t *)nothing, found.count});
    free(found.bytes);
    free(found.scratch);
    return whole ? result : refuse(env, "out of memory");
}

/* isPath(url): whether a URL is a path from a root. */
napi_value is_path(napi_env env, smap_text url) {
    napi_value is;
    return napi_get_boolean(env, smap_is_path(url.bytes, url.length) == SMAP_DONE, &is) == napi_ok ? is : NULL;
}

/* folderPath(prefix, folder, url): the path of the map that a folder has for a URL, or null. */
napi_value folder_path(napi_env env, smap_text prefix, smap_text folder, smap_text url) {
    smap_bytes path = {0};
    uint32_t status = smap_folder_path(prefix.bytes, prefix.length, folder.bytes, folder.length, url.bytes, url.length, &path);
    if (status == SMAP_DONE) return buffer(env, &path);
    return status == SMAP_REFUSED ? null(env) : refuse(env, "out of memory");
}
