/* Texts that are rewritten over a table and its store, and the URLs that are given as texts. */
#define _GNU_SOURCE
#include "addon.h"
#include <stdlib.h>
#include <string.h>
#include <time.h>

uint64_t time_now(void) {
    struct timespec time;
    clock_gettime(CLOCK_MONOTONIC, &time);
    return (uint64_t)time.tv_sec * 1000 + (uint64_t)time.tv_nsec / 1000000;
}

void free_url(struct url *url) {
    if (url->bytes != url->room) free(url->bytes);
}

/* Whether a text has half of a surrogate pair alone, for which there are no bytes. */
static bool has_half(napi_env env, napi_value text) {
    size_t length = 0;
    napi_get_value_string_utf16(env, text, NULL, 0, &length);
    char16_t *units = malloc((length + 1) * sizeof *units);
    bool has = !units || napi_get_value_string_utf16(env, text, units, length + 1, &length) != napi_ok;
    for (size_t i = 0; !has && i < length; i++) {
        bool is_pair = (units[i] & 0xfc00) == 0xd800 && i + 1 < length && (units[i + 1] & 0xfc00) == 0xdc00;
        has = !is_pair && (units[i] & 0xf800) == 0xd800;
        i += is_pair;
    }
    free(units);
    return has;
}

bool url_of(napi_env env, napi_value text, struct url *url, bool *has_bytes) {
    url->bytes = url->room;
    if (napi_get_value_string_utf8(env, text, (char *)url->room, sizeof url->room, &url->length) != napi_ok)
        return refuse_type(env, "no text"), false;
    if (url->length + 4 >= sizeof url->room) {
        napi_get_value_string_utf8(env, text, NULL, 0, &url->length);
        if (!(url->bytes = malloc(url->length + 1))) return refuse(env, "out of memory"), false;
        napi_get_value_string_utf8(env, text, (char *)url->bytes, url->length + 1, &url->length);
    }
    *has_bytes = !memmem(url->bytes, url->length, "\xef\xbf\xbd", 3) || !has_half(env, text);
    return true;
}

bool is_ascii(smap_text text) {
    size_t at = 0;
    while (at < text.length && text.bytes[at] < 0x80) at++;
    return at == text.length;
}

bool text_of_url(napi_env env, smap_text url, napi_value *text) {
    struct url back;
    bool has_bytes = false;
    *text = string(env, url);
    if (*text && is_ascii(url)) return true;
    if (!*text || !url_of(env, *text, &back, &has_bytes)) return *text = NULL, false;
    if (back.length != url.length || memcmp(back.bytes, url.bytes, url.length)) *text = NULL;
    free_url(&back);
    return true;
}

bool whole_url_of(napi_env env, napi_value text, struct url *url) {
    bool has_bytes = false;
    if (!url_of(env, text, url, &has_bytes) || has_bytes) return has_bytes;
    free_url(url);
    return refuse_type(env, "`url` has half of a surrogate pair alone"), false;
}

/* newRewriting(anywhere, hideIgnored, stripAnsi, asks, most): a text that is to be rewritten, of which nothing was given, and which has at
 * most so many bytes. */
napi_value new_rewriting(napi_env env, bool anywhere, bool hide_ignored, bool strip_ansi, bool asks, uint64_t most) {
    const smap_rewriting_options options = {.hide_ignored = hide_ignored, .anywhere = anywhere, .strip_ansi = strip_ansi, .asks = asks, .most = most};
    struct held *held = calloc(1, sizeof *held);
    if (!held || smap_rewriting_new(&options, &held->rewriting) != SMAP_DONE) {
        free(held);
        return refuse(env, "out of memory");
    }
    held->kind = REWRITING;
    return object_of(env, held, 0);
}

/* give(rewriting, bytes, most, isLast): the next bytes of its text, of which it has a copy, or the last; at most so many bytes may come out
 * from now on. Whether they were taken: the text may have too many. */
napi_value give(napi_env env, struct held *held, smap_text bytes, uint64_t most, bool is_last) {
    napi_value is = NULL;
    held->is_last = is_last;
    uint32_t status = smap_rewriting_give(&held->rewriting, bytes.bytes, bytes.length);
    if (status == SMAP_NO_MEMORY) return refuse(env, "out of memory");
    if (held->is_last) smap_rewriting_end(&held->rewriting);
    smap_rewriting_allow(&held->rewriting, most);
    held->time = time_now();
    report_size(env, held, (int64_t)bytes.length);
    return napi_get_boolean(env, status == SMAP_DONE, &is) == napi_ok ? is : NULL;
}

/* The key of the URL before which a rewriting has stopped, as a text. One that is not UTF-8 has no map: then nothing is given. */
static napi_value key_wanted(napi_env env, struct held *table, struct held *rewriting) {
    smap_text url = SMAP_TEXT, key = SMAP_TEXT;
    napi_value text;
    smap_rewriting_url(&rewriting->rewriting, &url);
    smap_store_key(&table->store, url.bytes, url.length, &key);
    if (!text_of_url(env, key, &text) || text) return text;
    if (smap_store_put_none(&table->store, key.bytes, key.length, SMAP_MISSING, false, 0) != SMAP_DONE) refuse(env, "out of memory");
    return NULL;
}

/* run(rewriting, table, numbers): the key for whose map is to be asked; or null where all is done, with the four counts in the numbers, or
 * false where it is refused, with the code of the refusal and how many lines do fit of what was given last. */
napi_value run(napi_env env, struct held *rewriting, struct held *table, double *numbers) {
    napi_value is = NULL, key = NULL;
    bool is_failed = false;
    smap_rewrite_refusal refusal = {0};
    uint32_t status = SMAP_WANTED;
    while (status == SMAP_WANTED && !key && !is_failed) {
        status = smap_rewriting_run(&rewriting->rewriting, &table->table, &table->store, rewriting->time, &refusal);
        if (status == SMAP_WANTED) key = key_wanted(env, table, rewriting);
        napi_is_exception_pending(env, &is_failed);
    }
    if (is_failed || key) return key;
    if (status == SMAP_NO_MEMORY) return refuse(env, "out of memory");
    if (status == SMAP_REFUSED) {
        numbers[0] = refusal.code;
        numbers[1] = refusal.lines < rewriting->lines ? 0 : (double)(refusal.lines - rewriting->lines);
        return napi_get_boolean(env, false, &is) == napi_ok ? is : NULL;
    }
    smap_trace_count count = {0};
    smap_rewriting_count(&rewriting->rewriting, &count);
    numbers[0] = (double)count.lines, numbers[1] = (double)count.frames;
    numbers[2] = (double)count.mapped, numbers[3] = (double)count.hidden;
    return null(env);
}

/* Counts the whole lines that came out so far. A line of which a part came out counts as one that was in the text. */
static void count_lines(struct held *held, smap_text text) {
    smap_trace_count count = {0};
    if (!text.length) return;
    smap_rewriting_count(&held->rewriting, &count);
    held->lines = count.lines - count.hidden - (text.bytes[text.length - 1] != '\n');
}

/* takeText(rewriting): what came out since it was taken last. Behind the last bytes the rewriting is closed. */
napi_value take_text(napi_env env, struct held *held) {
    napi_value result = NULL;
    smap_text text = SMAP_TEXT;
    smap_rewriting_text(&held->rewriting, &text);
    if (napi_create_buffer_copy(env, text.length, text.bytes, NULL, &result) != napi_ok) refuse(env, "out of memory");
    count_lines(held, text);
    if (held->is_last) let_go(env, held);
    else smap_rewriting_clear(&held->rewriting);
    return result;
}

/* stripped(text): the text without control sequences, as a Buffer, or null where it has too many bytes. It is rewritten over no map. */
napi_value stripped(napi_env env, smap_text text) {
    smap_table table = {0};
    if (smap_table_new(&table) != SMAP_DONE) return refuse(env, "out of memory");
    const smap_rewrite_options options = {.strip_ansi = true};
    smap_bytes bytes = {0};
    smap_trace_count count = {0};
    uint32_t status = smap_rewrite_with(&table, text.bytes, text.length, &options, &bytes, &count);
    smap_table_free(&table);
    if (status == SMAP_DONE) return buffer(env, &bytes);
    return status == SMAP_REFUSED ? null(env) : refuse(env, "out of memory");
}
