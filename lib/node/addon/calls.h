/* What node calls, as lib/calls has it: lib/declare has written this. Each says beside its body what it gives. */
#ifndef CALLS_H
#define CALLS_H

napi_value read_map(napi_env env, smap_text bytes, smap_text base, bool or_at_none, uint32_t interval, uint64_t most, double *refusal);
napi_value read_later(napi_env env, smap_text bytes, napi_value array, smap_text base, bool or_at_none, uint32_t interval, uint64_t most);
napi_value read_into(napi_env env, struct held *table, const struct url *url, smap_text bytes, smap_text base, bool or_at_none, uint32_t interval, uint64_t most, double *numbers);
napi_value code_text(napi_env env, uint32_t code);
napi_value refusal_explain(napi_env env, smap_text bytes, double *refusal, double *reason);
napi_value close_held(napi_env env, struct held *map);
napi_value close_held(napi_env env, struct held *table);
napi_value close_held(napi_env env, struct held *inners);
napi_value look_up(napi_env env, napi_callback_info info);
napi_value look_up_many(napi_env env, struct held *map, struct numbers positions, struct numbers found);
napi_value generated(napi_env env, struct held *map, uint32_t source, uint32_t line, uint32_t column, uint32_t direction);
napi_value generated_spans(napi_env env, struct held *map, uint32_t source, uint32_t line, uint32_t column, uint32_t direction);
napi_value mappings(napi_env env, struct held *map);
napi_value list_mappings(napi_env env, struct held *map, struct numbers given, double *last);
napi_value next_mappings(napi_env env, struct numbers given);
napi_value encode(napi_env env, struct numbers mappings, double *refusal);
napi_value bytes_by_source(napi_env env, struct held *map, smap_text generated);
napi_value fit(napi_env env, struct held *map, smap_text generated, double *counts);
napi_value members(napi_env env, smap_text text, uint32_t at);
napi_value outline(napi_env env, smap_text text, double *kept);
napi_value with_generated(napi_env env, struct held *map, smap_text generated);
napi_value function_name(napi_env env, struct held *map, uint32_t line, uint32_t column, smap_text function);
napi_value counts(napi_env env, struct held *map);
napi_value size(napi_env env, struct held *map);
napi_value use_paths(napi_env env, struct held *map, smap_text url);
napi_value stand_at(napi_env env, struct held *map, smap_text path, uint64_t most_names, double *refusal);
napi_value source_name(napi_env env, struct held *map, uint32_t index);
napi_value source_content(napi_env env, struct held *map, uint32_t index);
napi_value is_ignored(napi_env env, struct held *map, uint32_t index);
napi_value source_lines(napi_env env, struct held *map, uint32_t index, uint32_t line, uint32_t before, uint32_t after);
napi_value name(napi_env env, struct held *map, uint32_t index);
napi_value file(napi_env env, struct held *map);
napi_value write_map(napi_env env, struct held *map, bool has_id, smap_text id);
napi_value compose(napi_env env, struct held *outer, uint32_t source, struct held *inner, bool has_id, smap_text id);
napi_value new_inners(napi_env env, struct held *outer);
napi_value put_inner(napi_env env, struct held *inners, uint32_t source, struct held *map);
napi_value next_inner(napi_env env, struct held *outer, struct held *inners);
napi_value inner_name(napi_env env, struct held *outer, struct held *inners, uint32_t source);
napi_value compose_all(napi_env env, struct held *outer, struct held *inners, bool prune, bool no_content, bool has_id, smap_text id);
napi_value new_table(napi_env env, uint64_t most);
napi_value add(napi_env env, struct held *table, smap_text url, struct held *map);
napi_value is_bad_url(napi_env env, const struct url *url, struct held *map);
napi_value put(napi_env env, struct held *table, const struct url *url, struct held *map, uint64_t bytes);
napi_value put_none(napi_env env, struct held *table, const struct url *url, uint32_t why, napi_value time);
napi_value forget(napi_env env, struct held *table, napi_value text, const struct url *url);
napi_value table_counts(napi_env env, struct held *table, napi_value array, double *counts);
napi_value find_place(napi_env env, struct held *table, napi_value text, const struct url *url);
napi_value wanted(napi_env env, struct held *table, napi_value text, const struct url *url);
napi_value key_of_map(napi_env env, struct held *table, napi_value text, const struct url *url);
napi_value map_at(napi_env env, struct held *table, napi_value text, const struct url *url);
napi_value new_rewriting(napi_env env, bool anywhere, bool hide_ignored, bool strip_ansi, bool asks, uint64_t most);
napi_value give(napi_env env, struct held *rewriting, smap_text bytes, uint64_t most, bool is_last);
napi_value run(napi_env env, struct held *rewriting, struct held *table, double *numbers);
napi_value take_text(napi_env env, struct held *rewriting);
napi_value stripped(napi_env env, smap_text text);
napi_value locations(napi_env env, smap_text text, bool anywhere);
napi_value folder_path(napi_env env, smap_text prefix, smap_text folder, smap_text url);
napi_value is_path(napi_env env, smap_text url);

/* The calls by their names, with what checks their arguments. */
struct call { const char *name; napi_callback call; };
#define CALLS 58
extern const struct call calls[CALLS];

#endif
