/* smap for C and C++: source maps of ECMA-426 read, looked up, written and composed, and stack traces rewritten.
 *
 * Lines, columns, sources, names, sections and bytes count from 0, columns in UTF-16 code units. Texts are UTF-8, as a
 * pointer and a length, without a byte 0 at the end.
 *
 * A handle holds a map, a table, a store, a rewriting, inner maps, originals, names of functions, a finder of URLs or bytes, or is
 * empty. One set to {0}, or in C++ to {}, is empty. A call that fills a handle wants it empty: what it held before is not freed. A call
 * that takes one from a handle wants it full, unless it says so; so does each that frees: free what a call filled, and that once.
 * The pointer in a handle does not show whether it is empty: after it was freed, or a call took from it, the old one stays there.
 *
 * Calls may run at once where no handle is given to two of them, not even one that is `const` in both. A handle may go to another
 * thread by what orders the two: a lock, or the start or the end of a thread. Threads that ask one map take a handle each by
 * smap_map_share: nothing is copied, what one holds never changes by another, and the map is freed with the last that holds it.
 *
 * No pointer is null: of no bytes, give a pointer to anything and the length 0. Two pointers of a call lead to different
 * places. Set what a call writes to before: to {0} or {}, or to SMAP_TEXT and SMAP_SOURCE.
 *
 * A call returns 0 where it did what it was asked, 1 where what it was given is refused or there is nothing of that
 * number, 2 where a store does not know what map a URL has, and is to be given it, and 3 where it is out of memory.
 * After 1 and 3 handles are as they were, save where a call says more. A call writes what it answers where it returns 0, and
 * why it refuses where it returns 1. After another status those values say nothing.
 *
 * Lines and columns may be any numbers of 32 bits. A column past the line's end has the line's last mapping, and a line past
 * the last has none. In a language with larger numbers, take care that none is cut to 32 bits on the way to a call.
 */
#ifndef SMAP_H
#define SMAP_H

#include <stdbool.h>
#include <stddef.h>
#include <stdint.h>

#ifdef __cplusplus
extern "C" {
#endif

#define SMAP_DONE 0
#define SMAP_REFUSED 1
#define SMAP_WANTED 2
#define SMAP_NO_MEMORY 3

/* Handles, freed by smap_map_free, smap_table_free, smap_store_free, smap_rewriting_free, smap_inners_free,
 * smap_originals_free, smap_names_free, smap_url_finder_free and smap_bytes_free. */
typedef struct smap_map { void *at; } smap_map;
typedef struct smap_table { void *at; } smap_table;
typedef struct smap_inners { void *at; } smap_inners;
typedef struct smap_originals { void *at; } smap_originals;
typedef struct smap_names { void *at; } smap_names;
typedef struct smap_url_finder { void *at; } smap_url_finder;
typedef struct smap_bytes { void *at; } smap_bytes;
typedef struct smap_store { void *at; } smap_store;
typedef struct smap_rewriting { void *at; } smap_rewriting;

/* A text that is lent. It stays until the next call with the handle that lent it in which that is not `const`. */
typedef struct smap_text { const uint8_t *bytes; size_t length; } smap_text;
#ifdef __cplusplus
#define SMAP_TEXT { reinterpret_cast<const uint8_t *>(""), 0 }
#else
#define SMAP_TEXT { (const uint8_t *)"", 0 }
#endif

/* Why something is refused: a code of the program, or 0 for none. A number is of the same code from 0.3.0 on. */
typedef uint32_t smap_code;
enum {
    SMAP_CODE_M1 = 1, SMAP_CODE_M2, SMAP_CODE_M3, SMAP_CODE_M4, SMAP_CODE_M5, SMAP_CODE_M6, SMAP_CODE_M7,
    SMAP_CODE_M8, SMAP_CODE_M9, SMAP_CODE_M10, SMAP_CODE_M11, SMAP_CODE_M12, SMAP_CODE_M13, SMAP_CODE_M14,
    SMAP_CODE_M15, SMAP_CODE_M16, SMAP_CODE_M17, SMAP_CODE_M18,
    SMAP_CODE_F1, SMAP_CODE_F2, SMAP_CODE_F3, SMAP_CODE_F4, SMAP_CODE_F5, SMAP_CODE_F6, SMAP_CODE_F7,
    SMAP_CODE_F8, SMAP_CODE_F9, SMAP_CODE_F10, SMAP_CODE_F11,
    SMAP_CODE_B1, SMAP_CODE_B2, SMAP_CODE_B3, SMAP_CODE_B4, SMAP_CODE_B5,
    SMAP_CODE_O1, SMAP_CODE_O2, SMAP_CODE_C1, SMAP_CODE_C2, SMAP_CODE_C3, SMAP_CODE_C4, SMAP_CODE_E1,
    SMAP_CODE_E2, SMAP_CODE_E3, SMAP_CODE_E4, SMAP_CODE_U1, SMAP_CODE_U2,
    SMAP_CODE_A1, SMAP_CODE_A2, SMAP_CODE_A3, SMAP_CODE_A4, SMAP_CODE_P1, SMAP_CODE_P2, SMAP_CODE_X1,
    SMAP_CODE_X2, SMAP_CODE_X3, SMAP_CODE_X4, SMAP_CODE_X5, SMAP_CODE_X6,
    SMAP_CODE_TEXT_TOO_LONG, SMAP_CODE_NOT_UTF8, SMAP_CODE_DEVICE, SMAP_CODE_MEMORY, SMAP_CODE_USAGE,
    SMAP_CODE_REFUSED
};

/* Why a map is not read: M1 to M18, or of its base `usage`, it is no URL, or U1, it has about 4,294,967,296 bytes or more. What the
 * refusal does not have is 0. */
typedef struct smap_refusal {
    smap_code code;
    smap_code cause;      /* of M14 the first fault of the mappings, F1 to F11, and of M15 why no index is built, B1 to B5 */
    uint32_t line;        /* the generated line of that fault */
    uint32_t has_section; /* 1 where it is of a section */
    uint64_t section;     /* the section */
    uint64_t byte;        /* where the faulty segment begins in the mappings */
} smap_refusal;

/* What is known of a value for which a segment of the mappings is refused, and of what it may be: lines, columns and indices as
 * the map has them, from 0, and for other faults a byte, a number of digits, a magnitude or a count of numbers. The last four
 * are 1 for yes. What there is not is 0. */
typedef struct smap_reason {
    int64_t value, least, most;
    uint64_t generated_column; /* of the faulty segment */
    uint32_t has_value, has_least, has_most, has_column;
} smap_reason;

/* What a look-up answers: no mapping (0), one without an original (1), or one with an original (2). Fields that the kind
 * does not have are 0. */
typedef struct smap_found {
    uint32_t kind;
    uint32_t generated_column; /* of the mapping that answers */
    uint32_t source;
    uint32_t line;
    uint32_t column;
    uint32_t named; /* 1 where it has a name */
    uint32_t name;
} smap_found;

/* A mapping: where it stands in the generated file, and what it answers, as smap_found has it. */
typedef struct smap_mapping { uint32_t line, column, kind, source, original_line, original_column, named, name; } smap_mapping;

/* Why mappings have no text: E1 to E3, and the number of the first mapping that is refused, 0 of E3. */
typedef struct smap_encode_refusal { smap_code code; uint64_t mapping; } smap_encode_refusal;

typedef struct smap_position { uint32_t line, column; } smap_position;

/* Where a mapping stands in the generated file, and where its original stands in its source; and such places that are lent, one
 * after another. Set what a call writes them to before to SMAP_PLACES. */
typedef struct smap_generated_place { uint32_t line, column, original_line, original_column; } smap_generated_place;
typedef struct smap_generated_places { const smap_generated_place *places; size_t count; } smap_generated_places;
#ifdef __cplusplus
#define SMAP_PLACES { reinterpret_cast<const smap_generated_place *>(sizeof(smap_generated_place)), 0 }
#else
#define SMAP_PLACES { (const smap_generated_place *)sizeof(smap_generated_place), 0 }
#endif

/* In which direction an original column is looked for: the greatest that is not after the asked one, or the least that is not before
 * it. */
#define SMAP_AT_OR_BEFORE 0
#define SMAP_AT_OR_AFTER 1

/* How much a map holds. `lines` are the generated lines that hold a mapping, each section's by themselves. */
typedef struct smap_count {
    uint64_t sections, sources, names, segments, lines, checkpoints;
} smap_count;

/* How a map fits a generated file: its mappings, those that stand past the text or inside a word of it, of which the map of the
 * file has none; and those whose source has content, those of them whose original place is past it, and those at which both
 * texts show the same word or character. Of those past the text or inside a word, which only continues the one before it is
 * not counted. `fits` is 1 where the map can be that of the file. */
typedef struct smap_fit_count {
    uint64_t mappings, past, inside, compared, outside, same;
    uint32_t fits;
} smap_fit_count;

/* A source. `named`, `held` and `ignored` are 1 for yes: it has a name, the map holds its content, and the map says that
 * a debugger should pass over it. A text that there is not has length 0. */
typedef struct smap_source_text {
    smap_text name, content;
    uint32_t named, held, ignored;
} smap_source_text;
#define SMAP_SOURCE { SMAP_TEXT, SMAP_TEXT, 0, 0, 0 }

/* What smap_compose_all leaves out of the map that it writes. With `prune`: sources and names that no mapping has, and of
 * those that are equal all but the first that a mapping has. With `no_content`: the contents of the sources. */
typedef struct smap_compose_options { bool prune, no_content; } smap_compose_options;

/* How a place is looked up in a table. With `after` the first mapping on the line at the position or after it answers. With
 * `cut` a URL under which the table has no map has the one under it without its query and its fragment, before those of patterns. */
typedef struct smap_table_options { bool after, cut; } smap_table_options;

/* Where a line of a source stands in its content, without its end: the byte at which it begins, and how many it has. Of more
 * than 65,536 `length` counts those of the whole characters among so many, and `cut` is 1. */
typedef struct smap_line_bytes { size_t start, length; uint32_t cut; } smap_line_bytes;

/* The number of the first of some lines, and how many there are. */
typedef struct smap_line_range { uint32_t first; size_t count; } smap_line_range;

/* How a text is rewritten: `hide_ignored` drops the lines of frames from ignored sources, `anywhere` takes places in place of
 * frames, and drops no line, and with `strip_ansi` the text is read without its control sequences: ESC, `[`, parameters and one
 * letter or sign, as they colour a terminal; of more than 128 bytes none is one. With `cut` a frame whose URL is not in the table has
 * the map under it without its query and its fragment, before those of patterns. */
typedef struct smap_rewrite_options { bool hide_ignored, anywhere, strip_ansi, cut; } smap_rewrite_options;

/* What was in a trace: its lines, how many were frames, and how many of these were replaced and hidden. */
typedef struct smap_trace_count { uint64_t lines, frames, mapped, hidden; } smap_trace_count;

/* Why a text is not rewritten: it has too many bytes (X3); more bytes would come out than are taken (X5), and `lines` is how
 * many whole lines of them fit; or places are asked for anywhere and a map is under `*` alone (`usage`). */
typedef struct smap_rewrite_refusal { smap_code code; uint64_t lines; } smap_rewrite_refusal;

/* Why a URL has no map: there is none, or what should give it failed. */
#define SMAP_MISSING 0
#define SMAP_FAILED 1

/* How much a store holds: for how many bytes its maps count, and how many they are; the same of the URLs that are known to
 * have none; how many look-ups were counted, how many of these were answered, and how much was dropped because there was no
 * room; and for how many bytes count the URLs with a query or a fragment under which something was put, each of which has its
 * own answer from then on. */
typedef struct smap_store_counts { uint64_t bytes, count, none_bytes, none_count, asked, hits, dropped, own_bytes; } smap_store_counts;

/* How a text is rewritten piece by piece: with `hide_ignored`, `anywhere` and `strip_ansi` as in smap_rewrite_options. With `asks`
 * maps are asked for: smap_rewriting_run stops before a URL that is a location, as smap_is_location says, and of which it is not
 * known what map it has, and the places of a text are those of all that looks like a URL without its query and its fragment, as
 * for smap_next_place_url, beside those of the table. Without it such URLs have no map. The text has at most `most` bytes, or 9,223,372,036,854,775,807,
 * and at most `most_output` come out. */
typedef struct smap_rewriting_options {
    bool hide_ignored, anywhere, strip_ansi, asks;
    uint64_t most, most_output;
} smap_rewriting_options;

/* Where the URL of a frame stands in a trace, how many bytes it has, and where the line after the frame begins, or the
 * trace ends. */
typedef struct smap_frame_url { size_t start, length, next; } smap_frame_url;

/* Where the URL of a place stands in a text, how many bytes it has there, and where the place ends, behind its line and its column.
 * `halved` is 1 where it stands in a string: of each two backslashes one is of the URL. */
typedef struct smap_place_url { size_t start, length, next; uint32_t halved; } smap_place_url;

/* Reads the bytes of a map file into the handle `map`. `base` is the URL at which the file stands, against which its
 * sources are resolved, or of length 0 for none. The index has a checkpoint at every `interval`-th segment of a line; 64
 * is usual, and 1 to 4096 are taken. Where it returns 1, `refusal` says why. The bytes are not kept. */
uint32_t smap_map_read(const uint8_t *bytes, size_t length, const uint8_t *base, size_t base_length,
                       uint32_t interval, smap_map *map, smap_refusal *refusal);

/* The same, where the names of all sources may be made of at most `most_names` bytes: each of those of the base, of what `sourceRoot`
 * puts before it, and of its own text. Where there are more, it is refused (M18) before a name is made. Without a bound a file of
 * 64 KiB can ask for 350 MB of names, and one of 1 MiB for 90 GB. A name has at most three times as many bytes as it is made of. */
uint32_t smap_map_read_within(const uint8_t *bytes, size_t length, const uint8_t *base, size_t base_length, uint32_t interval,
                              uint64_t most_names, smap_map *map, smap_refusal *refusal);

/* The same, and hands out the map's debug id, which its generated file names too: the text at `debugId` of its outer object, or at
 * `debug_id` where that is no text, in UTF-8. `has_id` is then 1, and the bytes `id` are freed by smap_bytes_free. Where it has none, and no
 * map is refused for it, `has_id` is 0, and `id` stays. The handle `map` does not keep it. */
uint32_t smap_map_read_with_id(const uint8_t *bytes, size_t length, const uint8_t *base, size_t base_length, uint32_t interval,
                               uint64_t most_names, smap_map *map, smap_bytes *id, uint32_t *has_id, smap_refusal *refusal);

/* Names the sources of a map by the URL at which it stands, where that is a path: without its query and its fragment it begins
 * with `/`, or with a letter, `:` and `/` or `\`, or is a relative path with a `/` in it. Each source whose name is a relative
 * path, as the map gives it, gets the path that goes on from the folder of the URL, and no `..` leads above its root: at
 * "/srv/app/dist/util/x.js" "../../src/x.ts" becomes "/srv/app/src/x.ts", as node prints it. Behind a drive's `:\` its pieces
 * stand between `\`. Other names, and all names at other URLs, stay. For it a map is read without a base. Returns 1 where
 * another handle, a table or a place holds the map, too. */
uint32_t smap_map_use_paths(smap_map *map, const uint8_t *url, size_t length);

/* Returns 0 where a URL is such a path, its query and its fragment aside, and else 1. */
uint32_t smap_is_path(const uint8_t *url, size_t length);

/* Names the sources of a map by the path at which its file stands, which need not begin at a root: each source whose name is a path,
 * as the map gives it, gets the one that goes on from the folder of the file. At "dist/a.js.map" "../src/a.ts" becomes "src/a.ts",
 * and "/a.ts" stays. A `./` before the file's path stays in front, and a query or a fragment behind the name. Names that are URLs stay.
 * For it a map is read without a base. Returns 1 where another handle, a table or a place holds the map, too (SMAP_CODE_REFUSED), and
 * where the names would be made of more than `most_names` bytes, each of those of the path and its own (M18). */
uint32_t smap_map_stand_at(smap_map *map, const uint8_t *path, size_t length, uint64_t most_names, smap_refusal *refusal);

/* Makes `other` another handle of the same map. Each is freed by itself, in any order. */
uint32_t smap_map_share(smap_map *map, smap_map *other);

/* Leaves the handle empty, and frees the map where nothing else holds it. */
void smap_map_free(smap_map *map);

/* Lends what the program prints of this code, as "M14 Text" or, of a word, "NotUtf8". It stays. Returns 1 where no code has the
 * number. */
uint32_t smap_code_text(smap_code code, smap_text *text);

/* Says why the map file of these bytes is refused, which smap_map_read has refused so: by what the program prints behind the
 * file's path, as "M2 NotJson", in a line; in sentences, each in a line that begins with two blanks, and none where nothing more
 * is known; and by the value of a faulty segment. Each line ends with LF, and in them lines and columns count from 1. The file is
 * read again, which takes as long and as much memory as the first time.
 * Returns 1 where no refusal of a map has these numbers, as those of a base. The bytes `text` are freed by smap_bytes_free. */
uint32_t smap_refusal_explain(const uint8_t *bytes, size_t length, const smap_refusal *refusal, smap_reason *reason,
                              smap_bytes *text);

/* Looks a generated position up: the last mapping on the line at the position or before it answers. Returns 0. */
uint32_t smap_look_up(const smap_map *map, uint32_t line, uint32_t column, smap_found *found);

/* The same in the other direction: the first mapping on the line at the position or after it answers. Returns 0. */
uint32_t smap_look_up_from(const smap_map *map, uint32_t line, uint32_t column, smap_found *found);

/* Looks `count` positions up as smap_look_up does. `places` is the length of `found`, which is `count` too. Returns 0. */
uint32_t smap_look_up_many(const smap_map *map, const smap_position *positions, size_t count, smap_found *found, size_t places);

/* Gives the column of the first mapping on the line that stands behind this column: up to there smap_look_up answers the same. Returns 1
 * where there is none, so that it holds to the line's end. */
uint32_t smap_next_column(const smap_map *map, uint32_t line, uint32_t column, uint32_t *next);

/* Makes the index from original to generated of a map, which may be freed before it: 16 bytes for each mapping that has an original,
 * and 24 for each source. */
uint32_t smap_originals_new(const smap_map *map, smap_originals *originals);

/* Lends the generated places of an original place: of the mappings whose original is on line `line` of source `source`, those at the
 * original column that is next to `column` in this direction, in the order of the map. All have the same original column. `count` is
 * 0 where there is none, or no such source. Returns 1 for another direction. */
uint32_t smap_generated(const smap_originals *originals, uint32_t source, uint32_t line, uint32_t column, uint32_t direction,
                        smap_generated_places *places);

/* Lends all generated places whose original is on line `line` of source `source`, by original columns, and those of one in the order of
 * the map. `count` is 0 where there is none, or no such source. Returns 0. */
uint32_t smap_generated_on_line(const smap_originals *originals, uint32_t source, uint32_t line, smap_generated_places *places);

/* Frees the originals, and leaves their handle empty. */
void smap_originals_free(smap_originals *originals);

/* Reads which names the generated file of a map declares, of which functions in frames get those of their sources. The text is not kept,
 * and the map may be freed before: 40 bytes for each function or class that has a name, also as a property, and that name. Returns 1
 * where the text is not UTF-8 (`NotUtf8`) or has more than 67,108,864 bytes (M1), or the map can't be that of it, as smap_fit says
 * (A4). */
uint32_t smap_names_new(smap_map *map, const uint8_t *generated, size_t length, smap_names *names, smap_code *refusal);

/* Lends the name that a frame's function has in its source: `function` is what the frame prints, and `line` and `column` its generated
 * place. A function is one name, behind `async ` and `new `, which the source's name has not. Of all declarations of that name at the
 * place or before it the last decides, unless its body has ended. `name` stays as long as `function` and the names do. Returns 1 where
 * the function is no such name, as `Object.f` or `<anonymous>`, and where it gets none. */
uint32_t smap_name_of(const smap_names *names, const uint8_t *function, size_t length, uint32_t line, uint32_t column, smap_text *name);

/* Makes `other` another handle of the same names. Each is freed by itself, in any order. */
uint32_t smap_names_share(smap_names *names, smap_names *other);

/* Says for how many bytes of memory the names count: 48 for each function or class that has a name, also as a property. Their map counts
 * for itself. Returns 0. */
uint32_t smap_names_size(const smap_names *names, uint64_t *size);

/* Frees names of functions, and leaves their handle empty. */
void smap_names_free(smap_names *names);

/* Hands out all mappings of the map in their order: `bytes` has one smap_mapping after another, 32 bytes each, which may be
 * read where they are lent. The bytes are freed by smap_bytes_free. */
uint32_t smap_map_mappings(smap_map *map, smap_bytes *bytes);

/* Hands out the text that a map has of these mappings, as its `mappings`. They have the fields of smap_map_mappings: an original
 * where `kind` is 2, and it a name where `named` is not 0. Where it returns 1, `refusal` says why: one stands before the one in
 * front of it, by line and then by column (E1), has a number past 2,147,483,647 (E2), or the text would have more than
 * 67,108,864 bytes (E3). The bytes are freed by smap_bytes_free. */
uint32_t smap_encode(const smap_mapping *mappings, size_t count, smap_bytes *bytes, smap_encode_refusal *refusal);

/* Says how many bytes of the generated file each source makes: `places` numbers at `sources`, which is the map's number of
 * sources, and `unmapped`. Returns 1 where the text is not UTF-8 (`NotUtf8`) or has more than 67,108,864 bytes (M1). */
uint32_t smap_bytes_by_source(smap_map *map, const uint8_t *generated, size_t length, uint64_t *sources, size_t places,
                              uint64_t *unmapped, smap_code *refusal);

/* Says whether the map can be that of this generated file. Returns 1 as smap_bytes_by_source does. */
uint32_t smap_fit(smap_map *map, const uint8_t *generated, size_t length, smap_fit_count *counts, smap_code *refusal);

/* Gives how much the map holds. Returns 0. */
uint32_t smap_counts(const smap_map *map, smap_count *counts);

/* Gives for how many bytes of memory the map counts: those of the texts that it holds, 160 for each section and each source, 40
 * for each name, 32 for each checkpoint and 8 for each mapping. It takes about as much. Returns 0. */
uint32_t smap_map_size(const smap_map *map, uint64_t *size);

/* Lends source or name `index`, or the name of the generated file. Returns 1 where there is none. */
uint32_t smap_source(const smap_map *map, uint32_t index, smap_source_text *source);
uint32_t smap_name(const smap_map *map, uint32_t index, smap_text *name);
uint32_t smap_file(const smap_map *map, smap_text *file);

/* Gives where lines stand in the content of source `source`: line `line`, from 0, with up to `before` lines before it and up to
 * `after` behind it. `places` is the length of `lines`, which is `before` + 1 + `after`; the first are written, and `range` says of
 * which lines. They end in LF, CR LF, CR, U+2028 or U+2029. Returns 1 where there is no such source, or its content has no such line. */
uint32_t smap_source_lines(const smap_map *map, uint32_t source, uint32_t line, uint32_t before, uint32_t after,
                           smap_line_bytes *lines, size_t places, smap_line_range *range);

/* Writes the map as the text of one regular map. Returns 1 where its mappings, as one text, would have more than
 * 67,108,864 bytes (O1). The bytes are freed by smap_bytes_free. */
uint32_t smap_map_write(smap_map *map, smap_bytes *bytes);

/* Writes a debug id, in UTF-8, into the text of a map that was handed out: `debugId`, as the last member of its object. Returns 1 where it
 * is not UTF-8, or no byte was handed out. */
uint32_t smap_bytes_put_debug_id(smap_bytes *bytes, const uint8_t *id, size_t length);

/* Composes two maps, the inner one being of source `source` of the outer one, and writes the map that they come to. They are
 * two handles: to compose a map with itself, share it.
 * Where it returns 1, the outer map has no such source (C1), or the composed map would be too
 * large (C2). The bytes are freed by smap_bytes_free. */
uint32_t smap_compose(smap_map *outer, uint32_t source, smap_map *inner, smap_bytes *bytes, smap_code *refusal);

/* Makes a place for the map of each source of `outer`, all without a map. Later calls with these places want the same map as
 * `outer`. */
uint32_t smap_inners_new(smap_map *outer, smap_inners *inners);

/* Puts the map of source `source` into its place, which takes it over: its handle is empty then. Returns 1 where there is no
 * such source, or its place has a map. */
uint32_t smap_inners_put(smap_inners *inners, uint32_t source, smap_map *map);

/* Takes the map of source `source` out of its place, into the empty handle `map`. Returns 1 where there is none. */
uint32_t smap_inners_take(smap_inners *inners, uint32_t source, smap_map *map);

/* Asks for the next map: `source` is the next source that has a name, of whose map there is none in its place, and to which no
 * source of the same name leads. The map, if there is one, is put by smap_inners_put before the next call; no source is asked
 * for twice. Where all were asked for, `outer` is composed with the maps in the places, which are freed: from then on what that
 * came to stands for `outer`, and has a place for each of its sources. The new ones stand behind the others, and are asked for
 * in turn. Where it returns 1, `refusal` is 0 where no map is wanted any more, and else as for smap_compose_all; then the
 * places stay as they were. */
uint32_t smap_inners_next(smap_map *outer, smap_inners *inners, uint32_t *source, smap_code *refusal);

/* Lends the name of source `source` of those that have a place, until the next call with `outer` or `inners`. Returns 1 where
 * there is none. */
uint32_t smap_inners_name(smap_map *outer, smap_inners *inners, uint32_t source, smap_text *name);

/* Composes a map with the maps of its sources, all at once, and writes the map that they come to: as smap_compose does with
 * one after another, from the least source on. Sources keep their names, save one: where a source of `outer` is called by no
 * URL, and one of its inner map by a relative path, this path goes on from the folder of that name. So "dist/a.js" and
 * "../src/a.ts" give "src/a.ts". The maps stay in their places. Where it returns 1, there are more
 * places than `outer` has sources (C1), or the composed map would be too large (C2). The bytes are freed by
 * smap_bytes_free. */
uint32_t smap_compose_all(smap_map *outer, smap_inners *inners, const smap_compose_options *options, smap_bytes *bytes,
                          smap_code *refusal);

/* Frees the places, with those of the maps in them that nothing else holds, and leaves their handle empty. */
void smap_inners_free(smap_inners *inners);

/* Lends bytes that were handed out. Returns 0. */
uint32_t smap_bytes_text(smap_bytes *bytes, smap_text *text);

/* Frees bytes that were handed out, and leaves their handle empty. */
void smap_bytes_free(smap_bytes *bytes);

/* Lends the version of the library, as "0.3.0". It stays. Returns 0. */
uint32_t smap_version(smap_text *version);

/* Makes a table without maps. */
uint32_t smap_table_new(smap_table *table);

/* Puts the map into the table, under the URL that frames name. One that begins with `*` is a pattern: the map is for each URL that
 * ends, as it stands or before its first `?` or `#`, with the text behind the `*`, where that is empty, begins with `/` or `\`, stands
 * behind one of both, or is the whole. It is the map of those under which there is none, save modules of node's own (`node:fs`) and what
 * was evaluated (`URL line 1 > eval`). Of several the longest text decides, of two as long the first that was added.
 * The table takes the map over: its handle is empty then. Where it returns 1, no frame can name such a URL (A1), the table
 * has a map under it (A2), or the URL is not UTF-8 (`NotUtf8`), and the map stays in its handle. Where it returns 3, which no
 * such URL gets, the map is freed, and its handle is empty. */
uint32_t smap_table_add(smap_table *table, const uint8_t *url, size_t url_length, smap_map *map, smap_code *refusal);

/* The same, where the table holds the map with the handle, which stays as it is. */
uint32_t smap_table_add_shared(smap_table *table, const uint8_t *url, size_t url_length, smap_map *map, smap_code *refusal);

/* Puts names of functions beside the map that the table has under this very URL or pattern, which is to be theirs: frames whose URL has
 * that map get them when they are rewritten. The table holds the names with their handle, which stays as it is. Returns 1 where it has
 * no map there, or names beside it. */
uint32_t smap_table_add_names(smap_table *table, const uint8_t *url, size_t url_length, smap_names *names);

/* Looks a generated position up in the map of this URL, as smap_look_up does, and lends the source that answers and the name
 * of the mapping; what there is not has length 0. Returns 1 where the table has no such map. */
uint32_t smap_table_look_up(const smap_table *table, const uint8_t *url, size_t url_length, uint32_t line, uint32_t column,
                            const smap_table_options *options, smap_found *found, smap_source_text *source, smap_text *name);

/* Lends a URL without its query and its fragment: what stands before its first `?` or `#`. It stays as long as the URL. Returns 0. */
uint32_t smap_cut_url(const uint8_t *url, size_t length, smap_text *cut);

/* Frees the table, with those of its maps that nothing else holds, and leaves its handle empty. */
void smap_table_free(smap_table *table);

/* Rewrites a trace: each frame whose URL has a map in the table and whose place has an original gets it in its place, and, where names
 * stand beside the map, its function the name that smap_name_of gives it; every other byte stays. With `hide_ignored` lines of frames
 * from ignored sources are dropped. Returns 1 where the trace has more than 1,073,741,824 bytes, or more would come out. `counts` is
 * set where it returns 0. The bytes are freed by smap_bytes_free. */
uint32_t smap_rewrite(smap_table *table, const uint8_t *trace, size_t length, bool hide_ignored,
                      smap_bytes *bytes, smap_trace_count *counts);

/* Rewrites a text: each place URL:line:column, wherever it stands in a line, whose URL has a map in the table and which has an
 * original gets it in its stead, and, where it is that of a frame which is a whole line or the line of a string, its function the name
 * as in smap_rewrite; every other byte stays. Returns 1 where the text has more than 1,073,741,824 bytes, where more would come out,
 * and where the table has a map under `*` alone. `counts` is set where it returns 0: `frames` are the places, and none is hidden. The
 * bytes are freed by smap_bytes_free. */
uint32_t smap_rewrite_anywhere(smap_table *table, const uint8_t *text, size_t length, smap_bytes *bytes,
                               smap_trace_count *counts);

/* Rewrites a text as the first of these two calls does, or with `anywhere` as the second. With `strip_ansi` it may have more
 * bytes, if no more are left of it. */
uint32_t smap_rewrite_with(smap_table *table, const uint8_t *text, size_t length, const smap_rewrite_options *options,
                           smap_bytes *bytes, smap_trace_count *counts);

/* The same, where at most `most` bytes may come out. A long name of a source stands in the place of each short frame, so a map of 64 KiB
 * makes gigabytes of a trace of 1 MB. Where it returns 1, `refusal` says why, and how far it came. */
uint32_t smap_rewrite_within(smap_table *table, const uint8_t *text, size_t length, const smap_rewrite_options *options, uint64_t most,
                             smap_bytes *bytes, smap_trace_count *counts, smap_rewrite_refusal *refusal);

/* Finds the URL of the next frame of a trace, from byte `from` on, at which a line begins: 0, or `next` of the frame
 * before. Returns 1 where no frame follows. With it the maps of a trace can be read once frames name them. */
uint32_t smap_next_frame_url(const uint8_t *trace, size_t length, size_t from, smap_frame_url *found);

/* Makes a finder of URLs, with room for the places of any text: no more memory is taken to find them. */
uint32_t smap_url_finder_new(smap_url_finder *finder);

/* Finds the URL of the next place of a text, wherever it stands, as smap_rewrite_anywhere finds those of a pattern for what looks like
 * a URL: it holds `://`, ends with `.js`, `.mjs`, `.cjs` or `.bundle`, or begins with `/`, `\` or a drive. With it the maps of a text
 * can be read once places name them. `from` is 0, another byte at which a line begins, or `next` of the place that the finder found
 * last, in the same text: it keeps where it is in a line, so each byte is read once. Returns 1 where no place follows: the finder has
 * read the text then. */
uint32_t smap_next_place_url(smap_url_finder *finder, const uint8_t *text, size_t length, size_t from, smap_place_url *found);

/* Frees the finder, and leaves its handle empty. */
void smap_url_finder_free(smap_url_finder *finder);

/* Makes a store of maps, which knows of no URL. It asks for nothing: it is given what it knows. Its maps count for at most
 * `most` bytes, or are one alone, each with those of its URL and 128; what was longest not asked for is dropped for what is
 * put. URLs without a map count for theirs and 128, within a sixteenth of `most` for themselves. */
uint32_t smap_store_new(uint64_t most, smap_store *store);

/* Puts the map of this very URL, in the place of what was known under it; it counts for `bytes`, as smap_map_size has them.
 * The store holds the map with the handle, which stays as it is. */
uint32_t smap_store_put(smap_store *store, const uint8_t *url, size_t url_length, smap_map *map, uint64_t bytes);

/* The same with the map of the names, and with them beside it; they count for `bytes`, as smap_map_size and smap_names_size have them
 * together. */
uint32_t smap_store_put_named(smap_store *store, const uint8_t *url, size_t url_length, smap_names *names, uint64_t bytes);

/* Fills `names` with those that the store has with the map of a URL at a time, as smap_names_new made them: nothing is copied. Returns 1
 * where it has none with it. The look-up is not counted. */
uint32_t smap_store_names(smap_store *store, const uint8_t *url, size_t url_length, uint64_t now, smap_names *names);

/* Puts why this very URL has no map, in the place of what was known under it: SMAP_MISSING or SMAP_FAILED, and 1 is returned
 * for another. With `has_until` that holds before the time `until`, in whatever the caller counts `now` in, and else for
 * ever. */
uint32_t smap_store_put_none(smap_store *store, const uint8_t *url, size_t url_length, uint32_t why, bool has_until,
                             uint64_t until);

/* Forgets what is known under this very URL, or which URLs have no map. Returns 0. */
uint32_t smap_store_forget(smap_store *store, const uint8_t *url, size_t url_length);
uint32_t smap_store_forget_none(smap_store *store);

/* Gives how much the store holds, and what was asked of it. Returns 0. */
uint32_t smap_store_count(smap_store *store, smap_store_counts *counts);

/* Lends the URL under which the store has what it knows of a URL: the URL itself, where something was put under it, and else
 * without its query and its fragment. It stays as long as the URL. Returns 0. */
uint32_t smap_store_key(smap_store *store, const uint8_t *url, size_t url_length, smap_text *key);

/* Asks what is known of a URL. Returns 0 where it has a map, 1 where it has none, for which `why` is written, and 2 where
 * that is not known: it is to be put under the URL that smap_store_key lends. The look-up is counted, and what answers is
 * dropped after all others. */
uint32_t smap_store_ask(smap_store *store, const uint8_t *url, size_t url_length, uint64_t now, uint32_t *why);

/* Looks a generated position up in the map that smap_store_ask finds, and lends the source that answers and the name of the
 * mapping, as smap_table_look_up does; with `after` the first mapping on the line at the position or after it answers.
 * Returns what smap_store_ask returns, and counts nothing: ask first, where what is looked up should stay. */
uint32_t smap_store_look_up(smap_store *store, const uint8_t *url, size_t url_length, uint64_t now, uint32_t line,
                            uint32_t column, bool after, smap_found *found, smap_source_text *source, smap_text *name,
                            uint32_t *why);

/* Asks as smap_store_ask does, and makes the empty handle `map` one of the map, for all other calls. It is freed by itself:
 * the store may drop the map before. */
uint32_t smap_store_map(smap_store *store, const uint8_t *url, size_t url_length, uint64_t now, smap_map *map,
                        uint32_t *why);

/* Frees the store, with those of its maps that nothing else holds, and leaves its handle empty. */
void smap_store_free(smap_store *store);

/* Returns 0 where a map may be asked for under a URL without its query and its fragment, and else 1. It looks like one, as for
 * smap_next_place_url, and is no pattern; and a scheme, a drive or a separator stands before its names, or no piece between its `/` and
 * `\` is empty or `..`. */
uint32_t smap_is_location(const uint8_t *url, size_t length);

/* Writes the path of the map that a folder has for a URL, as the program has it of PREFIX=FOLDER/: the folder, what the URL has behind
 * the prefix without its query and its fragment, and `.map`. Returns 1 where the URL does not begin with the prefix, where what stands
 * behind that leads out of the folder, or is no plain path in UTF-8, and where the prefix does not end in `/`, or one of the two is not
 * UTF-8. The folder stands before the path as it is. The bytes are freed by smap_bytes_free. */
uint32_t smap_folder_path(const uint8_t *prefix, size_t prefix_length, const uint8_t *folder, size_t folder_length,
                          const uint8_t *url, size_t url_length, smap_bytes *path);

/* Makes a rewriting of a text that is given piece by piece, as smap_rewrite_within rewrites a whole one with `cut`. */
uint32_t smap_rewriting_new(const smap_rewriting_options *options, smap_rewriting *rewriting);

/* Gives it the next bytes of the text, which are copied. Returns 1 where it would have more than it may, or after
 * smap_rewriting_end. */
uint32_t smap_rewriting_give(smap_rewriting *rewriting, const uint8_t *bytes, size_t length);

/* Tells it that the text ends with the bytes that were given. Returns 0. */
uint32_t smap_rewriting_end(smap_rewriting *rewriting);

/* Goes on. A URL has the map of the table, by the URL, without its query and its fragment, or by a pattern; or else what the store
 * knows of it at the time `now`, which is a look-up that is counted. Give each run the same table, with the same maps. Returns
 * 0 where all is done that can be decided of the bytes that were given;
 * 2 before a frame or a place of whose URL it is not known what map it has: smap_rewriting_url lends it. Once that is put, under what
 *   smap_store_key lends of it, the next call goes on from there;
 * 1 before what would make more come out than may: `refusal` has X5, and how many whole lines were written, those that were
 *   let go of, too; or, with `usage`, where places are rewritten and the table has a map under `*` alone;
 * 3 before a line, bytes or a place for which there is no memory: the next call goes on with that.
 * What stands before is written. */
uint32_t smap_rewriting_run(smap_rewriting *rewriting, smap_table *table, smap_store *store, uint64_t now,
                            smap_rewrite_refusal *refusal);

/* Lets at most `most_output` bytes come out from now on, behind those that are written, as for each part of a stream. Returns 0. */
uint32_t smap_rewriting_allow(smap_rewriting *rewriting, uint64_t most_output);

/* Lends the URL before which a run has returned 2. Where it stands in a string with two backslashes for one, it has one. Returns 1
 * where there is none, as after another run. */
uint32_t smap_rewriting_url(const smap_rewriting *rewriting, smap_text *url);

/* Lends what is written of the text and was not let go of. Returns 0. */
uint32_t smap_rewriting_text(const smap_rewriting *rewriting, smap_text *text);

/* Lets go of what is written of the text. Returns 0. */
uint32_t smap_rewriting_clear(smap_rewriting *rewriting);

/* Gives what was in the text as far as it is done: `frames` are frames or, with `anywhere`, places. Returns 0. */
uint32_t smap_rewriting_count(const smap_rewriting *rewriting, smap_trace_count *counts);

/* Frees the rewriting, and leaves its handle empty. */
void smap_rewriting_free(smap_rewriting *rewriting);

#ifdef __cplusplus
}
#endif

#endif
