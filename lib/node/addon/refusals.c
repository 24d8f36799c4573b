/* Why something is refused, in numbers and words. */
#include "addon.h"
#include <math.h>

/* The refusal of these six numbers. */
static smap_refusal refusal_of(const double *n) {
    return (smap_refusal){(uint32_t)n[0], (uint32_t)n[1], (uint32_t)n[2], (uint32_t)n[3], (uint64_t)n[4], (uint64_t)n[5]};
}

void put_refusal(const smap_refusal *refusal, double *n) {
    n[0] = refusal->code, n[1] = refusal->cause, n[2] = refusal->line;
    n[3] = refusal->has_section, n[4] = (double)refusal->section, n[5] = (double)refusal->byte;
}

/* refusalExplain(bytes, numbers, reason): the lines on why these bytes are so refused, as a Buffer, or null, with the value,
 * the least, the most and the column in a Float64Array of 4: NaN for what there is not. */
napi_value refusal_explain(napi_env env, smap_text bytes, double *refused, double *numbers) {
    smap_refusal refusal = refusal_of(refused);
    smap_reason reason = {0};
    smap_bytes text = {0};
    uint32_t status = smap_refusal_explain(bytes.bytes, bytes.length, &refusal, &reason, &text);
    if (status != SMAP_DONE) return status == SMAP_REFUSED ? null(env) : refuse(env, "out of memory");
    numbers[0] = reason.has_value ? (double)reason.value : NAN;
    numbers[1] = reason.has_least ? (double)reason.least : NAN;
    numbers[2] = reason.has_most ? (double)reason.most : NAN;
    numbers[3] = reason.has_column ? (double)reason.generated_column : NAN;
    return buffer(env, &text);
}

/* codeText(code): what the program prints of a code, or null. */
napi_value code_text(napi_env env, uint32_t code) {
    smap_text text = SMAP_TEXT;
    return smap_code_text(code, &text) == SMAP_DONE ? string(env, text) : null(env);
}

napi_value codes_of(napi_env env) {
    static const struct { const char *name; smap_code code; } codes[] = {
        {"C1", SMAP_CODE_C1}, {"C2", SMAP_CODE_C2}, {"C4", SMAP_CODE_C4}, {"E1", SMAP_CODE_E1}, {"M14", SMAP_CODE_M14},
        {"O1", SMAP_CODE_O1}, {"U1", SMAP_CODE_U1}, {"USAGE", SMAP_CODE_USAGE}, {"X3", SMAP_CODE_X3}, {"X5", SMAP_CODE_X5},
    };
    napi_value result;
    if (napi_create_object(env, &result) != napi_ok) return refuse(env, "out of memory");
    for (size_t i = 0; i < sizeof codes / sizeof *codes; i++)
        if (!define(env, result, codes[i].name, number(env, codes[i].code))) return NULL;
    return result;
}
