/* WHATWG's encoding `replacement`: the standard's decoder gives one error for a text that is not empty, and nothing else.
 *
 * ISO-2022-CN-EXT is read as it too (labels.py). Nobody who writes to that expects UTF-8. */
#include "convert.h"

iconvd_status replacement_begin(struct iconvd_cd *cd, const char *target) {
    struct encoding *utf_8 = encoding_builtin(UTF_8);
    if (cd->to->kind == REPLACEMENT && strcmp(target, cd->to->name) != 0)
        return ICONVD_UNSUPPORTED;
    cd->is_replacement = cd->from->kind == REPLACEMENT;
    cd->from = cd->is_replacement ? utf_8 : cd->from;
    cd->to = cd->to->kind == REPLACEMENT ? utf_8 : cd->to;
    return ICONVD_OK;
}

iconvd_status replacement_convert(struct iconvd_cd *cd, struct progress *progress) {
    bool is_fault = progress->in_left > 0 && !cd->fault_told;
    cd->fault_told |= is_fault;
    if (is_fault && !(cd->policy & ICONVD_IGNORE))
        return ICONVD_EILSEQ;
    progress_pass(progress, progress->in_left, is_fault);
    return ICONVD_OK;
}
