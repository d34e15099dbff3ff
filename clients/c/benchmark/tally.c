/* Adds tallies up. */
#include "tally.h"

static const char *const NAMES[STATUSES] = {"OK",     "E2BIG",  "EILSEQ", "EINVAL", "EBADF", "EMFILE", "ENOMEM", "UNSUPPORTED", "BADREQ",
                                            "BADMAP", "EXISTS", "NONAME", "BUSY",   "QUOTA", "ROOM",   "ENOCHAR", "unknown"};

const char *status_name(unsigned status) {
    return NAMES[status < STATUSES ? status : STATUSES - 1];
}

bool is_stop(unsigned status) {
    return status == ICONVD_E2BIG || status == ICONVD_EILSEQ || status == ICONVD_EINVAL || status == ICONVD_ENOCHAR;
}

bool outcome_count(struct outcome *outcome, uint8_t status) {
    outcome->statuses[status < STATUSES ? status : STATUSES - 1]++;
    return status == ICONVD_OK || is_stop(status);
}

void outcome_merge(struct outcome *outcome, const struct outcome *from) {
    histogram_merge(&outcome->times, &from->times);
    for (unsigned status = 0; status < STATUSES; status++)
        outcome->statuses[status] += from->statuses[status];
    outcome->lost += from->lost;
    outcome->unanswered += from->unanswered;
    outcome->wrong += from->wrong;
}

uint64_t outcome_stopped(const struct outcome *outcome) {
    uint64_t count = 0;
    for (unsigned status = 0; status < STATUSES; status++)
        count += is_stop(status) ? outcome->statuses[status] : 0;
    return count;
}

uint64_t outcome_refused(const struct outcome *outcome) {
    uint64_t count = 0;
    for (unsigned status = 1; status < STATUSES; status++)
        count += is_stop(status) ? 0 : outcome->statuses[status];
    return count;
}

void tally_merge(struct tally *tally, const struct tally *from) {
    for (int i = 0; i < OUTCOMES; i++)
        outcome_merge(&tally->outcomes[i], &from->outcomes[i]);
    tally->text += from->text;
    tally->streams += from->streams;
    tally->unreachable += from->unreachable;
}

uint64_t tally_answered(const struct tally *tally) {
    uint64_t count = 0;
    for (int i = 0; i < OUTCOMES; i++)
        count += tally->outcomes[i].times.count;
    return count;
}

uint64_t tally_errors(const struct tally *tally) {
    uint64_t count = tally->unreachable;
    for (int i = 0; i < OUTCOMES; i++) {
        const struct outcome *outcome = &tally->outcomes[i];
        count += outcome->lost + outcome->unanswered + outcome->wrong + outcome_refused(outcome) + outcome_stopped(outcome);
    }
    return count;
}
