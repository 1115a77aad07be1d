/* The functions of the library as its callers have them. Each refuses NULL, and then calls the proved function of its
 * name. What may grow in later versions is written as far as the caller has room for it. */
#include "proved.h"

#include <string.h>

static const uint8_t nothing[1];

/* Whether there should be bytes at NULL. */
static int lacks(const uint8_t *bytes, size_t len) {
    return !bytes && len;
}

/* NULL with a length of 0 is no bytes. */
static const uint8_t *some(const uint8_t *bytes) {
    return bytes ? bytes : nothing;
}

/* Hands out what was told, in the caller's size, unless the call was refused. */
static uint32_t hand_out(uint32_t status, void *to, size_t size, const void *told, size_t told_size) {
    if (status == ICESCAN_OK)
        memcpy(to, told, size < told_size ? size : told_size);
    return status;
}

uint32_t icescan_version(void) {
    return ICESCAN_VERSION;
}

uint32_t icescan_scan_new(icescan_handle *scan, const uint8_t *metadata, size_t metadata_len, const uint8_t *name,
                          size_t name_len, const uint8_t *filter, size_t filter_len) {
    if (!scan || lacks(metadata, metadata_len) || lacks(name, name_len) || lacks(filter, filter_len))
        return ICESCAN_NULL;
    return proved_icescan_scan_new(scan, some(metadata), metadata_len, some(name), name_len, some(filter), filter_len);
}

uint32_t icescan_scan_new_at(icescan_handle *scan, const uint8_t *metadata, size_t metadata_len, int64_t snapshot,
                             const uint8_t *filter, size_t filter_len) {
    if (!scan || lacks(metadata, metadata_len) || lacks(filter, filter_len))
        return ICESCAN_NULL;
    return proved_icescan_scan_new_at(scan, some(metadata), metadata_len, snapshot, some(filter), filter_len);
}

uint32_t icescan_relax_new(icescan_handle *relaxed, const uint8_t *metadata, size_t metadata_len, const uint8_t *name,
                           size_t name_len, const uint8_t *filter, size_t filter_len) {
    if (!relaxed || lacks(metadata, metadata_len) || lacks(name, name_len) || lacks(filter, filter_len))
        return ICESCAN_NULL;
    return proved_icescan_relax_new(relaxed, some(metadata), metadata_len, some(name), name_len, some(filter),
                                    filter_len);
}

uint32_t icescan_relax_new_at(icescan_handle *relaxed, const uint8_t *metadata, size_t metadata_len, int64_t snapshot,
                              const uint8_t *filter, size_t filter_len) {
    if (!relaxed || lacks(metadata, metadata_len) || lacks(filter, filter_len))
        return ICESCAN_NULL;
    return proved_icescan_relax_new_at(relaxed, some(metadata), metadata_len, snapshot, some(filter), filter_len);
}

uint32_t icescan_relax_filter(icescan_handle *relaxed, icescan_bytes *text) {
    return relaxed && text ? proved_icescan_relax_filter(relaxed, text) : ICESCAN_NULL;
}

uint32_t icescan_relax_count(icescan_handle *relaxed, size_t *count) {
    return relaxed && count ? proved_icescan_relax_count(relaxed, count) : ICESCAN_NULL;
}

uint32_t icescan_relax_unasked(icescan_handle *relaxed, size_t i, icescan_bytes *text) {
    return relaxed && text ? proved_icescan_relax_unasked(relaxed, i, text) : ICESCAN_NULL;
}

uint32_t icescan_scan_list(icescan_handle *scan, icescan_bytes *path) {
    return scan && path ? proved_icescan_scan_list(scan, path) : ICESCAN_NULL;
}

uint32_t icescan_scan_start(icescan_handle *scan, const uint8_t *list, size_t list_len) {
    if (!scan || lacks(list, list_len))
        return ICESCAN_NULL;
    return proved_icescan_scan_start(scan, some(list), list_len);
}

uint32_t icescan_scan_count(icescan_handle *scan, size_t *count) {
    return scan && count ? proved_icescan_scan_count(scan, count) : ICESCAN_NULL;
}

uint32_t icescan_scan_wanted(icescan_handle *scan, size_t i, icescan_bytes *path) {
    return scan && path ? proved_icescan_scan_wanted(scan, i, path) : ICESCAN_NULL;
}

uint32_t icescan_state_new(icescan_handle *scan, icescan_handle *state) {
    return scan && state ? proved_icescan_state_new(scan, state) : ICESCAN_NULL;
}

uint32_t icescan_state_take(icescan_handle *state, size_t i, const uint8_t *manifest, size_t manifest_len) {
    if (!state || lacks(manifest, manifest_len))
        return ICESCAN_NULL;
    return proved_icescan_state_take(state, i, some(manifest), manifest_len);
}

uint32_t icescan_state_merge(icescan_handle *state, icescan_handle *other) {
    return state && other ? proved_icescan_state_merge(state, other) : ICESCAN_NULL;
}

uint32_t icescan_state_absorb(icescan_handle *state, icescan_handle *other) {
    return state && other ? proved_icescan_state_absorb(state, other) : ICESCAN_NULL;
}

uint32_t icescan_finish(icescan_handle *state) {
    return state ? proved_icescan_finish(state) : ICESCAN_NULL;
}

uint32_t icescan_plan_count(icescan_handle *plan, size_t *count) {
    return plan && count ? proved_icescan_plan_count(plan, count) : ICESCAN_NULL;
}

uint32_t icescan_plan_file(icescan_handle *plan, size_t i, icescan_file *file, size_t size) {
    icescan_file told = ICESCAN_NO_FILE;
    if (!plan || !file)
        return ICESCAN_NULL;
    return hand_out(proved_icescan_plan_file(plan, i, &told), file, size, &told, sizeof told);
}

uint32_t icescan_plan_position(icescan_handle *plan, size_t i, size_t j, icescan_file *file, size_t size) {
    icescan_file told = ICESCAN_NO_FILE;
    if (!plan || !file)
        return ICESCAN_NULL;
    return hand_out(proved_icescan_plan_position(plan, i, j, &told), file, size, &told, sizeof told);
}

uint32_t icescan_plan_equality(icescan_handle *plan, size_t i, size_t j, icescan_file *file, size_t size) {
    icescan_file told = ICESCAN_NO_FILE;
    if (!plan || !file)
        return ICESCAN_NULL;
    return hand_out(proved_icescan_plan_equality(plan, i, j, &told), file, size, &told, sizeof told);
}

uint32_t icescan_plan_value(icescan_handle *plan, size_t i, size_t k, icescan_value *value, size_t size) {
    icescan_value told = ICESCAN_NO_VALUE;
    if (!plan || !value)
        return ICESCAN_NULL;
    return hand_out(proved_icescan_plan_value(plan, i, k, &told), value, size, &told, sizeof told);
}

uint32_t icescan_plan_deletes(icescan_handle *plan, size_t *count) {
    return plan && count ? proved_icescan_plan_deletes(plan, count) : ICESCAN_NULL;
}

uint32_t icescan_plan_delete(icescan_handle *plan, size_t n, icescan_file *file, size_t size) {
    icescan_file told = ICESCAN_NO_FILE;
    if (!plan || !file)
        return ICESCAN_NULL;
    return hand_out(proved_icescan_plan_delete(plan, n, &told), file, size, &told, sizeof told);
}

uint32_t icescan_plan_delete_value(icescan_handle *plan, size_t n, size_t k, icescan_value *value, size_t size) {
    icescan_value told = ICESCAN_NO_VALUE;
    if (!plan || !value)
        return ICESCAN_NULL;
    return hand_out(proved_icescan_plan_delete_value(plan, n, k, &told), value, size, &told, sizeof told);
}

uint32_t icescan_plan_json(icescan_handle *plan, icescan_handle *text) {
    return plan && text ? proved_icescan_plan_json(plan, text) : ICESCAN_NULL;
}

uint32_t icescan_columns_new(icescan_handle *columns, const uint8_t *metadata, size_t metadata_len, const uint8_t *name,
                             size_t name_len) {
    if (!columns || lacks(metadata, metadata_len) || lacks(name, name_len))
        return ICESCAN_NULL;
    return proved_icescan_columns_new(columns, some(metadata), metadata_len, some(name), name_len);
}

uint32_t icescan_columns_new_at(icescan_handle *columns, const uint8_t *metadata, size_t metadata_len,
                                int64_t snapshot) {
    if (!columns || lacks(metadata, metadata_len))
        return ICESCAN_NULL;
    return proved_icescan_columns_new_at(columns, some(metadata), metadata_len, snapshot);
}

uint32_t icescan_audit_new(icescan_handle *audit, const uint8_t *metadata, size_t metadata_len, const uint8_t *name,
                           size_t name_len) {
    if (!audit || lacks(metadata, metadata_len) || lacks(name, name_len))
        return ICESCAN_NULL;
    return proved_icescan_audit_new(audit, some(metadata), metadata_len, some(name), name_len);
}

uint32_t icescan_audit_new_at(icescan_handle *audit, const uint8_t *metadata, size_t metadata_len, int64_t snapshot) {
    if (!audit || lacks(metadata, metadata_len))
        return ICESCAN_NULL;
    return proved_icescan_audit_new_at(audit, some(metadata), metadata_len, snapshot);
}

uint32_t icescan_audit_take(icescan_handle *audit, const uint8_t *manifest, size_t manifest_len) {
    if (!audit || lacks(manifest, manifest_len))
        return ICESCAN_NULL;
    return proved_icescan_audit_take(audit, some(manifest), manifest_len);
}

uint32_t icescan_commit_new(icescan_handle *commit, const uint8_t *metadata, size_t metadata_len, const uint8_t *change,
                            size_t change_len, int64_t snapshot, uint64_t uuid_high, uint64_t uuid_low,
                            int64_t now_ms) {
    if (!commit || lacks(metadata, metadata_len) || lacks(change, change_len))
        return ICESCAN_NULL;
    return proved_icescan_commit_new(commit, some(metadata), metadata_len, some(change), change_len, snapshot,
                                     uuid_high, uuid_low, now_ms);
}

uint32_t icescan_commit_wanted(icescan_handle *commit, icescan_bytes *path) {
    return commit && path ? proved_icescan_commit_wanted(commit, path) : ICESCAN_NULL;
}

uint32_t icescan_commit_take(icescan_handle *commit, const uint8_t *bytes, size_t bytes_len) {
    if (!commit || lacks(bytes, bytes_len))
        return ICESCAN_NULL;
    return proved_icescan_commit_take(commit, some(bytes), bytes_len);
}

uint32_t icescan_commit_count(icescan_handle *commit, size_t *count) {
    return commit && count ? proved_icescan_commit_count(commit, count) : ICESCAN_NULL;
}

uint32_t icescan_commit_file(icescan_handle *commit, size_t i, icescan_bytes *path, icescan_bytes *bytes) {
    return commit && path && bytes ? proved_icescan_commit_file(commit, i, path, bytes) : ICESCAN_NULL;
}

uint32_t icescan_commit_metadata(icescan_handle *commit, icescan_bytes *bytes) {
    return commit && bytes ? proved_icescan_commit_metadata(commit, bytes) : ICESCAN_NULL;
}

uint32_t icescan_explanation_new(icescan_handle *explanation, const uint8_t *metadata, size_t metadata_len,
                                 const uint8_t *name, size_t name_len, const uint8_t *filter, size_t filter_len) {
    if (!explanation || lacks(metadata, metadata_len) || lacks(name, name_len) || lacks(filter, filter_len))
        return ICESCAN_NULL;
    return proved_icescan_explanation_new(explanation, some(metadata), metadata_len, some(name), name_len,
                                          some(filter), filter_len);
}

uint32_t icescan_explanation_new_at(icescan_handle *explanation, const uint8_t *metadata, size_t metadata_len,
                                    int64_t snapshot, const uint8_t *filter, size_t filter_len) {
    if (!explanation || lacks(metadata, metadata_len) || lacks(filter, filter_len))
        return ICESCAN_NULL;
    return proved_icescan_explanation_new_at(explanation, some(metadata), metadata_len, snapshot, some(filter),
                                             filter_len);
}

uint32_t icescan_explanation_wanted(icescan_handle *explanation, icescan_bytes *path) {
    return explanation && path ? proved_icescan_explanation_wanted(explanation, path) : ICESCAN_NULL;
}

uint32_t icescan_explanation_take(icescan_handle *explanation, const uint8_t *bytes, size_t bytes_len) {
    if (!explanation || lacks(bytes, bytes_len))
        return ICESCAN_NULL;
    return proved_icescan_explanation_take(explanation, some(bytes), bytes_len);
}

uint32_t icescan_text(icescan_handle *handle, icescan_bytes *text) {
    return handle && text ? proved_icescan_text(handle, text) : ICESCAN_NULL;
}

uint32_t icescan_fault(icescan_handle *handle, icescan_bytes *line) {
    return handle && line ? proved_icescan_fault(handle, line) : ICESCAN_NULL;
}

uint32_t icescan_reason(icescan_handle *handle, icescan_reason_of *reason) {
    return handle && reason ? proved_icescan_reason(handle, reason) : ICESCAN_NULL;
}

uint32_t icescan_hint(icescan_handle *handle, icescan_bytes *lines) {
    return handle && lines ? proved_icescan_hint(handle, lines) : ICESCAN_NULL;
}

void icescan_free(icescan_handle *handle) {
    if (handle)
        proved_icescan_free(handle);
}
