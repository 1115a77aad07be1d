/* The functions that crates/icescan_c exports and that are proved, under the names that tools/build_c gives them. They
 * take bytes, handles and what is written to to be there. */
#ifndef ICESCAN_PROVED_H
#define ICESCAN_PROVED_H

#include "icescan.h"

uint32_t proved_icescan_scan_new(icescan_handle *scan, const uint8_t *metadata, size_t metadata_len,
                                 const uint8_t *name, size_t name_len, const uint8_t *filter, size_t filter_len);
uint32_t proved_icescan_scan_new_at(icescan_handle *scan, const uint8_t *metadata, size_t metadata_len,
                                    int64_t snapshot, const uint8_t *filter, size_t filter_len);
uint32_t proved_icescan_relax_new(icescan_handle *relaxed, const uint8_t *metadata, size_t metadata_len,
                                  const uint8_t *name, size_t name_len, const uint8_t *filter, size_t filter_len);
uint32_t proved_icescan_relax_new_at(icescan_handle *relaxed, const uint8_t *metadata, size_t metadata_len,
                                     int64_t snapshot, const uint8_t *filter, size_t filter_len);
uint32_t proved_icescan_relax_filter(icescan_handle *relaxed, icescan_bytes *text);
uint32_t proved_icescan_relax_count(icescan_handle *relaxed, size_t *count);
uint32_t proved_icescan_relax_unasked(icescan_handle *relaxed, size_t i, icescan_bytes *text);
uint32_t proved_icescan_scan_list(icescan_handle *scan, icescan_bytes *path);
uint32_t proved_icescan_scan_start(icescan_handle *scan, const uint8_t *list, size_t list_len);
uint32_t proved_icescan_scan_count(icescan_handle *scan, size_t *count);
uint32_t proved_icescan_scan_wanted(icescan_handle *scan, size_t i, icescan_bytes *path);
uint32_t proved_icescan_state_new(icescan_handle *scan, icescan_handle *state);
uint32_t proved_icescan_state_take(icescan_handle *state, size_t i, const uint8_t *manifest, size_t manifest_len);
uint32_t proved_icescan_state_merge(icescan_handle *state, icescan_handle *other);
uint32_t proved_icescan_state_absorb(icescan_handle *state, icescan_handle *other);
uint32_t proved_icescan_finish(icescan_handle *state);
uint32_t proved_icescan_plan_count(icescan_handle *plan, size_t *count);
uint32_t proved_icescan_plan_file(icescan_handle *plan, size_t i, icescan_file *file);
uint32_t proved_icescan_plan_position(icescan_handle *plan, size_t i, size_t j, icescan_file *file);
uint32_t proved_icescan_plan_equality(icescan_handle *plan, size_t i, size_t j, icescan_file *file);
uint32_t proved_icescan_plan_value(icescan_handle *plan, size_t i, size_t k, icescan_value *value);
uint32_t proved_icescan_plan_deletes(icescan_handle *plan, size_t *count);
uint32_t proved_icescan_plan_delete(icescan_handle *plan, size_t n, icescan_file *file);
uint32_t proved_icescan_plan_delete_value(icescan_handle *plan, size_t n, size_t k, icescan_value *value);
uint32_t proved_icescan_plan_json(icescan_handle *plan, icescan_handle *text);
uint32_t proved_icescan_columns_new(icescan_handle *columns, const uint8_t *metadata, size_t metadata_len,
                                    const uint8_t *name, size_t name_len);
uint32_t proved_icescan_columns_new_at(icescan_handle *columns, const uint8_t *metadata, size_t metadata_len,
                                       int64_t snapshot);
uint32_t proved_icescan_audit_new(icescan_handle *audit, const uint8_t *metadata, size_t metadata_len,
                                  const uint8_t *name, size_t name_len);
uint32_t proved_icescan_audit_new_at(icescan_handle *audit, const uint8_t *metadata, size_t metadata_len,
                                     int64_t snapshot);
uint32_t proved_icescan_audit_take(icescan_handle *audit, const uint8_t *manifest, size_t manifest_len);
uint32_t proved_icescan_commit_new(icescan_handle *commit, const uint8_t *metadata, size_t metadata_len,
                                   const uint8_t *change, size_t change_len, int64_t snapshot, uint64_t uuid_high,
                                   uint64_t uuid_low, int64_t now_ms);
uint32_t proved_icescan_commit_wanted(icescan_handle *commit, icescan_bytes *path);
uint32_t proved_icescan_commit_take(icescan_handle *commit, const uint8_t *bytes, size_t bytes_len);
uint32_t proved_icescan_commit_count(icescan_handle *commit, size_t *count);
uint32_t proved_icescan_commit_file(icescan_handle *commit, size_t i, icescan_bytes *path, icescan_bytes *bytes);
uint32_t proved_icescan_commit_metadata(icescan_handle *commit, icescan_bytes *bytes);
uint32_t proved_icescan_explanation_new(icescan_handle *explanation, const uint8_t *metadata, size_t metadata_len,
                                        const uint8_t *name, size_t name_len, const uint8_t *filter,
                                        size_t filter_len);
uint32_t proved_icescan_explanation_new_at(icescan_handle *explanation, const uint8_t *metadata, size_t metadata_len,
                                           int64_t snapshot, const uint8_t *filter, size_t filter_len);
uint32_t proved_icescan_explanation_wanted(icescan_handle *explanation, icescan_bytes *path);
uint32_t proved_icescan_explanation_take(icescan_handle *explanation, const uint8_t *bytes, size_t bytes_len);
uint32_t proved_icescan_text(icescan_handle *handle, icescan_bytes *text);
uint32_t proved_icescan_fault(icescan_handle *handle, icescan_bytes *line);
uint32_t proved_icescan_reason(icescan_handle *handle, icescan_reason_of *reason);
uint32_t proved_icescan_hint(icescan_handle *handle, icescan_bytes *lines);
void proved_icescan_free(icescan_handle *handle);

#endif
