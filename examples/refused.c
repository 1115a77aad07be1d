/* Hands bad input to the library, and compares what it answers:
 *
 *     refused METADATA LIST MANIFEST
 *
 * The three are files of one table that has snapshots; the manifest is the first that its current snapshot wants. */
#include "icescan.h"

#include <stdio.h>
#include <stdlib.h>
#include <string.h>

static int failures;

static void want(const char *what, uint32_t status, uint32_t wanted) {
    if (status != wanted) {
        printf("%s: status %u, not %u\n", what, (unsigned)status, (unsigned)wanted);
        failures++;
    }
}

/* The line that a handle holds begins so, and the refusal's number is the one in it. */
static void want_line(const char *what, icescan_handle *handle, const char *front) {
    icescan_bytes line = ICESCAN_NO_BYTES;
    icescan_reason_of reason = {0, 0};
    char number[16];
    want(what, icescan_fault(handle, &line), ICESCAN_OK);
    want(what, icescan_reason(handle, &reason), ICESCAN_OK);
    snprintf(number, sizeof number, "%c%u ", (char)reason.letter, (unsigned)reason.number);
    if (line.len < 9 + strlen(number) || memcmp(line.at + 9, number, strlen(number)) != 0) {
        printf("%s: the number is not %s\n", what, number);
        failures++;
    }
    if (line.len < strlen(front) || memcmp(line.at, front, strlen(front)) != 0) {
        printf("%s: %.*s", what, (int)line.len, line.at ? (const char *)line.at : "");
        failures++;
    }
}

struct file {
    uint8_t *bytes;
    size_t len;
};

static struct file read_file(const char *name) {
    struct file file = {malloc(1 << 20), 0};
    FILE *in = fopen(name, "rb");
    if (!in || !file.bytes)
        exit(3);
    file.len = fread(file.bytes, 1, 1 << 20, in);
    fclose(in);
    return file;
}

static const uint8_t *text(const char *text) {
    return (const uint8_t *)text;
}

/* A handle that holds nothing: each call refuses it and leaves what it was to write. */
static void nothing(const char *what, icescan_handle *none) {
    icescan_handle other = ICESCAN_NOTHING;
    icescan_bytes bytes = {text("before"), 6};
    icescan_file file = ICESCAN_NO_FILE;
    icescan_value value = ICESCAN_NO_VALUE;
    icescan_reason_of reason = {77, 77};
    size_t count = 77;
    file.record_count = value.whole = 77;
    want(what, icescan_scan_list(none, &bytes), ICESCAN_KIND);
    want(what, icescan_scan_start(none, text("x"), 1), ICESCAN_KIND);
    want(what, icescan_scan_count(none, &count), ICESCAN_KIND);
    want(what, icescan_scan_wanted(none, 0, &bytes), ICESCAN_KIND);
    want(what, icescan_state_new(none, &other), ICESCAN_KIND);
    want(what, icescan_state_take(none, 0, text("x"), 1), ICESCAN_KIND);
    want(what, icescan_state_merge(none, &other), ICESCAN_KIND);
    want(what, icescan_state_absorb(none, &other), ICESCAN_KIND);
    want(what, icescan_finish(none), ICESCAN_KIND);
    want(what, icescan_plan_count(none, &count), ICESCAN_KIND);
    want(what, icescan_plan_file(none, 0, &file, sizeof file), ICESCAN_KIND);
    want(what, icescan_plan_position(none, 0, 0, &file, sizeof file), ICESCAN_KIND);
    want(what, icescan_plan_equality(none, 0, 0, &file, sizeof file), ICESCAN_KIND);
    want(what, icescan_plan_value(none, 0, 0, &value, sizeof value), ICESCAN_KIND);
    want(what, icescan_plan_deletes(none, &count), ICESCAN_KIND);
    want(what, icescan_plan_delete(none, 0, &file, sizeof file), ICESCAN_KIND);
    want(what, icescan_plan_delete_value(none, 0, 0, &value, sizeof value), ICESCAN_KIND);
    want(what, icescan_relax_filter(none, &bytes), ICESCAN_KIND);
    want(what, icescan_relax_count(none, &count), ICESCAN_KIND);
    want(what, icescan_relax_unasked(none, 0, &bytes), ICESCAN_KIND);
    want(what, icescan_plan_json(none, &other), ICESCAN_KIND);
    want(what, icescan_audit_take(none, text("x"), 1), ICESCAN_KIND);
    want(what, icescan_commit_wanted(none, &bytes), ICESCAN_KIND);
    want(what, icescan_commit_take(none, text("x"), 1), ICESCAN_KIND);
    want(what, icescan_commit_count(none, &count), ICESCAN_KIND);
    want(what, icescan_commit_file(none, 0, &bytes, &bytes), ICESCAN_KIND);
    want(what, icescan_commit_metadata(none, &bytes), ICESCAN_KIND);
    want(what, icescan_text(none, &bytes), ICESCAN_KIND);
    want(what, icescan_fault(none, &bytes), ICESCAN_KIND);
    want(what, icescan_reason(none, &reason), ICESCAN_KIND);
    want(what, icescan_hint(none, &bytes), ICESCAN_KIND);
    if (other.held || bytes.len != 6 || count != 77 || file.record_count != 77 || value.whole != 77 ||
        reason.letter != 77 || reason.number != 77)
        want(what, 1, 0);
}

/* NULL in place of a handle, of bytes or of what is written to: each call refuses it. */
static void null(icescan_handle *scan) {
    icescan_bytes bytes = ICESCAN_NO_BYTES;
    icescan_file file = ICESCAN_NO_FILE;
    icescan_value value = ICESCAN_NO_VALUE;
    icescan_reason_of reason = {0, 0};
    size_t count = 0;
    want("null scan", icescan_scan_new(NULL, text("{"), 1, NULL, 0, NULL, 0), ICESCAN_NULL);
    want("null metadata", icescan_scan_new(scan, NULL, 5, NULL, 0, NULL, 0), ICESCAN_NULL);
    want("null name", icescan_scan_new(scan, text("{"), 1, NULL, 1, NULL, 0), ICESCAN_NULL);
    want("null filter", icescan_scan_new(scan, text("{"), 1, NULL, 0, NULL, 1), ICESCAN_NULL);
    want("null scan", icescan_scan_new_at(NULL, text("{"), 1, 5, NULL, 0), ICESCAN_NULL);
    want("null metadata", icescan_scan_new_at(scan, NULL, 5, 5, NULL, 0), ICESCAN_NULL);
    want("null filter", icescan_scan_new_at(scan, text("{"), 1, 5, NULL, 1), ICESCAN_NULL);
    want("null scan", icescan_scan_list(NULL, &bytes), ICESCAN_NULL);
    want("null path", icescan_scan_list(scan, NULL), ICESCAN_NULL);
    want("null scan", icescan_scan_start(NULL, text("x"), 1), ICESCAN_NULL);
    want("null list", icescan_scan_start(scan, NULL, 1), ICESCAN_NULL);
    want("null scan", icescan_scan_count(NULL, &count), ICESCAN_NULL);
    want("null count", icescan_scan_count(scan, NULL), ICESCAN_NULL);
    want("null scan", icescan_scan_wanted(NULL, 0, &bytes), ICESCAN_NULL);
    want("null path", icescan_scan_wanted(scan, 0, NULL), ICESCAN_NULL);
    want("null scan", icescan_state_new(NULL, scan), ICESCAN_NULL);
    want("null state", icescan_state_new(scan, NULL), ICESCAN_NULL);
    want("null state", icescan_state_take(NULL, 0, text("x"), 1), ICESCAN_NULL);
    want("null manifest", icescan_state_take(scan, 0, NULL, 1), ICESCAN_NULL);
    want("null state", icescan_state_merge(NULL, scan), ICESCAN_NULL);
    want("null other", icescan_state_merge(scan, NULL), ICESCAN_NULL);
    want("null state", icescan_state_absorb(NULL, scan), ICESCAN_NULL);
    want("null other", icescan_state_absorb(scan, NULL), ICESCAN_NULL);
    want("null state", icescan_finish(NULL), ICESCAN_NULL);
    want("null plan", icescan_plan_count(NULL, &count), ICESCAN_NULL);
    want("null count", icescan_plan_count(scan, NULL), ICESCAN_NULL);
    want("null plan", icescan_plan_file(NULL, 0, &file, sizeof file), ICESCAN_NULL);
    want("null file", icescan_plan_file(scan, 0, NULL, sizeof file), ICESCAN_NULL);
    want("null plan", icescan_plan_position(NULL, 0, 0, &file, sizeof file), ICESCAN_NULL);
    want("null file", icescan_plan_position(scan, 0, 0, NULL, sizeof file), ICESCAN_NULL);
    want("null plan", icescan_plan_equality(NULL, 0, 0, &file, sizeof file), ICESCAN_NULL);
    want("null file", icescan_plan_equality(scan, 0, 0, NULL, sizeof file), ICESCAN_NULL);
    want("null plan", icescan_plan_value(NULL, 0, 0, &value, sizeof value), ICESCAN_NULL);
    want("null value", icescan_plan_value(scan, 0, 0, NULL, sizeof value), ICESCAN_NULL);
    want("null plan", icescan_plan_deletes(NULL, &count), ICESCAN_NULL);
    want("null count", icescan_plan_deletes(scan, NULL), ICESCAN_NULL);
    want("null plan", icescan_plan_delete(NULL, 0, &file, sizeof file), ICESCAN_NULL);
    want("null file", icescan_plan_delete(scan, 0, NULL, sizeof file), ICESCAN_NULL);
    want("null plan", icescan_plan_delete_value(NULL, 0, 0, &value, sizeof value), ICESCAN_NULL);
    want("null value", icescan_plan_delete_value(scan, 0, 0, NULL, sizeof value), ICESCAN_NULL);
    want("null plan", icescan_plan_json(NULL, scan), ICESCAN_NULL);
    want("null text", icescan_plan_json(scan, NULL), ICESCAN_NULL);
    want("null handle", icescan_text(NULL, &bytes), ICESCAN_NULL);
    want("null text", icescan_text(scan, NULL), ICESCAN_NULL);
    want("null handle", icescan_reason(NULL, &reason), ICESCAN_NULL);
    want("null reason", icescan_reason(scan, NULL), ICESCAN_NULL);
    want("null handle", icescan_hint(NULL, &bytes), ICESCAN_NULL);
    want("null lines", icescan_hint(scan, NULL), ICESCAN_NULL);
    want("null handle", icescan_fault(NULL, &bytes), ICESCAN_NULL);
    want("null line", icescan_fault(scan, NULL), ICESCAN_NULL);
    icescan_free(NULL);
}

/* NULL in the calls on relaxed filters. */
static void null_relaxed(icescan_handle *relaxed) {
    icescan_bytes bytes = ICESCAN_NO_BYTES;
    size_t count = 0;
    want("null relaxed", icescan_relax_new(NULL, text("{"), 1, NULL, 0, NULL, 0), ICESCAN_NULL);
    want("null metadata", icescan_relax_new(relaxed, NULL, 5, NULL, 0, NULL, 0), ICESCAN_NULL);
    want("null name", icescan_relax_new(relaxed, text("{"), 1, NULL, 1, NULL, 0), ICESCAN_NULL);
    want("null filter", icescan_relax_new(relaxed, text("{"), 1, NULL, 0, NULL, 1), ICESCAN_NULL);
    want("null relaxed", icescan_relax_new_at(NULL, text("{"), 1, 5, NULL, 0), ICESCAN_NULL);
    want("null metadata", icescan_relax_new_at(relaxed, NULL, 5, 5, NULL, 0), ICESCAN_NULL);
    want("null filter", icescan_relax_new_at(relaxed, text("{"), 1, 5, NULL, 1), ICESCAN_NULL);
    want("null relaxed", icescan_relax_filter(NULL, &bytes), ICESCAN_NULL);
    want("null text", icescan_relax_filter(relaxed, NULL), ICESCAN_NULL);
    want("null relaxed", icescan_relax_count(NULL, &count), ICESCAN_NULL);
    want("null count", icescan_relax_count(relaxed, NULL), ICESCAN_NULL);
    want("null relaxed", icescan_relax_unasked(NULL, 0, &bytes), ICESCAN_NULL);
    want("null text", icescan_relax_unasked(relaxed, 0, NULL), ICESCAN_NULL);
}

/* Relaxed filters of a table: what is refused, and what is told of one that is not. */
static void relaxed(struct file metadata) {
    icescan_handle made = ICESCAN_NOTHING;
    icescan_bytes bytes = ICESCAN_NO_BYTES;
    size_t count = 77;
    null_relaxed(&made);
    want("no JSON", icescan_relax_new(&made, text("{]"), 2, NULL, 0, text("true"), 4), ICESCAN_TABLE);
    want_line("no JSON", &made, "icescan: M");
    want("no JSON's hint", icescan_hint(&made, &bytes), ICESCAN_OK);
    if (bytes.len)
        want("metadata that is no JSON has no hint", 1, 0);
    want("no UTF-8", icescan_relax_new(&made, metadata.bytes, metadata.len, text("\xff"), 1, NULL, 0),
         ICESCAN_ENCODING);
    want_line("no UTF-8: what was held stays", &made, "icescan: M");
    want("bad filter", icescan_relax_new(&made, metadata.bytes, metadata.len, NULL, 0, text("= ="), 3), ICESCAN_ASKED);
    want_line("bad filter", &made, "icescan: F");
    want("bad filter's hint", icescan_hint(&made, &bytes), ICESCAN_OK);
    if (bytes.len < 13 || memcmp(bytes.at, "  F1 Syntax: ", 13) != 0 || bytes.at[bytes.len - 1] != '\n')
        want("a hint begins with the refusal's name and ends a line", 1, 0);
    want("a fault is no filter", icescan_relax_filter(&made, &bytes), ICESCAN_KIND);
    want("no filter", icescan_relax_new(&made, metadata.bytes, metadata.len, NULL, 0, NULL, 0), ICESCAN_OK);
    want("no filter", icescan_relax_filter(&made, &bytes), ICESCAN_OK);
    want("no filter", icescan_relax_count(&made, &count), ICESCAN_OK);
    if (bytes.len || count)
        want("no filter asks nothing", 1, 0);
    want("all is asked", icescan_relax_new_at(&made, metadata.bytes, metadata.len, 5, text("true"), 4), ICESCAN_OK);
    want("all is asked", icescan_relax_filter(&made, &bytes), ICESCAN_OK);
    want("past the last", icescan_relax_unasked(&made, 0, &bytes), ICESCAN_PAST_END);
    want("a filter is no scan", icescan_scan_list(&made, &bytes), ICESCAN_KIND);
    icescan_free(&made);
}

/* The columns of a table: what is refused, and that there are some. */
static void columns(struct file metadata) {
    icescan_handle made = ICESCAN_NOTHING, other = ICESCAN_NOTHING;
    icescan_bytes bytes = ICESCAN_NO_BYTES;
    const char *front = "{\"kind\":\"schema\",";
    want("null columns", icescan_columns_new(NULL, text("{"), 1, NULL, 0), ICESCAN_NULL);
    want("null metadata", icescan_columns_new(&made, NULL, 5, NULL, 0), ICESCAN_NULL);
    want("null name", icescan_columns_new(&made, text("{"), 1, NULL, 1), ICESCAN_NULL);
    want("null columns", icescan_columns_new_at(NULL, text("{"), 1, 5), ICESCAN_NULL);
    want("null metadata", icescan_columns_new_at(&made, NULL, 5, 5), ICESCAN_NULL);
    want("no JSON", icescan_columns_new(&made, text("{]"), 2, NULL, 0), ICESCAN_TABLE);
    want_line("no JSON", &made, "icescan: M1 ");
    want("no UTF-8", icescan_columns_new(&made, metadata.bytes, metadata.len, text("\xff"), 1), ICESCAN_ENCODING);
    want_line("no UTF-8: what was held stays", &made, "icescan: M1 ");
    want("no such ref", icescan_columns_new(&made, metadata.bytes, metadata.len, text("nowhere"), 7), ICESCAN_TABLE);
    want_line("no such ref", &made, "icescan: M6 ");
    want("no such snapshot", icescan_columns_new_at(&made, metadata.bytes, metadata.len, 5), ICESCAN_TABLE);
    want_line("no such snapshot", &made, "icescan: M7 ");
    want("a fault is no text", icescan_text(&made, &bytes), ICESCAN_KIND);
    want("columns", icescan_columns_new(&made, metadata.bytes, metadata.len, NULL, 0), ICESCAN_OK);
    want("columns", icescan_text(&made, &bytes), ICESCAN_OK);
    if (bytes.len < strlen(front) || memcmp(bytes.at, front, strlen(front)) != 0)
        want("columns begin with their schema", 1, 0);
    want("columns are no fault", icescan_fault(&made, &bytes), ICESCAN_KIND);
    want("columns are no plan", icescan_plan_json(&made, &other), ICESCAN_KIND);
    icescan_free(&made);
}

/* Audits of a table: what is refused. */
static void audit(struct file metadata, struct file list, struct file manifest) {
    icescan_handle made = ICESCAN_NOTHING, other = ICESCAN_NOTHING;
    icescan_bytes bytes = ICESCAN_NO_BYTES;
    size_t count = 0;
    want("null audit", icescan_audit_new(NULL, text("{"), 1, NULL, 0), ICESCAN_NULL);
    want("null metadata", icescan_audit_new(&made, NULL, 5, NULL, 0), ICESCAN_NULL);
    want("null name", icescan_audit_new(&made, text("{"), 1, NULL, 1), ICESCAN_NULL);
    want("null audit", icescan_audit_new_at(NULL, text("{"), 1, 5), ICESCAN_NULL);
    want("null metadata", icescan_audit_new_at(&made, NULL, 5, 5), ICESCAN_NULL);
    want("null audit", icescan_audit_take(NULL, text("x"), 1), ICESCAN_NULL);
    want("null manifest", icescan_audit_take(&made, NULL, 1), ICESCAN_NULL);
    want("no audit", icescan_audit_take(&made, text("x"), 1), ICESCAN_KIND);
    want("no such snapshot", icescan_audit_new_at(&made, metadata.bytes, metadata.len, 5), ICESCAN_TABLE);
    want_line("no such snapshot", &made, "icescan: M7 ");
    want("audit", icescan_audit_new(&made, metadata.bytes, metadata.len, NULL, 0), ICESCAN_OK);
    want("not started", icescan_audit_take(&made, manifest.bytes, manifest.len), ICESCAN_KIND);
    want("list's path", icescan_scan_list(&made, &bytes), ICESCAN_OK);
    want("started", icescan_scan_start(&made, list.bytes, list.len), ICESCAN_OK);
    want("wanted", icescan_scan_count(&made, &count), ICESCAN_OK);
    want("first", icescan_scan_wanted(&made, 0, &bytes), ICESCAN_OK);
    want("past the last", icescan_scan_wanted(&made, count, &bytes), ICESCAN_PAST_END);
    want("an audit is no scan", icescan_state_new(&made, &other), ICESCAN_KIND);
    want("an audit is no state", icescan_state_take(&made, 0, manifest.bytes, manifest.len), ICESCAN_KIND);
    want("bad manifest", icescan_audit_take(&made, text("Obj"), 3), ICESCAN_TABLE);
    want_line("bad manifest", &made, "icescan: Z2 ");
    want("audit", icescan_audit_new(&made, metadata.bytes, metadata.len, NULL, 0), ICESCAN_OK);
    want("started", icescan_scan_start(&made, list.bytes, list.len), ICESCAN_OK);
    want("not handed in", icescan_finish(&made), ICESCAN_TABLE);
    want_line("not handed in", &made, "icescan: Z1 ");
    icescan_free(&made);
}

/* Commits to a table: what is refused, and one on a table of which only the list was handed in. */
static void commit(struct file metadata, struct file list) {
    static const char *change = "{\"data\": [{\"path\": \"s3://new.parquet\", \"format\": \"parquet\", \"spec-id\": 0, "
                                "\"partition\": [], \"record-count\": 1, \"file-size\": 1}], \"deletes\": []}";
    icescan_handle made = ICESCAN_NOTHING;
    icescan_bytes path = ICESCAN_NO_BYTES, bytes = ICESCAN_NO_BYTES;
    size_t count = 0, len = strlen(change);
    want("null commit", icescan_commit_new(NULL, text("{"), 1, text("{"), 1, 1, 0, 1, 0), ICESCAN_NULL);
    want("null metadata", icescan_commit_new(&made, NULL, 5, text("{"), 1, 1, 0, 1, 0), ICESCAN_NULL);
    want("null change", icescan_commit_new(&made, text("{"), 1, NULL, 1, 1, 0, 1, 0), ICESCAN_NULL);
    want("null path", icescan_commit_wanted(&made, NULL), ICESCAN_NULL);
    want("null file", icescan_commit_take(&made, NULL, 1), ICESCAN_NULL);
    want("null count", icescan_commit_count(&made, NULL), ICESCAN_NULL);
    want("null bytes", icescan_commit_file(&made, 0, &path, NULL), ICESCAN_NULL);
    want("null text", icescan_commit_metadata(&made, NULL), ICESCAN_NULL);
    want("bad change", icescan_commit_new(&made, metadata.bytes, metadata.len, text("[]"), 2, 1, 0, 1, 0),
         ICESCAN_ASKED);
    want_line("bad change", &made, "icescan: C1 ");
    want("bad metadata", icescan_commit_new(&made, text("{"), 1, text(change), len, 1, 0, 1, 0), ICESCAN_TABLE);
    want_line("bad metadata", &made, "icescan: M1 ");
    want("commit", icescan_commit_new(&made, metadata.bytes, metadata.len, text(change), len, 1, 0, 1, 0), ICESCAN_OK);
    want("list wanted", icescan_commit_wanted(&made, &path), ICESCAN_OK);
    want("not prepared", icescan_commit_count(&made, &count), ICESCAN_KIND);
    want("list", icescan_commit_take(&made, list.bytes, list.len), ICESCAN_OK);
    want("manifest wanted", icescan_commit_wanted(&made, &path), ICESCAN_OK);
    want("manifest not handed in", icescan_finish(&made), ICESCAN_TABLE);
    want_line("manifest not handed in", &made, "icescan: K");
    want("a fault is no commit", icescan_commit_metadata(&made, &bytes), ICESCAN_KIND);
    want("a fault has no files", icescan_commit_file(&made, 0, &path, &bytes), ICESCAN_KIND);
    icescan_free(&made);
}

/* Explanations of a plan: what is refused, and one of a table of which only the list was handed in. */
static void explanation(struct file metadata, struct file list) {
    icescan_handle made = ICESCAN_NOTHING;
    icescan_bytes path = ICESCAN_NO_BYTES;
    want("null explanation", icescan_explanation_new(NULL, text("{"), 1, NULL, 0, NULL, 0), ICESCAN_NULL);
    want("null metadata", icescan_explanation_new(&made, NULL, 5, NULL, 0, NULL, 0), ICESCAN_NULL);
    want("null name", icescan_explanation_new(&made, text("{"), 1, NULL, 1, NULL, 0), ICESCAN_NULL);
    want("null filter", icescan_explanation_new(&made, text("{"), 1, NULL, 0, NULL, 1), ICESCAN_NULL);
    want("null explanation", icescan_explanation_new_at(NULL, text("{"), 1, 5, NULL, 0), ICESCAN_NULL);
    want("null path", icescan_explanation_wanted(&made, NULL), ICESCAN_NULL);
    want("null file", icescan_explanation_take(&made, NULL, 1), ICESCAN_NULL);
    want("no explanation", icescan_explanation_take(&made, text("x"), 1), ICESCAN_KIND);
    want("no such snapshot", icescan_explanation_new_at(&made, metadata.bytes, metadata.len, 5, NULL, 0),
         ICESCAN_TABLE);
    want_line("no such snapshot", &made, "icescan: M7 ");
    want("bad filter", icescan_explanation_new(&made, metadata.bytes, metadata.len, NULL, 0, text("= ="), 3),
         ICESCAN_ASKED);
    want_line("bad filter", &made, "icescan: F");
    want("explanation", icescan_explanation_new(&made, metadata.bytes, metadata.len, NULL, 0, NULL, 0), ICESCAN_OK);
    want("list wanted", icescan_explanation_wanted(&made, &path), ICESCAN_OK);
    want("not told", icescan_text(&made, &path), ICESCAN_KIND);
    want("list", icescan_explanation_take(&made, list.bytes, list.len), ICESCAN_OK);
    want("manifest wanted", icescan_explanation_wanted(&made, &path), ICESCAN_OK);
    want("manifest not handed in", icescan_finish(&made), ICESCAN_ABSENT);
    want("a fault is no text", icescan_text(&made, &path), ICESCAN_KIND);
    want("explanation", icescan_explanation_new(&made, metadata.bytes, metadata.len, NULL, 0, NULL, 0), ICESCAN_OK);
    want("bad list", icescan_explanation_take(&made, text("Obj"), 3), ICESCAN_OK);
    want("no manifest wanted", icescan_explanation_wanted(&made, &path), ICESCAN_PAST_END);
    want("past the last", icescan_explanation_take(&made, text("Obj"), 3), ICESCAN_PAST_END);
    want("list refused", icescan_finish(&made), ICESCAN_TABLE);
    icescan_free(&made);
}

int main(int count, char **words) {
    if (count != 4)
        return 2;
    struct file metadata = read_file(words[1]), list = read_file(words[2]), manifest = read_file(words[3]);
    icescan_handle scan = ICESCAN_NOTHING, state = ICESCAN_NOTHING, other = ICESCAN_NOTHING;
    icescan_handle filtered = ICESCAN_NOTHING, another = ICESCAN_NOTHING;
    icescan_bytes path = ICESCAN_NO_BYTES;
    icescan_file file = ICESCAN_NO_FILE;
    icescan_value value = ICESCAN_NO_VALUE;
    size_t wanted = 0;
    /* Of the same scan, made anew; of one that wants the same manifests; of one that wants others. */
    const char *filters[] = {"", "true", "ts < 0"};

    nothing("no handle", &scan);
    null(&scan);
    relaxed(metadata);
    columns(metadata);
    audit(metadata, list, manifest);
    commit(metadata, list);
    explanation(metadata, list);
    icescan_free(&scan);

    /* What is asked. */
    want("no metadata", icescan_scan_new(&scan, NULL, 0, NULL, 0, NULL, 0), ICESCAN_TABLE);
    want_line("no metadata", &scan, "icescan: M");
    want("no JSON", icescan_scan_new(&scan, text("{]"), 2, NULL, 0, NULL, 0), ICESCAN_TABLE);
    want_line("no JSON", &scan, "icescan: M");
    want("no UTF-8", icescan_scan_new(&scan, metadata.bytes, metadata.len, text("\xff"), 1, NULL, 0), ICESCAN_ENCODING);
    want_line("no UTF-8: what was held stays", &scan, "icescan: M");
    want("no such ref", icescan_scan_new(&scan, metadata.bytes, metadata.len, text("nowhere"), 7, NULL, 0),
         ICESCAN_TABLE);
    want_line("no such ref", &scan, "icescan: M");
    want("no such snapshot", icescan_scan_new_at(&scan, metadata.bytes, metadata.len, 5, NULL, 0), ICESCAN_TABLE);
    want_line("no such snapshot", &scan, "icescan: M");
    want("bad filter", icescan_scan_new(&scan, metadata.bytes, metadata.len, NULL, 0, text("= ="), 3), ICESCAN_ASKED);
    want_line("bad filter", &scan, "icescan: F");
    want("a fault is no scan", icescan_scan_count(&scan, &wanted), ICESCAN_KIND);

    /* The list. */
    want("asked", icescan_scan_new(&scan, metadata.bytes, metadata.len, NULL, 0, NULL, 0), ICESCAN_OK);
    want("list's path", icescan_scan_list(&scan, &path), ICESCAN_OK);
    want("not started", icescan_state_new(&scan, &state), ICESCAN_KIND);
    want("null list", icescan_scan_start(&scan, NULL, 9), ICESCAN_NULL);
    want("still asked", icescan_scan_list(&scan, &path), ICESCAN_OK);
    want("bad list", icescan_scan_start(&scan, text("Obj"), 3), ICESCAN_TABLE);
    want_line("bad list", &scan, "");
    want("asked", icescan_scan_new(&scan, metadata.bytes, metadata.len, NULL, 0, NULL, 0), ICESCAN_OK);
    want("started", icescan_scan_start(&scan, list.bytes, list.len), ICESCAN_OK);
    want("twice", icescan_scan_start(&scan, list.bytes, list.len), ICESCAN_KIND);
    want("wanted", icescan_scan_count(&scan, &wanted), ICESCAN_OK);
    want("first", icescan_scan_wanted(&scan, 0, &path), ICESCAN_OK);
    want("past the last", icescan_scan_wanted(&scan, wanted, &path), ICESCAN_PAST_END);
    want("far past", icescan_scan_wanted(&scan, SIZE_MAX, &path), ICESCAN_PAST_END);

    /* States. */
    want("state", icescan_state_new(&scan, &state), ICESCAN_OK);
    want("other state", icescan_state_new(&scan, &other), ICESCAN_OK);
    want("past the last", icescan_state_take(&state, wanted, manifest.bytes, manifest.len), ICESCAN_PAST_END);
    want("null manifest", icescan_state_take(&state, 0, NULL, 1), ICESCAN_NULL);
    want("a scan is no state", icescan_state_merge(&state, &scan), ICESCAN_KIND);
    want("a state is no scan", icescan_state_new(&state, &other), ICESCAN_KIND);
    want("taken", icescan_state_take(&state, 0, manifest.bytes, manifest.len), ICESCAN_OK);
    want("merged", icescan_state_merge(&state, &other), ICESCAN_OK);
    for (size_t i = 0; i < sizeof filters / sizeof *filters; i++) {
        want(filters[i], icescan_scan_new(&filtered, metadata.bytes, metadata.len, NULL, 0, text(filters[i]),
             strlen(filters[i])), ICESCAN_OK);
        want(filters[i], icescan_scan_start(&filtered, list.bytes, list.len), ICESCAN_OK);
        want(filters[i], icescan_state_new(&filtered, &another), ICESCAN_OK);
        want(filters[i], icescan_state_merge(&state, &another), i ? ICESCAN_OTHER_SCAN : ICESCAN_OK);
        want(filters[i], icescan_state_absorb(&state, &another), i ? ICESCAN_OTHER_SCAN : ICESCAN_OK);
    }
    want("absorbed", icescan_state_take(&another, 0, manifest.bytes, manifest.len), ICESCAN_KIND);
    want("a new state", icescan_state_new(&scan, &another), ICESCAN_OK);
    want("absorbed", icescan_state_absorb(&state, &another), ICESCAN_OK);
    want("absorbed once", icescan_state_absorb(&state, &another), ICESCAN_KIND);
    if (wanted > 1) {
        want("not all", icescan_finish(&state), ICESCAN_TABLE);
        want_line("not all", &state, "icescan: Z1 Missing");
    }
    for (size_t i = 0; i < wanted; i++)
        want("no manifest", icescan_state_take(&other, i, text("Obj"), 3), ICESCAN_OK);
    want("bad manifests", icescan_finish(&other), ICESCAN_TABLE);
    want_line("bad manifests", &other, "icescan: Z2 Bad");
    want("a fault is no plan", icescan_plan_file(&other, 0, &file, sizeof file), ICESCAN_KIND);

    /* A plan: past the last of what it has. */
    want("filtered", icescan_scan_new(&filtered, metadata.bytes, metadata.len, NULL, 0, text("false"), 5), ICESCAN_OK);
    want("filtered", icescan_scan_start(&filtered, list.bytes, list.len), ICESCAN_OK);
    want("filtered", icescan_state_new(&filtered, &another), ICESCAN_OK);
    want("an empty plan", icescan_finish(&another), ICESCAN_OK);
    want("no delete files", icescan_plan_deletes(&another, &wanted), ICESCAN_OK);
    if (wanted)
        want("no delete files", 1, 0);
    want("no file", icescan_plan_file(&another, 0, &file, sizeof file), ICESCAN_PAST_END);
    want("no value", icescan_plan_value(&another, 0, 0, &value, sizeof value), ICESCAN_PAST_END);
    want("no delete file", icescan_plan_delete(&another, 0, &file, sizeof file), ICESCAN_PAST_END);
    want("no value", icescan_plan_delete_value(&another, 0, 0, &value, sizeof value), ICESCAN_PAST_END);

    icescan_free(&other);
    icescan_free(&other);
    nothing("freed", &other);
    icescan_free(&scan);
    icescan_free(&state);
    icescan_free(&filtered);
    icescan_free(&another);
    free(metadata.bytes);
    free(list.bytes);
    free(manifest.bytes);
    if (!failures)
        puts("refused as they should be");
    return failures != 0;
}
