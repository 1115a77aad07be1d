/* Plans a table and says, for each format and partition that the plan has, how many files and rows are to be read and
 * how many delete files apply to them:
 *
 *     partitions FOLDER PREFIX METADATA [FILTER]
 *
 * FOLDER stands for the front PREFIX of the table's paths; METADATA is the path of its metadata. Of a filter that asks
 * what can't be asked of a column, the rest is asked: a line on standard error says what was not. */
#include "icescan.h"

#include <inttypes.h>
#include <stdio.h>
#include <stdlib.h>
#include <string.h>

static const char *folder, *prefix;
static const char *formats[] = {"unknown", "avro", "orc", "parquet"};

struct group {
    char name[256];
    size_t files, deletes;
    int64_t rows;
};

/* Ends with the line of a refusal. */
static void check(icescan_handle *handle, uint32_t status) {
    icescan_bytes line = ICESCAN_NO_BYTES;
    if (status == ICESCAN_OK)
        return;
    if (icescan_fault(handle, &line) == ICESCAN_OK)
        fwrite(line.at, 1, line.len, stderr);
    exit((int)status);
}

static icescan_bytes text(const char *text) {
    icescan_bytes bytes = {(const uint8_t *)text, strlen(text)};
    return bytes;
}

/* The bytes of the file at a path of the table. */
static uint8_t *read_file(icescan_bytes path, size_t *len) {
    size_t front = strlen(prefix), room = strlen(folder) + path.len + 1;
    char *name = malloc(room);
    if (!name || path.len < front || memcmp(path.at, prefix, front) != 0)
        exit(3);
    snprintf(name, room, "%s%.*s", folder, (int)(path.len - front), (const char *)path.at + front);
    FILE *in = fopen(name, "rb");
    if (!in || fseek(in, 0, SEEK_END) != 0)
        exit(3);
    *len = (size_t)ftell(in);
    rewind(in);
    uint8_t *bytes = malloc(*len + 1);
    if (!bytes || fread(bytes, 1, *len, in) != *len)
        exit(3);
    fclose(in);
    free(name);
    return bytes;
}

/* Has a state take all manifests that a scan of the table wants, one after the other. */
static void take_all(const char *metadata, const char *asked, icescan_handle *plan) {
    icescan_handle relaxed = ICESCAN_NOTHING, scan = ICESCAN_NOTHING;
    icescan_bytes path = ICESCAN_NO_BYTES, filter = text(asked);
    size_t len, count = 0;
    uint8_t *bytes = read_file(text(metadata), &len);
    check(&relaxed, icescan_relax_new(&relaxed, bytes, len, NULL, 0, filter.at, filter.len));
    check(&relaxed, icescan_relax_count(&relaxed, &count));
    for (size_t i = 0; i < count; i++) {
        check(&relaxed, icescan_relax_unasked(&relaxed, i, &path));
        fprintf(stderr, "not asked: %.*s\n", (int)path.len, (const char *)path.at);
    }
    check(&relaxed, icescan_relax_filter(&relaxed, &filter));
    check(&scan, icescan_scan_new(&scan, bytes, len, NULL, 0, filter.at, filter.len));
    free(bytes);
    check(&scan, icescan_scan_list(&scan, &path));
    bytes = read_file(path, &len);
    check(&scan, icescan_scan_start(&scan, bytes, len));
    free(bytes);
    check(&scan, icescan_state_new(&scan, plan));
    check(&scan, icescan_scan_count(&scan, &count));
    for (size_t i = 0; i < count; i++) {
        check(&scan, icescan_scan_wanted(&scan, i, &path));
        bytes = read_file(path, &len);
        check(plan, icescan_state_take(plan, i, bytes, len));
        free(bytes);
    }
    check(plan, icescan_finish(plan));
    icescan_free(&scan);
    icescan_free(&relaxed);
}

/* Writes a partition value behind a name. */
static void put_value(char *name, size_t room, const icescan_value *value) {
    size_t len = strlen(name);
    if (value->kind == ICESCAN_BOOLEAN || value->kind == ICESCAN_WHOLE)
        snprintf(name + len, room - len, " %" PRId64, value->whole);
    else if (value->kind == ICESCAN_TEXT)
        snprintf(name + len, room - len, " '%.*s'", (int)value->bytes.len, (const char *)value->bytes.at);
    else if (value->kind == ICESCAN_NULL_VALUE)
        snprintf(name + len, room - len, " null");
    else
        snprintf(name + len, room - len, " %zu bytes", value->bytes.len);
}

/* The group of a data file, by the name that its format, spec and partition values make. */
static struct group *group_of(icescan_handle *plan, const icescan_file *file, struct group *groups, size_t *count) {
    struct group made = {{0}, 0, 0, 0};
    icescan_value value = ICESCAN_NO_VALUE;
    snprintf(made.name, sizeof made.name, "%s spec %" PRId32, formats[file->format & 3], file->spec_id);
    for (size_t k = 0; k < file->values; k++) {
        check(plan, icescan_plan_value(plan, file->number, k, &value, sizeof value));
        put_value(made.name, sizeof made.name, &value);
    }
    for (size_t g = 0; g < *count; g++)
        if (strcmp(groups[g].name, made.name) == 0)
            return &groups[g];
    groups[*count] = made;
    return &groups[(*count)++];
}

int main(int words, char **word) {
    icescan_handle plan = ICESCAN_NOTHING;
    icescan_file file = ICESCAN_NO_FILE;
    size_t files = 0, count = 0;
    if (words < 4) {
        fputs("usage: partitions FOLDER PREFIX METADATA [FILTER]\n", stderr);
        return 2;
    }
    folder = word[1], prefix = word[2];
    take_all(word[3], words > 4 ? word[4] : "", &plan);
    check(&plan, icescan_plan_count(&plan, &files));
    struct group *groups = calloc(files + 1, sizeof *groups);
    for (size_t i = 0; groups && i < files; i++) {
        check(&plan, icescan_plan_file(&plan, i, &file, sizeof file));
        struct group *group = group_of(&plan, &file, groups, &count);
        group->files++;
        group->rows += file.record_count;
        group->deletes += file.positions + file.equalities;
    }
    for (size_t g = 0; g < count; g++)
        printf("%s: files %zu rows %" PRId64 " deletes %zu\n", groups[g].name, groups[g].files, groups[g].rows,
               groups[g].deletes);
    free(groups);
    icescan_free(&plan);
    return 0;
}
