/* Plans a table with four threads of its own, or as many as -DWORKERS=N says, and prints the text that `icescan plan`
 * prints, or its JSON:
 *
 *     engine FOLDER PREFIX METADATA [FILTER [json]]
 *
 * FOLDER stands for the front PREFIX of the table's paths; METADATA is the path of its metadata. */
#include "icescan.h"

#include <inttypes.h>
#include <pthread.h>
#include <stdio.h>
#include <stdlib.h>
#include <string.h>

#ifndef WORKERS
#define WORKERS 4
#endif

static const char *folder, *prefix;
static size_t wanted;
static icescan_bytes *paths;

struct worker {
    icescan_handle state;
    size_t first;
    uint32_t status;
};

/* Ends with the line of a refusal. */
static void check(icescan_handle *handle, uint32_t status) {
    icescan_bytes line = ICESCAN_NO_BYTES;
    if (status == ICESCAN_OK)
        return;
    if (icescan_fault(handle, &line) == ICESCAN_OK)
        fwrite(line.at, 1, line.len, stderr);
    exit((int)status);
}

/* The bytes of the file at a path of the table. */
static uint8_t *read_file(icescan_bytes path, size_t *len) {
    size_t front = strlen(prefix), room = strlen(folder) + path.len + 1;
    char *name = malloc(room);
    if (!name || path.len < front || memcmp(path.at, prefix, front) != 0)
        exit(3);
    snprintf(name, room, "%s%.*s", folder, (int)(path.len - front), (const char *)path.at + front);
    FILE *in = fopen(name, "rb");
    if (!in || fseek(in, 0, SEEK_END) != 0)
        exit(3);
    *len = (size_t)ftell(in);
    rewind(in);
    uint8_t *bytes = malloc(*len + 1);
    if (!bytes || fread(bytes, 1, *len, in) != *len)
        exit(3);
    fclose(in);
    free(name);
    return bytes;
}

static icescan_bytes text(const char *text) {
    icescan_bytes bytes = {(const uint8_t *)text, strlen(text)};
    return bytes;
}

/* Takes every WORKERS-th manifest. */
static void *work(void *at) {
    struct worker *worker = at;
    for (size_t i = worker->first; i < wanted && worker->status == ICESCAN_OK; i += WORKERS) {
        size_t len;
        uint8_t *bytes = read_file(paths[i], &len);
        worker->status = icescan_state_take(&worker->state, i, bytes, len);
        free(bytes);
    }
    return NULL;
}

static void start(icescan_handle *scan, icescan_bytes metadata, icescan_bytes filter) {
    icescan_bytes list = ICESCAN_NO_BYTES;
    size_t len;
    uint8_t *bytes = read_file(metadata, &len);
    check(scan, icescan_scan_new(scan, bytes, len, NULL, 0, filter.at, filter.len));
    free(bytes);
    check(scan, icescan_scan_list(scan, &list));
    bytes = read_file(list, &len);
    check(scan, icescan_scan_start(scan, bytes, len));
    free(bytes);
    check(scan, icescan_scan_count(scan, &wanted));
    if (!(paths = calloc(wanted + 1, sizeof *paths)))
        exit(ICESCAN_MEMORY);
    for (size_t i = 0; i < wanted; i++)
        check(scan, icescan_scan_wanted(scan, i, &paths[i]));
}

/* Has each worker take its manifests, in a thread of its own, and brings what they took together in the first. */
static void take_all(icescan_handle *scan, struct worker *workers) {
    pthread_t threads[WORKERS];
    for (size_t w = 0; w < WORKERS; w++) {
        struct worker worker = {ICESCAN_NOTHING, w, ICESCAN_OK};
        workers[w] = worker;
        check(scan, icescan_state_new(scan, &workers[w].state));
    }
    for (size_t w = 0; w < WORKERS; w++)
        if (pthread_create(&threads[w], NULL, work, &workers[w]) != 0)
            exit(3);
    for (size_t w = 0; w < WORKERS; w++)
        pthread_join(threads[w], NULL);
    for (size_t w = 0; w < WORKERS; w++) {
        check(&workers[w].state, workers[w].status);
        if (w > 0)
            check(&workers[0].state, icescan_state_absorb(&workers[0].state, &workers[w].state));
    }
}

/* A path as the program writes it: a space, a control or a backslash by its digits. */
static void put_path(const char *name, icescan_bytes path) {
    fputs(name, stdout);
    for (size_t i = 0; i < path.len; i++)
        printf(path.at[i] <= ' ' || path.at[i] == 127 || path.at[i] == '\\' ? "\\x%02x" : "%c", path.at[i]);
}

static size_t put_file(icescan_handle *plan, size_t i) {
    icescan_file file = ICESCAN_NO_FILE, delete = ICESCAN_NO_FILE;
    check(plan, icescan_plan_file(plan, i, &file, sizeof file));
    put_path("data ", file.path);
    printf(" seq %" PRIu64 " spec %" PRId32 " rows %" PRId64 " size %" PRId64 "\n", file.sequence_number, file.spec_id,
           file.record_count, file.file_size);
    for (size_t j = 0; j < file.positions; j++) {
        check(plan, icescan_plan_position(plan, i, j, &delete, sizeof delete));
        put_path("  pos ", delete.path);
        printf(" seq %" PRIu64 "\n", delete.sequence_number);
    }
    for (size_t j = 0; j < file.equalities; j++) {
        check(plan, icescan_plan_equality(plan, i, j, &delete, sizeof delete));
        put_path("  eq ", delete.path);
        printf(" seq %" PRIu64 " ids ", delete.sequence_number);
        for (size_t k = 0; k < delete.equality_ids.len; k++)
            printf("%s%" PRId32, k ? "," : "", delete.equality_ids.at[k]);
        puts(delete.equality_ids.len ? "" : "-");
    }
    return file.positions + file.equalities;
}

/* Prints each file. */
static void put_files(icescan_handle *plan) {
    size_t files = 0, deletes = 0;
    check(plan, icescan_plan_count(plan, &files));
    for (size_t i = 0; i < files; i++)
        deletes += put_file(plan, i);
    printf("files %zu deletes %zu\n", files, deletes);
}

/* Prints the plan as JSON. */
static void put_json(icescan_handle *plan) {
    icescan_handle json = ICESCAN_NOTHING;
    icescan_bytes line = ICESCAN_NO_BYTES;
    check(&json, icescan_plan_json(plan, &json));
    check(&json, icescan_text(&json, &line));
    fwrite(line.at, 1, line.len, stdout);
    icescan_free(&json);
}

int main(int count, char **words) {
    icescan_handle scan = ICESCAN_NOTHING;
    struct worker workers[WORKERS];
    if (count < 4) {
        fputs("usage: engine FOLDER PREFIX METADATA [FILTER [json]]\n", stderr);
        return 2;
    }
    folder = words[1], prefix = words[2];
    start(&scan, text(words[3]), text(count > 4 ? words[4] : ""));
    take_all(&scan, workers);
    check(&workers[0].state, icescan_finish(&workers[0].state));
    if (count > 5 && strcmp(words[5], "json") == 0)
        put_json(&workers[0].state);
    else
        put_files(&workers[0].state);
    for (size_t w = 0; w < WORKERS; w++)
        icescan_free(&workers[w].state);
    icescan_free(&scan);
    free(paths);
    return 0;
}
