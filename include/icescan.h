/* Rows that are read must still be filtered: a plan leaves out files, and a file that it has may hold rows that do not
 * meet the filter.
 *
 * icescan for C: which files a scan of an Apache Iceberg table (format version 2) has to read.
 *
 * The caller reads files and has threads; the library is handed bytes and gives the plan:
 *
 *     icescan_handle scan = ICESCAN_NOTHING, state = ICESCAN_NOTHING;
 *     icescan_scan_new(&scan, metadata, metadata_len, "", 0, filter, filter_len);
 *     icescan_scan_list(&scan, &path);                 read the file at that path ..
 *     icescan_scan_start(&scan, list, list_len);       .. and hand its bytes in
 *     icescan_state_new(&scan, &state);
 *     icescan_scan_count(&scan, &count);
 *     for each i below count, in any order:
 *         icescan_scan_wanted(&scan, i, &path);        read the file at that path ..
 *         icescan_state_take(&state, i, bytes, len);   .. and hand its bytes in
 *     icescan_finish(&state);                          the state is the plan now
 *     icescan_plan_count(&state, &count);
 *     for each i below count:
 *         icescan_plan_file(&state, i, &file, sizeof file);
 *     icescan_free(&state);
 *     icescan_free(&scan);
 *
 * Each call answers how it ended. Of one scan there may be many states, each in a thread of its own;
 * icescan_state_absorb and icescan_state_merge bring together what they took, in any order, and the plan is that of one
 * state that took every manifest. A plan names files, with their formats and partition values: it has no bounds.
 *
 * Files. The library opens none. A path that it lends is the table's own, as s3://warehouse/t/metadata/m0.avro: bytes
 * of UTF-8, without a 0 at their end. What is handed in is the whole file: metadata of format version 2 as JSON that is
 * not compressed, and a list and manifests in Avro's codec `null`; tools/uncompress.py makes those of others.
 *
 * Filters. A filter says which rows are asked for, and a data file is left out only where none of its rows can meet it:
 *
 *     id = 42 and cat != 'books'        also < <= > >=; a quote in a text stands twice
 *     id in (1, 2, 3) or id not in (4)  `and` binds closer than `or`; round brackets group
 *     cat is null                       or: cat is not null
 *     note starts with 'note 4'         texts alone
 *     ts >= 1709856000000000            times are microseconds, dates days, since 1970-01-01 00:00 UTC
 *     key = x'00ff'                     bytes in hexadecimal digits; a uuid is a text
 *     place."post code" = '0150'        a dot leads into a struct; double quotes are for names that are no plain words
 *
 * `true` and `false` are filters too. Floats, doubles, decimals, lists and maps are not compared: such a filter is
 * refused, and icescan_relax_new makes one of it that is not.
 *
 * Handles. A handle is ICESCAN_NOTHING before it is first handed in. The library alone writes it, and the caller never
 * copies it. It goes to one call at a time, also where the call only reads, and no call is given one handle twice: so
 * threads that take manifests have their paths lent before they start. Another thread may have it once the caller has
 * ordered the two, by a lock, or by starting or joining a thread. The caller frees it with icescan_free: states, scan
 * and plan in any order.
 *
 * What is lent by pointer and length is read only. It stays until the next call that changes what the handle holds:
 * icescan_free, icescan_scan_new, icescan_scan_new_at, icescan_relax_new, icescan_relax_new_at, icescan_columns_new,
 * icescan_columns_new_at, icescan_audit_new, icescan_audit_new_at, icescan_audit_take, icescan_commit_new,
 * icescan_commit_take, icescan_explanation_new, icescan_explanation_new_at, icescan_explanation_take,
 * icescan_scan_start, icescan_finish, icescan_state_absorb on the other's handle, icescan_state_new on the state's
 * handle, and icescan_plan_json on the text's handle.
 *
 * Bytes that are handed in are read during the call and never after it. The library can't tell whether they are there.
 *
 * What is written to, a count, a file or a value, has something in it before, as 0 or ICESCAN_NO_FILE. A call that is
 * refused leaves it as it was. icescan_file and icescan_value may grow at their ends in later versions: the caller says
 * how large they are, and fields that the library does not know stay as they were.
 *
 * Texts. What is read once, and seldom by programs in C alone, is told as the program's own JSON: a handle holds the
 * text, icescan_text lends it, and docs/USING.md has its members. Columns are lines with an object each, and a plan is
 * one line.
 *
 * A handle that holds nothing, or was freed, or holds another kind of thing; a number past the end; NULL in place of a
 * handle, of bytes or of what is written to; a text that is no UTF-8; metadata, a list or a manifest that is none: each
 * is answered by a status. Left to the caller is that no call is made from a signal's handler, or in the forked child
 * of a process with threads. Memory is taken by malloc, realloc and free.
 */
#ifndef ICESCAN_H
#define ICESCAN_H

#include <stddef.h>
#include <stdint.h>

#ifdef __cplusplus
extern "C" {
#endif

/* The version of this header, as text and as a number: 10,000 times its first part, 100 times its second, and its
 * third. icescan_version answers the number of the library. */
#define ICESCAN_VERSION_TEXT "0.1.0"
#define ICESCAN_VERSION 100

uint32_t icescan_version(void);

/* How a call ended. A call on a handle of another kind answers ICESCAN_KIND; what else it may answer stands at it. With
 * the number 4 the program `icescan` ends where a file is there already: no call does. */
enum {
    ICESCAN_OK = 0,
    ICESCAN_TABLE = 1,      /* the table is refused, or has no such snapshot: icescan_fault tells why */
    ICESCAN_ASKED = 2,      /* the filter or the change is refused: icescan_fault tells why */
    ICESCAN_ABSENT = 3,     /* a file that an explanation wants was not handed in: icescan_fault tells which */
    ICESCAN_MEMORY = 5,     /* memory ran out */
    ICESCAN_KIND = 6,       /* the handle holds nothing of the kind that the call is for */
    ICESCAN_PAST_END = 7,   /* there is no such number */
    ICESCAN_ENCODING = 8,   /* a name or a filter is no UTF-8 */
    ICESCAN_OTHER_SCAN = 9, /* the states are of two scans */
    ICESCAN_NULL = 10       /* NULL in place of a handle, of bytes, or of what is written to */
};

/* A scan, a state, a plan, a relaxed filter, an audit, a commit, an explanation, a text, or the line of a fault;
 * nothing where `held` is NULL. */
typedef struct {
    void *held;
} icescan_handle;

#define ICESCAN_NOTHING {NULL}

/* Bytes that are lent: where they begin, which is NULL where there are none, and how many there are. */
typedef struct {
    const uint8_t *at;
    size_t len;
} icescan_bytes;

#define ICESCAN_NO_BYTES {NULL, 0}

/* The ids of columns, in the same way. */
typedef struct {
    const int32_t *at;
    size_t len;
} icescan_ids;

/* A data file or a delete file of a plan. Its counts are as its manifest says: any number. */
typedef struct {
    icescan_bytes path;
    icescan_ids equality_ids;  /* of an equality delete file: the columns by which it deletes */
    uint64_t sequence_number;
    int64_t record_count;
    int64_t file_size;         /* in bytes */
    size_t positions;          /* of a data file: how many position delete files apply to it */
    size_t equalities;         /* and how many equality delete files */
    int32_t spec_id;
    uint32_t format;           /* as below; ICESCAN_NO_FORMAT where its manifest names none that is known */
    size_t number;             /* among the data files of the plan, or among its delete files */
    size_t values;             /* how many partition values it has */
    uint64_t file_sequence_number; /* of the commit that added it, or ICESCAN_NO_NUMBER: an early writer left it out */
} icescan_file;

#define ICESCAN_NO_FILE {{NULL, 0}, {NULL, 0}, 0, 0, 0, 0, 0, 0, 0, 0, 0, 0}
#define ICESCAN_NO_NUMBER UINT64_MAX

enum {
    ICESCAN_NO_FORMAT = 0,
    ICESCAN_AVRO = 1,
    ICESCAN_ORC = 2,
    ICESCAN_PARQUET = 3
};

/* The type of a partition value. */
typedef struct {
    uint32_t number;           /* as below */
    uint32_t width;            /* how many digits a decimal has, or bytes a fixed; 0 of another type */
    uint32_t scale;            /* how many digits of a decimal stand behind the point; 0 of another type */
} icescan_type;

/* A partition value. Its type says what it means: an int, a long, a date, a time or a timestamp is a whole number, of
 * days or microseconds; a uuid, a fixed and a binary are their bytes; a decimal is its unscaled number, in two's
 * complement with the most significant byte first. The bytes of a text and of a byte string are what the table format
 * calls the single-value form; that of a whole number is 4 bytes for an int or a date and else 8, the least significant
 * first. The type is that of the field's transform, over the column in the schema by which the filter was read: days
 * are dates; years, months, hours and buckets are ints. A null has its field's type too. */
typedef struct {
    icescan_bytes bytes;       /* of a text or of a byte string */
    int64_t whole;             /* a whole number; of a boolean 1 for true and 0 for false */
    uint32_t kind;             /* as below */
    icescan_type type;
} icescan_value;

#define ICESCAN_NO_VALUE {{NULL, 0}, 0, 0, {0, 0, 0}}

/* What a value is kept as. */
enum {
    ICESCAN_NULL_VALUE = 0,
    ICESCAN_BOOLEAN = 1,
    ICESCAN_WHOLE = 2,
    ICESCAN_TEXT = 3,
    ICESCAN_BINARY = 4
};

/* What it is. */
enum {
    ICESCAN_TYPE_UNKNOWN = 0,  /* the column is no longer there, or the transform is not known */
    ICESCAN_TYPE_BOOLEAN = 1,
    ICESCAN_TYPE_INT = 2,
    ICESCAN_TYPE_LONG = 3,
    ICESCAN_TYPE_FLOAT = 4,
    ICESCAN_TYPE_DOUBLE = 5,
    ICESCAN_TYPE_DATE = 6,
    ICESCAN_TYPE_TIME = 7,
    ICESCAN_TYPE_TIMESTAMP = 8,
    ICESCAN_TYPE_TIMESTAMPTZ = 9,
    ICESCAN_TYPE_STRING = 10,
    ICESCAN_TYPE_UUID = 11,
    ICESCAN_TYPE_FIXED = 12,
    ICESCAN_TYPE_BINARY = 13,
    ICESCAN_TYPE_DECIMAL = 14
};

/* The number of a refusal, as F2, by which docs/REFUSALS.md lists it; 0 and 0 of one that has none, as want of memory.
 * Numbers are never used twice. */
typedef struct {
    uint32_t letter;           /* as 'F' */
    uint32_t number;           /* as 2 */
} icescan_reason_of;

/* Asks for the snapshot that a branch or tag names, for the current one where the name is empty, under a filter where
 * its text is not empty. `metadata` has the bytes of the table's metadata file. The scan's handle holds what that
 * selects, and what it held before is let go. After ICESCAN_TABLE and ICESCAN_ASKED it holds the line of the fault
 * instead; after ICESCAN_ENCODING and ICESCAN_NULL what it held; after ICESCAN_MEMORY the one or the other. A branch or
 * a tag that is not there is ICESCAN_TABLE. A tag and a snapshot are filtered by the names and types of that snapshot's
 * own schema. */
uint32_t icescan_scan_new(icescan_handle *scan, const uint8_t *metadata, size_t metadata_len, const uint8_t *name,
                          size_t name_len, const uint8_t *filter, size_t filter_len);

/* The same for the snapshot of an id. */
uint32_t icescan_scan_new_at(icescan_handle *scan, const uint8_t *metadata, size_t metadata_len, int64_t snapshot,
                             const uint8_t *filter, size_t filter_len);

/* Relaxes a filter: a predicate that can't be asked of its column, as of one of floats, is not asked, and `true` stands
 * in its place. No row that meets the filter is lost. The snapshot, whose columns are meant, is named as for
 * icescan_scan_new and icescan_scan_new_at; that it is not there is told by these alone. The handle holds the relaxed
 * filter then, after a refusal what icescan_scan_new leaves. */
uint32_t icescan_relax_new(icescan_handle *relaxed, const uint8_t *metadata, size_t metadata_len, const uint8_t *name,
                           size_t name_len, const uint8_t *filter, size_t filter_len);
uint32_t icescan_relax_new_at(icescan_handle *relaxed, const uint8_t *metadata, size_t metadata_len, int64_t snapshot,
                              const uint8_t *filter, size_t filter_len);

/* Lends the text of the relaxed filter, to be asked by icescan_scan_new: no bytes where no filter was handed in. Tells
 * how many predicates it does not ask, and lends the text of one of them, counted from 0, in the order of the filter:
 * ICESCAN_PAST_END from that count on. */
uint32_t icescan_relax_filter(icescan_handle *relaxed, icescan_bytes *text);
uint32_t icescan_relax_count(icescan_handle *relaxed, size_t *count);
uint32_t icescan_relax_unasked(icescan_handle *relaxed, size_t i, icescan_bytes *text);

/* Lends the path of the snapshot's manifest list. Once the scan is started there is none: ICESCAN_KIND. */
uint32_t icescan_scan_list(icescan_handle *scan, icescan_bytes *path);

/* Starts the scan by the bytes of the manifest list, once. The handle holds the scan then; after ICESCAN_TABLE and
 * ICESCAN_MEMORY the line of the fault, and icescan_scan_new begins anew; after ICESCAN_NULL what it held. */
uint32_t icescan_scan_start(icescan_handle *scan, const uint8_t *list, size_t list_len);

/* Tells how many manifests the scan wants, and lends the path of one of them, counted from 0, in the order of the bytes
 * of their paths: ICESCAN_PAST_END from that count on. Manifests of data files and of delete files stand in one order;
 * those that the filter rules out are not wanted. */
uint32_t icescan_scan_count(icescan_handle *scan, size_t *count);
uint32_t icescan_scan_wanted(icescan_handle *scan, size_t i, icescan_bytes *path);

/* Makes a state of a scan, in which no manifest is taken. The scan may be freed before its states. The state's handle
 * holds the state, and what it held before is let go; after ICESCAN_MEMORY it holds what it held. */
uint32_t icescan_state_new(icescan_handle *scan, icescan_handle *state);

/* Takes the manifest i that the scan wants, which has these bytes. One that was taken stays as it is. One that can't be
 * read is taken too: icescan_finish tells it. A refusal, ICESCAN_PAST_END, ICESCAN_NULL or ICESCAN_MEMORY, leaves the
 * state as it was. */
uint32_t icescan_state_take(icescan_handle *state, size_t i, const uint8_t *manifest, size_t manifest_len);

/* Takes over what another state of the same scan took, which stays as it is. A refusal leaves both as they were.
 * ICESCAN_OTHER_SCAN where the two states are of two scans. One scan may be made twice, as by each thread for itself:
 * scans are one that were made of the same bytes of metadata, for the same name or id, under the same text of a filter,
 * and want the same rows of a manifest list. */
uint32_t icescan_state_merge(icescan_handle *state, icescan_handle *other);

/* The same of a state that nobody needs any more: nothing of it is copied. The other handle holds nothing then, however
 * the call ends; a refusal leaves the state as it was. */
uint32_t icescan_state_absorb(icescan_handle *state, icescan_handle *other);

/* Finishes a state: its handle holds the plan then; after ICESCAN_TABLE, as where a wanted manifest was not taken, and
 * after ICESCAN_MEMORY the line of the fault, and what was taken is gone. */
uint32_t icescan_finish(icescan_handle *state);

/* Tells how many data files the plan has, and lends one of them, in the order of their paths, counted from 0; and of
 * the data file i the delete file j of those that apply to it, in the order of their paths: ICESCAN_PAST_END from those
 * counts on. How many position and equality delete files apply to a data file stands in its icescan_file. `size` is
 * that of the caller's icescan_file: sizeof *file. */
uint32_t icescan_plan_count(icescan_handle *plan, size_t *count);
uint32_t icescan_plan_file(icescan_handle *plan, size_t i, icescan_file *file, size_t size);
uint32_t icescan_plan_position(icescan_handle *plan, size_t i, size_t j, icescan_file *file, size_t size);
uint32_t icescan_plan_equality(icescan_handle *plan, size_t i, size_t j, icescan_file *file, size_t size);

/* Lends the partition value k of the data file i, in the order of its spec's fields: ICESCAN_PAST_END from the count on
 * that its icescan_file has, and where there is no such file. `size` is sizeof *value. */
uint32_t icescan_plan_value(icescan_handle *plan, size_t i, size_t k, icescan_value *value, size_t size);

/* Tells how many delete files the plan has, and lends each once, in the order of their paths, counted from 0; and its
 * partition values. Where it is lent as one of a data file's, its icescan_file has this number too. There may be some
 * that apply to no data file of the plan. */
uint32_t icescan_plan_deletes(icescan_handle *plan, size_t *count);
uint32_t icescan_plan_delete(icescan_handle *plan, size_t n, icescan_file *file, size_t size);
uint32_t icescan_plan_delete_value(icescan_handle *plan, size_t n, size_t k, icescan_value *value, size_t size);

/* Has a handle hold the plan as the JSON with which an Iceberg REST catalog answers a scan, and which
 * `icescan plan --format json` prints: one line. Each task has the filter that was handed to icescan_scan_new, as its
 * residual filter: of a relaxed one the predicates that are not asked are left to the caller. What the text's handle
 * held before is let go, but stays after a refusal. */
uint32_t icescan_plan_json(icescan_handle *plan, icescan_handle *text);

/* Tells the columns that a filter of a snapshot may name, and the partition specs: the lines that
 * `icescan columns --format json` prints. The snapshot is named as for icescan_scan_new and icescan_scan_new_at;
 * without a name it is the current one, which need not be there. The handle holds the text then, after a refusal what
 * icescan_scan_new leaves. */
uint32_t icescan_columns_new(icescan_handle *columns, const uint8_t *metadata, size_t metadata_len, const uint8_t *name,
                             size_t name_len);
uint32_t icescan_columns_new_at(icescan_handle *columns, const uint8_t *metadata, size_t metadata_len,
                                int64_t snapshot);

/* Asks for an audit of a snapshot, which is named as for icescan_scan_new and icescan_scan_new_at: whether the manifest
 * list and the metadata are right about the manifests, and what they say of files. icescan_scan_list then lends the
 * path of the manifest list, and icescan_scan_start begins the audit by its bytes. It wants every manifest of the
 * snapshot: icescan_scan_count and icescan_scan_wanted tell which. Their bytes are handed in one after the other in
 * that order, by icescan_audit_take; several threads may read them before. icescan_finish then has the handle hold the
 * text of what was found: the lines that `icescan audit --format json` prints. After a refusal the handle holds what
 * icescan_scan_new leaves.
 *
 * icescan_audit_take answers ICESCAN_PAST_END where each manifest was handed in. After ICESCAN_TABLE, as where a
 * manifest can't be read, and after ICESCAN_MEMORY the handle holds the line of the fault; after other refusals what it
 * held. */
uint32_t icescan_audit_new(icescan_handle *audit, const uint8_t *metadata, size_t metadata_len, const uint8_t *name,
                           size_t name_len);
uint32_t icescan_audit_new_at(icescan_handle *audit, const uint8_t *metadata, size_t metadata_len, int64_t snapshot);
uint32_t icescan_audit_take(icescan_handle *audit, const uint8_t *manifest, size_t manifest_len);

/* Asks for a commit to the table whose metadata these are the bytes of. `change` has the text that says what it adds:
 * files that were written before, as `icescan row-delta` is told of them. The commit makes a snapshot of this id, which
 * the table must not have; its new files are named by a uuid, of which the upper and the lower 64 bits are handed in,
 * and which must be new; its time is in milliseconds since 1970-01-01 00:00 UTC. ICESCAN_ASKED where the change is
 * refused. After a refusal the handle holds what icescan_scan_new leaves.
 *
 * The commit then wants files of the table, the current snapshot's manifest list and its manifests, one after the
 * other: icescan_commit_wanted lends the path of the next one, and icescan_commit_take takes its bytes.
 * ICESCAN_PAST_END where each was handed in; a table without a current snapshot has none. icescan_finish then prepares
 * the commit: its handle holds it, after ICESCAN_TABLE, as where a file of the change is in the table already, the line
 * of the fault. A file that was not handed in is taken for one that is not there. */
uint32_t icescan_commit_new(icescan_handle *commit, const uint8_t *metadata, size_t metadata_len, const uint8_t *change,
                            size_t change_len, int64_t snapshot, uint64_t uuid_high, uint64_t uuid_low,
                            int64_t now_ms);
uint32_t icescan_commit_wanted(icescan_handle *commit, icescan_bytes *path);
uint32_t icescan_commit_take(icescan_handle *commit, const uint8_t *bytes, size_t bytes_len);

/* Tells how many files a prepared commit adds, and lends the path and the bytes of one of them, counted from 0: the new
 * manifests, and the new manifest list. Lends the bytes of the new metadata file, which names them.
 *
 * The caller writes the files, each where none stands, and the metadata last, at a path of its choice where none
 * stands: whoever reads the table has all of the commit or none of it. Where another commit was first, a new one has to
 * be asked for on its metadata. */
uint32_t icescan_commit_count(icescan_handle *commit, size_t *count);
uint32_t icescan_commit_file(icescan_handle *commit, size_t i, icescan_bytes *path, icescan_bytes *bytes);
uint32_t icescan_commit_metadata(icescan_handle *commit, icescan_bytes *bytes);

/* Asks why each manifest and each file of a snapshot is in the plan or left out of it. The snapshot and the filter are
 * named as for icescan_scan_new and icescan_scan_new_at. ICESCAN_ASKED where the filter is refused. After a refusal the
 * handle holds what icescan_scan_new leaves.
 *
 * The explanation then wants files of the table, the snapshot's manifest list and the manifests that the plan needs,
 * one after the other: icescan_explanation_wanted lends the path of the next one, and icescan_explanation_take takes
 * its bytes. ICESCAN_PAST_END where each was handed in. icescan_finish then has the handle hold the text: the lines
 * that `icescan explain --format json` prints; after ICESCAN_TABLE, as where a manifest can't be read, and after
 * ICESCAN_ABSENT the line of the fault. */
uint32_t icescan_explanation_new(icescan_handle *explanation, const uint8_t *metadata, size_t metadata_len,
                                 const uint8_t *name, size_t name_len, const uint8_t *filter, size_t filter_len);
uint32_t icescan_explanation_new_at(icescan_handle *explanation, const uint8_t *metadata, size_t metadata_len,
                                    int64_t snapshot, const uint8_t *filter, size_t filter_len);
uint32_t icescan_explanation_wanted(icescan_handle *explanation, icescan_bytes *path);
uint32_t icescan_explanation_take(icescan_handle *explanation, const uint8_t *bytes, size_t bytes_len);

/* Lends the text that a handle holds. */
uint32_t icescan_text(icescan_handle *handle, icescan_bytes *text);

/* Lends the line that a handle holds after a call on it that answered ICESCAN_TABLE or ICESCAN_ASKED, with the line
 * feed at its end; no bytes where memory ran out for it. It is the line that the program `icescan` writes then. */
uint32_t icescan_fault(icescan_handle *handle, icescan_bytes *line);

/* Tells the number of the refusal whose line a handle holds: the first number of the line. */
uint32_t icescan_reason(icescan_handle *handle, icescan_reason_of *reason);

/* Lends the hint of a refused filter, for people: the lines that `icescan plan --explain` prints after the line of the
 * fault, in which a control byte of a name stands as `?`. They say what is wrong, which place or column of the filter
 * it is about and which names are near, and what to do. There are no bytes for another refusal: docs/REFUSALS.md says
 * by its number what to do. */
uint32_t icescan_hint(icescan_handle *handle, icescan_bytes *lines);

/* Lets go what a handle holds. A handle that holds nothing, as one that was freed, may be freed again; so may NULL. */
void icescan_free(icescan_handle *handle);

#ifdef __cplusplus
}
#endif

#endif
