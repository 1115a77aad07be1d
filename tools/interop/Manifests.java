import java.io.ByteArrayOutputStream;
import java.nio.ByteBuffer;
import java.nio.ByteOrder;
import java.nio.charset.StandardCharsets;
import java.time.*;
import java.time.temporal.ChronoUnit;
import java.util.*;
import org.apache.avro.Schema;
import org.apache.avro.file.CodecFactory;
import org.apache.avro.file.DataFileWriter;
import org.apache.avro.generic.*;

/**
 * The manifests and the manifest list of a row delta, by Avro's Java library: a line for each file, its name and its
 * bytes in hexadecimal digits. The words are the lengths of the manifests, which the list has. The fields, their ids
 * and types, and the keys are those of the table format's specification ("Manifests", "Manifest Metadata", "Manifest
 * Lists" and the appendix on Avro), typed in by hand; of optional fields those that icescan writes.
 */
public class Manifests {
    static final String SCHEMA = "{\"type\":\"struct\",\"schema-id\":0,\"fields\":[%s]}";
    static final String PREFIX = "mem://t/metadata/f79c3e09-677c-4bbd-a479-3f349cb785e7-m";
    static final long SNAPSHOT = 7;

    // ---- schemas

    static String required(String name, int id, String type) {
        return "{\"name\":\"" + name + "\",\"type\":" + type + ",\"field-id\":" + id + "}";
    }

    static String optional(String name, int id, String type) {
        return "{\"name\":\"" + name + "\",\"type\":[\"null\"," + type + "],\"default\":null,\"field-id\":" + id + "}";
    }

    static String record(String name, String... fields) {
        return "{\"type\":\"record\",\"name\":\"" + name + "\",\"fields\":[" + String.join(",", fields) + "]}";
    }

    static String logical(String type, String name, String more) {
        return "{\"type\":\"" + type + "\",\"logicalType\":\"" + name + "\"" + more + "}";
    }

    static String fixed(int id, int size, String more) {
        return "{\"type\":\"fixed\",\"name\":\"f" + id + "\",\"size\":" + size + more + "}";
    }

    static String list(int id, String items) {
        return "{\"type\":\"array\",\"items\":" + items + ",\"element-id\":" + id + "}";
    }

    static String map(int key, int value, String type) {
        String pair = record("k" + key + "_v" + value, required("key", key, "\"int\""), required("value", value, type));
        return "{\"type\":\"array\",\"items\":" + pair + ",\"logicalType\":\"map\"}";
    }

    /** The type of the entries, with these partition fields. */
    static Schema entries(String... partition) {
        String l = "\"long\"", i = "\"int\"", s = "\"string\"", b = "\"bytes\"";
        String file = record("r2",
            required("content", 134, i), required("file_path", 100, s), required("file_format", 101, s),
            required("partition", 102, record("r102", partition)),
            required("record_count", 103, l), required("file_size_in_bytes", 104, l),
            optional("value_counts", 109, map(119, 120, l)), optional("null_value_counts", 110, map(121, 122, l)),
            optional("lower_bounds", 125, map(126, 127, b)), optional("upper_bounds", 128, map(129, 130, b)),
            optional("equality_ids", 135, list(136, i)), optional("referenced_data_file", 143, s));
        return new Schema.Parser().parse(record("manifest_entry", required("status", 0, i),
            optional("snapshot_id", 1, l), optional("sequence_number", 3, l), optional("file_sequence_number", 4, l),
            required("data_file", 2, file)));
    }

    /** The type of the rows of a list. */
    static Schema rows() {
        String l = "\"long\"", i = "\"int\"", s = "\"string\"", b = "\"bytes\"", t = "\"boolean\"";
        String summary = record("r508", required("contains_null", 509, t), optional("contains_nan", 518, t),
            optional("lower_bound", 510, b), optional("upper_bound", 511, b));
        return new Schema.Parser().parse(record("manifest_file", required("manifest_path", 500, s),
            required("manifest_length", 501, l), required("partition_spec_id", 502, i), required("content", 517, i),
            required("sequence_number", 515, l), required("min_sequence_number", 516, l),
            required("added_snapshot_id", 503, l), optional("added_files_count", 504, i),
            optional("existing_files_count", 505, i), optional("deleted_files_count", 506, i),
            optional("added_rows_count", 512, l), optional("existing_rows_count", 513, l),
            optional("deleted_rows_count", 514, l), optional("partitions", 507, list(508, summary))));
    }

    // ---- values

    /** A record with these values, in the order of its fields. */
    static GenericRecord of(Schema type, Object... values) {
        GenericRecord record = new GenericData.Record(type);
        for (int i = 0; i < values.length; i++) {
            Schema field = type.getFields().get(i).schema();
            if (field.getType() == Schema.Type.UNION) field = field.getTypes().get(1);
            boolean bytes = values[i] instanceof byte[];
            if (bytes && field.getType() == Schema.Type.FIXED)
                record.put(i, new GenericData.Fixed(field, (byte[]) values[i]));
            else record.put(i, bytes ? ByteBuffer.wrap((byte[]) values[i]) : values[i]);
        }
        return record;
    }

    /** An entry of a file that is added. */
    static GenericRecord entry(Schema type, int content, String path, String format, long rows, long size,
            List<Integer> ids, String referenced, Object... tuple) {
        Schema file = type.getField("data_file").schema();
        return of(type, 1, SNAPSHOT, null, null, of(file, content, path, format,
            of(file.getField("partition").schema(), tuple), rows, size, null, null, null, null, ids, referenced));
    }

    /** A value as the bytes of a bound ("Binary single-value serialization"). */
    static byte[] bound(Object value) {
        if (value instanceof Boolean) return new byte[] {(byte) ((Boolean) value ? 1 : 0)};
        if (value instanceof Integer)
            return ByteBuffer.allocate(4).order(ByteOrder.LITTLE_ENDIAN).putInt((Integer) value).array();
        if (value instanceof Long)
            return ByteBuffer.allocate(8).order(ByteOrder.LITTLE_ENDIAN).putLong((Long) value).array();
        return value instanceof String ? ((String) value).getBytes(StandardCharsets.UTF_8) : (byte[]) value;
    }

    /** Summaries of fields that have nulls, and other values between these. */
    static List<GenericRecord> summaries(Schema rows, Object[] lower, Object[] upper) {
        Schema summary = rows.getField("partitions").schema().getTypes().get(1).getElementType();
        List<GenericRecord> all = new ArrayList<>();
        for (int i = 0; i < lower.length; i++) all.add(of(summary, true, null, bound(lower[i]), bound(upper[i])));
        return all;
    }

    static long micros(String moment) {
        return ChronoUnit.MICROS.between(Instant.EPOCH, Instant.parse(moment));
    }

    static long micros_of_day(String time) {
        return LocalTime.parse(time).toNanoOfDay() / 1000;
    }

    static int days(String date) {
        return (int) LocalDate.parse(date).toEpochDay();
    }

    static byte[] bytes(String digits) {
        return HexFormat.of().parseHex(digits.replace("-", ""));
    }

    // ---- files

    static void write(String name, Schema type, Map<String, String> keys, GenericRecord... records) throws Exception {
        ByteArrayOutputStream out = new ByteArrayOutputStream();
        DataFileWriter<GenericRecord> writer = new DataFileWriter<>(new GenericDatumWriter<>(type));
        for (Map.Entry<String, String> key : keys.entrySet()) writer.setMeta(key.getKey(), key.getValue());
        writer.setCodec(CodecFactory.nullCodec());
        writer.create(type, out, bytes("f79c3e09-677c-4bbd-a479-3f349cb785e7"));
        for (GenericRecord record : records) writer.append(record);
        writer.close();
        System.out.println(name + " " + HexFormat.of().formatHex(out.toByteArray()));
    }

    static Map<String, String> keys(String schema, String spec, int spec_id, String content) {
        return Map.of("schema", schema, "schema-id", "0", "partition-spec", spec, "partition-spec-id", "" + spec_id,
            "format-version", "2", "content", content);
    }

    public static void main(String[] words) throws Exception {
        String zoned = ",\"adjust-to-utc\":";
        // the columns of the table, and the partition fields that have their values
        String[][] columns = {
            {"truth", "boolean", "\"boolean\""}, {"small", "int", "\"int\""}, {"big", "long", "\"long\""},
            {"day", "date", logical("int", "date", "")}, {"hour", "time", logical("long", "time-micros", "")},
            {"moment", "timestamp", logical("long", "timestamp-micros", zoned + "false")},
            {"instant", "timestamptz", logical("long", "timestamp-micros", zoned + "true")},
            {"word", "string", "\"string\""}, {"four", "fixed[4]", fixed(1009, 4, "")}, {"some", "binary", "\"bytes\""},
            {"key", "uuid", fixed(1101, 16, ",\"logicalType\":\"uuid\"")}, {"price", "decimal(9,2)", ""}};
        String[] schema = new String[12], spec = new String[10], partition = new String[10];
        for (int i = 0; i < 12; i++)
            schema[i] = String.format("{\"id\":%d,\"name\":\"%s\",\"required\":false,\"type\":\"%s\"}", i + 1,
                columns[i][0], columns[i][1]);
        for (int i = 0; i < 10; i++) {
            spec[i] = String.format("{\"source-id\":%d,\"field-id\":%d,\"name\":\"%s\",\"transform\":\"identity\"}",
                i + 1, 1001 + i, columns[i][0]);
            partition[i] = optional(columns[i][0], 1001 + i, columns[i][2]);
        }
        String table = String.format(SCHEMA, String.join(",", schema)), fields = "[" + String.join(",", spec) + "]";
        String others = "[{\"source-id\":11,\"field-id\":1101,\"name\":\"key\",\"transform\":\"identity\"},"
            + "{\"source-id\":6,\"field-id\":1102,\"name\":\"moment_day\",\"transform\":\"day\"},"
            + "{\"source-id\":3,\"field-id\":1103,\"name\":\"none\",\"transform\":\"void\"}]";
        Schema first = entries(partition), second = entries(optional("key", 1101, columns[10][2]),
            optional("moment_day", 1102, "\"int\""), optional("none", 1103, "\"int\""));

        Object[] a = {
            true, -34, 1L << 40, days("2017-11-16"), micros_of_day("22:31:08.123456"),
            micros("2017-11-16T22:31:08.123456Z"), micros("2017-11-16T22:31:08.000001Z"), "iceberg",
            bytes("000102ff"), bytes("ff")};
        Object[] b = {
            false, 34, -7L, days("1969-12-31"), micros_of_day("00:00:00.000001"),
            micros("1969-12-31T23:59:59.999999Z"), micros("2017-11-16T22:31:08.000002Z"), "ice", bytes("80000000"),
            bytes("00ff")};
        Object[] none = new Object[10];
        // of each field the lesser value and the greater one, of which only those of moments and days are not plain
        Object[] lower = {b[0], a[1], b[2], b[3], b[4], b[5], a[6], b[7], a[8], b[9]};
        Object[] upper = {a[0], b[1], a[2], a[3], a[4], a[5], b[6], a[7], b[8], a[9]};
        write("m0", first, keys(table, fields, 0, "data"),
            entry(first, 0, "mem://t/a.parquet", "parquet", 10, 100, null, null, a),
            entry(first, 0, "mem://t/b.orc", "orc", 20, 200, null, null, b),
            entry(first, 0, "mem://t/c.avro", "avro", 30, 300, null, null, none));
        write("m1", second, keys(table, others, 1, "data"),
            entry(second, 0, "mem://t/d.parquet", "parquet", 40, 400, null, null,
                bytes("00112233-4455-6677-8899-aabbccddeeff"), days("2017-11-16"), null));
        write("m2", first, keys(table, fields, 0, "deletes"),
            entry(first, 1, "mem://t/p.parquet", "parquet", 5, 50, null, "mem://t/a.parquet", a),
            entry(first, 2, "mem://t/e.parquet", "parquet", 6, 60, List.of(2, 8), null, none));

        Schema rows = rows();
        long[] lengths = Arrays.stream(words).mapToLong(Long::parseLong).toArray();
        write("list", rows, Map.of("format-version", "2"),
            of(rows, PREFIX + "0.avro", lengths[0], 0, 0, 1L, 1L, SNAPSHOT, 3, 0, 0, 60L, 0L, 0L,
                summaries(rows, lower, upper)),
            of(rows, PREFIX + "1.avro", lengths[1], 1, 0, 1L, 1L, SNAPSHOT, 1, 0, 0, 40L, 0L, 0L, null),
            of(rows, PREFIX + "2.avro", lengths[2], 0, 1, 1L, 1L, SNAPSHOT, 2, 0, 0, 11L, 0L, 0L,
                summaries(rows, a, a)));
    }
}
