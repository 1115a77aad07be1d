import java.io.File;
import java.io.FileOutputStream;
import java.math.BigDecimal;
import java.math.BigInteger;
import java.nio.ByteBuffer;
import java.time.*;
import java.util.*;
import org.apache.avro.Schema;
import org.apache.avro.file.DataFileWriter;
import org.apache.avro.generic.*;

/**
 * Writes a table's manifest list and its one manifest to a folder, by Avro's Java library: data files with partition
 * values of each of twelve types. The words of `ROWS` are the texts that the values have in JSON, which is expected in
 * crates/icescan_runs/stdout; numbers and truths stand there without quotes.
 */
public class Values {
    static final String[][] ROWS = {
        {"true", "34", "34", "14.20", "2017-11-16", "22:31:08.123456", "2017-11-16T22:31:08.123456",
            "2017-11-16T22:31:08.123456+00:00", "iceberg", "f79c3e09-677c-4bbd-a479-3f349cb785e7", "000102ff",
            "000102ff", "14"},
        {"false", "-34", "-34", "-0.05", "1969-12-31", "00:00:00.000000", "1969-12-31T23:59:59.999999",
            "1970-01-01T00:00:00.000001+00:00", "a\"b\\c\u00e9", "00000000-0000-0000-0000-000000000001", "80000000",
            "", "-1"},
        {"true", "-2147483648", "-9223372036854775808", "-9999999.99", "0001-01-01", "23:59:59.999999",
            "0001-01-01T00:00:00.000000", "9999-12-31T23:59:59.999999+00:00", "",
            "ffffffff-ffff-ffff-ffff-ffffffffffff", "ffffffff", "ff", "99999999999999999999"},
        new String[13]};

    static String logical(String type, String name, String more) {
        return "{\"type\":\"" + type + "\",\"logicalType\":\"" + name + "\"" + more + "}";
    }

    static String fixed(String name, int size, String more) {
        return "{\"type\":\"fixed\",\"name\":\"" + name + "\",\"size\":" + size + more + "}";
    }

    static String field(String name, int id, String type) {
        return "{\"name\":\"" + name + "\",\"type\":" + type + ",\"field-id\":" + id + "}";
    }

    static Schema record(String name, String... fields) {
        return new Schema.Parser().parse(
            "{\"type\":\"record\",\"name\":\"" + name + "\",\"fields\":[" + String.join(",", fields) + "]}");
    }

    static byte[] bytes(String digits) {
        return HexFormat.of().parseHex(digits.replace("-", ""));
    }

    /** So many bytes of a number, the highest first. */
    static byte[] wide(int count, BigInteger value) {
        byte[] bytes = new byte[count], few = value.toByteArray();
        Arrays.fill(bytes, (byte) (value.signum() < 0 ? 255 : 0));
        System.arraycopy(few, 0, bytes, count - few.length, few.length);
        return bytes;
    }

    static long micros(String moment) {
        Instant instant = Instant.parse(moment);
        return instant.getEpochSecond() * 1_000_000 + instant.getNano() / 1000;
    }

    /** What a text is as a value of the column at a place. */
    static Object value(int column, String text) {
        switch (column) {
            case 0: return Boolean.valueOf(text);
            case 1: return Integer.valueOf(text);
            case 2: return Long.valueOf(text);
            case 3: return wide(4, new BigDecimal(text).unscaledValue());
            case 4: return (int) LocalDate.parse(text).toEpochDay();
            case 5: return LocalTime.parse(text).toNanoOfDay() / 1000;
            case 6: return micros(text + "Z");
            case 7: return micros(text.replace("+00:00", "Z"));
            case 8: return text;
            case 11: return ByteBuffer.wrap(bytes(text));
            case 12: return wide(9, new BigInteger(text));
            default: return bytes(text);
        }
    }

    static long write(File file, List<GenericRecord> records, Map<String, String> keys) throws Exception {
        Schema schema = records.get(0).getSchema();
        DataFileWriter<GenericRecord> writer = new DataFileWriter<>(new GenericDatumWriter<>(schema));
        for (String key : new TreeSet<>(keys.keySet())) writer.setMeta(key, keys.get(key));
        writer.create(schema, new FileOutputStream(file), bytes("f79c3e09-677c-4bbd-a479-3f349cb785e7"));
        for (GenericRecord record : records) writer.append(record);
        writer.close();
        return file.length();
    }

    public static void main(String[] words) throws Exception {
        String[] types = {
            "\"boolean\"", "\"int\"", "\"long\"",
            fixed("d", 4, ",\"logicalType\":\"decimal\",\"precision\":9,\"scale\":2"),
            logical("int", "date", ""), logical("long", "time-micros", ""),
            logical("long", "timestamp-micros", ",\"adjust-to-utc\":false"),
            logical("long", "timestamp-micros", ",\"adjust-to-utc\":true"), "\"string\"",
            fixed("u", 16, ",\"logicalType\":\"uuid\""), fixed("f", 4, ""), "\"bytes\"",
            fixed("w", 9, ",\"logicalType\":\"decimal\",\"precision\":20,\"scale\":0")};
        String[] fields = new String[types.length];
        for (int i = 0; i < types.length; i++) fields[i] = field("p" + i, 1000 + i, "[\"null\"," + types[i] + "]");
        Schema tuples = record("r102", fields);
        Schema files = record("r2", field("content", 134, "\"int\""), field("file_path", 100, "\"string\""),
            field("file_format", 101, "\"string\""), field("partition", 102, tuples.toString()),
            field("record_count", 103, "\"long\""), field("file_size_in_bytes", 104, "\"long\""));
        Schema entries = record("manifest_entry", field("status", 0, "\"int\""),
            field("snapshot_id", 1, "[\"null\",\"long\"]"), field("sequence_number", 3, "[\"null\",\"long\"]"),
            field("file_sequence_number", 4, "[\"null\",\"long\"]"), field("data_file", 2, files.toString()));
        List<GenericRecord> all = new ArrayList<>();
        for (String[] row : ROWS) {
            GenericRecord tuple = new GenericData.Record(tuples), data = new GenericData.Record(files);
            for (int i = 0; i < row.length; i++) {
                Object value = row[i] == null ? null : value(i, row[i]);
                Schema type = tuples.getFields().get(i).schema().getTypes().get(1);
                tuple.put(i, value instanceof byte[] bytes ? new GenericData.Fixed(type, bytes) : value);
            }
            String path = "mem://v/" + (char) ('a' + all.size()) + ".parquet";
            Object[] of_file = {0, path, "PARQUET", tuple, 3L, 100L};
            for (int i = 0; i < of_file.length; i++) data.put(i, of_file[i]);
            GenericRecord entry = new GenericData.Record(entries);
            entry.put("status", 1);
            entry.put("snapshot_id", 7L);
            entry.put("data_file", data);
            all.add(entry);
        }
        long length = write(new File(words[0], "m1"), all,
            Map.of("partition-spec-id", "0", "format-version", "2", "content", "data"));
        String[] columns = {"manifest_path 500 string", "manifest_length 501 long", "partition_spec_id 502 int",
            "content 517 int", "sequence_number 515 long", "min_sequence_number 516 long",
            "added_snapshot_id 503 long"};
        Object[] of_row = {"mem://v/m1", length, 0, 0, 1L, 1L, 7L};
        String[] of_list = new String[columns.length];
        for (int i = 0; i < columns.length; i++) {
            String[] said = columns[i].split(" ");
            of_list[i] = field(said[0], Integer.parseInt(said[1]), "\"" + said[2] + "\"");
        }
        GenericRecord row = new GenericData.Record(record("manifest_file", of_list));
        for (int i = 0; i < of_row.length; i++) row.put(i, of_row[i]);
        write(new File(words[0], "list"), List.of(row), Map.of("format-version", "2"));
    }
}
