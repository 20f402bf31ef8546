import java.io.IOException;
import java.io.StringReader;
import java.io.StringWriter;
import org.apache.commons.csv.CSVFormat;
import org.apache.commons.csv.CSVParser;
import org.apache.commons.csv.CSVPrinter;
import org.apache.commons.csv.CSVRecord;
import org.apache.commons.csv.QuoteMode;

/** The Boolean settings of a format. */
public class Main {
    static boolean TRIM, IGNORE_SPACES, IGNORE_EMPTY, SEMICOLON, HEADER, NULLS, ALL, COMMENT;

    public static void main(String[] args) throws IOException {
        CSVFormat.Builder builder = CSVFormat.DEFAULT.builder();
        builder.setTrim(TRIM).setIgnoreSurroundingSpaces(IGNORE_SPACES).setIgnoreEmptyLines(IGNORE_EMPTY);
        builder.setDelimiter(SEMICOLON ? ';' : ',').setRecordSeparator("\n");
        if (HEADER) {
            builder.setHeader("first", "second").setSkipHeaderRecord(true);
        }
        if (NULLS) {
            builder.setNullString("-");
        }
        if (ALL) {
            builder.setQuoteMode(QuoteMode.ALL);
        }
        if (COMMENT) {
            builder.setCommentMarker('#');
        }
        CSVFormat format = builder.build();
        try (CSVParser parser = CSVParser.parse(new StringReader("a, b ;c\n\n#x,-\n\"q\"\"r\",-\n"), format)) {
            for (CSVRecord record : parser) {
                System.out.println(record.getRecordNumber() + " " + record.size() + " " + record.get(0) + "|" + record.get(record.size() - 1));
                if (HEADER && record.isSet("second")) {
                    System.out.println(record.get("second"));
                }
            }
        }
        StringWriter out = new StringWriter();
        try (CSVPrinter printer = new CSVPrinter(out, format)) {
            printer.printRecord("x", null, " y ", "a;b,c");
        }
        System.out.print(out);
    }
}
