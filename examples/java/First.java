// The total of the sheet on standard input, or why it is refused. By JNA (Debian: libjna-java), over the pointer forms.
import com.sun.jna.Library;
import com.sun.jna.Native;
import java.io.IOException;
import java.nio.charset.StandardCharsets;

public final class First {
    /** Calls of evaporation.h. A long is a uint64_t or a size_t, and an array a pointer. */
    interface Evaporation extends Library {
        long evp_report_words(byte[] sheet, long sheetBytes);
        long evp_report_to(byte[] sheet, long sheetBytes, long[] words, long wordsCount, long[] place);
        long evp_explain_to(byte[] sheet, long sheetBytes, long[] finding);
        long evp_number_text_to(long number, byte[] text, long textBytes);
    }

    private static final Evaporation LIBRARY = Native.load("evaporation", Evaporation.class);
    private static final int VALUE = 7, LEAST = 8, MOST = 9; // members of struct evp_finding, counted from 0

    private static String text(long number) {
        byte[] text = new byte[128];
        int length = (int) LIBRARY.evp_number_text_to(number, text, text.length);
        return new String(text, 0, length, StandardCharsets.US_ASCII);
    }

    private static String explained(byte[] sheet) {
        long[] finding = new long[10];
        LIBRARY.evp_explain_to(sheet, sheet.length, finding);
        return String.format("value %s, may be %s to %s", Long.toUnsignedString(finding[VALUE]),
                Long.toUnsignedString(finding[LEAST]), Long.toUnsignedString(finding[MOST]));
    }

    public static void main(String[] arguments) throws IOException {
        byte[] sheet = System.in.readAllBytes();
        long[] words = new long[(int) LIBRARY.evp_report_words(sheet, sheet.length)]; // none where it is refused
        long[] place = new long[1];
        long number = LIBRARY.evp_report_to(sheet, sheet.length, words, words.length, place);
        if (number != 0) {
            System.out.printf("refused %d at %d: %s%n%s%n", number, place[0], text(number), explained(sheet));
            System.exit(1);
        }
        System.out.printf("total %s to %s mg%n", Long.toUnsignedString(words[words.length - 2]),
                Long.toUnsignedString(words[words.length - 1]));
    }
}
