// The total of the sheet on standard input, or why it is refused. By P/Invoke, over the pointer forms.
using System;
using System.IO;
using System.Runtime.InteropServices;
using System.Text;

static class First {
    // Calls of evaporation.h; a size_t is a ulong, since the library is for 64 bits alone.
    [DllImport("evaporation")]
    static extern ulong evp_report_words(byte[] sheet, ulong sheetBytes);
    [DllImport("evaporation")]
    static extern ulong evp_report_to(byte[] sheet, ulong sheetBytes, [Out] ulong[] words, ulong wordsCount,
                                      out ulong place);
    [DllImport("evaporation")]
    static extern ulong evp_explain_to(byte[] sheet, ulong sheetBytes, out Finding finding);
    [DllImport("evaporation")]
    static extern ulong evp_number_text_to(ulong number, [Out] byte[] text, ulong textBytes);

    // struct evp_finding of evaporation.h
    [StructLayout(LayoutKind.Sequential)]
    struct Finding {
        public ulong Number, Place, Reason, Index, Season, At, Bytes, Value, Least, Most;
    }

    static string Text(ulong number) {
        var text = new byte[128];
        return Encoding.ASCII.GetString(text, 0, (int)evp_number_text_to(number, text, (ulong)text.Length));
    }

    static int Main() {
        var input = new MemoryStream();
        Console.OpenStandardInput().CopyTo(input);
        byte[] sheet = input.ToArray();
        var words = new ulong[evp_report_words(sheet, (ulong)sheet.Length)]; // none where it is refused
        ulong place;
        ulong number = evp_report_to(sheet, (ulong)sheet.Length, words, (ulong)words.Length, out place);
        if (number != 0) {
            Finding finding;
            evp_explain_to(sheet, (ulong)sheet.Length, out finding);
            Console.WriteLine("refused {0} at {1}: {2}", number, place, Text(number));
            Console.WriteLine("value {0}, may be {1} to {2}", finding.Value, finding.Least, finding.Most);
            return 1;
        }
        Console.WriteLine("total {0} to {1} mg", words[words.Length - 2], words[words.Length - 1]);
        return 0;
    }
}
