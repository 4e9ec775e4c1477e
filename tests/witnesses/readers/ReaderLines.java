import java.io.PrintStream;
import java.nio.charset.StandardCharsets;

/** What the readers in Java share: each line of the input is a text, and is answered by a line of JSON. An error is a refusal. */
class ReaderLines {
  interface Reader {
    String[] read(String text) throws Exception;
  }

  static String quoted(String text) {
    StringBuilder out = new StringBuilder("\"");
    for (char it : text.toCharArray()) {
      boolean isPlain = it >= 32 && it < 127 && it != '"' && it != '\\';
      out.append(isPlain ? "" + it : String.format("\\u%04x", (int) it));
    }
    return out.append('"').toString();
  }

  static void answer(Reader reader) throws Exception {
    String given = new String(System.in.readAllBytes(), StandardCharsets.UTF_8);
    PrintStream out = new PrintStream(System.out, false, StandardCharsets.UTF_8);
    String[] lines = given.split("\n", -1);
    for (int at = 0; at + 1 < lines.length; at++) {
      String[] found;
      try {
        found = reader.read(lines[at]);
      } catch (Exception error) {
        found = new String[] {"refused", "" + error.getMessage()};
      }
      StringBuilder members = new StringBuilder();
      for (int i = 0; i < found.length; i += 2) {
        if (found[i + 1] != null) {
          members.append(members.length() == 0 ? "" : ", ").append(quoted(found[i])).append(": ").append(quoted(found[i + 1]));
        }
      }
      out.print("{" + members + "}\n");
    }
    out.flush();
  }
}
