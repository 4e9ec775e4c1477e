import java.net.URI;

/** `java.net.URI`. */
class ReadJavaUri {
  static String[] read(String text) throws Exception {
    URI it = new URI(text);
    String information = it.getRawUserInfo();
    int colon = information == null ? -1 : information.indexOf(':');
    return new String[] {
      "scheme", it.getScheme(),
      "user", colon < 0 ? information : information.substring(0, colon),
      "password", colon < 0 ? null : information.substring(colon + 1),
      "host", it.getHost(),
      "port", it.getPort() < 0 ? null : "" + it.getPort(),
      "path", it.getRawPath() == null ? "" : it.getRawPath(),
      "query", it.getRawQuery()
    };
  }

  public static void main(String[] words) throws Exception {
    ReaderLines.answer(ReadJavaUri::read);
  }
}
