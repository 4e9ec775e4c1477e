import org.eclipse.jgit.transport.URIish;

/** JGit's `URIish`. */
class ReadJgit {
  static String[] read(String text) throws Exception {
    URIish it = new URIish(text);
    boolean isHttp = "http".equals(it.getScheme()) || "https".equals(it.getScheme());
    String path = isHttp ? it.getRawPath() : it.getPath();
    return new String[] {
      "scheme", it.getScheme() == null ? (it.getHost() == null ? "file" : "ssh") : it.getScheme(),
      "user", it.getUser(),
      "password", it.getPass(),
      "host", it.getHost(),
      "port", it.getPort() < 0 ? null : "" + it.getPort(),
      "path", path == null ? "" : path
    };
  }

  public static void main(String[] words) throws Exception {
    ReaderLines.answer(ReadJgit::read);
  }
}
