// libgit2: how its transports read a text. The calls are the library's own, and are in its static library alone.
#include "reader_lines.h"

struct git_net_url {
  char *scheme, *host, *port, *path, *query, *username, *password;
  void *buffer[8];
};
extern "C" {
int git_libgit2_init(void);
bool git_net_str_is_url(const char *text);
int git_net_url_parse(git_net_url *url, const char *text);
int git_net_url_parse_scp(git_net_url *url, const char *text);
void git_net_url_dispose(git_net_url *url);
}

static Parts read(const std::string &text) {
  git_net_url it = {};
  bool is_url = git_net_str_is_url(text.c_str());
  // As `git_transport_new` does, which takes any text with a colon for Secure Shell.
  if (!is_url && text.find(':') == std::string::npos) return {{"scheme", "file"}, {"path", text}};
  if (text.rfind("file://", 0) == 0) return {{"scheme", "file"}, {"path", text.substr(7)}};
  if ((is_url ? git_net_url_parse : git_net_url_parse_scp)(&it, text.c_str())) return {{"refused", "error"}};
  Parts out;
  const std::pair<const char *, char *> all[] = {{"scheme", it.scheme}, {"user", it.username}, {"password", it.password},
    {"host", it.host}, {"port", it.port}, {"path", it.path}, {"query", it.query}};
  for (auto [name, value] : all)
    if (value) out.push_back({name, value});
  git_net_url_dispose(&it);
  return out;
}

int main() {
  git_libgit2_init();
  return answer(read);
}
