// Boost.URL: `parse_uri`. Built with NDEBUG, since an assertion of 1.81 fails on `a:]`.
#include <boost/url/src.hpp>

#include "reader_lines.h"

static Parts read(const std::string &text) {
  auto found = boost::urls::parse_uri(text);
  if (found.has_error()) return {{"refused", found.error().message()}};
  boost::urls::url_view it = *found;
  Parts out = {{"scheme", std::string(it.scheme())}, {"host", std::string(it.encoded_host())}, {"path", std::string(it.encoded_path())}};
  if (it.has_userinfo()) out.push_back({"user", std::string(it.encoded_user())});
  if (it.has_password()) out.push_back({"password", std::string(it.encoded_password())});
  if (it.has_port()) out.push_back({"port", std::string(it.port())});
  if (it.has_query()) out.push_back({"query", std::string(it.encoded_query())});
  return out;
}

int main() { return answer(read); }
