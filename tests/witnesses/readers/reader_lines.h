// What the readers in C++ share: each line of the input is a text, and is answered by a line of JSON.
#include <cstdio>
#include <iostream>
#include <string>
#include <utility>
#include <vector>

using Parts = std::vector<std::pair<std::string, std::string>>;

inline std::string quoted(const std::string &text) {
  std::string out = "\"";
  for (unsigned char it : text) {
    char escape[8];
    if (it < 32 || it == '"' || it == '\\' || it == 127) {
      std::snprintf(escape, sizeof escape, "\\u%04x", it);
      out += escape;
    } else {
      out += char(it);
    }
  }
  return out + "\"";
}

inline int answer(Parts (*read)(const std::string &)) {
  for (std::string text; std::getline(std::cin, text);) {
    std::string members;
    for (const auto &[name, value] : read(text)) members += (members.empty() ? "" : ", ") + quoted(name) + ": " + quoted(value);
    std::cout << "{" << members << "}\n";
  }
  return 0;
}
