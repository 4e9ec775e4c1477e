// The headers are valid in C++: their types can be constructed, and their calls named.
#include <gix_url.h>
#include <gix_url_rules.h>

gix_url_error settled(const gix_url &url, bool &answer) { return gix_url_is_settled(&url, &answer); }

gix_url_error agrees(const gix_url &url, bool &answer) { return gix_url_agrees_with_git(&url, &answer); }

gix_url_error unmet(const gix_url &url, gix_url_condition &answer) { return gix_url_unmet_condition(&url, &answer); }

gix_url_error named(const gix_url_problem &problem, char (&buffer)[32], size_t &len) {
    return gix_url_reason_name(problem.reason, buffer, sizeof buffer, &len);
}

gix_url empty() { return gix_url(); }

gix_url_error permitted(const gix_url_policy &policy, gix_url_permission &answer) {
    return gix_url_permission_of(nullptr, 0, &policy, "ssh", 3, &answer);
}

gix_url_entry no_entry() { return gix_url_entry(); }
