"""The texts of the stored run of the crate `locations`: every form with every piece that matters to it."""
import os

from second_reading.line_answers import answer_line

SCHEMES = ["http", "https", "ssh", "git", "ssh+git", "git+ssh", "ftp", "ftps", "x", "file", "ext", "HTTP", "x+y.z-1", "1x", "", "\u00e9"]
AUTHORITIES = [
    "", "h", "H", "A~B", "h:", "H:", "h:0", "h:022", "h:65535", "h:65536", "h:x", "h:2x", ":22", ":", "::1", "::1:", "FE80::1", "a:b:c",
    "1:2:3:4:5:6:7:8:9", "::1.2.3.4", "[::1]", "[::1]:", "[::1]:22", "[::1]:65536", "[::1]:x", "[::1]::", "[::1]x", "[FE80::1%25Eth0]",
    "[fe80::1%25]", "[fe80::1%25e%FF]", "[h]", "[h]:", "[]", "[]:1", "[h", "h]", "[a]]:1", "[%5Bx%5D]", "%5Bx", "%5Bx:", "h%41", "h%41:",
    "a%3A", "h%2", "h%FF", "%3A%3A1", "h,h", "a\"", "a\":x", "a\":99999", "h\\", "h h", "b\u00fccher", "u@h", "U@H", "u:p@h", "u:@h",
    ":@h", ":p@h", "@h", "@", "u@", "a@b@h", "u%40%3A@h", "u:p%40%3A@h", "u%FF@h", "u:%FF@h", "u@h:22", "u@[::1]:22", "u@::1", "-h", "*.h_"]
PATHS = ["", "/", "/p", "/~a", "/%7Ea", "/~", "~a", "/a%20b", "/a%2", "/%FF", "/a b", "/a<b", "//p", "/?a=b#c", "?x", "#x", "/a:b@c", "/[x]"]
SCP_FRONTS = [
    "h", "H", "u@h", "@h", "u@", "", "a@b@h", "u:x@h", "u/v@h", "h%41", "h%", "a b", "u v@h", "a\\b", "\u00f6", "[h]", "[]", "[::1]", "[FE80::1]",
    "[::1%e]", "[::1]x", "[h", "h]", "[a@b]", "[a:b]c", "[a@b:22]", "[a@b:]", "u@[::1]", "u@[FE80::1]", "u@[::1%e]", "u@[h]", "@[::1]",
    "a@b@[::1]", "[x]@[::1]", "[a@[::1]", "u/v@[::1]", "u:p@[::1]", "-h", "*.h_"]
SCP_PATHS = ["p", "", "/p", "/~a", "//p", ":p", "~a/b", "[::2]:p", "//", "p:q"]
HELPERS = ["a::", "a::b", "A1+.-::b", "1::b", "ext::", "ext::sh -c x", "ext:::", "a:::b", "a::b://c", "a::b::c", "-a::b", "a b::c", "a/b::c",
           "\u00e9::c", "::x", "::", ":::", "http::h", "[a]::b", "a%::b"]
LOCALS = ["/", "/a", "/srv/repo.git", ".", "..", "./a:b", "/x::y", "[::1]", "[a", "a", "~a", "%41", " ", "\\", "C/:x", "/a://b", "a/b:c@d", "@", "?", "#"]
TWO_FAULTS = [
    "http:// h%/", "1x:// h/", "1x://h%2/", "\u00e9://h\\/", "http://a\\b/%FF", "http://u:%FF@h/%FF", "http://%FF:%FF@h/", "http://%FF@h:x/",
    "http://u:%FF@[h/", "http://u@:x/", "http://@:0/", "http://u@/%FF", "x://u@", "ssh://u@", "ssh://", "git://", "ssh://h:x", "git://h:65536",
    "ssh://[h", "ssh://h%FF", "ssh://u%FF@h", "ssh:// ", "ssh://h\\", "http://h:x\\/", "http://a\"b:x/", "http://a\"b:70000/", "http://[h]:x/",
    "http://[::1]x:y/", "http://[h]:70000/", "x://h%FF:x/", "x://h%FF:70000/", "file://h h", "a b:", " :", "a\\b:", "[h:", "u@:", ":",
    "[a@b:x y]:p", "a\\ b:p", "[ @a:x]:p", "[\\@a:x]:p", "u@[::1]:", "@[::]:"]
BYTES = [b"http://h/\xff", b"http://h\xff /%", b"\xff://h/p", b"h:\xff", b"\xff:", b"\xff:p", b"u@[::1]:\xff", b"\xff@[::1]:", b"/\xff", b"\xff",
         b"a::\xff", b"\xff::a", b"file://\xff/p", b"file://\xff", b"file://h/\xff", b"ssh://h\xff", b"h:p\r", b"\r", b"http://h/\r", b"/a\t",
         b"h\t:p", b"http://h/\x00", b"h\x00:p", b"http://h/\xc2\xa0", b"h\xc2\x85:p", b"h:\xe3\x80\x80", b"http://h/\x7f", b"\x00"]


def short_inputs():
    """The texts of the stored run: every form with every piece that matters to it, each once, in a fixed order."""
    texts = [f"{s}://{a}/p" for s in ["http", "ssh", "x"] for a in AUTHORITIES]
    texts += [f"{s}://{a}/p" for s in ["git", "ssh+git"] for a in AUTHORITIES[::2]]
    texts += [f"{s}://{a}{p}" for s in SCHEMES for a in ["", "h", "u@h:22"] for p in ["", "/p"]]
    texts += [f"{s}://h{p}" for s in ["http", "ssh", "git", "x", "file", "ext"] for p in PATHS]
    texts += [f"file://{h}{p}" for h in ["h", "x:%20", "[x:%20", "a:b", "%41", "H h", "\u00f6"] for p in ["", "/p"]]
    texts += [f"{f}:{p}" for f in SCP_FRONTS for p in SCP_PATHS]
    texts += HELPERS + LOCALS + TWO_FAULTS + [""]
    return list(dict.fromkeys([t.encode() for t in texts] + BYTES))


def write_short_inputs(folder):
    inputs = short_inputs()
    assert not any(b"\n" in t for t in inputs)
    answers = [answer_line(t) for t in inputs]
    for name, lines in [("stdin", inputs), ("stdout", answers)]:
        with open(os.path.join(folder, name), "wb") as file:
            file.write(b"".join(line + b"\n" for line in lines))
    with open(os.path.join(folder, "status"), "w") as file:
        file.write("0\n" if all(a.startswith(b"settled\t") for a in answers) else "1\n")
    print(f"{len(inputs)} inputs, {sum(a.startswith(b'settled') for a in answers)} settled, "
          f"{sum(a.startswith(b'unsettled') for a in answers)} unsettled, {sum(a.startswith(b'refused') for a in answers)} refused")
