"""The hints in their order, written apart from the code: the sentence that `explain` prints for each, and an example.

An example is a line, or words in parentheses that describe one.
"""

HINTS = {
    "colon_for_slash": (
        "a colon after the host of a URL begins a port: write / in its place, or user@host:path without a scheme",
        "ssh://git@github.com:a/b.git",
    ),
    "no_scheme": (
        "it begins like the name of a host and is read as a path on this machine: write https:// before it if that host is meant",
        "github.com/a/b",
    ),
    "windows_path": ("the letter before the colon is read as a host: paths of Windows are not known here", "C:\\Users\\me"),
    "capital_scheme": (
        "capitals make it another scheme, here and for Git, which looks for a remote helper of that name: write it in small letters",
        "HTTPS://h/a",
    ),
    "carriage_return": (
        "the line ends as lines of Windows do: remove the carriage return at its end, which is part of the location",
        "(the text `h:a` and byte 13)",
    ),
    "byte_order_mark": ("the byte order mark at the beginning is part of the location: leave it out", "(the bytes EF BB BF and `h:a`)"),
    "outer_blank": ("the blank at the beginning or at the end is part of the location: leave it out", "(a space and `h:a`)"),
    "runs_command": ("Git runs the address as a command on this machine, if its settings allow that", "ext::sh -c x"),
    "home_here": (
        "a shell may replace the ~ before Git sees it; otherwise git fetch and git push look below a home folder, and git clone does not",
        "~/a",
    ),
    "home_there": ("the path begins in a home folder on the other machine", "h:~/a"),
    "stored_password": ("the password stays in .git/config and in the history of the shell: use a credential helper", "https://u:p@h/a"),
    "unencrypted": ("http sends everything unencrypted, passwords too: write https", "http://u@h/a"),
    "pasted_command": ("the words of a command before a location are read as part of it: leave them out", "$ git clone git@h:a"),
    "web_page": (
        "it is the address of a web page about a part of a repository: leave out all after the repository",
        "https://github.com/a/b/pull/12",
    ),
    "slash_for_colon": (
        "it is read as a path on this machine: write a colon in place of / after the host, or ssh:// before the user",
        "git@github.com/a/b",
    ),
    "quotes": ("the quotes around it are part of the location: leave them out", "\"h:a\""),
    "scp_port": ("no port can be written in this form, and the number begins the path: for a port write ssh://user@host:port/path", "git@h:22/a"),
    "port_in_brackets": ("Git alone takes the number in the brackets for a port: write ssh://user@host:port/path", "git@[h:22]:a"),
    "one_slash": ("the word before the colon is read as a host: write :// after a scheme, and file:/// before a path of this machine", "https:/h/a"),
    "near_scheme": ("Git looks for a remote helper of this scheme's name, which is one letter away from http, https, ssh, git or file", "htps://h/a"),
    "package_scheme": (
        "git+ and git:: before a URL are of package managers, and Git looks for a remote helper of that name: leave them out",
        "git+https://h/a",
    ),
    "short_name": (
        "Git has no short names of forges: the word before the colon is a host, unless url.*.insteadOf or ~/.ssh/config says otherwise",
        "github:a/b",
    ),
    "scheme_after_user": ("the scheme comes first: write the user after ://, or leave the scheme out and write user@host:path", "git@https://h/a"),
    "revision": (
        "Git takes no branch, tag or commit from a URL: leave it out, and pass it to git clone --branch or git checkout",
        "https://h/a#main",
    ),
    "host_as_user": ("the text before the @ is a user, though it looks like a host: the host begins after the @", "https://github.com@evil.com/a"),
    "mixed_scripts": (
        "a label of the host has letters of two scripts, some of which look alike: it may be another host than it seems",
        "ssh://gitһub.com/a",
    ),
    "relative": ("the path is read from the folder in which Git runs, and in .gitmodules from the URL of the superproject", "../a"),
    "remote_name": ("one word is the name of a remote, if there is one of that name, and else a folder below the current one", "origin"),
    "slash_in_password": ("a / ends the host of a URL: in a user or a password write it as %2F", "https://u:p/q@h/a"),
    "punycode": (
        "the host of HTTP is of ASCII characters alone: write it in Punycode, with xn-- before a label that has others",
        "https://bücher.example/a",
    ),
    "ssh_password": ("Secure Shell takes no password: Git passes it on as a part of the user or of the host", "ssh://u:p@h/a"),
    "file_host": ("Git ignores the host of a file URL, and opens the path on this machine", "file://h/a"),
    "escaped_at": ("the @ before the host is written %40, which is read as part of the host or of the port: write @", "https://u:p%40h/a"),
    "missing_colon": ("the colon after the scheme is missing, so it is read as a path on this machine: write ://", "https//h/a"),
    "two_colons": ("two colons make the scheme the name of a remote helper, and the rest its address: write one", "https:://h/a"),
    "scheme_twice": ("the scheme is written twice, so the second one is read as a host: write it once", "https://https://h/a"),
    "end_of_sentence": ("the punctuation after .git is part of the path: leave it out", "https://h/a.git."),
    "markdown_link": ("it is a link of Markdown: write the text between its parentheses alone", "[a](https://h/a)"),
    "pasted_setting": ("it is a setting of Git: leave out its key and the =", "url = https://h/a"),
    "pasted_remote": (
        "it is a line that git remote -v prints: leave out the name before the location, and the word after it",
        "origin https://h/a (fetch)",
    ),
    "windows_share": ("it is read as a path on this machine that begins with backslashes: paths of Windows are not known here", "\\\\server\\share"),
    "file_drive": ("the letter of the drive is read as a host, which Git ignores: write file:/// before it", "file://C:/a"),
    "hidden_secret": ("a part that may be a secret is shown as redacted: keep passwords and tokens in a credential helper", "hg::https://u:p@h/a"),
    "write_instead": ("write this URL of the same place, which fewer programs read otherwise:", "h:/a/b"),
}
SENTENCES = {name: sentence for name, (sentence, _) in HINTS.items()}
EXAMPLES = {name: example.encode() for name, (_, example) in HINTS.items() if not example.startswith("(")}
