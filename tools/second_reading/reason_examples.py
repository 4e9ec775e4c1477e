"""An example of each reason for which a text is refused, in their order, and the place of its flaw, written apart from the code.

An example is a text, or words in parentheses that describe one.
"""

EXAMPLES = {
    "Empty": ("(the empty line)", 0, 0),
    "SchemeTooLong": ("(1,025 letters and ://h/p)", 0, 1025),
    "AuthorityTooLong": ("(the text x:/// and 1,024 times a)", 4, 1024),
    "NotUtf8": ("(the text http://h/ and byte 255)", 9, 1),
    "WhiteSpace": ("http://h/a b", 10, 1),
    "BrokenEscape": ("http://h/%2", 9, 1),
    "SchemeMissing": ("://h/p", 0, 0),
    "SchemeStart": ("1http://h/", 0, 1),
    "SchemeCharacter": ("a_b://h/", 1, 1),
    "WhiteSpaceInHost": ("a b:p", 1, 1),
    "Backslash": ("http://a\\b/", 8, 1),
    "BackslashInHost": ("a\\b:p", 1, 1),
    "EscapesNotUtf8": ("ssh://h/%FF", 8, 3),
    "UnclosedBracket": ("http://[::1/p", 7, 1),
    "BehindBracket": ("http://[::1]x/", 12, 1),
    "NotAnAddress": ("http://[h]/", 8, 1),
    "AddressWithoutBrackets": ("http://::1/", 7, 3),
    "SecondColon": ("http://a:b:c/", 10, 1),
    "HostBeforePort": ("http://:22/", 7, 0),
    "PortNotANumber": ("http://h:abc/", 9, 3),
    "HostCharacter": ("http://h\"/", 8, 1),
    "PortTooLarge": ("http://h:65536/", 9, 5),
    "PortZero": ("http://h:0/", 9, 1),
    "HostBehindUser": ("http://u@/p", 9, 0),
    "HostMissing": ("http://", 7, 0),
    "PathMissing": ("ssh://h", 7, 0),
    "FilePathMissing": ("file://host", 11, 0),
    "ScpPathMissing": ("host:", 5, 0),
}
TEXTS = {text.encode(): (name, at, size) for name, (text, at, size) in EXAMPLES.items() if not text.startswith("(")}
