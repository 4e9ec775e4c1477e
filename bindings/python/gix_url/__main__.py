"""Prints a result for each line of the standard input as the program `locations` does:
`python3 -m gix_url < remotes.txt`. With the word `audit` it audits a .gitmodules file:
`python3 -m gix_url audit FILE [--parent URL]`."""
import sys

import gix_url


def _answer(line: bytes) -> bytes:
    """The output of `locations` for a line."""
    try:
        url = gix_url.parse(line)
    except gix_url.Error as error:
        return b"refused\t" + (f"{error.name} {error.fault}" if error.fault else error.name).encode()
    return b"settled\t" + bytes(url) if url.is_settled() else b"unsettled\t" + url.scheme_text().encode()


def _main() -> int:
    """Returns 0 if all lines are settled, otherwise 1; for an audit, the status of the audit."""
    if sys.argv[1:2] == ["audit"]:
        from . import audit

        return audit.main(sys.argv[2:])
    answers = [_answer(it.removesuffix(b"\n")) for it in sys.stdin.buffer]
    sys.stdout.buffer.write(b"".join(it + b"\n" for it in answers))
    return 0 if all(it.startswith(b"settled") for it in answers) else 1


if __name__ == "__main__":
    sys.exit(_main())
