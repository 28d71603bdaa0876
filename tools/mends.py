"""What is the matter with a survey file as a whole, and how it is mended; told before what is wrong in a line."""

UTF_16 = b"\xff\xfe", b"\xfe\xff"


def causes(data):
    """The faults of a file that an editor or a transfer made, each with its mend."""
    if data.startswith(UTF_16) or data.count(0) > len(data) // 4 > 0:
        yield "it is saved as UTF-16: save it as plain text in UTF-8 (in the editor's Save As, encoding)"
        return
    if data.startswith(b"\xef\xbb\xbf"):
        yield "a byte order mark stands before the first line: save it as UTF-8 without BOM"
    if b"\r" in data:
        yield (
            r"its lines end in a carriage return, as on Windows: save it with line ends LF (or: tr -d '\r' < OLD > NEW)"
        )
    if is_lower(data):
        yield "its digits A to F are in lower case: they must be in upper case (tr a-f A-F < OLD > NEW)"
    if data and not data.endswith(b"\n") and not data.endswith(b"\r"):
        yield (
            "its last line lacks the line feed: press Enter at its end and save it again (it may also have been cut "
            "short)"
        )


def is_lower(data):
    """Whether it has nothing but digits, some of them in lower case."""
    body = data.removeprefix(b"\xef\xbb\xbf").translate(None, b"\r\n \t")
    return any(c in b"abcdef" for c in body) and all(c in b"0123456789abcdefABCDEF" for c in body)
