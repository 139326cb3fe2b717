"""Interns the lines of its input, and writes what the proved program writes: the symbol of each line, an empty line, and each
string once, in the order of the symbols.

    words.py text|bytes|cstr|path|osstr|bstr [each]

With `each` it makes a call for each line, and else one call for all of them.
"""
import sys

import intaglio

KINDS = {
    "text": intaglio.SymbolTable, "path": intaglio.PathTable, "osstr": intaglio.OsStringTable,
    "bytes": intaglio.BytesTable, "cstr": intaglio.CStringTable, "bstr": intaglio.ByteStringTable,
}


def main() -> None:
    is_text = sys.argv[1] in ("text", "path", "osstr")
    given = sys.stdin.buffer.read().removesuffix(b"\n").split(b"\n")
    lines = [line.decode() if is_text else line for line in given]
    with KINDS[sys.argv[1]]() as table:
        if sys.argv[2:] == ["each"]:
            symbols = [table.intern(line) for line in lines]
            assert [table.check_interned(line) for line in lines] == symbols
            contents = [table[symbol] for symbol in range(len(table))]
        else:
            symbols = table.intern_all(lines)
            assert table.check_all(lines) == symbols
            contents = list(table)
    out = sys.stdout.buffer
    out.writelines(b"%d\n" % symbol for symbol in symbols)
    out.write(b"\n")
    out.writelines((content.encode() if is_text else content) + b"\n" for content in contents)


main()
