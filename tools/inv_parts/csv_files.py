"""CSV files with a header, cut into IMPORT statements."""
import csv
import io
import sys

from . import Trouble

# A statement has at most 65,536 bytes. What stands around its rows has fewer than the rest.
MOST = 65_000


def read_records(path, table, columns):
    """The line and the fields of each record of a file, the fields in the order of the table's columns."""
    csv.field_size_limit(sys.maxsize)
    with open_text(path) as file:
        reader = csv.reader(file, strict=True)
        places, width, line = None, 0, 1
        try:
            for record in reader:
                if places is None and record:
                    places, width = places_of(record, path, table, columns), len(record)
                elif record and len(record) != width:
                    raise Trouble(f"{path}:{line}: {len(record)} fields, and the header has {width}")
                elif record:
                    yield line, [record[place] for place in places]
                line = reader.line_num + 1
        except csv.Error as error:
            raise Trouble(f"{path}:{line}: the record that begins here is no CSV: {error}") from error
        except UnicodeDecodeError as error:
            raise Trouble(f"{path}: behind line {line} a byte is no UTF-8") from error
    if places is None:
        raise Trouble(f"{path} has no header")


def open_text(path):
    """Opens a file of UTF-8, with or without a byte order mark."""
    try:
        return open(path, newline="", encoding="utf-8-sig")
    except OSError as error:
        raise Trouble(f"{path} can't be read: {error.strerror}") from error


def places_of(header, path, table, columns):
    """For each column of the table where it stands in the header."""
    names = [name.strip().lower() for name in header]
    for name in names:
        if name == "p":
            raise Trouble(f"{path}: the header has p, but the database gives the identifiers: leave it out")
        if names.count(name) > 1:
            raise Trouble(f"{path}: the header has {name} twice")
        if name not in columns:
            hint = "; fields are parted by commas" if len(names) == 1 and (";" in name or "\t" in name) else ""
            raise Trouble(f"{path}: {table} has no column {name}; it has: {', '.join(columns)}{hint}")
    for column in columns:
        if column not in names:
            raise Trouble(f"{path}: the header lacks {column}, a column of {table}")
    return [names.index(column) for column in columns]


def import_statements(records, path, table):
    """IMPORT statements for records: the line of each one's first record, and its bytes."""
    first, pieces, size = None, [], 0
    for line, fields in records:
        piece = record_text(fields)
        if len(piece) > MOST:
            raise Trouble(f"{path}:{line}: the record has more bytes than a statement takes")
        if size + len(piece) > MOST:
            yield first, statement(table, pieces)
            first, pieces, size = None, [], 0
        first = line if first is None else first
        pieces.append(piece)
        size += len(piece)
    if pieces:
        yield first, statement(table, pieces)


def record_text(fields):
    """One record as it stands in a statement: in CSV, with each quote of a text doubled."""
    # A byte order mark at the start of an IMPORT would be left out, and a carriage return would end the record.
    needs_quotes = fields[0].startswith("\ufeff") or any("\r" in field for field in fields)
    quoting = csv.QUOTE_ALL if needs_quotes else csv.QUOTE_MINIMAL
    text = io.StringIO(newline="")
    csv.writer(text, quoting=quoting, lineterminator="\n").writerow(fields)
    return text.getvalue().replace("'", "''").encode()


def statement(table, pieces):
    """The IMPORT statement of some records."""
    return f"IMPORT INTO {table} CSV '".encode() + b"".join(pieces) + b"';\n"
