#!/usr/bin/env python3
"""Turns a table of your own, an access a line, into a trace of pcm.

usage: examples/import/columns.py --time COLUMN --op COLUMN --address COLUMN [options] < table.csv > trace.csv

A COLUMN is a number, from 1, or a name: then the first line has the names of the columns, which may be in quotes. Fields stand between
commas, or as --separator says; one with the separator in it stands in quotes. Empty lines are read over, and a byte order mark, and with
--comment lines that begin with its text.

    --time      when an access comes, a decimal number; a fraction, as 12.75, is counted too. A cycle is this times --time-unit, rounded
                down: with --time-unit 1000 microseconds become nanoseconds, and with --per-tick 10 a tick is ten of these. Without it
                accesses are --every cycles apart.
    --op        what it does: a word of --reads, of --writes, or, where --others says so, any other. Capitals don't matter. Without it
                all accesses are of one kind, by --all.
    --address   where: a decimal number, or a hexadecimal one behind 0x; with --hex hexadecimal without 0x, too. It is counted in
                --address-unit bytes: 512 for sectors, 64 for numbers of lines.
    --bytes     how many bytes, counted in --bytes-unit; without it --size of them, a line, or those of --payload. More than 4096 are
                some accesses, one behind the other.
    --payload   the bytes of a write, as hexadecimal digits, two a byte, the first byte first, behind 0x or not; of reads it is read over.
"""

import csv
import fractions
import os
import re

import accesses

READS, WRITES = "r,rd,read,reads,load,ld,l,0", "w,wr,write,writes,store,st,s,1"
# The most bytes of one line of the table.
MOST = 2**30


def number(text, name):
    """A whole number of an address or a size."""
    if not re.fullmatch("[0-9]+", text):
        raise accesses.Refusal(f"the {name} is '{text}', not a whole number")
    return within(text, text, name)


def within(digits, text, name):
    """The number of some digits of a field, which are at most 20."""
    if len(digits) > 20:
        raise accesses.Refusal(f"the {name} is '{text}', which is too large")
    return int(digits)


def address_of(text, is_hex):
    """The number of an address."""
    digits = re.fullmatch("0[xX]([0-9a-fA-F]{1,16})" + "|([0-9a-fA-F]{1,16})" * is_hex, text)
    if digits is not None:
        return int(digits.group(digits.lastindex), 16)
    if re.fullmatch("[0-9a-fA-F]{1,16}", text) and not text.isdigit():
        raise accesses.Refusal(f"the address is '{text}', not a decimal number; see --hex")
    return number(text, "address")


def cycle_of(text, unit):
    """The cycle of a time."""
    if not re.fullmatch(r"[0-9]+(\.[0-9]{0,20})?", text):
        raise accesses.Refusal(f"the time is '{text}', not a decimal number")
    within(text.partition(".")[0], text, "time")
    return int(fractions.Fraction(text.rstrip(".")) * unit)


class Columns:
    """Which columns are read, by the options and, where they are named, the first line."""

    def __init__(self, options):
        asked = {name: getattr(options, name) for name in ("time", "op", "address", "bytes", "payload")}
        self.asked = {name: os.fsencode(column).decode("latin-1") for name, column in asked.items() if column is not None}
        self.are_named = any(not column.isdecimal() for column in self.asked.values())
        self.places = None if self.are_named else self.numbered(self.asked)

    @staticmethod
    def numbered(asked):
        """The places of columns by their numbers."""
        places = {name: int(column) - 1 for name, column in asked.items()}
        if min(places.values()) < 0:
            raise accesses.WrongWords("columns are numbered from 1")
        return places

    def name(self, fields):
        """Takes the first line."""
        names = [field.strip() for field in fields]
        for column in self.asked.values():
            if names.count(column) != 1 and not column.isdecimal():
                told = "isn't" if column not in names else "stands twice"
                raise accesses.Refusal(f"the column '{column}' {told} in the first line: {', '.join(names)}")
        self.places = self.numbered({
            name: column if column.isdecimal() and column not in names else str(names.index(column) + 1) for name, column in self.asked.items()
        })

    def of(self, fields):
        """The fields of a line by what they are."""
        if max(self.places.values()) >= len(fields):
            raise accesses.Refusal(f"{len(fields)} fields, where column {max(self.places.values()) + 1} is read")
        return {name: fields[place].strip() for name, place in self.places.items()}


class Table:
    """Reads the lines of a table, one after the other."""

    def __init__(self, options):
        self.options = options
        self.columns = Columns(options)
        self.unit = fractions.Fraction(options.time_unit)
        self.next = 0
        self.does = {word.lower(): writes for words, writes in ((options.reads, False), (options.writes, True)) for word in words.split(",")}
        self.is_first = True

    def fields(self, text):
        """The fields of a line."""
        separator = {"tab": "\t", "comma": ",", "semicolon": ";"}.get(self.options.separator, self.options.separator)
        if separator == "blanks":
            return text.split()
        return next(csv.reader([text], delimiter=separator, strict=True), [])

    def read(self, text):
        """The accesses of a line."""
        if self.is_first:
            text = text.removeprefix("\xef\xbb\xbf")
        if not text.strip() or self.options.comment and text.startswith(self.options.comment):
            return []
        try:
            fields = self.fields(text)
        except csv.Error:
            raise accesses.Refusal("quotes that aren't closed, or with text behind them") from None
        was_first, self.is_first = self.is_first, False
        if was_first and self.columns.are_named:
            self.columns.name(fields)
            return []
        return self.accesses(self.columns.of(fields))

    def accesses(self, told):
        """The accesses of a line by its fields."""
        writes = self.writes(told.get("op"))
        if "time" in told:
            cycle = cycle_of(told["time"], self.unit)
        else:
            cycle, self.next = self.next, self.next + self.options.every
        if writes is None:
            return []
        data = self.payload(told.get("payload")) if writes else None
        address = address_of(told["address"], self.options.hex) * self.options.address_unit
        size = self.size(told.get("bytes"), data)
        if data is not None and len(data) != size:
            raise accesses.Refusal(f"{len(data)} bytes of payload, where the access has {size}")
        pieces = range(0, size, accesses.MOST_BYTES)
        ends = [min(size, at + accesses.MOST_BYTES) for at in pieces]
        return [
            accesses.Access(cycle, writes, address + at, end - at, None if data is None else data[at:end]) for at, end in zip(pieces, ends)
        ]

    def writes(self, word):
        """Whether an access writes; None where it is dropped."""
        if word is None:
            return self.options.all == "write"
        if word.lower() in self.does:
            return self.does[word.lower()]
        if self.options.others is None:
            raise accesses.Refusal(f"the operation is '{word}', neither of --reads nor of --writes; see --others")
        return {"drop": None, "read": False, "write": True}[self.options.others]

    def payload(self, digits):
        """The bytes of a write, where they are told."""
        if digits is None or digits == "":
            return None
        found = re.fullmatch("(?:0[xX])?((?:[0-9a-fA-F]{2})+)", digits)
        if found is None:
            raise accesses.Refusal("the payload isn't of hexadecimal digits, two a byte")
        return bytes.fromhex(found.group(1))

    def size(self, text, data):
        """How many bytes an access has."""
        if text is None:
            return self.options.size if data is None else len(data)
        size = number(text, "number of bytes") * self.options.bytes_unit
        if not 1 <= size <= MOST:
            raise accesses.Refusal(f"{size} bytes; a line of the table has 1 to {MOST}")
        return size


def reader(options):
    """How a line is read."""
    if options.op is None and options.all is None:
        raise accesses.WrongWords("--op names the column of operations, or --all tells what all of them are")
    if options.op is not None and options.all is not None:
        raise accesses.WrongWords("--all tells what all accesses are, where no --op names the column of operations")
    separator = {"tab": "\t", "comma": ",", "semicolon": ";", "blanks": ","}.get(options.separator, options.separator)
    if len(separator) != 1 or separator in '"\r\n':
        raise accesses.WrongWords("--separator is one character, tab, comma, semicolon or blanks")
    if not re.fullmatch(r"[0-9]{1,15}(\.[0-9]{1,15})?", options.time_unit) or not float(options.time_unit):
        raise accesses.WrongWords(f"--time-unit is a number above 0, as 1000 or 0.5, not {options.time_unit}")
    return Table(options).read


def add_options(parser):
    """Options of this format alone."""
    add = parser.add_argument
    add("--time", metavar="COLUMN", help="when an access comes")
    add("--op", metavar="COLUMN", help="what it does")
    add("--address", metavar="COLUMN", required=True, help="where")
    add("--bytes", metavar="COLUMN", help="how many bytes")
    add("--payload", metavar="COLUMN", help="the bytes of a write")
    add("--separator", default="comma", metavar="S", help="what stands between fields: a character, tab, comma, semicolon or blanks (comma)")
    add("--comment", metavar="TEXT", help="lines that begin so are read over")
    add("--time-unit", default="1", metavar="CYCLES", help="cycles of a unit of time (1)")
    add("--every", type=accesses.ranged(0, 10**9), default=1, metavar="CYCLES", help="cycles from line to line, without --time (1)")
    add("--hex", action="store_true", help="addresses are hexadecimal without 0x, too")
    add("--address-unit", type=accesses.ranged(1, 2**32), default=1, metavar="BYTES", help="bytes of a unit of addresses (1)")
    add("--bytes-unit", type=accesses.ranged(1, 2**20), default=1, metavar="BYTES", help="bytes of a unit of sizes (1)")
    add("--reads", default=READS, metavar="WORDS", help=f"words of reads, between commas ({READS})")
    add("--writes", default=WRITES, metavar="WORDS", help=f"words of writes ({WRITES})")
    add("--others", choices=["drop", "read", "write"], help="what is done with other words (they are refused)")
    add("--all", choices=["read", "write"], help="what all accesses are, without --op")


IMPORTER = accesses.Importer(__doc__, reader, add_options, has_data=True)

if __name__ == "__main__":
    accesses.begin(IMPORTER)
