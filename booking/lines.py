"""Lines of bookings as they are written: tidily, untidily, and wrong in every way."""
from model import WIDTHS

# ---- right lines


def plain(fields):
    return b" ".join(field if isinstance(field, bytes) else b"%d" % field for field in fields)


def tidy(lines):
    return b"".join(plain(fields) + b"\n" for fields in lines)


def untidy(lines, chance):
    """With gaps, comments, blank lines and zeros in front, by chance; with carriage returns or not, and with or without the last newline."""
    gap = lambda: chance.choice((b" ", b" ", b" ", b"\t", b"  ", b" \t "))
    end, text = chance.choice((b"\n", b"\n", b"\r\n")), b""
    for word, *numbers in lines:
        text += chance.choice((b"", b"", b"", end, gap() + end, b"# add 1 1 1" + end, b"#\r#" + end))
        fields = [word, *(b"0" * chance.choice((0, 0, 0, 1, 30)) + b"%d" % number for number in numbers)]
        text += chance.choice((b"", b"", gap())) + gap().join(fields) + chance.choice((b"", b"", gap(), b"# begin", b"#", gap() + b"#\t\xff\0")) + end
    return chance.choice((text, text.removesuffix(end))) + chance.choice((b"", b"", b"\r", end, gap() + b"#"))


def damaged(text, chance):
    """With a byte or a few more, less or changed, which may leave it right."""
    at = chance.randrange(len(text))
    put = chance.choice((b"", b" ", b"\n", b"\r", b"#", b"\t", b"0", b"1", b"a", b"-", b",", b"add", b" 7", b"\0", b"9" * 20, bytes([chance.randrange(256)])))
    return text[:at] + put + text[at + chance.randrange(2):]


# ---- wrong lines


def wrong_words(word):
    """What is not that word, nor another of bookings."""
    return {"a capital letter": word.capitalize(), "capital letters": word.upper(), "a word that is cut": word[:-1], "a word with a letter more": word + b"s",
            "a word of notes": b"stream", "the word twice in one": word + word, "another word": b"remove", "a digit behind the word": word + b"1",
            "a colon behind the word": word + b":", "a NUL behind the word": word + b"\0", "a byte order mark": b"\xef\xbb\xbf" + word, "no word": b""}


# Fields that are no numbers.
WRONG_NUMBERS = {"a sign": b"+1", "a minus sign": b"-1", "a point": b"1.0", "a comma": b"1,000", "a hexadecimal": b"0x1", "an exponent": b"1e3", "an underscore": b"1_0",
                 "a word for a number": b"one", "letters behind a number": b"1a", "a NUL in a number": b"1\0", "a byte above 127": b"1\xff", "digits of another script": "१".encode(),
                 "a carriage return in a number": b"1\r1", "a vertical tab for a gap": b"1\v1", "a form feed for a gap": b"1\f1", "a space that does not break": b"1\xc2\xa01",
                 "a number cut by a comment": b"#1"}


def too_large(width):
    """Numbers that just do not fit, that do not fit by far, and that wrap to a small one."""
    return {"just too large": 2**width, "too large by two": 2**width + 1, "a digit too many": 2**width * 10 - 1, "30 digits": b"9" * 30, "2^128 and 1": 2**128 + 1,
            "5,000 digits": b"1" + b"0" * 5_000, "zeros and then too large": b"0" * 30 + b"%d" % 2**width}


def wrong_lines(fields):
    """Each way in which a line is wrong, by its name, as the text that stands in its place."""
    word, *numbers = fields
    made = {what: [other, *numbers] for what, other in wrong_words(word).items()}
    made |= {"the word alone": [word], "a number too few": fields[:-1], "a number too many": [*fields, 1], "a word too many": [*fields, b"again"],
             "ten numbers too many": [*fields, *range(10)], "the word behind its numbers": [*numbers, word], "the numbers alone": numbers,
             "its last byte is a carriage return too many": [*fields[:-1], b"%d\r\r" % fields[-1]], "a carriage return before a comment": [*fields[:-1], b"%d\r# " % fields[-1]],
             "the next line in it": [*fields, b"add", 1, 1, 1_000]}
    for at in range(len(numbers)):
        with_field = lambda field: [word, *numbers[:at], field, *numbers[at + 1:]]
        made |= {f"{what}, in number {at + 1}": with_field(field) for what, field in too_large(WIDTHS[word][at]).items()}
        made |= {f"{what}, in number {at + 1}": with_field(field) for what, field in WRONG_NUMBERS.items()}
    return {what: plain(text) for what, text in made.items()}
