"""Texts after several edits, by bytes and by tokens, and texts that are cut off."""
from random_inputs.changes import changed

# What a reader of bytes may take wrongly: marks, overlong and half sequences, surrogates, the ends of ranges, long numbers, deep brackets.
PIECES = [
    b"\xef\xbb\xbf", b"\xc0\x80", b"\xe0\x80\x80", b"\xed\xa0\x80", b"\xf4\x90\x80\x80", b"\xc3", b"\xf0\x9f\x98", b"\xff", b"\0",
    b"\r", b"\r\n", b"\t", b"\x0b", b"\x0c", b"\x7f", b"\xc2\x85", b"\xc2\xa0", b"\xe2\x80\xa8", b"\\", b"\\u", b"\\U0010FFFF",
    b"\\U00110000", b"\\uD800", b"\\N", b'""', b"''", b'"""', b"'''", b"--", b"#", b"#\n", b"<>", b"<#>", b"_:", b":", b"@", b"@-",
    38 * b"9", 39 * b"9", b"." + 39 * b"1", b"1e9", b"-0", b"+", b"2147483648", 64 * b"{", 65 * b"(", 64 * b"[ ", b"]", b"}", b")",
]


def edited_bytes(chance, data):
    """Bytes with a run of them deleted, doubled, moved or overwritten, with a piece put in, or cut off at one end."""
    place = chance.randint(0, len(data))
    end = min(len(data), place + chance.choice([1, 1, 1, 2, 3, 8, 40]))
    run = data[place:end]
    match chance.choice(["delete", "double", "move", "bits", "put", "put", "front", "back"]):
        case "delete":
            return data[:place] + data[end:]
        case "double":
            return data[:end] + run * chance.choice([1, 1, 2, 70]) + data[end:]
        case "move":
            left = data[:place] + data[end:]
            other = chance.randint(0, len(left))
            return left[:other] + run + left[other:]
        case "bits":
            return data[:place] + bytes(byte ^ 1 << chance.randrange(8) for byte in run) + data[end:]
        case "put":
            return data[:place] + chance.choice(PIECES) + data[place:]
        case "front":
            return data[place:] if chance.happens(0.2) else data[:place] + data[end:]
        case _:
            return data[:place]


def edited(chance, text):
    """A text after one to five edits, of which each is by tokens where the text is still UTF-8, or by bytes."""
    for _ in range(chance.choice([1, 1, 2, 2, 3, 5])):
        data = text if isinstance(text, bytes) else text.encode()
        try:
            text = changed(chance, data.decode()) if chance.happens(0.6) else edited_bytes(chance, data)
        except UnicodeDecodeError:
            text = edited_bytes(chance, data)
    return text


def cut_off(chance, text):
    """A beginning of a text."""
    data = text if isinstance(text, bytes) else text.encode()
    return data[:chance.randint(0, len(data))]
