"""Small changes to texts, after which most of them are refused, and to the words of a call."""
import re

# A bit like the tokens of all three languages, so that what is changed is one token as a rule.
TOKEN = re.compile(r'"""|\'\'\'|"(?:[^"\\\n]|\\.)*"|<[^<>\s]*>|[\w@:?$\\^-]+|\s+|.', re.DOTALL)
BYTES = b'\0\t\n\r "\',.<>\\{}\x80\xc3\xff'
INSERTS = [" ", "", "0", "x", ".", '"', "\\", ";", "}", "é", "\\u0020", 39 * "9"]
WORDS = ["--help", "-h", "--", "--version", "--query", "--data=x", "x", "", "help", "-", "--schema=s"]


def changed_byte(chance, text):
    """The bytes of a text with one of them changed; they need be no UTF-8."""
    data = bytearray(text.encode())
    data[chance.randrange(len(data))] = chance.choice(BYTES)
    return bytes(data)


def beginning(token):
    """What a token begins with: a letter, a digit, or which sign."""
    return "letter" if token[0].isalpha() else "digit" if token[0].isdigit() else token[0]


def alike(tokens, place):
    """The tokens other than the one at a place that begin as it does."""
    return [token for token in tokens if token != tokens[place] and beginning(token) == beginning(tokens[place])]


def changed(chance, text):
    """A text with one token deleted, doubled, cut, replaced or swapped; at times with one byte changed."""
    if not text:
        return chance.choice(["x", '"', ";", "\n"])
    if chance.happens(0.08):
        return changed_byte(chance, text)
    tokens = TOKEN.findall(text)
    solid = [place for place, token in enumerate(tokens) if not token.isspace()] or [0]
    place, other = chance.choice(solid), chance.choice(solid)
    token = tokens[place]
    match chance.choice(["delete", "double", "swap", "replace", "cut", *(5 * ["alike"])]):
        case "delete":
            tokens[place] = ""
        case "double":
            tokens[place] = token + chance.choice(["", " "]) + token
        case "swap":
            tokens[place], tokens[other] = tokens[other], token
        case "replace":
            tokens[place] = tokens[other]
        case "alike":
            tokens[place] = chance.choice(alike(tokens, place) or [tokens[other]])
        case "cut":
            cut = chance.randint(0, len(token))
            tokens[place] = token[:cut] + chance.choice(INSERTS) + token[cut:]
    return "".join(tokens)


def changed_words(chance, words):
    """The words of a call with up to two of them deleted, doubled, swapped or added."""
    words = list(words)
    for _ in range(chance.choice([0, 1, 1, 2])):
        place, other = chance.randrange(len(words)), chance.randrange(len(words))
        kind = chance.choice(["delete", "double", "swap", "add"])
        if kind == "delete" and len(words) > 1:
            del words[place]
        elif kind == "swap":
            words[place], words[other] = words[other], words[place]
        else:
            words.insert(place, words[place] if kind == "double" else chance.choice(WORDS))
    return words
