"""Random texts in which words are sought. One seed makes one text, whatever machine it is on."""
from . import write
import os, string

SEED = 20261123  # of the texts that are timed
SECRET = (string.ascii_letters + string.digits).encode()  # of which secrets are made
BLOCK_LEN = 8 << 20  # of which texts are made that are searched by programs
BLOCKS = 8  # in such a text
EACH = 1000  # bytes of a text behind which a word stands
COMMON = """the of and to a in that is was he for it with as his on be at by i this had not are but from or have an they which one
you were her all she there would their we him been has when who will more no if out so said what up its about into than them can
only other new some could time these two may then do first any my now such like our over man me even most made after also did many
before must through back years where much your way well down should because each just those people how too little state good very
make world still own see men work long get here between both life being under never day same another know while last might us great
old year off come since against go came right used take three""".split()
PARTS = "an ar ba be ca co da de en er fa fo ga ha he in is la le ma me mo na ne no on or pa pe ra re ro sa se si so ta te ti to un".split()


def some_english(dice, length=0):
    """Words as often as in English, in lines: of this length, or of that of a block."""
    length = length or BLOCK_LEN
    weights = [1 / (rank + 2) for rank in range(len(COMMON))]
    words = dice.choices(COMMON, weights, k=length // 4)
    for place in range(11, len(words), 12):
        words[place] += dice.choice([".", ",", ",", ";", ".\n"])
    return bytearray(" ".join(words).encode()[: length - 1] + b"\n")


def some_log(dice, words, length=0, common=COMMON, count=8, place=4):
    """Lines of a log of at least this length, or of that of a block, with a word in each tenth one: in place of this one of its words, or,
    without a place, of any."""
    lines, size = [], 0
    while size < (length or BLOCK_LEN):
        says = dice.choices(common, k=count)
        if len(lines) % 10 == 9:
            word = dice.choice(words)
            says[dice.randrange(count) if place is None else place] = word
        line = f"2026-11-{dice.randint(1, 30):02} {dice.randint(0, 23):02}:{dice.randint(0, 59):02} host app[{dice.randint(1, 9999)}]: {' '.join(says)}\n"
        lines.append(line.encode())
        size += len(line)
    return b"".join(lines)


def unlike(dice, count):
    """Words that look like those of the text and do not occur in it."""
    words = {}  # in the order in which they were made
    while len(words) < count:
        word = "".join(dice.choices(PARTS, k=dice.randint(3, 5)))
        if not any(word in common for common in COMMON):
            words[word.encode()] = None
    return sorted(words, key=lambda word: dice.random())


def picked(dice, letters, count, least, most):
    """So many words of random letters, of such lengths."""
    words = dict.fromkeys(bytes(dice.choices(letters, k=dice.randint(least, most))) for _ in range(count * 2))
    return sorted(words, key=lambda word: dice.random())[:count]


def sown(dice, words, text, each=EACH, around=b""):
    """The text with one of the words at each so many bytes."""
    text = bytearray(text)
    for place in range(0, len(text) - 100, each):
        word = around + dice.choice(words) + around
        text[place : place + len(word)] = word
    return bytes(text)


def write_blocks(folder, piece, blocks=BLOCKS):
    """Writes a text that is so often this piece."""
    with open(os.path.join(folder, "text"), "wb") as file:
        for _ in range(blocks):
            file.write(piece)
    return file.name
