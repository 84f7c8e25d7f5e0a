"""What each answer means, and what its place names, as include/olivrescum.h lists them."""
import os
import re

HEADER = os.path.join(os.path.dirname(os.path.abspath(__file__)), "..", "include", "olivrescum.h")
LINE = re.compile(r'^ *X\((\d+), \w+, "([^"]*)", "([^"]*)"\)', re.MULTILINE)

with open(HEADER, encoding="ascii") as header:
    SENTENCES = {int(number): (sentence, named) for number, sentence, named in LINE.findall(header.read())}


def explain(number, place):
    sentence, named = SENTENCES[number]
    return sentence + (f": {named} {place}" if named else "")
