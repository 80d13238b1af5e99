"""The rules of this project's formats by which it reads data otherwise than yanglint does."""

from __future__ import annotations

from dataclasses import dataclass
from enum import Enum


class Way(Enum):
    """How two readers of one instance differ."""

    PROGRAM_REFUSES = "the program refuses"
    PROGRAM_ACCEPTS = "the program accepts"
    OTHER_DATA = "both accept, as other data"


@dataclass(frozen=True)
class Rule:
    """A rule, and the ways in which a difference may follow from it."""

    name: str
    sentence: str
    ways: tuple[Way, ...]


HEXADECIMAL = Rule(
    "hexadecimal", "Instance data have decimal digits alone (RFC 7950 section 9.2.1); hexadecimal is for defaults in "
    "modules. yanglint reads it in data too.", (Way.PROGRAM_REFUSES,))
LEADING_ZERO = Rule(
    "leading zero", "A number is read in decimal, with leading zeros if it likes (RFC 7950 section 9.2.1). yanglint "
    "takes a leading zero for octal.", (Way.PROGRAM_ACCEPTS, Way.OTHER_DATA))
BLANKS = Rule(
    "blanks around a number", "A number's text has a sign, digits and a point and nothing else (RFC 7950 sections "
    "9.2.1 and 9.3.1). yanglint leaves out white space around it.", (Way.PROGRAM_REFUSES,))
WHOLE = Rule(
    "a float for a whole number", "A JSON number with a point or an exponent, and -0, is a float to the JSON reader "
    "and no whole number, whatever its value. yanglint takes some of these.", (Way.PROGRAM_REFUSES,))
DIGITS = Rule(
    "no digit before the point", "A decimal64 has a digit at least before its point (RFC 7950 section 9.3.1). After a "
    "sign yanglint wants none, and takes a sign alone for zero.", (Way.PROGRAM_REFUSES,))
FRACTION = Rule(
    "zeros past the fraction digits", "A decimal64 has at most its fraction-digits behind the point, zeros counted "
    "too. yanglint leaves out zeros at the end first.", (Way.PROGRAM_REFUSES,))
BYTES = Rule(
    "256 bytes", "A text has at most 256 bytes in UTF-8. YANG's length counts characters.", (Way.PROGRAM_REFUSES,))
CHARACTERS = Rule(
    "any character", "A text is any UTF-8. YANG leaves out control characters, and those that Unicode sets aside "
    "(RFC 7950 section 14).", (Way.PROGRAM_ACCEPTS,))
SURROGATES = Rule(
    "surrogate pairs", "JSON may write a character past the sixteenth bit as two escapes (RFC 8259 section 7). "
    "This yanglint reads no such pair.", (Way.PROGRAM_ACCEPTS,))
MEMBER_FORM = Rule(
    "member form", "A member has its module's name exactly where the module changes (RFC 7951 section 4). yanglint "
    "takes the module's name everywhere, and an empty one for none.", (Way.PROGRAM_REFUSES,))
TWICE = Rule(
    "a member twice", "Of a member that stands twice in an object the JSON reader decides (RFC 8259 section 4 leaves "
    "it open): it takes the later one. yanglint refuses it, but for a leaf-list of state data, of which it takes both.",
    (Way.PROGRAM_ACCEPTS, Way.OTHER_DATA))
STATE = Rule(
    "equal values of state data", "Two equal values of a leaf-list are refused wherever they stand, since a row is "
    "named by its path. YANG allows them in state data (RFC 7950 section 7.7).", (Way.PROGRAM_REFUSES,))
ONE_MEMBER = Rule(
    "one member at a path", "The value at a path is an object with one member, the node that the path names. In the "
    "data of a whole datastore its siblings may stand beside it, or it may be missing.", (Way.PROGRAM_REFUSES,))
OUTER_NAME = Rule(
    "the qualified name at a path", "The one member of the value at a path has the module's name (RFC 8072's values). "
    "Inside of data it needs none.", (Way.PROGRAM_REFUSES,))
ONE_ENTRY = Rule(
    "one entry at a path", "The value at the path of a list entry is an array of one. Data may have several entries, "
    "or none.", (Way.PROGRAM_REFUSES,))
PATH_KEYS = Rule(
    "the keys of the path", "The entry at a path has the keys that the path names. Data alone may have any.",
    (Way.PROGRAM_REFUSES,))
