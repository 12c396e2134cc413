"""Defects in the values of bodies, on their way to the service and back."""

import json
import re
import unicodedata

import entities
from odb_batch import Answer
from patching import Execution, change_answers, change_bodies, change_requests


def in_texts(change):
    """Returns what changes all texts of a value."""

    def changed(value):
        if isinstance(value, dict):
            return {name: changed(it) for name, it in value.items()}
        return change(value) if isinstance(value, str) else value

    return changed


def of_texts(change):
    """Has the texts of the bodies of requests changed."""
    change_bodies(lambda request: True, in_texts(change))


def change_bodies_of_answers(change, read=json.loads):
    """Has the bodies of answers changed, as values."""

    def changed(given, answer):
        return answer._replace(body=json.dumps(change(read(answer.body))).encode()) if answer.body else answer

    change_answers(changed)


def blanks_lost():
    """Texts lose the blanks at their ends."""
    of_texts(str.strip)


def blanks_of_answers_lost():
    """Texts that are answered lose the blanks at their ends."""
    change_bodies_of_answers(in_texts(str.strip))


def texts_of_255():
    """Texts are cut after 255 characters."""
    of_texts(lambda text: text[:255])


def texts_of_4096():
    """Texts are cut after 4,096 characters."""
    of_texts(lambda text: text[:4096])


def texts_of_65535():
    """Texts are cut after 65,535 characters."""
    of_texts(lambda text: text[:65_535])


def take_lines():
    """The service takes texts that are not printable."""
    of_type = entities._value

    def stored(name, key, value):
        is_text = isinstance(value, str) and key == "Title"
        return value if is_text else of_type(name, key, value)

    entities._value = stored


def tabs_as_blanks():
    """Tabs of texts become blanks."""
    take_lines()
    of_texts(lambda text: text.replace("\t", " "))


def lines_of_unix():
    """Texts have their lines end as in Unix."""
    take_lines()
    of_texts(lambda text: text.replace("\r\n", "\n"))


def blanks_as_one():
    """Several blanks become one."""
    of_texts(lambda text: re.sub("  +", " ", text))


def no_control_characters():
    """Control characters of texts are lost."""
    take_lines()
    of_texts(lambda text: re.sub("[\x00-\x08\x0b\x0c\x0e-\x1f]", "", text))


def sixteen_bits():
    """A character beyond U+FFFF becomes a question mark."""
    of_texts(lambda text: "".join(it if it <= "\uffff" else "?" for it in text))


def sixteen_bits_of_answers():
    """A character beyond U+FFFF that is answered becomes a question mark."""
    change_bodies_of_answers(in_texts(lambda text: "".join(it if it <= "\uffff" else "?" for it in text)))


def latin_1():
    """A batch is read as Latin-1."""
    prepare = Execution.__init__

    def preparing(self, document, *rest):
        prepare(self, document.decode("latin-1").encode(), *rest)

    Execution.__init__ = preparing


def no_empty_texts():
    """An empty text counts as none."""
    change_bodies(lambda request: True, lambda body: {name: it for name, it in body.items() if it != ""})


def no_nulls():
    """What is null counts as missing."""
    change_bodies(lambda request: True, lambda body: {name: it for name, it in body.items() if it is not None})


def nulls_as_texts():
    """null becomes an empty text."""
    change_bodies(lambda request: True, lambda body: {name: "" if it is None else it for name, it in body.items()})


def numbers_as_floats():
    """Numbers with a fraction become floats."""
    change_bodies(lambda request: b"." in request.body, lambda body: body)


def numbers_of_answers_as_floats():
    """Numbers with a fraction that are answered become floats."""
    change_bodies_of_answers(lambda body: body)


def no_zeros_at_the_end():
    """Numbers lose the zeros at the end of their fraction, and no other digit."""

    def change(request):
        text = request.body.replace(b"9.990", b"9.99")
        return request._replace(body=text)

    change_requests(change)


def whole_numbers_as_floats():
    """Whole numbers become floats, as in JavaScript."""

    def changed(body):
        return {name: int(float(it)) if type(it) is int else it for name, it in body.items()}

    change_bodies(lambda request: True, changed)


def numbers_as_texts():
    """Numbers become texts."""

    def read(text):
        return json.loads(text, parse_float=str, parse_int=str)

    change_bodies_of_answers(lambda body: body, read)


def bodies_of_64_kib():
    """A request with more than 65,536 bytes is answered 413 in a batch."""
    answer = Execution.answer

    def answering(self, request):
        if len(request.body) > 65_536:
            return Answer(413, {}, {"error": {"code": "TooLong", "message": "Too long"}})
        return answer(self, request)

    Execution.answer = answering


def composed():
    """Texts are brought to one form of Unicode."""
    of_texts(lambda text: unicodedata.normalize("NFC", text))


def compatible():
    """Texts that are answered are brought to one form of Unicode, without ligatures."""
    change_bodies_of_answers(in_texts(lambda text: unicodedata.normalize("NFKC", text)))


def lower_case():
    """Texts are brought to lower case."""
    of_texts(str.lower)


def plus_as_blank():
    """A plus in a text becomes a blank, as in a form."""
    of_texts(lambda text: text.replace("+", " "))


def digits_as_numbers():
    """A text of digits becomes a number."""
    of_texts(lambda text: int(text) if text.isdigit() else text)


def null_as_null():
    """The text null becomes null."""
    of_texts(lambda text: None if text == "null" else text)


def zeros_as_nulls():
    """0 becomes null."""
    change_bodies(lambda request: True, lambda body: {name: None if it == 0 else it for name, it in body.items()})


def signs_of_numbers_lost():
    """Numbers below 0 lose their sign."""

    def change(request):
        return request._replace(body=request.body.replace(b"-0.50", b"0.50"))

    change_requests(change)


def numbers_of_patches_as_floats():
    """Numbers with a fraction become floats in a PATCH."""
    change_bodies(lambda request: request.method == "PATCH" and b"." in request.body, lambda body: body)


def whole_numbers_without_fraction():
    """10.0 becomes 10."""
    change_requests(lambda request: request._replace(body=request.body.replace(b"10.0", b"10")))


def hundreds_with_exponent():
    """1200 becomes 12E+2, which is as much."""
    change_requests(lambda request: request._replace(body=re.sub(rb"\b1200\b", b"12E+2", request.body)))


def dollars_of_patches_lost():
    """Texts lose each $ in a PATCH."""
    change_bodies(lambda request: request.method == "PATCH", in_texts(lambda text: text.replace("$", "")))
