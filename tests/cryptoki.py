"""A program that uses a PKCS#11 module: `python3 -m tests.cryptoki MODULE PIN ORDERS`, where ORDERS is a list in JSON. What comes of each
is written as JSON: hexadecimal digits, or the return value of the function that failed. An order is one of

    {"create": "hexadecimal digits of a DES key", "label": "A"}
    {"cipher": "Encrypt", "mechanism": 290, "iv": "hexadecimal digits", "label": "A", "pieces": ["hexadecimal digits", ..]}
"""
import ctypes
import json
import sys

LONG = ctypes.c_ulong
SECRET_KEY, DES, USER, SERIAL_AND_WRITABLE = 4, 0x13, 1, 6
CLASS, TOKEN, LABEL, VALUE, KEY_TYPE, ENCRYPT, DECRYPT = 0, 1, 3, 0x11, 0x100, 0x104, 0x105
TRUE = b"\1"


class Attribute(ctypes.Structure):
    """CK_ATTRIBUTE"""

    _fields_ = [("type", LONG), ("value", ctypes.c_char_p), ("length", LONG)]


class Mechanism(ctypes.Structure):
    """CK_MECHANISM"""

    _fields_ = [("mechanism", LONG), ("parameter", ctypes.c_char_p), ("length", LONG)]


class Failed(Exception):
    """A function failed: its name and its return value."""


class Session:
    """A session of the first slot, as the user."""

    def __init__(self, module, pin):
        self.module, self.session, slot, count = ctypes.CDLL(module), LONG(), LONG(), LONG(1)
        self.call("C_Initialize", None)
        self.call("C_GetSlotList", b"\1", ctypes.byref(slot), ctypes.byref(count))
        self.call("C_OpenSession", slot, LONG(SERIAL_AND_WRITABLE), None, None, ctypes.byref(self.session))
        self.call("C_Login", self.session, LONG(USER), pin.encode(), LONG(len(pin)))

    def call(self, name, *words):
        function = getattr(self.module, name)
        function.restype = LONG
        came = function(*words)
        if came:
            raise Failed(f"{name}: {came:#x}")

    def attributes(self, values):
        """A template: numbers are those of PKCS#11."""
        given = [(it, value if isinstance(value, bytes) else bytes(LONG(value))) for it, value in values.items()]
        return (Attribute * len(given))(*(Attribute(it, value, len(value)) for it, value in given)), LONG(len(given))

    def create(self, key, label):
        """Puts a clear key into the token, under a label."""
        values = {CLASS: SECRET_KEY, KEY_TYPE: DES, VALUE: key, TOKEN: TRUE, ENCRYPT: TRUE, DECRYPT: TRUE, LABEL: label.encode()}
        self.call("C_CreateObject", self.session, *self.attributes(values), ctypes.byref(LONG()))
        return b""

    def found(self, label):
        """The key under a label."""
        key, count = LONG(), LONG()
        self.call("C_FindObjectsInit", self.session, *self.attributes({CLASS: SECRET_KEY, LABEL: label.encode()}))
        self.call("C_FindObjects", self.session, ctypes.byref(key), LONG(1), ctypes.byref(count))
        self.call("C_FindObjectsFinal", self.session)
        if count.value != 1:
            raise Failed(f"no key {label}")
        return key

    def output(self, name, *words):
        """What a function writes."""
        out, length = ctypes.create_string_buffer(2**17), LONG(2**17)
        self.call(name, self.session, *words, out, ctypes.byref(length))
        return out.raw[: length.value]

    def cipher(self, cipher, mechanism, iv, label, pieces):
        """Enciphers or deciphers, at once or piece by piece."""
        how = Mechanism(mechanism, iv, len(iv))
        self.call(f"C_{cipher}Init", self.session, ctypes.byref(how), self.found(label))
        if len(pieces) == 1:
            return self.output(f"C_{cipher}", pieces[0], LONG(len(pieces[0])))
        came = [self.output(f"C_{cipher}Update", it, LONG(len(it))) for it in pieces]
        return b"".join(came) + self.output(f"C_{cipher}Final")


def carried_out(session, order):
    """What comes of an order."""
    try:
        if "create" in order:
            return session.create(bytes.fromhex(order["create"]), order["label"]).hex()
        pieces = [bytes.fromhex(it) for it in order["pieces"]]
        return session.cipher(order["cipher"], order["mechanism"], bytes.fromhex(order["iv"]), order["label"], pieces).hex()
    except Failed as failed:
        return str(failed)


def main():
    module, pin, orders = sys.argv[1:]
    try:
        session = Session(module, pin)
    except Failed as failed:
        sys.exit(str(failed))
    print(json.dumps([carried_out(session, order) for order in json.loads(orders)]))
    session.call("C_Logout", session.session)
    session.call("C_Finalize", None)


if __name__ == "__main__":
    main()
