"""`cca` for programs in Python: a method for each verb, over the program itself or over the socket of a front.

    from cca import Coprocessor, Label

    with Coprocessor("folder") as cca:
        ciphertext = cca.encipher(Label("PAY"), b"Now is the time for all ", iv)
"""
from .asynchronous import AsyncCoprocessor, AsyncSocket
from .client import Ended, Error, Status
from .coprocessor import Coprocessor, Socket
from .lines import Unexpected
from .values import Data, Done, Fields, Generated, Key, Label, Parsed, Refused, Token, Verified
from .verbs import Verbs
from .version import VERSION as __version__

__all__ = [
    "AsyncCoprocessor",
    "AsyncSocket",
    "Coprocessor",
    "Data",
    "Done",
    "Ended",
    "Error",
    "Fields",
    "Generated",
    "Key",
    "Label",
    "Parsed",
    "Refused",
    "Socket",
    "Status",
    "Token",
    "Unexpected",
    "Verbs",
    "Verified",
]
