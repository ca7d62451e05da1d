"""CTR_DRBG of libcrypto 3, OpenSSL's, with AES-256 and no derivation function: by ctypes, with no header.

libcrypto asks a parent for entropy. The parent here is its own TEST-RAND, which hands out what it was given last. A
request of 0 bytes reaches no generator there, so that there is none here."""
import ctypes
import ctypes.util

STRENGTH = 256
SIGNED, UNSIGNED, TEXT, BYTES = 1, 2, 4, 5  # OSSL_PARAM_INTEGER, _UNSIGNED_INTEGER, _UTF8_STRING, _OCTET_STRING
UNMODIFIED = ctypes.c_size_t(-1).value  # OSSL_PARAM_UNMODIFIED


class Missing(Exception):
    """There is no such libcrypto; the text says what is missing."""


class Refused(Exception):
    """libcrypto refused a call; the text says which."""


class Param(ctypes.Structure):
    """OSSL_PARAM."""

    _fields_ = [
        ("key", ctypes.c_char_p),
        ("data_type", ctypes.c_uint),
        ("data", ctypes.c_char_p),
        ("data_size", ctypes.c_size_t),
        ("return_size", ctypes.c_size_t),
    ]


POINTER, SIZE, INT, UINT, DATA = ctypes.c_void_p, ctypes.c_size_t, ctypes.c_int, ctypes.c_uint, ctypes.c_char_p
LIST = ctypes.POINTER(Param)
FUNCTIONS = {  # what each returns and takes
    "OpenSSL_version": (DATA, [INT]),
    "EVP_RAND_fetch": (POINTER, [POINTER, DATA, DATA]),
    "EVP_RAND_CTX_new": (POINTER, [POINTER, POINTER]),
    "EVP_RAND_CTX_set_params": (INT, [POINTER, LIST]),
    "EVP_RAND_instantiate": (INT, [POINTER, UINT, INT, DATA, SIZE, LIST]),
    "EVP_RAND_uninstantiate": (INT, [POINTER]),
    "EVP_RAND_reseed": (INT, [POINTER, INT, DATA, SIZE, DATA, SIZE]),
    "EVP_RAND_generate": (INT, [POINTER, DATA, SIZE, UINT, INT, DATA, SIZE]),
}


def loaded():
    name = ctypes.util.find_library("crypto")
    if name is None:
        raise Missing("no libcrypto was found")
    library = ctypes.CDLL(name)
    for function, (returned, taken) in FUNCTIONS.items():
        if not hasattr(library, function):
            raise Missing(f"{name} has no {function}")
        getattr(library, function).restype = returned
        getattr(library, function).argtypes = taken
    return library


def params(*items):
    """A list of OSSL_PARAM, ended by one without a name."""
    filled = [Param(key, kind, value, len(value), UNMODIFIED) for key, kind, value in items]
    return (Param * (len(items) + 1))(*filled, Param())


def whole(n, size):
    return n.to_bytes(size, "little")


class EvpRand:
    """One generator."""

    def __init__(self):
        self.library = loaded()
        self.parent = self.context(b"TEST-RAND", None)
        most = (b"strength", UNSIGNED, whole(STRENGTH, 4)), (b"max_request", UNSIGNED, whole(65536, 8))
        self.ask("EVP_RAND_CTX_set_params", self.parent, params(*most))
        self.ask("EVP_RAND_instantiate", self.parent, STRENGTH, 0, None, 0, None)
        self.generator = self.context(b"CTR-DRBG", self.parent)
        kind = (b"cipher", TEXT, b"AES-256-CTR"), (b"use_derivation_function", SIGNED, whole(0, 4))
        never = (b"reseed_requests", UNSIGNED, whole(0, 4)), (b"reseed_time_interval", SIGNED, whole(0, 8))
        self.ask("EVP_RAND_CTX_set_params", self.generator, params(*kind, *never))
        self.seeded = False

    def version(self):
        return self.library.OpenSSL_version(0).decode()

    def context(self, name, parent):
        found = self.library.EVP_RAND_fetch(None, name, None)
        made = self.library.EVP_RAND_CTX_new(found, parent) if found else None
        if not made:
            raise Missing(f"{self.version()} has no {name.decode()}")
        return made

    def ask(self, function, *arguments):
        if getattr(self.library, function)(*arguments) != 1:
            raise Refused(function)

    def give(self, entropy):
        self.ask("EVP_RAND_CTX_set_params", self.parent, params((b"test_entropy", BYTES, entropy)))

    def instantiate(self, entropy, personalization):
        self.give(entropy)
        if self.seeded:
            self.ask("EVP_RAND_uninstantiate", self.generator)
        words = personalization, len(personalization)
        self.ask("EVP_RAND_instantiate", self.generator, STRENGTH, 0, *words, None)
        self.seeded = True

    def reseed(self, entropy, additional):
        self.give(entropy)
        self.ask("EVP_RAND_reseed", self.generator, 0, None, 0, additional, len(additional))

    def generate(self, length, additional):
        out = ctypes.create_string_buffer(length)
        self.ask("EVP_RAND_generate", self.generator, out, length, STRENGTH, 0, additional, len(additional))
        return out.raw
