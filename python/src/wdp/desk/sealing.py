"""Forms that are sealed for the holder of another key, each bound to its commitment: X25519,
HKDF-SHA256 and ChaCha20-Poly1305.

A sealed form is

    12 bytes  the number that is used once with a session's key
    48 bytes  the salt, which whoever has the session's key opens
    32 bytes  a public key that was made for this form
    the rest  the salt and the text, which the holder opens
"""
import hashlib
import os
import secrets
from pathlib import Path
from typing import NamedTuple

from cryptography.exceptions import InvalidTag
from cryptography.hazmat.primitives import hashes, serialization
from cryptography.hazmat.primitives.asymmetric.x25519 import X25519PrivateKey, X25519PublicKey
from cryptography.hazmat.primitives.ciphers.aead import ChaCha20Poly1305
from cryptography.hazmat.primitives.kdf.hkdf import HKDF

from wdp.files import read
from wdp.desk.folder import read_secret
from wdp.texts.refusals import Refused

SALT_SIZE = 32
_NONCE_SIZE = 12
_SALT_END = _NONCE_SIZE + SALT_SIZE + 16
_KEY_END = _SALT_END + 32
OVERHEAD = _KEY_END + SALT_SIZE + 16  # bytes of a sealed form beyond its text
_MOST_OF_A_KEY = 10_000
_RAW = serialization.Encoding.Raw
# (each key is used for one form alone)
_ONCE = bytes(_NONCE_SIZE)
_MAKES = "openssl genpkey -algorithm X25519 -out holder.key makes one"


class Commitment(NamedTuple):
    """What a form is known by before it is opened: SHA-256 of the salt and the text's SHA-256, both
    in hexadecimal digits.
    """

    digest: str
    salt: str

    @property
    def value(self) -> str:
        """The commitment itself."""
        return hashlib.sha256(f"{self.salt}{self.digest}".encode()).hexdigest()


def make_salt() -> str:
    """A salt: 32 random bytes, as hexadecimal digits."""
    return secrets.token_hex(SALT_SIZE)


def _derive(secret: bytes, salt: bytes, purpose: bytes) -> bytes:
    return HKDF(hashes.SHA256(), 32, salt=salt, info=purpose).derive(secret)


def _derive_shared(private: X25519PrivateKey, public: bytes, salt: bytes) -> bytes:
    """The key of a form, from one of the two private keys and the other public one."""
    shared = private.exchange(X25519PublicKey.from_public_bytes(public))
    return _derive(shared, salt, b"wdp desk: a form")


def _get_bytes(private: X25519PrivateKey) -> bytes:
    return private.public_key().public_bytes(_RAW, serialization.PublicFormat.Raw)


def seal(holder: bytes, session_key: str, commitment: Commitment, text: bytes) -> bytes:
    """A text that the holder of a key opens.

    What was sealed is opened once more by the other end of the same key, which is then forgotten;
    Refused if that doesn't give the text.
    """
    own = X25519PrivateKey.generate()
    ours = _get_bytes(own)
    key = _derive_shared(own, holder, ours + holder)
    salt = bytes.fromhex(commitment.salt)
    about = commitment.value.encode()
    once = os.urandom(_NONCE_SIZE)
    of_session = ChaCha20Poly1305(_derive(session_key.encode(), about, b"wdp desk: a salt"))
    sealed = b"".join(
        (
            once,
            of_session.encrypt(once, salt, about),
            ours,
            ChaCha20Poly1305(key).encrypt(_ONCE, salt + text, about),
        )
    )
    again = _derive_shared(own, holder, sealed[_SALT_END:_KEY_END] + holder)
    if (
        _decrypt(again, sealed, about) != salt + text
        or find_salt(sealed, session_key, about) != salt
    ):
        raise Refused("the form was sealed, and what was sealed doesn't open")
    return sealed


def _decrypt(key: bytes, sealed: bytes, about: bytes) -> bytes | None:
    try:
        return ChaCha20Poly1305(key).decrypt(_ONCE, sealed[_KEY_END:], about)
    except InvalidTag:
        return None


def find_salt(sealed: bytes, session_key: str, about: bytes) -> bytes | None:
    """The salt of a sealed form with this commitment, by the key of the session that handed it in;
    None by another key.
    """
    key = _derive(session_key.encode(), about, b"wdp desk: a salt")
    once = sealed[:_NONCE_SIZE]
    try:
        return ChaCha20Poly1305(key).decrypt(once, sealed[_NONCE_SIZE:_SALT_END], about)
    except (InvalidTag, ValueError):
        return None


def find_sealed_salt(sealed: bytes) -> bytes:
    """The part of a sealed form that has the salt for its session."""
    return sealed[:_SALT_END]


def unseal(private: X25519PrivateKey, sealed: bytes, commitment: str) -> tuple[str, bytes]:
    """The salt, in hexadecimal digits, and the text of a sealed form; Refused by another key."""
    ours = _get_bytes(private)
    key = _derive_shared(private, sealed[_SALT_END:_KEY_END], sealed[_SALT_END:_KEY_END] + ours)
    opened = _decrypt(key, sealed, commitment.encode())
    if opened is None:
        raise Refused("it isn't sealed for this key, or isn't what was sealed")
    return opened[:SALT_SIZE].hex(), opened[SALT_SIZE:]


def read_public_key(path: str) -> bytes:
    """A holder's public key, as openssl writes it; Refused if the file has none."""
    data = read(path, _MOST_OF_A_KEY)
    try:
        key = serialization.load_pem_public_key(data)
    except ValueError:
        key = None
    if not isinstance(key, X25519PublicKey) or not _can_seal(key):
        shows = "openssl pkey -in holder.key -pubout -out holder.pub writes it"
        raise Refused(f"{path}: it has no public key of X25519; {shows}")
    return key.public_bytes(_RAW, serialization.PublicFormat.Raw)


def _can_seal(key: X25519PublicKey) -> bool:
    """Whether secrets can be shared with the owner of a key: a few points share one with all."""
    try:
        X25519PrivateKey.generate().exchange(key)
    except ValueError:
        return False
    return True


def read_private_key(path: str) -> X25519PrivateKey:
    """A holder's private key; Refused if the file has none, or others can read it."""
    data = read_secret(Path(path), _MOST_OF_A_KEY)
    try:
        key = serialization.load_pem_private_key(data, password=None)
    except (ValueError, TypeError):
        key = None
    if not isinstance(key, X25519PrivateKey):
        raise Refused(f"{path}: it has no private key of X25519, or it is encrypted; {_MAKES}")
    return key
