"""Ed25519 keys and signatures, as python3-cryptography makes them."""
import base64
import binascii

from cryptography.exceptions import InvalidSignature
from cryptography.hazmat.primitives import serialization
from cryptography.hazmat.primitives.asymmetric.ed25519 import Ed25519PrivateKey, Ed25519PublicKey

SIGNATURE = 64  # bytes


class SignatureFault(ValueError):
    """The fault that bytes are no Ed25519 key."""


def new_key() -> bytes:
    """A new secret key, as PEM."""
    return Ed25519PrivateKey.generate().private_bytes(
        serialization.Encoding.PEM,
        serialization.PrivateFormat.PKCS8,
        serialization.NoEncryption(),
    )


def secret_key(secret: bytes) -> Ed25519PrivateKey:
    """The secret key of a PEM file."""
    try:
        key = serialization.load_pem_private_key(secret, password=None)
    except (ValueError, TypeError) as error:
        raise SignatureFault(f"this is no secret key: {error}") from error
    if not isinstance(key, Ed25519PrivateKey):
        raise SignatureFault("this is no Ed25519 key")
    return key


def public_of(secret: bytes) -> str:
    """The public half of a secret key in base64, as a commitment has it."""
    public = secret_key(secret).public_key()
    der = public.public_bytes(
        serialization.Encoding.DER, serialization.PublicFormat.SubjectPublicKeyInfo
    )
    return base64.b64encode(der).decode()


def sign(secret: bytes, message: bytes) -> bytes:
    """The signature of a message. The same key and message always give the same."""
    return secret_key(secret).sign(message)


def is_signed(key: str, message: bytes, signature: bytes) -> bool:
    """Whether the key with this public half made the signature of a message."""
    try:
        public = serialization.load_der_public_key(base64.b64decode(key, validate=True))
    except (ValueError, binascii.Error):
        return False
    if not isinstance(public, Ed25519PublicKey):
        return False
    try:
        public.verify(signature, message)
    except InvalidSignature:
        return False
    return True
