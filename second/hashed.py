"""What document 01 has hashed: state hash, next summary, binding and authenticator, over Python's hashlib and hmac."""

import hashlib
import hmac

from second import layout


def state_hash(state):
    """SHA-256 of byte 01 and the state."""
    return hashlib.sha256(b"\x01" + state).digest()


def next_summary(summary, request):
    """SHA-256 of byte 02, the old summary and all the request's bytes."""
    return hashlib.sha256(b"\x02" + summary + request).digest()


def binding(summary, state):
    """SHA-256 of byte 03, a summary and the hash of a state."""
    return hashlib.sha256(b"\x03" + summary + state_hash(state)).digest()


def authenticator(key, summary, state):
    """HMAC-SHA-256 of the binding under the page's key."""
    return hmac.digest(key, binding(summary, state), "sha256")


def sealed(key, summary, state):
    """The record of this summary and state with the authenticator that is valid for it."""
    return layout.record_bytes(state, summary, authenticator(key, summary, state))
