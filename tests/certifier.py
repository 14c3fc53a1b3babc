"""Certificates that cancel a key, and why one is refused: apart from the program, for what cases want."""

from __future__ import annotations

from collections import namedtuple

import judge
import maker
import restorer
from judge import need
from restorer import numbers

BODY = 128
# The cancelling types, each by the type whose keys it cancels, and how a report names that.
CANCELLING = {maker.CANCELS + kind: kind for kind in maker.CANCELLED}
WORDS = {kind: f"{name}-{part}" for (name, part), kind in maker.TYPES.items()}

# Whose key is cancelled: the type that it signs, and its id.
Certificate = namedtuple("Certificate", "kind key_id")


# ---- the chain of a certificate, which has no key entry: the root signs its Block 0


def judge_root_alone(block, keys):
    """Judges Block 1 of form 1."""
    curve, signing, root = judge.judge_root(block, keys)
    need(numbers(block, 276, 2) == (0x15364367, signing), "block0-entry")
    need(judge.accepts(keys, curve, root, block[:128], block[284:380]), "block0-signature")


def judge_long_root_alone(block, keys):
    """Judges Block 1 of form 2."""
    entries, scheme, root = judge.judge_long_root(block, keys)
    entries.begin("block0-entry")
    (magic,), signature = entries.numbers(1), entries.counted(8000)
    need(magic == 0x15364368, "block0-entry")
    need(judge.accepts_long(keys, scheme, root, block[:128], signature), "block0-signature")


def judge_chain(data, kind, keys):
    """Judges the signature block with which the data begin, and the content behind it: gives that content."""
    begin, end = judge.judge_content(data, kind, BODY)
    alone = judge_root_alone if numbers(data, 0, 1) == (judge.FORM1_MAGIC,) else judge_long_root_alone
    alone(data[:begin], keys)
    return data[begin:end]


# ---- reading one, and what bars it


def judge_certificate(image, name, store, rows):
    """Judges the certificate with which a bank's staging area begins: gives it."""
    layout = restorer.layout_of(store, name)
    area = image[layout.staging_at : layout.staging_at + layout.area_len]
    found = numbers(area, 8, 1)[0]
    kind = found if found in CANCELLING else maker.CANCELS + maker.TYPES[name, "manifest"]
    body = judge.within("chain", judge_chain, area, kind, judge.keys_of(store, rows))
    need(not any(body[4:]), "body")
    key_id = numbers(body, 0, 1)[0]
    need(key_id <= 255, "key-id")
    need(CANCELLING[kind] in (maker.TYPES[name, "manifest"], maker.TYPES[name, "capsule"]), "other-bank")
    return Certificate(CANCELLING[kind], key_id)


def key_id_at(data, at):
    """The id of the key that signed what stands at a place, which is well formed."""
    if numbers(data, at, 1) == (judge.FORM1_MAGIC,):
        return numbers(data, at + 288, 1)[0]
    return numbers(data, at + 164 + numbers(data, at + 160, 1)[0] + 8, 1)[0]


def judge_use(certificate, image, name, store, is_good):
    """Judges whether a certificate may be followed, where the recovery area is good or isn't."""
    at = restorer.layout_of(store, name).recovery_at
    if is_good:
        is_manifest = certificate.kind == maker.TYPES[name, "manifest"]
        signed_at = restorer.content_of(image, at)[0] if is_manifest else at
        need(key_id_at(image, signed_at) != certificate.key_id, "key-in-use")
    need(certificate.key_id not in judge.cleared(judge.cancelled_row(store, certificate.kind)), "already-cancelled")
