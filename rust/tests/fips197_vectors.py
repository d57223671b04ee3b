"""Prints AES-128 vectors of one block each, as lines 'key plaintext ciphertext' in hex.

The keys and blocks come from a fixed seed; the ciphertexts come from the Python
package `cryptography`, which is first held against FIPS 197, Appendix B and C.1.
"""

import random

from cryptography.hazmat.primitives.ciphers import Cipher, algorithms, modes

FIPS_197 = {
    "Appendix B": (
        "2b7e151628aed2a6abf7158809cf4f3c",
        "3243f6a8885a308d313198a2e0370734",
        "3925841d02dc09fbdc118597196a0b32",
    ),
    "Appendix C.1": (
        "000102030405060708090a0b0c0d0e0f",
        "00112233445566778899aabbccddeeff",
        "69c4e0d86a7b0430d8cdb78070b4c55a",
    ),
}
SEED = 197
COUNT = 64


def aes128(key: bytes, block: bytes) -> bytes:
    encryptor = Cipher(algorithms.AES(key), modes.ECB()).encryptor()
    return encryptor.update(block) + encryptor.finalize()


def main() -> None:
    for name, (key, plaintext, ciphertext) in FIPS_197.items():
        found = aes128(bytes.fromhex(key), bytes.fromhex(plaintext)).hex()
        if found != ciphertext:
            raise SystemExit(f"{name}: {found} and not {ciphertext}")
    source = random.Random(SEED)
    for _ in range(COUNT):
        key, block = source.randbytes(16), source.randbytes(16)
        print(key.hex(), block.hex(), aes128(key, block).hex())


if __name__ == "__main__":
    main()
