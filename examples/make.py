#!/usr/bin/env python3
"""Makes the samples beside it: a small signed data set, the digest that was signed, and the data set with one letter altered.

    python3 examples/make.py

It needs Python 3 and the command openssl. The key is new each time and not kept, so that every run makes other samples.

The data set and the stream that is signed are formed here from DICOM PS3.5 and PS3.3, C.12.1.1.3, not by the library: the samples are a test of it.
"""

import hashlib
import pathlib
import struct
import subprocess
import tempfile
import time

HERE = pathlib.Path(__file__).parent
EXPLICIT_VR_LITTLE_ENDIAN = "1.2.840.10008.1.2.1"
LONG_FORM = ("OB", "SQ")  # of the VRs used here

MAC_PARAMETERS_SEQUENCE = 0x4FFE0001
DIGITAL_SIGNATURES_SEQUENCE = 0xFFFAFFFA
CERTIFICATE_OF_SIGNER = 0x04000115
SIGNATURE = 0x04000120
ITEM = 0xFFFEE000
SEQUENCE_DELIMITER = 0xFFFEE0DD

# An element is a tag, a VR and a value: bytes, or for SQ a list of items, which are lists of elements.


def text(tag, vr, value):
    """An element of text, padded to even length (PS3.5, 6.2)."""
    pad = b"\0" if vr == "UI" else b" "
    return (tag, vr, value.encode("ascii") + pad * (len(value) % 2))


def number(tag, value):
    return (tag, "US", struct.pack("<H", value))


def octets(tag, value):
    return (tag, "OB", value + b"\0" * (len(value) % 2))


def tag_bytes(tag):
    return struct.pack("<HH", tag >> 16, tag & 0xFFFF)


def coded(elements):
    """The elements in Explicit VR Little Endian, every length defined (PS3.5, 7.1.2 and 7.5)."""
    out = b""
    for tag, vr, value in elements:
        if vr == "SQ":
            items = [coded(item) for item in value]
            value = b"".join(tag_bytes(ITEM) + struct.pack("<I", len(item)) + item for item in items)
        length = struct.pack("<HI", 0, len(value)) if vr in LONG_FORM else struct.pack("<H", len(value))
        out += tag_bytes(tag) + vr.encode() + length + value
    return out


def left_out(tag):
    """Of the tags that are never signed, those used here: lengths of groups."""
    return tag & 0xFFFF == 0


def stream(elements):
    """What of the elements is signed: all their bytes, but of a sequence and its items no length, and behind them the tag of the delimiter."""
    out = b""
    for tag, vr, value in elements:
        if left_out(tag):
            continue
        if vr == "SQ":
            items = b"".join(tag_bytes(ITEM) + stream(item) for item in value)
            out += tag_bytes(tag) + b"SQ\0\0" + items + tag_bytes(SEQUENCE_DELIMITER)
        else:
            out += coded([(tag, vr, value)])
    return out


def openssl(*arguments, given=b""):
    return subprocess.run(("openssl",) + arguments, input=given, capture_output=True, check=True).stdout


STUDY = [
    text(0x00080016, "UI", "1.2.840.10008.5.1.4.1.1.7"),  # SOP Class UID: Secondary Capture Image
    text(0x00080018, "UI", "2.25.271828182845904523536028747135266249775"),  # SOP Instance UID
    text(0x00080060, "CS", "OT"),  # Modality
    text(0x00100010, "PN", "Sample^Patient"),  # Patient's Name
    text(0x00104000, "LT", "This comment is not signed."),  # Patient Comments
    number(0x00280010, 4),  # Rows
    number(0x00280011, 4),  # Columns
    (0x00400275, "SQ", [[  # Request Attributes Sequence
        (0x00400000, "UL", struct.pack("<I", 16)),  # the length of the group, which is not signed
        text(0x00400007, "LO", "Chest PA"),  # Scheduled Procedure Step Description
    ]]),
    octets(0x7FE00010, bytes(range(0, 256, 16))),  # Pixel Data
]
SIGNED = [0x00080016, 0x00080018, 0x00080060, 0x00100010, 0x00280010, 0x00280011, 0x00400275, 0x7FE00010]

PARAMETERS = [
    number(0x04000005, 1),  # MAC ID Number
    text(0x04000010, "UI", EXPLICIT_VR_LITTLE_ENDIAN),  # MAC Calculation Transfer Syntax UID
    text(0x04000015, "CS", "SHA256"),  # MAC Algorithm
    (0x04000020, "AT", b"".join(map(tag_bytes, SIGNED))),  # Data Elements Signed
]


def main():
    with tempfile.TemporaryDirectory() as folder:
        key = folder + "/key.pem"
        certificate = openssl(
            "req", "-x509", "-newkey", "rsa:2048", "-nodes", "-keyout", key, "-outform", "DER",
            "-subj", "/CN=Eddyplume sample, not to be trusted", "-days", "36500")
        signer = [
            number(0x04000005, 1),  # MAC ID Number
            text(0x04000100, "UI", "2.25.314159265358979323846264338327950288419"),  # Digital Signature UID
            # Digital Signature DateTime: a day on, when the certificate is valid in every time zone
            text(0x04000105, "DT", time.strftime("%Y%m%d%H%M%S.000000+0000", time.gmtime(time.time() + 86400))),
            text(0x04000110, "CS", "X509_1993_SIG"),  # Certificate Type
        ]
        signed = stream([element for element in STUDY if element[0] in SIGNED] + signer)
        signature = openssl("dgst", "-sha256", "-sign", key, given=signed)

    signer += [octets(CERTIFICATE_OF_SIGNER, certificate), octets(SIGNATURE, signature)]
    data = coded(sorted(STUDY + [
        (MAC_PARAMETERS_SEQUENCE, "SQ", [PARAMETERS]),
        (DIGITAL_SIGNATURES_SEQUENCE, "SQ", [signer]),
    ]))
    altered = data.replace(b"Sample^Patient", b"Simple^Patient")
    assert data.count(b"Sample^Patient") == 1

    (HERE / "signed.data").write_bytes(data)
    (HERE / "altered.data").write_bytes(altered)
    (HERE / "signed.sha256").write_text(hashlib.sha256(signed).hexdigest() + "\n")
    (HERE / "sample-certificate.pem").write_bytes(openssl("x509", "-inform", "DER", given=certificate))


if __name__ == "__main__":
    main()
