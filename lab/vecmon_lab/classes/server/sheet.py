"""QR codes of the addresses that open seats, for a sheet that the teacher prints."""

from collections.abc import Mapping

import segno


def pictures(address: str, codes: Mapping[str, str]) -> dict[str, str]:
    """Return the QR codes of a class as data URIs of SVG images, by name.

    address: the address of the class's page; codes: the code of each name, such as a seat's code

    The QR code of a name has the address followed by `#` and the name's code. The name "" has the QR code of the address without a code.
    """
    links = {"": address} | {name: f"{address}#{code}" for name, code in codes.items()}
    return {name: segno.make_qr(link).svg_data_uri(omitsize=True) for name, link in links.items()}
