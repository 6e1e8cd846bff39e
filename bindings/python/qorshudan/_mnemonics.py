"""Types by their mnemonics: those of the table, TYPEn of RFC 3597 for every number, and what dnspython knows, if it is there."""

import operator
import re
from typing import Union

# A type: its number, or its mnemonic in any letter case.
Type = Union[int, str]

TYPE_MAX = 65535

# IANA's registry of types, those that zones have.
_MNEMONICS = {
    "A": 1, "NS": 2, "CNAME": 5, "SOA": 6, "NULL": 10, "WKS": 11, "PTR": 12, "HINFO": 13, "MINFO": 14, "MX": 15, "TXT": 16,
    "RP": 17, "AFSDB": 18, "SIG": 24, "KEY": 25, "AAAA": 28, "LOC": 29, "SRV": 33, "NAPTR": 35, "KX": 36, "CERT": 37, "DNAME": 39,
    "APL": 42, "DS": 43, "SSHFP": 44, "IPSECKEY": 45, "RRSIG": 46, "NSEC": 47, "DNSKEY": 48, "DHCID": 49, "NSEC3": 50,
    "NSEC3PARAM": 51, "TLSA": 52, "SMIMEA": 53, "HIP": 55, "CDS": 59, "CDNSKEY": 60, "OPENPGPKEY": 61, "CSYNC": 62, "ZONEMD": 63,
    "SVCB": 64, "HTTPS": 65, "NXNAME": 128, "SPF": 99, "EUI48": 108, "EUI64": 109, "URI": 256, "CAA": 257,
}  # fmt: skip
_NUMBERS = {number: mnemonic for mnemonic, number in _MNEMONICS.items()}


def number_of(given: Type, argument: str = "type") -> int:
    """The number of a type."""
    if isinstance(given, str):
        # Other letters than ASCII's may become some of these in upper case.
        upper = given.upper() if given.isascii() else ""
        numbered = re.fullmatch("TYPE([0-9]{1,5})", upper)
        if numbered:
            number = int(numbered.group(1))
        else:
            number = _MNEMONICS.get(upper, -1)
            if number < 0 and re.fullmatch("(?!TYPE)[A-Z][A-Z0-9-]*", upper):
                number = _known_to_dnspython(upper)
    else:
        try:
            number = operator.index(given)
        except TypeError:
            raise TypeError(f"{argument}: a type is int or str, not {type(given).__name__}") from None
    if not 0 <= number <= TYPE_MAX:
        raise ValueError(f"{argument}: {'no type is called ' + repr(given) if number < 0 else 'a type is at most 65535'}")
    return number


def _known_to_dnspython(mnemonic: str) -> int:
    try:
        import dns.rdatatype

        return int(dns.rdatatype.from_text(mnemonic))
    except Exception:  # no dnspython, or it knows none
        return -1


def mnemonic_of(number: int) -> str:
    """The mnemonic of a type, and TYPEn for one that the table lacks."""
    return _NUMBERS.get(number, f"TYPE{number}")
