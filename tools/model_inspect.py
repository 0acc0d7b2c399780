"""The inspector of tools/model.py, by docs/SCRIPT.md."""
import re

from model_octets import STANDARD, Fault, elements, inside


def inspect(text, write):
    """Writes the elements that the digits of a text are, and gives the exit status."""
    digits = re.sub(rb"[ \t\r\n]", b"", text)
    refusal = ("4 Limit" if len(text) > 16_777_216 else "1 Syntax" if not re.fullmatch(b"([0-9A-Fa-f]{2})*", digits)
               else "4 Limit" if len(digits) > 2 * 8_800 else None)
    if refusal:
        write(f"refused 1 {refusal}\n")
        return 2
    try:
        inspected(elements(bytes.fromhex(digits.decode())), "", write)
        return 0
    except Fault as fault:
        write(f"fault {fault}\n")
        return 2


def inspected(found, indent, write):
    names = {kind: name for name, kind in STANDARD.items()}
    for e in found:
        name = names.get(e.kind, "Unknown")
        is_nested = re.fullmatch("Interest|Data|Name|MetaInfo|FinalBlockId|(Interest)?SignatureInfo|KeyLocator", name)
        write(f"{indent}{e.kind:02x} {name} {len(e.value)} {'' if is_nested else e.value.hex()}".rstrip() + "\n")
        if is_nested:
            inspected(inside(e), indent + "  ", write)
