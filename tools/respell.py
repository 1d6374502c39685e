#!/usr/bin/env python3
"""Brings the repository's own definitions to the spelling of the toolchain: words in snake case, types and modules in camel case.

usage: tools/respell.py          at the top, once, right after the toolchain's own script

A definition in lower camel case (`entriesOf`) gets snake case (`entries_of`) in src/, specs/ and proofs/. A dash stays: it joins two names, as in
`length-drop`. Where the new name would fall together with a field or another definition, OTHER says what it is called.
"""

import glob
import re

# names that would fall together with a field, a parameter or another definition, or that read wrongly
OTHER = {
    "deviceType": "device_type_at",
    "extendedPanId": "extended_pan_id_at",
    "fromParent": "is_from_parent",
    "leaveIndication": "leave_indication_number",
    "networkDescriptor": "network_descriptor_of",
    "panId": "pan_id_at",
    "potentialParent": "potential_parent_of",
    "rejoinResponse": "rejoin_response_number",
    "scanRequested": "with_scan_requested",
    "timeoutResponse": "timeout_response_number",
    "turnedDown": "lent_turned_down",
}
# in one crate alone
OTHER_IN = {("trace", "deviceType"): "device_type_number"}
# lemmas that would then have the name of what they speak of
LEMMAS = {
    "crates/two_nodes/proofs/States.antt": {"taught_by": "taught_by_lem"},
    "crates/neighbor_page/proofs/PageForm.antt": {"entry_row": "entry_row_lem", "slot_row": "slot_row_lem"},
}
HEAD = re.compile(r"^ *(?:(?:abbrev|unfoldable|pub|mutual|data|record|ruleset) )*([^\s:(){}]+) (?:\([^\n]*\) |\{[^\n]*\} )*:(?= |$)", re.M)
CAMEL = re.compile(r"[a-z][\w']*[A-Z]")
TOKEN = re.compile(r"[\w'-]+")


def snake(name):
    return re.sub(r"([a-z0-9])([A-Z])", lambda m: m[1] + "_" + m[2].lower(), name)


def main():
    files = [p for kind in ("src/**/*.rt", "specs/**/*.antt", "proofs/**/*.antt") for p in glob.glob(f"crates/*/{kind}", recursive=True)]
    texts = {p: open(p, encoding="utf-8").read() for p in files}
    names = {part for p, t in texts.items() if p.endswith(".antt") for n in HEAD.findall(t) for part in n.split("-") if CAMEL.match(part)}
    # bound variables and records' fields in the same spelling
    turned = {n: OTHER.get(n, snake(n)) for n in names}
    for path, text in texts.items():
        crate = path.split("/")[1]
        lemmas = LEMMAS.get(path, {})

        def word(m):
            if m[0] in lemmas and (m.start() == 0 or text[m.start() - 1] != "."):
                return lemmas[m[0]]
            return "-".join(OTHER_IN.get((crate, it), turned.get(it, it)) for it in m[0].split("-"))

        new = TOKEN.sub(word, text)
        if new != text:
            with open(path, "w", encoding="utf-8") as it:
                it.write(new)
    print(f"respell: {len(turned)} names")


if __name__ == "__main__":
    main()
