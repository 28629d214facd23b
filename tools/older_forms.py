#!/usr/bin/env python3
"""Lists the places in src/ that are written in an older form, by the points of docs/DESIGN-PASS.md.
usage: tools/older_forms.py [POINT..]      from the tree's top; without a point it prints the counts alone"""
import collections, glob, re, sys

# A 16-bit number that is a count, a value or a code on its way out, and no refusal in the place of a result.
VALUES = {"wide16", "number16", "code", "number_in", "byte_in", "answer_count", "reply_count", "number_at", "heard_at", "heard_from", "write_entries",
          "write_bytes", "entry_at", "mark", "dump_replies", "greatest_refusal", "shown"}
# Names whose value says that there is nothing: a slot, a place, a type, a number.
NONE = r"\b(NO_SLOT|NOWHERE|NO_NUMBER|NO_CALL|NO_MESSAGE|UNTOUCHED|NO_MARK)\b|fn (no_gap|no_number|no_head)\b"
NONE_BY_NUMBER = {"bit_position", "blind_position", "two_blind_position", "name_of", "blind_of", "every_type", "vmb8ir", "blind_module", "row_for", "slot_of", "kind_in",
                  "slot_asked", "blind_in", "blind_fit", "digit", "address_in", "address_named", "put_number", "numbered", "led_asked", "blind_asked", "named"}
CONVERSIONS = {"wide", "wide16", "wide32", "number16", "number32", "number24", "glow_number", "glow_from", "time_number", "time_seconds", "time_from", "seconds",
               "glow_command", "time_of", "same_six", "same_parts"}


def functions(text):
    """(line, name, parameters, result, body) of each function."""
    for m in re.finditer(r"(?m)^ *(?:pub(?:\(crate\))? )?(?:extern \"C\" )?fn (\w+)(?:<[^(]*>)?\(", text):
        depth, i = 1, m.end()
        while depth:
            depth += {"(": 1, ")": -1}.get(text[i], 0)
            i += 1
        head = re.match(r"(?: -> ([^\n{]+?))?(?: \{)?\n", text[i:])
        end = re.search(r"\n ?(?:    )?\}\n", text[i:])
        yield text.count("\n", 0, m.start()) + 1, m.group(1), text[m.end():i - 1], (head.group(1) if head else "") or "", text[i:i + end.end()] if end else ""


def places():
    found = collections.defaultdict(list)
    for path in sorted(glob.glob("crates/*/src/*.rt")):
        text = open(path).read()
        lines = text.split("\n")
        for n, line in enumerate(lines, 1):
            if re.match(r"    (Refused|Refuses|Nothing|Broken|Bad|NotRead|NotHeard)\b.*,$", line) and not re.search(r"enum (NumberFault|Unheard|Refusal)\b", text):
                found["1 enums of the shape of Option or Result"].append((path, n))
            if re.match(r"(pub )?const \w+: u16 = (BAD_FIELD|\d+;)", line) and re.match(r"crates/(laws|fields|bench)/", path):
                found["1 constants that are a refusal's number"].append((path, n))
            if re.match(r"    (pub )?refusal: u16,$|    (pub )?next: usize,$", line) and "struct Record " not in text:
                found["1 flags with a value beside them"].append((path, n))
            if re.match(r"(pub )?const (%s)" % NONE, line) or re.match(r"fn (no_gap|no_number|no_head)\b", line):
                found["1 names for none"].append((path, n))
            if re.match(r" *(while |loop \{)", line):
                found["3 loops by hand"].append((path, n))
            if re.search(r"\bdyn |: fn\(", line) and "//" not in line:
                found["7 tables of functions"].append((path, n))
            if re.match(r"    requires .*(size|bench_size) ≤ length", line):
                found["5 clauses that a lent buffer is whole"].append((path, n))
        for n, name, parameters, result, body in functions(text):
            if result == "u16" and name not in VALUES and "velbus_c" not in path:
                found["1 functions that answer a refusal's number"].append((path, n))
            if name in NONE_BY_NUMBER and result not in ("bool",) and not result.startswith(("Option", "Result")):
                found["1 functions that answer a number for none"].append((path, n))
            if re.search(r"\bkind: u(8|32)", parameters) and "velbus_c" not in path:
                found["1 functions that take a type as a number"].append((path, n))
            if name in CONVERSIONS:
                found["4 conversions and equality by hand"].append((path, n))
            if re.search(r"identifier: u32", parameters) and re.search(r"remote: u32", parameters) and re.search(r"data: &\[u8\]", parameters) and "velbus_c" not in path:
                found["5 functions that take a frame in three parameters"].append((path, n))
    return found


if __name__ == "__main__":
    found = places()
    for point in sorted(found):
        print(f"{point}: {len(found[point])}")
        if point[0] in sys.argv[1:]:
            for path, n in found[point]:
                print(f"    {path}:{n}")
