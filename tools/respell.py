#!/usr/bin/env python3
"""Spells the repository's own definitions and lemmas in snake case: usage: respell.py [FOLDER]

A name that a file of specs/ or proofs/ declares and that is written like-this or likeThis is written like_this, wherever it stands in
.antt files and in the clauses and ghost items of .rt files. Types, modules and what other libraries declare keep their names. APART
holds the names that would fall together. It runs once, on the tree that the toolchain's own script has turned.
"""

import collections
import glob
import os
import re
import sys

WORD = re.compile(r"[^\s(){}.;,@\"«»\[\]\\:]+")
DECLARED = re.compile(r"^(\s*)((?:(?:abbrev|unfoldable|instance|opaque) )*)(pub )?(?!(?:record|data|module|use|mod|let|where|infixl|infixr|unfolding) )([^\s:({.\[]+)((?:\s+[({][^:]*:[^)}]*[)}])*)\s*:(\s|$)")
USE = re.compile(r"^\s*(?:pub )?(?:ghost )?use ([^\s;{]+?)(?:\.\{([^}]*)\})?(?: as (\S+?))?;?\s*$")

# Names that would fall together, each with its new name.
APART = {
    "accepted-by": "accepted_by_lem",
    "access-over": "access_over_lem",
    "after-a": "after_a_lem",
    "after-b": "after_b_lem",
    "after-d": "after_d_lem",
    "all-clear": "all_clear_lem",
    "all-rounds": "all_rounds_lem",
    "all-zero": "all_zero_lem",
    "answer-size": "answer_size_lem",
    "as-asked": "as_asked_lem",
    "beyond-since": "beyond_since_lem",
    "both-full": "both_full_lem",
    "call-done": "call_done_lem",
    "call-refused": "call_refused_lem",
    "calm-in": "calm_in_lem",
    "can-move": "can_move_lem",
    "chip-read": "chip_read_lem",
    "cleared-records": "cleared_records_lem",
    "control-byte": "control_byte_lem",
    "counter-A": "counter_over_a",
    "counter-a": "counter_a_lem",
    "counter-read": "counter_read_lem",
    "counts-fit": "counts_fit_lem",
    "edges-in": "edges_in_lem",
    "five-run": "five_run_lem",
    "four-rounds": "four_rounds_lem",
    "free-round": "free_round_lem",
    "from-manual": "from_manual_lem",
    "full-round": "full_round_lem",
    "host-A": "host_over_a",
    "host-a": "host_a_lem",
    "host-of": "host_of_lem",
    "identity-a": "identity_a_lem",
    "image-written": "image_written_lem",
    "in-phase": "in_phase_lem",
    "in-run": "in_run_lem",
    "inbound-even": "inbound_even_lem",
    "io-seen": "io_seen_lem",
    "is-done": "is_done_lem",
    "is-phase": "is_phase_lem",
    "is-refused": "is_refused_lem",
    "kept-after": "kept_after_lem",
    "latches-of": "latches_of_lem",
    "latches-stored": "latches_stored_lem",
    "line-of": "line_of_lem",
    "lines-in": "lines_in_lem",
    "lost-round": "lost_round_lem",
    "low-bytes": "low_bytes_lem",
    "mismatched-of": "mismatched_of_lem",
    "no-handshake": "no_handshake_lem",
    "no-ticks": "no_ticks_lem",
    "offset-B": "offset_over_b",
    "offset-cleared": "offset_cleared_lem",
    "offset-of": "offset_of_lem",
    "offset-stored": "offset_stored_lem",
    "once-seen": "once_seen_lem",
    "out-phase": "out_phase_lem",
    "out-status": "out_status_lem",
    "over-hands": "over_hands_lem",
    "phase-of": "phase_of_lem",
    "plain-rise": "plain_rise_lem",
    "quiet-after": "quiet_after_lem",
    "quiet-fits": "quiet_fits_lem",
    "read-ceiling": "read_ceiling_lem",
    "read-in-hand": "read_in_hand_lem",
    "read-moves": "read_moves_lem",
    "read-run": "read_run_lem",
    "registers-a": "registers_a_lem",
    "registers-with": "registers_with_lem",
    "req-falls": "req_falls_lem",
    "req-of": "req_of_lem",
    "req-risen": "req_risen_lem",
    "rst-of": "rst_of_lem",
    "same-hand": "same_hand_lem",
    "same-hands": "same_hands_lem",
    "scsi-B": "scsi_over_b",
    "scsi-of": "scsi_of_lem",
    "second-round": "second_round_lem",
    "sel-seen": "sel_seen_lem",
    "selected-round": "selected_round_lem",
    "selecting-alone": "selecting_alone_lem",
    "sent-view": "sent_view_lem",
    "sequenced-into": "sequenced_into_lem",
    "sequenced-status": "sequenced_status_lem",
    "sequencer-a": "sequencer_a_lem",
    "sig-cleared": "sig_cleared_lem",
    "stack-a": "stack_a_lem",
    "status-of": "status_of_lem",
    "status-raised": "status_raised_lem",
    "status-stored": "status_stored_lem",
    "still-at": "still_at_lem",
    "stored-byte": "stored_byte_lem",
    "taken-in-hand": "taken_in_hand_lem",
    "ticked-selecting": "ticked_selecting_lem",
    "ticked-status": "ticked_status_lem",
    "ticks-leave": "ticks_leave_lem",
    "times-out": "times_out_lem",
    "transfer-a": "transfer_a_lem",
    "until-read": "until_read_lem",
    "unused-clear": "unused_clear_lem",
    "used-bits": "used_bits_lem",
    "whole-round": "whole_round_lem",
    "with-host": "with_host_lem",
    "word-image": "word_image_lem",
    "word-written": "word_written_lem",
    "write-ceiling": "write_ceiling_lem",
    "write-in-hand": "write_in_hand_lem",
    "write-leaves": "write_leaves_lem",
    "zero-ticks": "zero_ticks_lem",
}

# Lemmas that have the new name of a definition already, and where they stand.
LEMMAS = {
    "all_come": ["crates/driver/proofs/StringExample.antt"],
    "at_req": ["crates/rules/proofs/KeptParity.antt"],
    "first_round": ["crates/rules/proofs/LostRounds.antt", "crates/strings/proofs/Going.antt"],
    "in_order": ["crates/edges/proofs/InOrder.antt", "crates/rules/proofs/Refusals.antt"],
    "is_cut": ["crates/runs/proofs/Bound.antt"],
    "is_same": ["crates/stored/proofs/Events.antt"],
    "left_over": ["crates/runs/proofs/Examples.antt"],
    "lines_after": ["crates/rules/proofs/Selection.antt"],
    "lines_at": ["crates/rules/proofs/Refusals.antt"],
    "no_bytes": ["crates/strings/proofs/Fetching.antt"],
    "no_move": ["crates/rules/proofs/LostRounds.antt"],
    "not_written": ["crates/runs/proofs/Spared.antt", "crates/wordhost/proofs/OverWords.antt"],
    "nothing_yet": ["crates/runs/proofs/ReadRun.antt"],
    "one_bit": ["crates/reads/proofs/LatchByte.antt"],
    "one_more": ["crates/driver/proofs/StringWords.antt", "crates/rules/proofs/TickByTick.antt", "crates/rules/proofs/Timeout.antt", "crates/step/proofs/Running.antt"],
    "one_then": ["crates/words/proofs/Strung.antt"],
    "same_bytes": ["crates/edges/proofs/Still.antt"],
    "second_word": ["crates/stored/proofs/Events.antt"],
    "stack_at": ["crates/image/proofs/ReadBack.antt"],
    "word_read": ["crates/effects/proofs/Accesses.antt", "crates/saved/proofs/OneImage.antt", "crates/strings/proofs/Fetching.antt", "crates/words/proofs/Port.antt"],
}


def files(root):
    for top in sorted(glob.glob(os.path.join(root, "crates", "*"))):
        for part in ("specs", "proofs", "src"):
            for folder, dirs, names in os.walk(os.path.join(top, part)):
                dirs.sort()
                for n in sorted(names):
                    if n.endswith((".antt", ".rt")):
                        yield os.path.join(folder, n)


def snake(name):
    if name in APART:
        return APART[name]
    n = re.sub(r"(?<=[a-z0-9'])(?=[A-Z])", "_", name).replace("-", "_")
    # a capital that is a word by itself, as in counter-B
    return re.sub(r"[A-Z]", lambda m: m[0].lower(), n)


def wants(name):
    if not re.match(r"[a-z]", name) or not re.fullmatch(r"[A-Za-z0-9_'\-₀-₉]+", name):
        return False
    return "-" in name or bool(re.search(r"[a-z0-9][A-Z]", name))


def generated(path, line):
    """A declaration that answers a goal keeps its name, which the toolchain makes."""
    return os.path.basename(path) in ("Proof.antt", "Invariants.antt", "Answers.antt") and re.search(r":\s*(tie|goal)\.(Need-|invariant|decreases)", line)


def lemmas_in(path, text):
    """The names of LEMMAS that a file declares or imports."""
    out = set()
    for name, places in LEMMAS.items():
        modules = {"Rattle." + p.split("/")[1] + ".proofs." + p.split("/proofs/")[1][:-5].replace("/", ".") for p in places}
        if path in places:
            out.add(name)
        for line in re.findall(r"^\s*(?:pub )?use [^\n]*", text, re.M):
            m = USE.match(line)
            if m and m[2] and m[1] in modules and name in [w.strip() for w in m[2].split(",")]:
                out.add(name)
    return out


def declared(root):
    out = collections.defaultdict(set)
    for p in files(root):
        if p.endswith(".antt"):
            for line in open(p, encoding="utf-8"):
                m = DECLARED.match(line)
                if m and not line.lstrip().startswith("--") and not generated(p, line):
                    out[m[4]].add(os.path.relpath(p, root))
    return out


def foreign(text, own):
    """What a file imports from other libraries, by name."""
    out = set()
    for line in re.findall(r"^\s*(?:pub )?(?:ghost )?use [^\n]*", text, re.M):
        m = USE.match(line)
        if m and m[2] and not m[1].startswith("Rattle.") or m and m[2] and m[1].split(".")[1] not in own:
            out |= {w.strip().split(" as ")[0] for w in m[2].split(",")}
    return out


def main():
    root = sys.argv[1] if len(sys.argv) > 1 else "."
    own = {os.path.basename(t) for t in glob.glob(os.path.join(root, "crates", "*"))}
    names = {n for n in declared(root) if wants(n)}
    for p in files(root):
        text = open(p, encoding="utf-8").read()
        kept = foreign(text, own)
        lemmas = lemmas_in(os.path.relpath(p, root), text)

        def turn(w):
            if w[0] in lemmas and w.string[max(0, w.start() - 1) : w.start()] != ".":
                return w[0] + "_lem"
            return snake(w[0]) if w[0] in names and w[0] not in kept else w[0]

        turned = []
        for line in text.split("\n"):
            code, note, rest = line, "", ""
            mark = "//" if p.endswith(".rt") else "--"
            m = re.search(r"(^|\s)" + mark + r"\s", line)
            if m:
                code, rest = line[: m.start()], line[m.start() :]
            code = WORD.sub(turn, code)
            # in a comment only what can be no English word
            rest = WORD.sub(lambda w: snake(w[0]) if w[0] in names and w[0] not in kept and (re.search(r"[a-z0-9][A-Z]", w[0]) or line.lstrip().startswith("pub mod")) else w[0], rest)
            turned.append(code + rest)
        new = "\n".join(turned)
        if new != text:
            open(p, "w", encoding="utf-8").write(new)


if __name__ == "__main__":
    main()
