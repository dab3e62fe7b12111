#!/usr/bin/env python3
"""Writes the exports of crates/wq_c, and the proof of each: walks.py [--check].

All exports that take one seat and numbers have one text and one proof, a walk through the code: the seat lies in the caller's
memory, is lent to the call of `wq_seats` with the same name, and lies there again. With --check it writes nothing, and ends with
status 1 where a file is not as it would be written. `wq_c_init` and `wq_c_hand_out` have proofs of their own, which stand as
files.
"""
import sys
from pathlib import Path

CRATE = Path(__file__).resolve().parent.parent / "crates/wq_c"
WIDTH = 110  # of the lines of names that a proof imports

# the call, what it did as a word of wq_seats, its parameters, and what it does
CALLS = [
    ("build", "SaidBuild", ("alloc: Global", "items: u32", "barriers: u32", "senders: u32"), "Builds a queue of this size, whose owner takes the seat."),
    ("release", "SaidRelease", (), "Gives up a seat, which is vacant then."),
    ("queue", "SaidQueue", ("item: u32", "tries: u32"), "Queues an item, with at most so many tries."),
    ("is_pending", "SaidCheck", ("item: u32",), "The item's PENDING bit."),
    ("flush_begin", "SaidFlush", ("barrier: u32", "tries: u32"), "Queues a barrier, with at most so many tries."),
    ("flush_done", "SaidCheckFlush", ("barrier: u32",), "Whether the barrier's PENDING bit is clear."),
    ("request_stop", "SaidStop", ("tries: u32",), "Queues the stop item, with at most so many tries."),
    ("set_spins", "SaidSetSpins", ("count: u32",), "Sets how long the sender gives way after a lost exchange."),
    ("number", "SaidNumber", (), "The sender's number."),
    ("take", "SaidTake", (), "Takes all that stands on the list, and answers how many that is."),
    ("close", "SaidClose", (), "Closes the queue, takes all that stands on the list, and answers how many that is."),
    ("drain", "SaidDrain", (), "Begins a drain, takes all that stands on the list, and answers how many that is."),
    ("resume", "SaidResume", (), "Ends a drain."),
    ("next", "SaidNext", (), "The oldest number that was taken and has not begun."),
    ("waiting", "SaidWaiting", (), "How many numbers were taken and have not begun."),
    ("begin", "SaidBegin", (), "Begins the oldest number that was taken, and answers it."),
    ("end", "SaidEnd", (), "Ends the execution that runs."),
    ("rest", "SaidRest", (), "Says once that the queue rests."),
    ("chain", "SaidChain", ("item: u32",), "Queues an item from the execution that runs, while the queue is closed or drains."),
    ("is_done", "SaidDone", (), "Whether the queue is closed and has run to its end."),
    ("count", "SaidCount", ("which: u32",), "One of the seat's counts, which is the whole word."),
]

# the words that say nothing of the call's numbers, which change time alone
OF_TIME = {"SaidSetSpins"}

HEAD = """//! The calls of a queue for a caller in C. Two tell the size and the alignment of a seat. `wq_c_init` takes room for a seat, leaves
//! one there, and answers nothing. Each other call takes the memory of a seat, `wq_c_hand_out` that of two, leaves a seat in each,
//! and answers a word: a code in the low 32 bits and, above them, a number where the answer has one; that of a count is the count.
//! What a call takes is its own until it returns. `pure` has the call that wants no seat. `checks/walks.py` writes this file.
//!
//! # Safety
//! A call in C owes what the export's `requires*` says: that a seat, or room for one, lies at the address, and that nobody else
//! reads or writes there until the call returns. `include/wq.h` says how a program sees to that.
#![tactic(auto)]

ghost use Rattle.std.specs.Borrow.{full_share, sem};
ghost use Rattle.std.specs.Ptr.{lies_at, room_at};
ghost use base.Fml.{fex, fsep};
%s
ghost use Rattle.wq_seats.specs.declared.seat.Seat.{Seat as Sitting};
ghost use Rattle.wq_seats.specs.declared.seat.Seat.TheVariants.{Vacant};
ghost use Rattle.wq_seats.specs.contracts.seat.Seat.{the_row as seat_row};

pub mod pure;

use std::alloc::Global;
use wq_seats::Seat;

/// How many bytes a seat takes.
#[unsafe(no_mangle)]
pub extern "C" fn wq_c_seat_size() -> usize {
    std::mem::size_of::<Seat>()
}

/// How many bytes the address of a seat is a multiple of.
#[unsafe(no_mangle)]
pub extern "C" fn wq_c_seat_align() -> usize {
    std::mem::align_of::<Seat>()
}

/// Makes a vacant seat in this room.
#[unsafe(no_mangle)]
pub unsafe extern "C" fn wq_c_init(at: *mut u8)
    requires* { sem 𝓛 (room_at seat_row at) }
    ensures* { sem 𝓛 (lies_at seat_row full_share at Vacant) }
{
    (at as *mut Seat).write(wq_seats::vacant());
}

/// Hands out a sender of the owner's queue, which takes the other seat.
#[unsafe(no_mangle)]
pub unsafe extern "C" fn wq_c_hand_out(at: *mut u8, to: *mut u8) -> u64
    ghost old: { Sitting × Sitting }
    requires* at { sem 𝓛 (lies_at seat_row full_share at old.0) }
    requires* to { sem 𝓛 (lies_at seat_row full_share to old.1) }
    ensures* { sem 𝓛 (fex Sitting (λ new. fex Sitting (λ other. fex (SaidHandOut result old.0 old.1 new other)
        (λ _. fsep (lies_at seat_row full_share at new) (lies_at seat_row full_share to other))))) }
{
    wq_seats::word::hand_out_word(&mut *(at as *mut Seat), &mut *(to as *mut Seat))
}
"""

EXPORT = """
/// {does}
#[unsafe(no_mangle)]
pub unsafe extern "C" fn wq_c_{name}({parameters}) -> u64
    ghost old: {{ Sitting }}
    requires* {{ sem 𝓛 (lies_at seat_row full_share at old) }}
    ensures* {{ sem 𝓛 (fex Sitting (λ new. fex ({said} result old new) (λ _. lies_at seat_row full_share at new))) }}
{{
    wq_seats::word::{name}_word({arguments})
}}
"""

# what the proofs take from crates/wq_c/proofs/Steps.antt
STEPS = """◌≡◌ ℕ List [] ◌∷◌ refl w32 w64 MutBor proved full_share id⊢ GName fat fex flft fres flent fdead ftrue named Val vint vptr fact tables
‵ raw ◌⊛◌ some later prop ◌$◌ ◌∵◌ ! qed done move keep drop use1 use2 use3 split join fsplit fjoin fpack pick await regoal suffices group
enter of_opd addr stop no_more and_then returns alloc_all pass_all free_all look_at get through sets lands_as u32 u64 yes shows Is
uint_Makes uint_Lawful uint_vals uint_Tells Ptr RawPtr block_ptr ptr_val lies_at in_a_block rawptr_vals rawptr_Tells MutRef mut_vals
plain nothing owned peeks heard calls_at Lasts lasts on_entry triple_of Stays walk_of stay_dropped Goes-dropped ends_at framed lft_new
lft_end LentRef lends_ref ref_back mem Lent""".split()

ALLOCATOR = """use denote.Struct.Laws as LL
use Rattle.std.proofs.Handle.{heap_val, heap_Tells}
use Rattle.std.specs.contracts.alloc.Global as Heap
use Rattle.std.proofs.alloc.Global.TheLaws as heap
"""

# What a walk says of a parameter: its row, the values that stand for it, how they tell it, its value, why that fits, and that the
# call owns it.
KINDS = {
    "u32": {
        "row": "u32", "spells": "uint_vals w32", "tells": "uint_Tells w32", "value": "vint w32 {x}", "typed": "(tt, record {{ fits = {f} }})",
        "owned": "owned ! u32 _ (uint_Makes 𝓛 w32) {x} _ (refl, {f})", "given": ".0.1",
    },
    "Global": {
        "row": "Heap.the_row", "spells": "(λ _. heap_val ∷ [])", "tells": "heap_Tells", "value": "heap_val",
        "typed": "((heap.the_row_laws.lawful 𝓛).typed {x} (heap_val ∷ []) {f}).0",
        "owned": "owned ! Heap.the_row _ (LL.makes Heap.the_type heap.the_plain 𝓛) {x} (heap_val ∷ []) {f}", "given": ".0",
    },
}

WALK = """-- `wq_c_{name}`: the seat is lent to the call, and lies there again after it. `checks/walks.py` writes this file.
{steps}
use prog.Wp.{{WpFn}}
use Rattle.wq_c.specs.contracts.wq_c_{name} as f
use Rattle.wq_c.proofs.wq_c_{name}.Statement.{{statement}}
use Rattle.wq_c.proofs.wq_c_{name}.Code as code
use Rattle.wq_seats.specs.contracts.word.{name}_word as g
use Rattle.wq_seats.proofs.word.{name}_word.Met.{{met}}
use Rattle.wq_seats.specs.contracts.seat.Seat.{{the_row as R}}
use Rattle.wq_seats.specs.Words.{{{said}}}
{allocator}
abbrev stayed : Stays f.ended.signature.params f.ended.kept
stayed = {stays}

pub wq_c_{name}_spec : {{M : Type 1}} → statement M
wq_c_{name}_spec 𝓤 𝓛 𝓜 𝓡 wired =
    let c = f.clauses 𝓛 𝓜.mem 𝓡.returns in let W = walk_of 𝓛 f.ended stayed c in let 𝓣 = tables 𝓤 𝓛.H 𝓜 𝓡 𝓡.env in
    let G = triple_of 𝓛 g.signature (g.spec 𝓛 𝓜.mem 𝓡.returns) in
    proved 𝓛 f.ended stayed c 𝓜 𝓡 {goes}
    f.Key.name code.function (code.unfolded 𝓤 𝓛.H 𝓜 𝓡 wired)
    (λ κs. {spells})
    (λ κs. {tells}) (λ κs qs bounds a s are.
{given}    let Y : Ptr → W.Ghost = λ p. (
      (
        κs,
        qs,
        bounds,
        {arguments},
        {values},
      ),
      s,
    ) in
    let Run : Ptr → _ = λ p. prop (WpFn 𝓤 𝓛.H 𝓣.C 𝓣.Λ code.function ({flat}) (W.post (Y p))) in
    qed 𝓛 (raw (on_entry 𝓛 f.signature κs qs a (Y a.0).0.4) ∷ ‵ (lies_at R full_share a.0 s) ∷ []) ∵ drop ! $
    in_a_block ! a.0 (λ p. lies_at R full_share p s) (id⊢ 𝓤 _) (λ b o e.
    regoal ! Run e refl $
    enter ! _ _ _ _ _ $ alloc_all ! (λ l. pass_all ! refl{typed} $
    -- [the seat; the locals]
    sets ! (of_opd ! (get ! refl)) refl (tt, tt) $ sets ! (addr ! (through ! refl (stop !))) refl (tt, tt) $
    lft_new ! tt (λ α. let κ : List ℕ = α ∷ [] in move ! (1 ∷ []) $
    use1 𝓛 (later (some (λ (γ : GName).
    ‵ ((MutRef (named 0) κ R).own_val (record {{ ref_ptr = (b, o); ghost_name = γ; now = s }}) (vptr b o ∷ []))
    ⊛ ‵ (flent κ (Lent (mem R) b o γ)))))
    (lends_ref 𝓛 R (named 0) κ s b o) $ await ! tt $ pick ! (λ γ. split ! $
    -- [the reference; what the lender keeps; the token; the locals]
    let r : MutBor R.Denot = record {{ ref_ptr = (b, o); ghost_name = γ; now = s }} in
    let z : G.Ghost = (
      (
        (κ, tt),
        (full_share, tt),
        tt,
        {passed},
        {passed_values},
      ),
      tt,
    ) in
    nothing ! $
{owned}    move ! (1 ∷ 0 ∷ []) $ join ! $ nothing ! $ move ! (3 ∷ 0 ∷ []) $ join ! $ join ! $ nothing ! $
    move ! (1 ∷ 0 ∷ []) $ use2 𝓛 (raw (G.pre z)) (id⊢ 𝓤 _) $
    calls_at ! (framed 𝓤 𝓛.H 𝓜 𝓣) G (met 𝓤 𝓛 𝓜 𝓡 (code.calls-wq_seats::word::{name}_word 𝓡.env wired)) z
    ({gets}) (λ v.
    use1 𝓛 (later (some (λ (n : ℕ). ((‵ (flft κ full_share) ⊛ ‵ ftrue) ⊛ ‵ (u64.own_val n (v ∷ []))) ⊛
    some (λ (ws : Lasts g.ended z.0.0 z.0.3). ‵ (lasts g.ended z.0.0 z.0.3 ws) ⊛ raw (fact 𝓤 ({fact} n s ws.0)))))) (id⊢ 𝓤 _) $
    await ! tt $ pick ! (λ n. split ! $ split ! $ split ! $ lft_end ! tt $ move ! (2 ∷ []) $
    peeks ! u64 (Is u64) (shows 𝓛 u64) n (v ∷ []) (λ is. lands_as ! refl refl ((uint_Lawful 𝓛 w64).typed n _ is).0 $
    move ! (3 ∷ []) $ pick ! (λ ws. split ! $ move ! (1 ∷ []) $ heard ! ({fact} n s ws.0) (λ said. nothing ! $
    move ! (1 ∷ 0 ∷ []) $ fsplit ! $ fsplit ! $
    -- [the last value; what is left of the reference; the others'; true; the result; the lifetime is over; true; what the lender keeps]
    move ! (5 ∷ 7 ∷ 0 ∷ []) $ use3 𝓛 (later (‵ (lies_at R full_share (block_ptr b o) ws.0))) (ref_back 𝓛 R κ γ ws.0 b o) $ await ! tt $
    fpack ! ({fact} n s ws.0) (λ _. lies_at R full_share (block_ptr b o) ws.0) said $
    fpack ! R.Denot (λ t. fex ({fact} n s t) (λ _. lies_at R full_share (block_ptr b o) t)) ws.0 $
    returns ! (look_at ! 0 refl) $ free_all ! refl $ keep ! (4 ∷ 0 ∷ []) $
    suffices ! _ (ends_at 𝓛 f.ended stayed c (Y (block_ptr b o)) v n {units}
    {units}) $
    {left} $
    nothing ! $ group ! 3 $ done !))))))))))
"""


def nested(parts, end="tt"):
    """A tuple as the kit nests them."""
    for part in reversed(parts):
        end = f"({part}, {end})"
    return end


def spread(parts, indent):
    """The same over several lines, in the layout of rt fmt."""
    if len(parts) == 1:
        return nested(parts)
    inner = " " * (indent + 2)
    return f"(\n{inner}{parts[0]},\n{inner}{spread(parts[1:], indent + 2)},\n{' ' * indent})"


def imports(names):
    """Lines that import these names, none of them too long."""
    lines, line = [], ""
    for name in names:
        if line and len(line) + 2 + len(name) > WIDTH:
            lines.append(line)
            line = ""
        line = f"{line}, {name}" if line else name
    return "\n".join(f"use Rattle.wq_c.proofs.Steps.{{{line}}}" for line in lines + [line])


def fact(said, numbers):
    """What a call did, but for its word and its seats."""
    return " ".join([said, *(() if said in OF_TIME else numbers)])


def export(name, said, parameters, does):
    """The text of an export, in the layout of rt fmt."""
    given = ["at: *mut u8", *parameters]
    listed = ", ".join(given)
    if len(f'pub unsafe extern "C" fn wq_c_{name}({listed}) -> u64') > 100:
        listed = "".join(f"\n    {it}," for it in given) + "\n"
    numbers = [it.split(":")[0] for it in parameters if it.endswith("u32")]
    arguments = ", ".join(["&mut *(at as *mut Seat)", *(it.split(":")[0] for it in parameters)])
    return EXPORT.format(does=does, name=name, parameters=listed, said=fact(said, numbers), arguments=arguments)


def walk(name, said, parameters, _does):
    """The proof of an export."""
    types = [it.split(": ")[1] for it in parameters]
    kinds = [KINDS[it] for it in types]
    filled = lambda key: [kind[key].format(x=f"x{at}", f=f"f{at}") for at, kind in enumerate(kinds)]
    xs = [f"x{at}" for at in range(len(kinds))]
    steps = [".1" * (at + 1) for at in range(len(kinds))]
    given = "".join(f"    let x{at} = a{step}.0 in let f{at} = are{step}{kinds[at]['given']} in\n" for at, step in enumerate(steps))
    goes = [f"Goes-dropped 𝓛 0 (plain (λ _. {row})) yes (λ κs x w. refl)" for row in ["RawPtr", *(kind["row"] for kind in kinds)]]
    gets = "no_more !"
    for _ in range(len(kinds) + 1):
        gets = f"and_then ! (get ! refl) ({gets})"
    numbers = [x for x, kind in zip(xs, types) if kind == "u32"]
    values = [f"{value} ∷ []" for value in filled("value")]
    typed = "\n    " + nested(["(tt, tt)", *filled("typed")])
    if len(typed) > 160:
        fits = filled("typed")
        typed = f" (\n      (tt, tt),\n      (\n        {fits[0]},\n        {nested(fits[1:])},\n      ),\n    )"
    return WALK.format(
        name=name, said=said, steps=imports(STEPS), allocator=ALLOCATOR if "Global" in types else "",
        stays=nested(["stay_dropped _ yes"] * (len(kinds) + 1)), goes=spread(goes, 4),
        spells=nested(["rawptr_vals", *(kind["spells"] for kind in kinds)]), tells=nested(["rawptr_Tells", *(kind["tells"] for kind in kinds)]),
        given=given, arguments=nested(["p", *xs]), values=nested(["rawptr_vals p", *values]), flat=" ∷ ".join(["ptr_val p", *filled("value"), "[]"]),
        typed=typed, passed=nested(["r", *xs]), passed_values=nested(["vptr b o ∷ []", *values]),
        owned="".join(f"    {it} $ join ! $\n" for it in reversed(filled("owned"))), gets=gets, fact=fact(said, numbers),
        units=nested(["tt"] * (len(kinds) + 1)), left="nothing ! $ " + " $ ".join(["nothing ! $ join !"] * (len(kinds) + 1)),
    )


def texts():
    """Each file that is written, with its text."""
    saids = ["SaidHandOut", *(call[1] for call in CALLS)]
    uses = "\n".join(f"ghost use Rattle.wq_seats.specs.Words.{{{', '.join(saids[at:at + 8])}}};" for at in range(0, len(saids), 8))
    yield CRATE / "src/lib.rt", HEAD % uses + "".join(export(*call) for call in CALLS)
    for call in CALLS:
        yield CRATE / f"proofs/wq_c_{call[0]}/Proof.antt", walk(*call)


def main():
    if sys.argv[1:] == ["--check"]:
        faults = [path for path, text in texts() if not path.is_file() or path.read_text() != text]
        for path in faults:
            print(f"{path.relative_to(CRATE)} is not as walks.py writes it")
        print(f"walks: {len(CALLS)} exports of one text, {len(faults)} files not as wanted")
        return 1 if faults else 0
    if sys.argv[1:]:
        print(__doc__.splitlines()[0])
        return 2
    for path, text in texts():
        path.parent.mkdir(parents=True, exist_ok=True)
        path.write_text(text)
    return 0


if __name__ == "__main__":
    sys.exit(main())
