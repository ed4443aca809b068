"""Stored vectors: lists and random generators of calls, with the answers and the bits of the C reference (reference/).

    python3 tools/vectors.py vectors    crates/example_vectors/proofs/Vectors.antt: random calls with their outcomes and scores
                                        under caps, as claims
    python3 tools/vectors.py dots       crates/softmax/proofs/DotExamples.antt: dot products, as claims
    python3 tools/vectors.py calls      crates/call_examples/stdin: the calls of call_examples.py
    python3 tools/vectors.py examples   crates/call_examples/stdout: their outcomes
"""

import math
import random
import sys
import textwrap
from dataclasses import replace
from itertools import product

import call_examples
from calls import (INFINITY, LARGEST, LEAST, Inputs, Outputs, Record, call, f32, from_bits, full_mask_dims, input_lengths,
                   lengths, output_lengths, to_bits)


# Random tiny calls, accepted and refused

BAD_ELEMENTS = math.nan, INFINITY, -INFINITY, 65536.0078125, -65536.0078125, LARGEST


def element(rng):
    """Mostly a number of few bits; sometimes a full significand, a zero, a subnormal or a largest element."""
    few = rng.randint(-8, 8) / rng.choice((1, 4, 4))
    full = f32(rng.uniform(-3, 3))
    edge = rng.choice((-1, 1)) * rng.choice((0.0, LEAST, from_bits(rng.randint(1, 0x7FFFFF)), 65536.0))
    return rng.choice((few, few, few, full, full, edge))


def mask_element(rng):
    return rng.choice((element(rng), element(rng), 0.0, -0.0, -LARGEST, LARGEST))


def random_record(rng, **settings):
    """A record that no refusal applies to, with these settings."""
    key_heads = rng.choice((1, 1, 2))
    r = replace(Record(
        form=rng.choice(("plain", "cached", "counted")),
        batch=rng.randint(1, 2),
        query_heads=key_heads * rng.choice((1, 1, 2)),
        key_heads=key_heads,
        query_length=rng.randint(1, 3),
        key_length=rng.randint(1, 3),
        head_size=rng.randint(1, 2),
        value_size=rng.randint(1, 2),
        rank=rng.choice((3, 4)),
        causal=rng.randint(0, 1),
        mask_kind=rng.choice(("none", "boolean", "float")),
        scale=rng.choice((None, 0.5, f32(rng.uniform(0.1, 2)))),
        score_mode=rng.choice((None, 0, 1, 2, 3))), **settings)
    if r.form == "cached":
        r = replace(r, past_length=rng.randint(0, 3))
    if r.mask_kind == "none":
        return replace(r, mask_dims=tuple(rng.randint(0, 9) for _ in range(4)))
    return replace(r, mask_dims=tuple(rng.choice((1, full, full)) for full in full_mask_dims(r)))


def padded(r, inputs, row):
    """Whether this row of K or V, counted as the tensor lies, belongs to a padded position."""
    if r.form != "counted":
        return False
    b, rest = divmod(row, r.key_heads * r.key_length)
    j = rest % r.key_length if r.rank == 4 else rest // r.key_heads
    return j >= inputs.live[b]


def random_inputs(rng, r):
    """Inputs of the right lengths that are not refused; padded rows may hold anything."""
    inputs = Inputs(*([element(rng) for _ in range(length)] for length in input_lengths(r)))
    inputs = replace(
        inputs,
        boolean_mask=[rng.choice((0, 1, 1)) for _ in inputs.boolean_mask],
        float_mask=[rng.choice((-INFINITY, mask_element(rng), mask_element(rng))) for _ in inputs.float_mask],
        live=[rng.randint(0, r.total) for _ in inputs.live])
    for tensor, size in (inputs.key, r.head_size), (inputs.value, r.value_size):
        for index in range(len(tensor)):
            if padded(r, inputs, index // size) and rng.random() < 0.5:
                tensor[index] = rng.choice((math.nan, INFINITY, -INFINITY, 65537.0))
    return inputs


def lent(lengths_lent):
    """Tensors of these lengths, each filled with a number of its own."""
    fills = math.nan, INFINITY, -INFINITY, -0.0, 1.0
    return Outputs(*([x] * length for x, length in zip(fills, lengths_lent)))


def tiny_call(rng, most, **settings):
    """A call that is accepted, with these settings and no tensor longer than that: its record, its inputs, and what it
    lends for writing."""
    while True:
        r = random_record(rng, **settings)
        if max(input_lengths(r) + output_lengths(r)) <= most and rng.randint(1, 3) <= r.total:
            r = replace(r, scale=rng.choice([r.scale] * 6 + [1024.0, LEAST]))
            return r, random_inputs(rng, r), lent(output_lengths(r))


def setting(**settings):
    return lambda rng, r, inputs, outputs: (replace(r, **settings), inputs, outputs)


def mask_dim(place):
    """One of the four mask dimensions 0 or above its full size."""
    def change(rng, r, inputs, outputs):
        dims = list(r.mask_dims)
        dims[place] = rng.choice((0, full_mask_dims(r)[place] + 1))
        return replace(r, mask_dims=tuple(dims)), inputs, outputs
    return change


def input_length(name):
    """An input tensor with one element more or less."""
    def change(rng, r, inputs, outputs):
        tensor = getattr(inputs, name)
        more = tensor + [1 if name in ("boolean_mask", "live") else 1.0]
        return r, replace(inputs, **{name: tensor[1:] if tensor and rng.random() < 0.5 else more}), outputs
    return change


def output_length(place):
    """An output tensor with one element more or less."""
    def change(rng, r, inputs, outputs):
        lengths_lent = lengths(outputs)
        lengths_lent[place] += -1 if lengths_lent[place] and rng.random() < 0.5 else 1
        return r, inputs, lent(lengths_lent)
    return change


def cell(name, bad):
    """A random element of an input tensor, if it has any, replaced by a bad one."""
    def change(rng, r, inputs, outputs):
        tensor = list(getattr(inputs, name))
        if tensor:
            tensor[rng.randrange(len(tensor))] = rng.choice(bad(r))
        return r, replace(inputs, **{name: tensor}), outputs
    return change


# ways in which each refusal comes to apply
FAULTS = {
    1: [setting(batch=0), setting(batch=9), setting(query_heads=33), setting(key_heads=0), setting(query_length=2049),
        setting(key_length=0), setting(head_size=257), setting(value_size=0), setting(form="plain", past_length=1),
        setting(form="counted", past_length=1), setting(form="cached", past_length=2047, key_length=2),
        setting(form="cached", past_length=2 ** 64 - 1, key_length=1)],
    2: [setting(query_heads=1, key_heads=2), setting(query_heads=3, key_heads=2), setting(query_heads=4, key_heads=3)],
    3: [setting(rank=2), setting(rank=5), setting(causal=2), setting(score_mode=4), setting(scale=0.0),
        setting(scale=-0.0), setting(scale=-LEAST), setting(scale=math.nan), setting(scale=INFINITY),
        setting(scale=from_bits(0x44800001))],
    4: [mask_dim(place) for place in range(4)],
    5: [input_length(name) for name in vars(Inputs())],
    6: [output_length(place) for place in range(5)],
    7: [cell("live", lambda r: (-1, -2 ** 63)), cell("live", lambda r: (r.total + 1,)),
        cell("live", lambda r: (2 ** 63 - 1,))],
    8: [cell("boolean_mask", lambda r: (2, 255)), cell("float_mask", lambda r: (math.nan,)),
        cell("float_mask", lambda r: (INFINITY,))],
    9: [cell(name, lambda r: BAD_ELEMENTS) for name in ("query", "past_key", "key", "past_value", "value")],
}


def refused_call(rng, fault, number, later=0):
    """A call that the fault makes refused with this number, and that would be refused with a later one without it."""
    while True:
        made = tiny_call(rng, most=6)
        if later:
            made = rng.choice(FAULTS[later])(rng, *made)
        report, _ = call(*made)
        made = fault(rng, *made)
        report_with_fault, _ = call(*made)
        if report[0] == later and report_with_fault[0] == number and report_with_fault != report:
            return made


def evenly(rng, count, *values):
    """So many of these values, each about as often, in a random order."""
    return rng.sample([values[n % len(values)] for n in range(count)], count)


def accepted_calls(rng):
    """Every form with every mask kind, each three times; the other settings spread evenly."""
    shapes = list(product(("plain", "cached", "counted"), range(3), ("none", "boolean", "float")))
    count = len(shapes)
    spread = zip(shapes, evenly(rng, count, 3, 4), evenly(rng, count, 0, 1), evenly(rng, count, None, 0, 1, 2, 3),
                 evenly(rng, count, (1, 1), (2, 1), (2, 2), (4, 2)), evenly(rng, count, 1, 2, 3))
    for (form, _, kind), rank, causal, mode, (query_heads, key_heads), head_size in spread:
        yield form, tiny_call(rng, most=18, form=form, mask_kind=kind, rank=rank, causal=causal, score_mode=mode,
                              query_heads=query_heads, key_heads=key_heads, head_size=head_size)


def refused_calls(rng):
    """Every fault of every refusal, each third one beside a fault of a later refusal (of the last: of its own)."""
    for number, faults in FAULTS.items():
        for n, fault in enumerate(faults):
            if n % 3 < 2:
                yield f"refusal {number}", refused_call(rng, fault, number)
            else:
                later = rng.choice(range(number + 1, 10) or [9])
                yield f"refusal {number}, beside a fault of {later}", refused_call(rng, fault, number, later)


# Dot products

SIZES = 1, 2, 3, 4, 5, 6, 7, 8, 9, 13, 16, 18


def added(terms, start=0.0):
    """One sum, each step rounded."""
    total = start
    for term in terms:
        total = f32(total + term)
    return total


def lanes(terms):
    return [added(terms[lane::4]) for lane in range(4)]


def joined(a, b, c, d):
    return f32(f32(a + b) + f32(c + d))


def from_first(terms):
    return added(terms[1:], terms[0]) if terms else 0.0


# rules for the sum of rounded products that are not the one asked for
WRONG_RULES = {
    "one sum": added,
    "joined from the left": lambda terms: added(lanes(terms)),
    "first and third lane joined": lambda terms: joined(*(lanes(terms)[lane] for lane in (0, 2, 1, 3))),
    "quarters": lambda terms: joined(*(added(terms[len(terms) * n // 4:len(terms) * (n + 1) // 4]) for n in range(4))),
    "lanes from their first product": lambda terms: joined(*(from_first(terms[lane::4]) for lane in range(4))),
    "tail after the join": lambda terms: added(terms[len(terms) // 4 * 4:], joined(*lanes(terms[:len(terms) // 4 * 4]))),
    "falling": lambda terms: joined(*(added(terms[lane::4][::-1]) for lane in range(4))),
}


def dot_product(query, key):
    """The scaled score with a scale of 1, which is the dot product, as the reference gives it."""
    r = Record(head_size=len(query), scale=1.0, score_mode=0)
    _, made = call(r, Inputs(query=query, key=key, value=[1.0]), lent(output_lengths(r)))
    return made.scores[0]


def dot_products(rng):
    """Rows with their dot products: of each size two with full significands, and of the smallest one with products of -0 alone.
    Each wrong rule gives one of them other bits."""
    made = [(n, [f32(rng.uniform(-3, 3)) for _ in range(2 * n)]) for n in SIZES for _ in range(2)]
    made += [(n, [-0.0, -LEAST] * (n // 2) + [-0.0] * (n % 2) + [0.25] * n) for n in (1, 2, 4, 5)]
    rows = [(row[:n], row[n:]) for n, row in made]
    rows = [(query, key, dot_product(query, key)) for query, key in rows]
    for name, rule in WRONG_RULES.items():
        assert any(to_bits(rule([f32(q * k) for q, k in zip(query, key)])) != to_bits(dot) for query, key, dot in rows), name
    return rows


def wider_calls(rng):
    """Every form, with head sizes from 4 to 9 and full significands."""
    for form, head_size in product(("plain", "cached", "counted"), range(4, 10)):
        r, inputs, outputs = tiny_call(rng, most=36, form=form, head_size=head_size, value_size=1, batch=1, query_heads=1, key_heads=1,
                                       query_length=1, score_mode=rng.choice((0, 3)))
        yield f"{form}, a wider head", (r, replace(inputs, query=[f32(rng.uniform(-3, 3)) for _ in inputs.query]), outputs)


# Calls with a cap

ABOVE_CAP = from_bits(0x47800001)
CAPS = LEAST, 2.0 ** -20, 0.5, 30.0, 50.0, 65536.0
BAD_CAPS = -LEAST, -30.0, math.nan, INFINITY, -INFINITY, ABOVE_CAP

# Keys whose scores at scale 1/4 are +0, -0, of either sign so small that s / c is 0 or that E(a + a) is 1, near a cap of 0.5
# to 50, and far above and below it
CAP_KEYS = (LEAST, -LEAST, 2.0 ** -140, -(2.0 ** -140), 2.0 ** -28, -(2.0 ** -28), 2.5, -2.5, 120.0, -120.0, 65536.0,
            -65536.0)


def shown(r, inputs, mode):
    """The scores that an accepted call shows in this mode."""
    r = replace(r, score_mode=mode)
    _, made = call(r, inputs, lent(output_lengths(r)))
    return made.scores


def capped_scores():
    """Caps with scores before the cap, which mode 1 shows, and after it, which mode 2 shows."""
    for cap in *CAPS, 0.0, -0.0:
        r = Record(key_length=len(CAP_KEYS), scale=0.25, softcap=cap)
        inputs = Inputs(query=[1.0], key=list(CAP_KEYS), value=[1.0] * len(CAP_KEYS))
        yield from ((cap, *scores) for scores in zip(shown(r, inputs, 1), shown(r, inputs, 2)))


def capped_rows():
    """A row of three scores, of which one is hidden, under a cap, in every mode."""
    for cap, mode in product((0.5, 30.0), range(4)):
        r = Record(key_length=3, mask_kind="boolean", mask_dims=(1, 1, 1, 3), softcap=cap, score_mode=mode)
        yield "a row under a cap, in every mode", (
            r, Inputs(query=[2.0], key=[20.0, 3.0, -0.25], value=[1.0, 2.0, 4.0], boolean_mask=[1, 0, 1]), lent(output_lengths(r)))


def capped_calls(rng):
    """Every form with every mask kind; caps and modes spread evenly."""
    shapes = list(product(("plain", "cached", "counted"), ("none", "boolean", "float")))
    for (form, kind), cap, mode in zip(shapes, evenly(rng, len(shapes), *CAPS), evenly(rng, len(shapes), None, 0, 1, 2, 3)):
        yield f"{form}, with a cap", tiny_call(rng, most=12, form=form, mask_kind=kind, softcap=cap, score_mode=mode)


def refused_caps(rng):
    """Every bad cap, alone and beside a fault of another refusal, of which the lower is given."""
    for cap in BAD_CAPS:
        yield "refusal 3, by the cap", refused_call(rng, setting(softcap=cap), 3)
    for number in 1, 2:
        made = refused_call(rng, rng.choice(FAULTS[number]), number)
        yield f"refusal {number}, beside a bad cap", setting(softcap=math.nan)(rng, *made)
    for later in 4, 5, 6:
        yield f"refusal 3, by the cap, beside a fault of {later}", refused_call(rng, setting(softcap=-1.0), 3, later)


# The calls and their outcomes as claims about the definition

HEADER = """-- Tiny random calls, accepted and refused, without a cap and with one, and scores under each cap: the definitions give them the outcomes of a reference written from the rules. Floats are f32 bits.
-- Made by `python3 tools/vectors.py vectors`. Assumes nothing.
use mathlib.Core.Path.{refl}
use mathlib.Core.List.{List, [], ◌∷◌}
use Prim.Native.Nat.{ℕ}
use mathlib.Core.Bool.{true, false}
use lib.IntN.{ℤ, pos, negsuc}
use lib.ListN.{replicate}
use lib.Ieee.{Float, nan, inf, fin, binary32, of_bits}
use Rattle.std.specs.Prelude.{Option, Some, None, Err}
use Rattle.exponential.specs.ExpNeg.{one}
use Rattle.softmax.specs.Cap.{capped_where}
use Rattle.call.specs.declared.Call.{Call}
use Rattle.call.specs.declared.Form.{Form}
use Rattle.call.specs.declared.Form.TheVariants.{Plain, Cached, Counted}
use Rattle.call.specs.declared.MaskKind.{MaskKind}
use Rattle.call.specs.declared.MaskKind.TheVariants.{NoMask, Boolean, FloatMask}
use Rattle.call.specs.declared.Scale.{Scale}
use Rattle.call.specs.declared.Scale.TheVariants.{Absent, Given}
use Rattle.call.specs.declared.Refusal.{Refusal}
use Rattle.call.specs.declared.Refusal.TheVariants.{Limits, HeadGroups, Settings, MaskShape, InputLength, OutputLength, LiveCount, MaskCell, Element}
use Rattle.call.specs.Parts.{call_with}
use Rattle.call.specs.Tensors.{Inputs, Outputs}
use Rattle.attention.specs.Outcomes.{attention_of}
use Rattle.attention.specs.Calls.{tensors, done}
use Rattle.attention.specs.Table.{Claim, outcome, under_cap, AllHold}

-- the cap's bits; rank and causal flag; B, Hq, Hkv; Sq, Sk, P; D, Dv; the mask's dimensions
unfoldable call : Form → MaskKind → Scale → Option ℕ → (softcap rank causal batches qheads kvheads qlen klen past size vsize maskb maskh maskq maskk : ℕ) → Call
unfolding of_bits
call form mask scale mode softcap rank causal batches qheads kvheads qlen klen past size vsize maskb maskh maskq maskk = call_with form mask scale (of_bits binary32 softcap) mode rank causal batches qheads kvheads qlen klen past size vsize maskb maskh maskq maskk

unfoldable given : ℕ → Scale
unfolding of_bits
given bits = Given (of_bits binary32 bits)

unfoldable floats : List ℕ → List Float
unfolding of_bits
floats [] = []
floats (bits ∷ rest) = of_bits binary32 bits ∷ floats rest

unfoldable reading : (query key value bool_mask float_mask past_key past_value : List ℕ) → List ℤ → Inputs
unfolding floats
reading query key value bool_mask float_mask past_key past_value live = record {
  query = floats query;
  key = floats key;
  value = floats value;
  bool_mask = bool_mask;
  float_mask = floats float_mask;
  past_key = floats past_key;
  past_value = floats past_value;
  live = live;
}

-- tensors of these lengths, each filled with a value of its own
abbrev lent : (output present_key present_value scores work : ℕ) → Outputs
lent output present_key present_value scores work = tensors (replicate output nan) (replicate present_key (inf false)) (replicate present_value (inf true)) (replicate scores (fin true 0 (pos 0))) (replicate work one)

-- the call is accepted with T, the number of fully masked rows, and the five tensors
unfoldable accepted : Call → Inputs → Outputs → (total masked : ℕ) → (output present_key present_value scores work : List ℕ) → Claim
unfolding floats
accepted c x y total masked output present_key present_value scores work =
    outcome c x y (done total masked (tensors (floats output) (floats present_key) (floats present_value) (floats scores) (floats work)))

-- the call is refused, and the tensors stay as they were lent
abbrev refused : Call → Inputs → Outputs → Refusal → Claim
refused c x y r = outcome c x y (record { answer = Err r; tensors = y })
"""

DOT_HEADER = """-- Dot products of rows of 1 to 18 elements: the definition gives them the bits of a reference written from the rules. Floats are f32 bits.
-- Made by `python3 tools/vectors.py dots`. Assumes nothing.
use mathlib.Core.Path.{◌≡◌, refl}
use mathlib.Core.List.{List, [], ◌∷◌}
use Prim.Native.Nat.{ℕ}
use lib.Ieee.{Float, binary32, of_bits}
use Rattle.softmax.specs.Lists.{dot_row_of}

unfoldable floats : List ℕ → List Float
unfolding of_bits
floats [] = []
floats (bits ∷ rest) = of_bits binary32 bits ∷ floats rest

-- the dot product of two rows has these bits
unfoldable pub Gives : (query key : List ℕ) → ℕ → Type 0
unfolding floats
Gives query key bits = dot_row_of (floats query) (floats key) ≡ of_bits binary32 bits
"""

TABLES = """
-- under a cap, by its bits, the second score becomes the third
unfoldable under : (cap score capped : ℕ) → Claim
unfolding of_bits
under cap score capped = under_cap (of_bits binary32 cap) (of_bits binary32 score) (of_bits binary32 capped)
"""

NO_BREAK = "\u00a0"
FORM_TEXT = {"plain": "Plain", "cached": "Cached", "counted": "Counted"}
KIND_TEXT = {"none": "NoMask", "boolean": "Boolean", "float": "FloatMask"}
REFUSAL_TEXT = ("Limits", "HeadGroups", "Settings", "MaskShape", "InputLength", "OutputLength", "(LiveCount {index})",
               "(MaskCell {index})", "(Element {tensor} {index})")


def list_text(words):
    """A list; a line is not broken inside a short one."""
    text = f"({' ∷ '.join([*words, '[]'])})" if words else "[]"
    return text.replace(" ", NO_BREAK) if len(text) < 150 else text


def bits_text(x):
    return f"0x{0x7FC00000 if math.isnan(x) else to_bits(x):08x}"


def tensors_text(tensors):
    """The tensors of inputs or outputs, each as a list."""
    def word(name, x):
        if name == "live":
            return f"pos {x}" if x >= 0 else f"negsuc {-x - 1}"
        return str(x) if name == "boolean_mask" else bits_text(x)
    return " ".join(list_text([word(name, x) for x in tensor]) for name, tensor in vars(tensors).items())


def claim_text(r, inputs, outputs):
    """A claim that the call has the outcome that the reference gives it, a line to each of its parts."""
    (number, tensor, index, total, masked_rows), made = call(r, inputs, outputs)
    scale = "Absent" if r.scale is None else f"(given {bits_text(r.scale)})"
    mode = "None" if r.score_mode is None else f"(Some {r.score_mode})"
    numbers = (bits_text(r.softcap), r.rank, r.causal, r.batch, r.query_heads, r.key_heads, r.query_length, r.key_length,
               r.past_length, r.head_size, r.value_size, *r.mask_dims)
    if number == 0:
        name, expected = "accepted", f"{total} {masked_rows} {tensors_text(made)}"
    else:
        name, expected = "refused", REFUSAL_TEXT[number - 1].format(tensor=tensor, index=index)
        assert tensors_text(made) == tensors_text(outputs)
    return [f"{name} (call {FORM_TEXT[r.form]} {KIND_TEXT[r.mask_kind]} {scale} {mode} {' '.join(map(str, numbers))})",
            f"(reading {tensors_text(inputs)})",
            f"(lent {' '.join(map(str, lengths(outputs)))}) {expected}"]


def print_indented(text):
    lines = textwrap.wrap(text, 160, initial_indent="    ", subsequent_indent="    ", break_long_words=False)
    print("\n".join(lines).replace(NO_BREAK, " "))


def print_calls(name, calls):
    """A table of claims about calls, with the note that stands with each where it changes."""
    print(f"unfoldable pub {name} : List Claim\nunfolding call given reading accepted\n{name} =")
    above = None
    for note, made in calls:
        if note != above:
            print_indented(f"-- {note}")
        for line in claim_text(*made):
            print_indented(f"∷ {line}" if above and line.startswith(("accepted", "refused")) else line)
        above = note
    print_indented("∷ []")


def print_scores(name, scores):
    """A table of claims about scores under a cap."""
    print(f"unfoldable pub {name} : List Claim\nunfolding under\n{name} =")
    for n, each in enumerate(scores):
        print_indented(f"{'∷ ' if n else ''}under {' '.join(map(bits_text, each))}")
    print_indented("∷ []")


def print_proof(proof, table, claims, *unfolded):
    print(f"\n-- every claim of the table holds\npub {proof} : AllHold {table}\nunfolding {table} {' '.join(unfolded)}")
    print(f"{proof} = {'(refl, ' * len(claims)}tt{')' * len(claims)}")


def dots(seed=243):
    rows = dot_products(random.Random(seed))
    print(f"{DOT_HEADER}\npub record DotExamplesHold : Type 0 where")
    for n, (query, key, dot) in enumerate(rows, 1):
        print(f"  pub dot{n} : Gives {list_text(map(bits_text, query))} {list_text(map(bits_text, key))} {bits_text(dot)}".replace(NO_BREAK, " "))
    print("\npub dot_examples : DotExamplesHold\nunfolding Gives dot_row_of of_bits")
    print("dot_examples = record {\n" + "".join(f"  dot{n} = refl;\n" for n in range(1, len(rows) + 1)) + "}")


def vectors(seed=242):
    rng = random.Random(seed)
    calls = [*accepted_calls(rng), *refused_calls(rng)]
    capped = [*capped_rows(), *capped_calls(rng), *refused_caps(rng)]
    wider = list(wider_calls(rng))
    scores = list(capped_scores())
    print(HEADER)
    print_calls("vector_table", calls)
    print_proof("vectors", "vector_table", calls, "attention_of")
    print(TABLES)
    print_scores("cap_table", scores)
    print_proof("caps", "cap_table", scores, "capped_where")
    print()
    print_calls("capped_table", capped)
    print_proof("capped_vectors", "capped_table", capped, "attention_of")
    print()
    print_calls("wider_table", wider)
    print_proof("wider_vectors", "wider_table", wider, "attention_of")


if __name__ == "__main__":
    commands = {"vectors": vectors, "dots": dots, "calls": call_examples.print_calls, "examples": call_examples.print_lines}
    if len(sys.argv) != 2 or sys.argv[1] not in commands:
        sys.exit(__doc__)
    commands[sys.argv[1]]()
