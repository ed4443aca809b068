"""Calls of the entry and what the reference makes of them: the worked examples A to M, further accepted calls, calls with a cap, every
refusal.

    python3 tools/vectors.py calls       crates/call_examples/stdin
    python3 tools/vectors.py examples    crates/call_examples/stdout

What the program reads is the number of calls, and then of each call its label, its record, the eight tensors to read and the five
lent for writing, a line to each. Numbers are hexadecimal, floats are their bits, a live count is its two's complement. A record has the
18 numbers, the scale and the cap of the binary interface. A tensor has its length and its elements; one of floats has between them how
many elements are given, which are repeated up to the length.

A line of what it prints has a label, the report (the refusal's number, tensor and index, T, fully masked rows), and the bits of the
output, the present key, the present value, the scores and the work row after the call.
"""

import math
from dataclasses import replace

from calls import INFINITY, LARGEST, LEAST, Inputs, Outputs, Record, c_record, call, from_bits, input_lengths, output_lengths, to_bits

NAN = math.nan
LENT = 7.5  # what a tensor lent for writing holds before the call
ABOVE = 65536.0078125

CALLS = []  # every call in the order of the lines: its label, its record, its inputs, and its outputs as they are lent


# What the program reads

def code(x):
    return 0xFFFFFFFF if math.isnan(x) else to_bits(x)


def record_numbers(r):
    """The 18 numbers, the scale and the cap, as they cross the binary interface."""
    record = c_record(r)
    return *record.numbers, code(record.scale), code(record.softcap)


def tensor_numbers(name, tensor):
    if name == "boolean_mask":
        return len(tensor), *tensor
    if name == "live":
        return len(tensor), *(count % 2 ** 64 for count in tensor)
    codes = [code(x) for x in tensor]
    given = next((n for n in range(1, len(codes)) if codes[n:] == codes[:-n]), len(codes))
    return len(codes), given, *codes[:given]


def print_numbers(*numbers):
    print(*(f"{number:x}" for number in numbers))


def print_calls():
    print_numbers(len(CALLS))
    for label, r, inputs, outputs in CALLS:
        print(label)
        print_numbers(*record_numbers(r))
        for name, tensor in (vars(inputs) | vars(outputs)).items():
            print_numbers(*tensor_numbers(name, tensor))


# What it prints

def tensor_text(tensor):
    """The bits of every element; of more than 64 elements their number and a digest of the bits."""
    if len(tensor) <= 64:
        return "".join(f" {code(x):08x}" for x in tensor)
    digest = 0
    for x in tensor:
        digest = (digest * 1000003 + code(x)) % 4294967291
    return f" {len(tensor)} elements {digest:08x}"


def print_lines():
    for label, r, inputs, outputs in CALLS:
        report, made = call(r, inputs, outputs)
        print(label, "|", *report, *("|" + tensor_text(tensor) for tensor in vars(made).values()))


# The calls

def show_lent(label, r, inputs, lengths_lent):
    """A call that lends tensors of these lengths for writing."""
    CALLS.append((label, r, inputs, Outputs(*([LENT] * length for length in lengths_lent))))


def show(label, r, **inputs):
    """A call with these tensors to read, that lends for writing what its record asks for."""
    show_lent(label, r, Inputs(**inputs), output_lengths(r))


# Tensors that are filled by rule

NUMBERS = {"query": 0, "past_key": 1, "key": 2, "past_value": 3, "value": 4, "float_mask": 5}


def element(name, n):
    if name == "live":
        return n + 1
    if name == "boolean_mask":
        return 0 if n % 5 in (1, 2) else 1
    if name == "float_mask" and n % 5 == 1:
        return -INFINITY
    return (5 * n + 3 * NUMBERS[name]) % 17 / 4 - 2


def fill(name, length):
    return [element(name, n) for n in range(length)]


def show_filled(label, r, *puts, **lengths_lent):
    """A call with filled tensors. A put is a tensor's name, an index and what stands there; `lengths_lent` are lengths that
    differ from those that the record asks for."""
    reading = dict(zip(vars(Inputs()), input_lengths(r)))
    writing = dict(zip(vars(Outputs()), output_lengths(r)))
    for name, length in lengths_lent.items():
        (reading if name in reading else writing)[name] = length
    inputs = Inputs(**{name: fill(name, length) for name, length in reading.items()})
    for name, index, x in puts:
        getattr(inputs, name)[index] = x
    show_lent(label, r, inputs, writing.values())


def show_record(label, **settings):
    """A call that lends one element of Q, K, V, output and work row whatever its record says."""
    r = Record(**{"scale": 1.0} | settings)
    show_lent(label, r, Inputs(*(fill(name, 1) for name in ("query", "key", "value"))), (1, 0, 0, 0, 1))


# The worked examples: one batch, one head, D = Dv = 1, scale 1, rank 4 unless said

def examples():
    one = Record(scale=1.0)
    two = replace(one, key_length=2)
    for mode in range(4):
        show(f"A mode {mode}", replace(one, score_mode=mode), query=[2.0], key=[3.0], value=[5.0])
    b = dict(query=[1.0], key=[3.0, 3.0], value=[2.0, 4.0])
    show("B", two, **b)
    masked = replace(two, mask_kind="boolean", mask_dims=(1, 1, 1, 2), score_mode=1)
    show("C mask 0 0", masked, **b, boolean_mask=[0, 0])
    show("C mask 1 0", masked, **b, boolean_mask=[1, 0])
    show("D", replace(two, query_length=2, causal=1), query=[1.0, 1.0], key=[1.0, 1.0], value=[6.0, 12.0])
    show("E", replace(one, form="cached", past_length=1, causal=1),
         query=[1.0], key=[1.0], value=[12.0], past_key=[1.0], past_value=[6.0])
    for label, key in (("F keys 100 0", 100.0), ("F keys 83 0", 83.0), ("G y 0", 0.0), ("G y 0.5", from_bits(0x3EB17218)),
                       ("G y 1", from_bits(0x3F317218)), ("G y below 120", from_bits(0x42A65AF6)),
                       ("G y above 120", from_bits(0x42A65AF7))):
        show(label, two, query=[1.0], key=[key, 0.0], value=[8.0, 9.0])
    for size in 2, 4, 16, 64, 256:
        show(f"H D {size}", Record(head_size=size, score_mode=0),
             query=[1.0] + [0.0] * (size - 1), key=[1.0] * size, value=[5.0])
    show("I", replace(one, query_heads=4, key_heads=2), query=[1.0] * 4, key=[1.0, 1.0], value=[3.0, 5.0])
    for label, cell in ("J least", -LARGEST), ("J minus infinity", -INFINITY):
        show(label, replace(one, mask_kind="float", score_mode=1), query=[2.0], key=[3.0], value=[5.0], float_mask=[cell])
    for label, x in ("K 65536", 65536.0), ("K -65536", -65536.0), ("K 65536.0078125", ABOVE), ("K -65536.0078125", -ABOVE):
        show(label, one, query=[x], key=[x], value=[x])
    counted = replace(two, form="counted")
    for label, count in ("K NaN key padded", 1), ("K NaN key live", 2):
        show(label, counted, query=[1.0], key=[3.0, NAN], value=[2.0, 4.0], live=[count])
    for past in 2048, 2047:
        show_record(f"L T {past + 1} Hq 4 Hkv 3", form="cached", query_heads=4, key_heads=3, past_length=past)
    show("L T 2048", replace(one, form="cached", past_length=2047),
         query=[1.0], key=[3.0], value=[5.0], past_key=fill("past_key", 2047), past_value=fill("past_value", 2047))
    for count, causal, label in (0, 0, "0"), (0, 1, "0 causal"), (2, 0, "T"), (3, 0, "T + 1"), (3, 1, "T + 1 causal"):
        show(f"M L {label}", replace(counted, causal=causal), **b, live=[count])
    for causal, label in (0, "M L 0 2"), (1, "M L 0 2 causal"):
        show(label, replace(counted, batch=2, causal=causal),
             query=[1.0, 1.0], key=[3.0, 3.0, 1.0, 2.0], value=[2.0, 4.0, 6.0, 8.0], live=[0, 2])


# Refusals of the record

LETTERS = {"B": "batch", "Hq": "query_heads", "Hkv": "key_heads", "Sq": "query_length", "Sk": "key_length", "D": "head_size",
           "Dv": "value_size"}
LARGEST_DIMS = {"B": 8, "Hq": 32, "Hkv": 32, "Sq": 2048, "Sk": 2048, "D": 256, "Dv": 256}


def refused_records():
    for letter, name in LETTERS.items():
        show_record(f"1 {letter} 0", **{name: 0})
    show_record("1 Sk 0 P 1", form="cached", key_length=0, past_length=1)
    for letter, name in LETTERS.items():
        show_record(f"1 {letter} {LARGEST_DIMS[letter] + 1}", **{name: LARGEST_DIMS[letter] + 1})
    show_record("1 T 2049", form="cached", key_length=2, past_length=2047)
    show_record("1 T 2^64", form="cached", past_length=2 ** 64 - 1)
    for form in "plain", "counted":
        show_record(f"1 P 1 {form}", form=form, past_length=1)
    for letter, name in LETTERS.items():
        heads = {"query_heads": 32} if letter == "Hkv" else {}
        show_record(f"5 {letter} {LARGEST_DIMS[letter]}", **{name: LARGEST_DIMS[letter]}, **heads)
    show_record("5 T 2048", form="cached", past_length=2047)
    show_record("2 Hq 1 Hkv 2", key_heads=2)
    show_record("2 Hq 3 Hkv 2", query_heads=3, key_heads=2)
    show_record("3 rank 2", rank=2, scale=None)
    show_record("3 rank 5", rank=5, scale=None)
    show_record("3 causal 2", causal=2, scale=None)
    show_record("3 mode 4", score_mode=4, scale=None)
    for label, scale in (("0", 0.0), ("-0", -0.0), ("-1", -1.0), ("NaN", NAN), ("infinity", INFINITY),
                         ("minus infinity", -INFINITY), ("1024.0001220703125", from_bits(0x44800001))):
        show_record(f"3 scale {label}", scale=scale)
    for label, scale in ("1024", 1024.0), ("least", LEAST):
        show_record(f"scale {label}", scale=scale)
    for label, cap in (("-least", -LEAST), ("-30", -30.0), ("NaN", NAN), ("infinity", INFINITY), ("minus infinity", -INFINITY),
                       ("65536.0078125", ABOVE)):
        show_record(f"3 cap {label}", softcap=cap)
    for label, cap in ("65536", 65536.0), ("least", LEAST), ("-0", -0.0):
        show_record(f"cap {label}", softcap=cap)
    show_record("1 before 2", batch=9, query_heads=3, key_heads=2)
    show_record("2 before 3", query_heads=3, key_heads=2, rank=5)
    show_record("2 before 3 by the cap", query_heads=3, key_heads=2, softcap=-1.0)
    show_record("3 by the cap before 4", mask_kind="float", mask_dims=(3, 1, 1, 1), score_mode=1, softcap=-1.0)


# Refusals of lengths and contents: small calls of two batches with T = 3, whose scores are weights

SMALL = Record(batch=2, key_length=3, head_size=2, mask_dims=(2, 1, 1, 3), score_mode=3)
CACHED = replace(SMALL, form="cached", mask_kind="boolean", key_length=2, past_length=1)
COUNTED = replace(SMALL, form="counted", mask_kind="float")


def refused_shapes():
    for label, kind, dims in (("batch 0", "boolean", (0, 1, 1, 3)), ("batch 3", "float", (3, 1, 1, 3)),
                              ("head 0", "float", (2, 0, 1, 3)), ("head 2", "boolean", (2, 2, 1, 3)),
                              ("query 0", "boolean", (2, 1, 0, 3)), ("query 2", "float", (2, 1, 2, 3)),
                              ("key 0", "float", (2, 1, 1, 0)), ("key 2", "boolean", (2, 1, 1, 2)),
                              ("key 4", "boolean", (2, 1, 1, 4))):
        show_filled(f"4 {label}", replace(SMALL, mask_kind=kind, mask_dims=dims))
    show_filled("4 key of L", replace(COUNTED, mask_dims=(2, 1, 1, 2)), ("live", 0, 2))
    show_filled("no mask, dimensions 0 9 9 9", replace(SMALL, mask_dims=(0, 9, 9, 9)))


def refused_lengths():
    for label, r in ("plain", SMALL), ("cached", CACHED), ("counted", COUNTED):
        show_filled(label, r)
    for label, r, name, length in (
            ("query short", CACHED, "query", 3), ("query long", CACHED, "query", 5),
            ("key short", CACHED, "key", 7), ("key of T", CACHED, "key", 12),
            ("value short", CACHED, "value", 3), ("value long", CACHED, "value", 5),
            ("boolean mask short", CACHED, "boolean_mask", 5), ("boolean mask empty", CACHED, "boolean_mask", 0),
            ("past key short", CACHED, "past_key", 3), ("past key empty", CACHED, "past_key", 0),
            ("past value short", CACHED, "past_value", 1), ("past value long", CACHED, "past_value", 3),
            ("float mask short", COUNTED, "float_mask", 5), ("float mask long", COUNTED, "float_mask", 7),
            ("live counts short", COUNTED, "live", 1), ("live counts long", COUNTED, "live", 3),
            ("boolean mask beside a float one", COUNTED, "boolean_mask", 6),
            ("float mask beside a boolean one", CACHED, "float_mask", 6),
            ("boolean mask without the kind", SMALL, "boolean_mask", 1),
            ("float mask without the kind", SMALL, "float_mask", 6),
            ("past key in a plain call", SMALL, "past_key", 4),
            ("past value in a counted call", COUNTED, "past_value", 2),
            ("live counts in a plain call", SMALL, "live", 2),
            ("live counts in a cached call", CACHED, "live", 2)):
        show_filled(f"5 {label}", r, **{name: length})
    for label, r, name, length in (
            ("output short", CACHED, "output", 1), ("output long", CACHED, "output", 3),
            ("present key short", CACHED, "present_key", 11), ("present key of Sk", CACHED, "present_key", 8),
            ("present value short", CACHED, "present_value", 5), ("present value long", CACHED, "present_value", 7),
            ("scores short", CACHED, "scores", 5), ("scores empty", CACHED, "scores", 0),
            ("work row short", CACHED, "work_row", 2), ("work row long", CACHED, "work_row", 4),
            ("present key in a plain call", SMALL, "present_key", 12),
            ("present value in a counted call", COUNTED, "present_value", 6),
            ("scores without a mode", replace(SMALL, score_mode=None), "scores", 6)):
        show_filled(f"6 {label}", r, **{name: length})


def refused_contents():
    show_filled("7 -1 at 0", COUNTED, ("live", 0, -1))
    for label, count in ("-1", -1), ("T + 1", 4), ("least", -2 ** 63), ("largest", 2 ** 63 - 1):
        show_filled(f"7 {label}", COUNTED, ("live", 1, count))
    show_filled("8 byte 2 at 0", CACHED, ("boolean_mask", 0, 2))
    show_filled("8 byte 2", CACHED, ("boolean_mask", 4, 2))
    show_filled("8 byte 255", CACHED, ("boolean_mask", 1, 255))
    show_filled("8 NaN at 0", COUNTED, ("float_mask", 0, NAN))
    show_filled("8 NaN", COUNTED, ("float_mask", 3, NAN))
    show_filled("8 infinity", COUNTED, ("float_mask", 1, INFINITY))
    show_filled("8 NaN at a padded position", COUNTED, ("float_mask", 2, NAN))
    for name, index, x in (("query", 3, NAN), ("past_key", 2, INFINITY), ("key", 5, -INFINITY), ("past_value", 1, ABOVE),
                           ("value", 2, -ABOVE)):
        show_filled(f"9 {name.replace('_', ' ')}", CACHED, (name, index, x))
    for name in "query", "past_key", "key", "past_value", "value":
        show_filled(f"9 {name.replace('_', ' ')} at 0", CACHED, (name, 0, 65537.0))
    for name, index, x in (("query", 3, 65536.0), ("past_key", 2, -65536.0), ("key", 5, 65536.0), ("past_value", 1, -65536.0),
                           ("value", 2, 65536.0)):
        show_filled(f"{name.replace('_', ' ')} {x:.0f}", CACHED, (name, index, x))
    show_filled("9 key live", COUNTED, ("key", 8, NAN))
    show_filled("key padded", COUNTED, ("key", 2, NAN))
    show_filled("key padded, second batch", COUNTED, ("key", 10, NAN))
    show_filled("9 value live", COUNTED, ("value", 4, INFINITY))
    show_filled("value padded", COUNTED, ("value", 1, INFINITY))
    show_filled("value padded, second batch", COUNTED, ("value", 5, INFINITY))
    show_filled("9 key hidden by the mask", CACHED, ("key", 1, INFINITY))
    show_filled("9 key hidden by the causal flag", replace(SMALL, causal=1), ("key", 5, 65537.0))
    for label, form, live, index in (("9 key at 63", "plain", [], 63), ("9 key at 64", "plain", [], 64),
                                     ("9 key at 199", "plain", [], 199), ("9 key at 127 counted", "counted", [1], 127),
                                     ("key at 127 padded", "counted", [0], 127)):
        key = [1.0] * 200
        key[index] = NAN
        show(label, Record(form=form, head_size=200, scale=1.0), query=[1.0] * 200, key=key, value=[5.0], live=live)


# Two refusals apply to each call

def order():
    shape = replace(SMALL, mask_kind="float", mask_dims=(2, 1, 1, 2))
    show_filled("3 before 4", replace(shape, causal=2))
    show_filled("4 before 5", shape, query=3)
    show_filled("5 before 6", COUNTED, value=5, work_row=2)
    show_filled("6 before 7", COUNTED, ("live", 0, -1), work_row=2)
    show_filled("7 before 8", COUNTED, ("float_mask", 0, NAN), ("live", 1, 4))
    show_filled("8 before 9", COUNTED, ("query", 0, NAN), ("float_mask", 5, NAN))
    show_filled("7 first index", COUNTED, ("live", 0, -1), ("live", 1, 4))
    cached = replace(CACHED, mask_kind="float")
    show_filled("8 first index", cached, ("float_mask", 2, NAN), ("float_mask", 5, NAN))
    show_filled("9 first index", cached, ("key", 3, NAN), ("key", 6, NAN))
    names = "query", "past_key", "key", "past_value", "value"
    for name, later in zip(names, names[1:]):
        show_filled(f"9 {name} before {later}".replace("_", " "), cached, (name, 1, NAN), (later, 0, NAN))


# Accepted calls beyond the examples

GROUPED = Record(batch=2, query_heads=4, key_heads=2, query_length=2, key_length=3, head_size=2, value_size=3, score_mode=3)
CAUSAL_TEXT = "", " causal"


def accepted():
    for causal in 0, 1:
        for rank in 4, 3:
            show_filled(f"rank {rank}{CAUSAL_TEXT[causal]}", replace(GROUPED, rank=rank, causal=causal))
    for rank in 4, 3:
        show_filled(f"rank {rank} cached", replace(GROUPED, form="cached", rank=rank, causal=1, past_length=1))
    show_filled("rank 3 cached, no past", replace(GROUPED, form="cached", rank=3, causal=1))
    for rank, causal in (4, 0), (3, 0), (3, 1):
        show_filled(f"rank {rank} counted{CAUSAL_TEXT[causal]}", replace(GROUPED, form="counted", rank=rank, causal=causal))
    for label, rank, key, value in (("rank 4 padded", 4, 17, 4), ("rank 3 padded", 3, 21, 10),
                                    ("9 rank 4 key live", 4, 21, 4), ("9 rank 3 key live", 3, 17, 10),
                                    ("9 rank 4 value live", 4, 17, 10), ("9 rank 3 value live", 3, 21, 4)):
        show_filled(label, replace(GROUPED, form="counted", rank=rank, score_mode=0), ("key", key, NAN), ("value", value, INFINITY))
    for kind in "boolean", "float":
        for mode in range(4):
            show_filled(f"{kind} mask mode {mode}", replace(GROUPED, form="counted", causal=1, mask_kind=kind,
                                                            mask_dims=(2, 4, 2, 3), score_mode=mode))
    for kind in "boolean", "float":
        for dims in (2, 4, 2, 3), (1, 4, 2, 3), (2, 1, 2, 3), (2, 4, 1, 3), (2, 4, 2, 1), (1, 1, 1, 1):
            show_filled(f"{kind} mask {' '.join(map(str, dims))}", replace(GROUPED, mask_kind=kind, mask_dims=dims, score_mode=1))
    for kind in "boolean", "float":
        show_filled(f"{kind} mask cached", replace(GROUPED, form="cached", rank=3, past_length=1, mask_kind=kind,
                                                   mask_dims=(2, 1, 2, 4), score_mode=1))
    quarter = Record(scale=0.25, score_mode=1)
    minus_zero = dict(query=[-LEAST], key=[1.0], value=[-0.0])
    show("-0", quarter, **minus_zero)
    show("-0 boolean mask", replace(quarter, mask_kind="boolean"), **minus_zero, boolean_mask=[1])
    for label, cell in ("0", 0.0), ("-0", -0.0):
        show(f"-0 float mask {label}", replace(quarter, mask_kind="float"), **minus_zero, float_mask=[cell])
    show_filled("long rows", Record(form="cached", rank=3, causal=1, query_heads=4, key_heads=2, query_length=3, key_length=17,
                                    past_length=20, head_size=33, value_size=35, score_mode=1))


# Calls with a cap

TINY = 2.0 ** -28
ROW_KEYS = [LEAST, -LEAST, TINY, -TINY, 2.5, -120.0, 65536.0, -65536.0]


def capped():
    row = Record(key_length=8, scale=0.25)
    for label, cap, modes in (("least", LEAST, (1, 2)), ("0.5", 0.5, (1, 2, 3)), ("30", 30.0, (1, 2)),
                              ("65536", 65536.0, (2,)), ("-0", -0.0, (2,))):
        for mode in modes:
            show(f"cap {label} mode {mode}", replace(row, softcap=cap, score_mode=mode),
                 query=[1.0], key=ROW_KEYS, value=[float(n) for n in range(1, 9)])
    grouped = replace(GROUPED, batch=1, query_heads=2, key_heads=1, causal=1, mask_dims=(1, 2, 2, 1), softcap=0.5, score_mode=2)
    show_filled("cap plain", grouped)
    show_filled("cap cached boolean mask", replace(grouped, form="cached", past_length=1, mask_kind="boolean"))
    show_filled("cap cached float mask", replace(grouped, form="cached", past_length=1, mask_kind="float", score_mode=3))
    show_filled("cap counted boolean mask", replace(grouped, form="counted", mask_kind="boolean"))
    show_filled("cap counted float mask", replace(grouped, form="counted", mask_kind="float"))
    show_filled("cap counted float mask mode 1", replace(grouped, form="counted", mask_kind="float", score_mode=1))
    show("cap T 150", Record(key_length=150, scale=1.0, softcap=0.5, score_mode=2),
         query=[1.0], key=fill("past_key", 150), value=fill("past_value", 150))


for part in (examples, accepted, capped, refused_records, refused_shapes, refused_lengths, refused_contents, order):
    part()
