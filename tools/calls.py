"""The attention call as the makers of vectors have it: the record, the tensors, and what the C reference makes of them.

An f32 is a Python float that f32 can hold.
"""

import ctypes
import math
import struct
import subprocess
import tempfile
from dataclasses import dataclass, field, fields
from pathlib import Path

INFINITY = math.inf


# f32 and its bits

def f32(x):
    """The f32 nearest to x."""
    return struct.unpack("<f", struct.pack("<f", x))[0]


def from_bits(bits):
    return struct.unpack("<f", struct.pack("<I", bits))[0]


def to_bits(x):
    return struct.unpack("<I", struct.pack("<f", x))[0]


LEAST = from_bits(1)
LARGEST = from_bits(0x7F7FFFFF)


# The call

@dataclass(frozen=True)
class Record:
    form: str = "plain"  # plain, cached or counted
    batch: int = 1  # B
    query_heads: int = 1  # Hq
    key_heads: int = 1  # Hkv
    query_length: int = 1  # Sq
    key_length: int = 1  # Sk
    past_length: int = 0  # P
    head_size: int = 1  # D
    value_size: int = 1  # Dv
    rank: int = 4
    causal: int = 0
    mask_kind: str = "none"  # none, boolean or float
    mask_dims: tuple = (1, 1, 1, 1)
    scale: float = None  # None where absent
    softcap: float = 0.0  # 0 of either sign for no cap
    score_mode: int = None  # None where no scores are shown

    @property
    def total(self):
        """T"""
        return self.past_length + self.key_length


@dataclass(frozen=True)
class Inputs:
    query: list = field(default_factory=list)
    key: list = field(default_factory=list)
    value: list = field(default_factory=list)
    boolean_mask: list = field(default_factory=list)
    float_mask: list = field(default_factory=list)
    past_key: list = field(default_factory=list)
    past_value: list = field(default_factory=list)
    live: list = field(default_factory=list)  # counts


@dataclass(frozen=True)
class Outputs:
    output: list = field(default_factory=list)
    present_key: list = field(default_factory=list)
    present_value: list = field(default_factory=list)
    scores: list = field(default_factory=list)
    work_row: list = field(default_factory=list)


# Lengths that a record asks for

def full_mask_dims(r):
    return r.batch, r.query_heads, r.query_length, r.total


def input_lengths(r):
    """The lengths of the tensors of `Inputs`, in its order."""
    incoming = r.batch * r.key_heads * r.key_length
    past = r.batch * r.key_heads * r.past_length if r.form == "cached" else 0
    cells = math.prod(r.mask_dims)
    return [r.batch * r.query_heads * r.query_length * r.head_size,
            incoming * r.head_size,
            incoming * r.value_size,
            cells if r.mask_kind == "boolean" else 0,
            cells if r.mask_kind == "float" else 0,
            past * r.head_size,
            past * r.value_size,
            r.batch if r.form == "counted" else 0]


def output_lengths(r):
    """The lengths of the tensors of `Outputs`, in its order."""
    rows = r.batch * r.query_heads * r.query_length
    present = r.batch * r.key_heads * r.total if r.form == "cached" else 0
    return [rows * r.value_size,
            present * r.head_size,
            present * r.value_size,
            rows * r.total if r.score_mode is not None else 0,
            r.total]


def lengths(tensors):
    return [len(tensor) for tensor in vars(tensors).values()]


# The C reference

FORMS = {"plain": 0, "cached": 1, "counted": 2}
MASK_KINDS = {"none": 0, "boolean": 1, "float": 2}
NO_SCORES = 255
ELEMENTS = {"boolean_mask": ctypes.c_uint8, "live": ctypes.c_int64}  # every other tensor is of f32


class CRecord(ctypes.Structure):
    _fields_ = [("numbers", ctypes.c_uint64 * 18), ("scale", ctypes.c_float), ("softcap", ctypes.c_float)]


class CTensor(ctypes.Structure):
    _fields_ = [("at", ctypes.c_void_p), ("length", ctypes.c_size_t)]


class CInputs(ctypes.Structure):
    _fields_ = [(tensor.name, CTensor) for tensor in fields(Inputs)]


class COutputs(ctypes.Structure):
    _fields_ = [(tensor.name, CTensor) for tensor in fields(Outputs)]


class CAnswer(ctypes.Structure):
    _fields_ = [(name, ctypes.c_uint64) for name in ("refusal", "tensor", "index", "total", "masked_rows")]


def compiled():
    """The reference as a loaded shared object."""
    source = Path(__file__).resolve().parent.parent / "reference" / "reference.c"
    with tempfile.TemporaryDirectory() as folder:
        made = Path(folder) / "reference.so"
        subprocess.run(["gcc", "-std=c11", "-O2", "-ffp-contract=off", "-msse2", "-mfpmath=sse", "-shared", "-fPIC",
                        "-o", made, source], check=True)
        library = ctypes.CDLL(str(made))
    library.reference_attention.argtypes = [ctypes.POINTER(each) for each in (CRecord, CInputs, COutputs, CAnswer)]
    library.reference_attention.restype = None
    return library


REFERENCE = compiled()


def c_record(r):
    numbers = (FORMS[r.form], MASK_KINDS[r.mask_kind], r.scale is not None, NO_SCORES if r.score_mode is None else r.score_mode,
               r.rank, r.causal, r.batch, r.query_heads, r.key_heads, r.query_length, r.key_length, r.past_length,
               r.head_size, r.value_size, *r.mask_dims)
    return CRecord((ctypes.c_uint64 * 18)(*numbers), 0.0 if r.scale is None else r.scale, r.softcap)


def c_tensors(kind, tensors):
    """The struct of this kind, and the arrays that it points to."""
    arrays = [(ELEMENTS.get(name, ctypes.c_float) * len(tensor))(*tensor) for name, tensor in vars(tensors).items()]
    return kind(*(CTensor(ctypes.addressof(array) if len(array) else None, len(array)) for array in arrays)), arrays


def call(record, inputs, outputs):
    """The report and the outputs after the call.

    A report is (number, tensor, index, total, masked rows). The number is that of the refusal, or 0 for done; masked rows
    are those that see no key (blind rows).
    """
    (reading, kept), (lent, made), answer = c_tensors(CInputs, inputs), c_tensors(COutputs, outputs), CAnswer()
    REFERENCE.reference_attention(c_record(record), reading, lent, answer)
    report = answer.refusal, answer.tensor, answer.index, answer.total, answer.masked_rows
    return report, Outputs(*map(list, made))
