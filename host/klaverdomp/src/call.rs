//! The call record and the lengths of its tensors.

/// How the call keeps keys and values.
#[derive(Clone, Copy, Debug, PartialEq, Eq, Hash)]
pub enum Form {
    /// All keys and values are in the call.
    Plain,
    /// Past keys and values come in a KV cache of the call, and the call writes the present cache.
    Cached,
    /// Keys and values are in a cache outside, of which each batch uses a live count (ONNX: `nonpad_kv_seqlen`).
    Counted,
}

/// The kind of mask that is lent.
#[derive(Clone, Copy, Debug, PartialEq, Eq, Hash)]
pub enum MaskKind {
    None,
    /// Bytes: 1 shows a key, 0 hides it.
    Boolean,
    /// Numbers that are added to the scores; minus infinity hides a key.
    Float,
}

/// The record of one call: its form, its settings and its dimensions.
///
/// Every number may be anything; the operator refuses what is outside its limits. Made by [`Call::plain`], [`Call::cached`] or
/// [`Call::counted`] with one batch, one head of size 1, rank 4, and changed by the `with_` methods:
///
/// ```
/// use klaverdomp::Call;
///
/// // a decode step over 511 past positions: 32 query heads share 8 key heads of size 128
/// let call = Call::cached(511, 1).with_heads(32, 8).with_size(128).with_causal();
/// assert_eq!(call.total(), 512);
/// assert_eq!(call.lengths().query, 32 * 128);
/// assert_eq!(call.lengths().present_key, 8 * 512 * 128);
/// ```
#[derive(Clone, Copy, Debug, PartialEq)]
pub struct Call {
    pub form: Form,
    pub mask: MaskKind,
    /// The factor of the dot products; absent, it is 1/√D ([`crate::default_scale`]).
    pub scale: Option<f32>,
    /// The score cap c, up to 65,536 (ONNX: `softcap`); 0 of either sign means none. After the mask each score s becomes c·t, near
    /// c·tanh(s/c) and never above c in magnitude; see [`Call::with_softcap`].
    pub softcap: f32,
    /// Which scores are written (ONNX: `qk_matmul_output_mode`): 0 the scaled dot products, 1 those after the mask, 2 those after the
    /// cap, 3 the weights. Without a cap 1 and 2 are the same.
    pub mode: Option<u64>,
    /// 4 for (batch, head, position, column), 3 for (batch, position, head and column).
    pub rank: u64,
    /// 1 lets a query see only keys up to its own position (ONNX: `is_causal`), 0 lets it see all.
    pub causal: u64,
    /// B, 1 to 8.
    pub batches: u64,
    /// Hq, 1 to 32, a multiple of Hkv.
    pub q_heads: u64,
    /// Hkv, 1 to 32.
    pub kv_heads: u64,
    /// Sq, 1 to 2,048.
    pub q_len: u64,
    /// Sk, the incoming keys, 1 to 2,048.
    pub k_len: u64,
    /// P, the positions in the past cache; P + Sk is at most 2,048.
    pub past: u64,
    /// D, the head size of queries and keys, 1 to 256.
    pub size: u64,
    /// Dv, the head size of values, 1 to 256.
    pub v_size: u64,
    /// The mask's dimensions: each is 1 or the full B, Hq, Sq, T.
    pub mask_dims: [u64; 4],
}

impl Call {
    fn new(form: Form, q_len: u64, k_len: u64, past: u64) -> Call {
        Call {
            form,
            mask: MaskKind::None,
            scale: None,
            softcap: 0.0,
            mode: None,
            rank: 4,
            causal: 0,
            batches: 1,
            q_heads: 1,
            kv_heads: 1,
            q_len,
            k_len,
            past,
            size: 1,
            v_size: 1,
            mask_dims: [1; 4],
        }
    }

    /// A call without a cache: `q_len` queries over `k_len` keys.
    pub fn plain(q_len: u64, k_len: u64) -> Call {
        Call::new(Form::Plain, q_len, k_len, 0)
    }

    /// A chunk of `len` queries and keys after `past` positions in the cache.
    pub fn cached(past: u64, len: u64) -> Call {
        Call::new(Form::Cached, len, len, past)
    }

    /// `q_len` queries over an outside cache with room for `k_len` positions, of which each batch uses its live count.
    pub fn counted(q_len: u64, k_len: u64) -> Call {
        Call::new(Form::Counted, q_len, k_len, 0)
    }

    pub fn with_batches(self, batches: u64) -> Call {
        Call { batches, ..self }
    }

    /// Query heads and key heads.
    pub fn with_heads(self, q_heads: u64, kv_heads: u64) -> Call {
        Call { q_heads, kv_heads, ..self }
    }

    /// The head size of queries, keys and values.
    pub fn with_size(self, size: u64) -> Call {
        Call { size, v_size: size, ..self }
    }

    /// The head size of values alone.
    pub fn with_value_size(self, v_size: u64) -> Call {
        Call { v_size, ..self }
    }

    pub fn with_rank(self, rank: u64) -> Call {
        Call { rank, ..self }
    }

    pub fn with_causal(self) -> Call {
        Call { causal: 1, ..self }
    }

    pub fn with_scale(self, scale: f32) -> Call {
        Call { scale: Some(scale), ..self }
    }

    /// Scores are capped: for the cap c a score s becomes c·t, where x = s/c, a is -x where x is below 0 and else x, g = E(a + a)
    /// ([`crate::exp_neg`]), and t = (1 - g)/(1 + g), negated where x is below 0. Each is one f32 operation.
    ///
    /// ```
    /// use klaverdomp::{attention, Buffers, Call, Inputs};
    ///
    /// let inputs = Inputs { query: &[1.0], key: &[20.0, -3.0], value: &[2.0, 4.0], ..Inputs::default() };
    /// let call = Call::plain(1, 2).with_scale(1.0).with_softcap(2.0);
    /// let shown = |mode| {
    ///     let call = call.with_scores(mode);
    ///     let mut buffers = Buffers::new(&call);
    ///     attention(&call, &inputs, &mut buffers.lend()).map(|_| buffers.scores)
    /// };
    /// assert_eq!(shown(1)?, [20.0, -3.0]);
    /// assert_eq!(shown(2)?, [2.0, -1.810_296_5]);
    /// # Ok::<(), klaverdomp::Refusal>(())
    /// ```
    pub fn with_softcap(self, softcap: f32) -> Call {
        Call { softcap, ..self }
    }

    /// The scores of this mode are written.
    pub fn with_scores(self, mode: u64) -> Call {
        Call { mode: Some(mode), ..self }
    }

    pub fn with_boolean_mask(self, dims: [u64; 4]) -> Call {
        Call { mask: MaskKind::Boolean, mask_dims: dims, ..self }
    }

    pub fn with_float_mask(self, dims: [u64; 4]) -> Call {
        Call { mask: MaskKind::Float, mask_dims: dims, ..self }
    }

    /// T, all positions: those of the past and the incoming ones.
    pub fn total(&self) -> u64 {
        self.past.saturating_add(self.k_len)
    }

    /// The right length of each tensor. Exact for a call within the limits; a product beyond `usize` is `usize::MAX`.
    pub fn lengths(&self) -> Lengths {
        let cached = u64::from(self.form == Form::Cached);
        let mask = |kind| if self.mask == kind { product(&self.mask_dims) } else { 0 };
        let scored = u64::from(self.mode.is_some());
        let (batches, total) = (self.batches, self.total());
        Lengths {
            query: product(&[batches, self.q_heads, self.q_len, self.size]),
            key: product(&[batches, self.kv_heads, self.k_len, self.size]),
            value: product(&[batches, self.kv_heads, self.k_len, self.v_size]),
            boolean_mask: mask(MaskKind::Boolean),
            float_mask: mask(MaskKind::Float),
            past_key: product(&[cached, batches, self.kv_heads, self.past, self.size]),
            past_value: product(&[cached, batches, self.kv_heads, self.past, self.v_size]),
            live: if self.form == Form::Counted { product(&[batches]) } else { 0 },
            output: product(&[batches, self.q_heads, self.q_len, self.v_size]),
            present_key: product(&[cached, batches, self.kv_heads, total, self.size]),
            present_value: product(&[cached, batches, self.kv_heads, total, self.v_size]),
            scores: product(&[scored, batches, self.q_heads, self.q_len, total]),
            work: product(&[total]),
        }
    }

    /// The 18 numbers of the library's record.
    pub(crate) fn record(&self) -> [u64; 18] {
        let form = match self.form {
            Form::Plain => 0,
            Form::Cached => 1,
            Form::Counted => 2,
        };
        let mask = match self.mask {
            MaskKind::None => 0,
            MaskKind::Boolean => 1,
            MaskKind::Float => 2,
        };
        // 255 means no scores in the record, so every mode that is refused is handed on as 4
        let mode = self.mode.map_or(255, |mode| mode.min(4));
        let [b, h, q, k] = self.mask_dims;
        [
            form,
            mask,
            u64::from(self.scale.is_some()),
            mode,
            self.rank,
            self.causal,
            self.batches,
            self.q_heads,
            self.kv_heads,
            self.q_len,
            self.k_len,
            self.past,
            self.size,
            self.v_size,
            b,
            h,
            q,
            k,
        ]
    }
}

/// How many elements each tensor of a call has; 0 for one that the call does not use.
#[derive(Clone, Copy, Debug, PartialEq, Eq)]
pub struct Lengths {
    pub query: usize,
    pub key: usize,
    pub value: usize,
    pub boolean_mask: usize,
    pub float_mask: usize,
    pub past_key: usize,
    pub past_value: usize,
    pub live: usize,
    pub output: usize,
    pub present_key: usize,
    pub present_value: usize,
    pub scores: usize,
    pub work: usize,
}

/// The product, or `usize::MAX` if it is greater. A factor 0 makes it 0 whatever the others are.
pub(crate) fn product(factors: &[u64]) -> usize {
    if factors.contains(&0) {
        return 0;
    }
    let product = factors.iter().try_fold(1u64, |all, factor| all.checked_mul(*factor));
    product.and_then(|all| usize::try_from(all).ok()).unwrap_or(usize::MAX)
}

#[cfg(test)]
mod tests {
    use super::*;

    #[test]
    fn lengths_follow_form_mask_and_mode() {
        let plain = Call::plain(3, 5).with_batches(2).with_heads(4, 2).with_size(6).with_value_size(7);
        let lengths = plain.lengths();
        assert_eq!((lengths.query, lengths.key, lengths.value), (2 * 4 * 3 * 6, 2 * 2 * 5 * 6, 2 * 2 * 5 * 7));
        assert_eq!((lengths.output, lengths.scores, lengths.work), (2 * 4 * 3 * 7, 0, 5));
        assert_eq!((lengths.past_key, lengths.present_key, lengths.live), (0, 0, 0));

        let cached = Call::cached(8, 3).with_batches(2).with_heads(4, 2).with_size(6).with_value_size(7).with_scores(3);
        let lengths = cached.lengths();
        assert_eq!((lengths.past_key, lengths.past_value), (2 * 2 * 8 * 6, 2 * 2 * 8 * 7));
        assert_eq!((lengths.present_key, lengths.present_value), (2 * 2 * 11 * 6, 2 * 2 * 11 * 7));
        assert_eq!((lengths.scores, lengths.work, lengths.live), (2 * 4 * 3 * 11, 11, 0));

        let counted = Call::counted(1, 9).with_batches(3).with_boolean_mask([1, 1, 1, 9]);
        assert_eq!((counted.lengths().live, counted.lengths().boolean_mask, counted.lengths().float_mask), (3, 9, 0));
        assert_eq!(counted.with_float_mask([3, 1, 1, 9]).lengths().float_mask, 27);
    }

    #[test]
    fn lengths_of_any_numbers_do_not_overflow() {
        let call = Call::cached(u64::MAX, u64::MAX).with_batches(u64::MAX).with_heads(u64::MAX, 0).with_size(u64::MAX);
        assert_eq!(call.total(), u64::MAX);
        assert_eq!(call.lengths().query, usize::MAX);
        assert_eq!(call.lengths().key, 0);
    }

    #[test]
    fn a_mode_above_three_is_never_read_as_no_scores() {
        for mode in [4, 254, 255, 256, u64::MAX] {
            assert_eq!(Call::plain(1, 1).with_scores(mode).record()[3], 4);
        }
        assert_eq!(Call::plain(1, 1).record()[3], 255);
    }
}
