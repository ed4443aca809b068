//! Attention by the textbook formula in f64: softmax(c · tanh((scale · Q Kᵀ + bias) / c)) V, or without the cap c where there
//! is none, with the machine's functions. It takes calls that are accepted, copies each tensor into its own dense
//! [batch][head][position][size] form, and knows nothing of rounding order.

use crate::call::*;

/// Row (b, h, i): what is seen, and what the formula gives.
pub struct Row {
    /// scale · q · k for every position that is not padded.
    pub products: Vec<f64>,
    /// scale · Σ |q k| for the same positions.
    pub product_sizes: Vec<f64>,
    /// What is added to the product; minus infinity where the position is hidden.
    pub biases: Vec<f64>,
    /// product + bias after the cap; minus infinity where the position is hidden.
    pub scores: Vec<f64>,
    /// The softmax over all T positions, 0 where hidden or padded.
    pub weights: Vec<f64>,
    pub output: Vec<f64>,
    /// The greatest score, minus infinity for a row that sees nothing.
    pub greatest: f64,
}

/// One tensor as [batch][head][position][size].
pub struct Dense {
    heads: usize,
    positions: usize,
    size: usize,
    cells: Vec<f64>,
}

impl Dense {
    pub fn row(&self, batch: usize, head: usize, position: usize) -> &[f64] {
        let start = ((batch * self.heads + head) * self.positions + position) * self.size;
        &self.cells[start..start + self.size]
    }

    /// From a tensor of rank 4, or of rank 3 as [batch][position][head · size].
    fn new(bits: &[u32], rank: u64, batches: usize, heads: usize, positions: usize, size: usize) -> Dense {
        let mut cells = Vec::with_capacity(bits.len());
        for batch in 0..batches {
            for head in 0..heads {
                for position in 0..positions {
                    let row = match rank {
                        3 => (batch * positions + position) * heads + head,
                        _ => (batch * heads + head) * positions + position,
                    };
                    cells.extend(bits[row * size..(row + 1) * size].iter().map(|&b| f64::from(f32::from_bits(b))));
                }
            }
        }
        Dense { heads, positions, size, cells }
    }

    /// Two tensors one after the other along the positions.
    fn joined(self, next: Dense) -> Dense {
        let positions = self.positions + next.positions;
        let batches = (self.cells.len() + next.cells.len()) / (self.heads * positions * self.size);
        let mut cells = Vec::with_capacity(self.cells.len() + next.cells.len());
        for batch in 0..batches {
            for head in 0..self.heads {
                for position in 0..positions {
                    cells.extend_from_slice(if position < self.positions {
                        self.row(batch, head, position)
                    } else {
                        next.row(batch, head, position - self.positions)
                    });
                }
            }
        }
        Dense { positions, cells, ..self }
    }
}

pub struct Textbook<'a> {
    record: Record,
    inputs: &'a Inputs,
    scale: f64,
    /// None where the call has none.
    pub cap: Option<f64>,
    pub query: Dense,
    pub key: Dense,
    pub value: Dense,
}

impl<'a> Textbook<'a> {
    pub fn new(record: &Record, scale: u32, softcap: u32, inputs: &'a Inputs) -> Textbook<'a> {
        let whole = |n: u64| n as usize;
        let (batches, heads) = (whole(record.batches), whole(record.key_heads));
        let (past, fresh) = (whole(record.past), whole(record.key_length));
        let (size, value_size) = (whole(record.size), whole(record.value_size));
        let cache = |old: &[u32], new: &[u32], size: usize| {
            Dense::new(old, 4, batches, heads, past, size).joined(Dense::new(new, record.rank, batches, heads, fresh, size))
        };
        Textbook {
            record: *record,
            inputs,
            scale: match record.scale_kind {
                ABSENT => 1.0 / (record.size as f64).sqrt(),
                _ => f64::from(f32::from_bits(scale)),
            },
            cap: Some(f64::from(f32::from_bits(softcap))).filter(|cap| *cap != 0.0),
            query: Dense::new(&inputs.query, record.rank, batches, whole(record.query_heads), whole(record.query_length), size),
            key: cache(&inputs.past_key, &inputs.key, size),
            value: cache(&inputs.past_value, &inputs.value, value_size),
        }
    }

    /// The number of positions of a batch that are not padded.
    pub fn live(&self, batch: usize) -> usize {
        match self.record.form {
            COUNTED => self.inputs.live[batch] as usize,
            _ => self.record.total() as usize,
        }
    }

    pub fn key_head(&self, head: usize) -> usize {
        head * self.record.key_heads as usize / self.record.query_heads as usize
    }

    fn bias(&self, place: [usize; 4]) -> f64 {
        let [_, _, query, position] = place;
        if self.record.causal == 1 && position > self.record.past as usize + query {
            return f64::NEG_INFINITY;
        }
        if self.record.mask_kind == NO_MASK {
            return 0.0;
        }
        let dims = self.record.mask_dims.map(|dim| dim as usize);
        let cell = place.iter().zip(dims).fold(0, |at, (&index, dim)| at * dim + index % dim);
        match self.record.mask_kind {
            BOOLEAN if self.inputs.bool_mask[cell] == 0 => f64::NEG_INFINITY,
            BOOLEAN => 0.0,
            _ => f64::from(f32::from_bits(self.inputs.float_mask[cell])),
        }
    }

    /// A hidden key's minus infinity stays.
    fn capped(&self, score: f64) -> f64 {
        match self.cap {
            Some(cap) if score.is_finite() => cap * (score / cap).tanh(),
            _ => score,
        }
    }

    pub fn row(&self, batch: usize, head: usize, query: usize) -> Row {
        let q = self.query.row(batch, head, query);
        let (live, key_head) = (self.live(batch), self.key_head(head));
        let mut row = Row {
            products: Vec::with_capacity(live),
            product_sizes: Vec::with_capacity(live),
            biases: Vec::with_capacity(live),
            scores: Vec::with_capacity(live),
            weights: vec![0.0; self.record.total() as usize],
            output: vec![0.0; self.record.value_size as usize],
            greatest: f64::NEG_INFINITY,
        };
        for position in 0..live {
            let k = self.key.row(batch, key_head, position);
            row.products.push(self.scale * q.iter().zip(k).map(|(a, b)| a * b).sum::<f64>());
            row.product_sizes.push(self.scale * q.iter().zip(k).map(|(a, b)| (a * b).abs()).sum::<f64>());
            row.biases.push(self.bias([batch, head, query, position]));
            row.scores.push(self.capped(row.products[position] + row.biases[position]));
            row.greatest = row.greatest.max(row.scores[position]);
        }
        if row.greatest == f64::NEG_INFINITY {
            return row;
        }
        for position in 0..live {
            row.weights[position] = (row.scores[position] - row.greatest).exp();
        }
        let sum: f64 = row.weights.iter().sum();
        for position in 0..live {
            row.weights[position] /= sum;
            if row.weights[position] == 0.0 {
                continue;
            }
            let v = self.value.row(batch, key_head, position);
            for (y, v) in row.output.iter_mut().zip(v) {
                *y += row.weights[position] * v;
            }
        }
        row
    }
}
