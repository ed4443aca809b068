//! How far an accepted call's tensors may lie from the f64 program's, by a bound that is worked out for each row.
//!
//! With u = 2^-24, for a row of T positions and size D:
//! - a score lies within ((D + 3) u) · (scale Σ|q k| + |mask|) of the formula's, and D + 2 least steps for underflow;
//! - under a cap c, a score within ε of the formula's s gives one within ε / cosh²(z), z = max(0, |s| - ε) / c, where the
//!   formula is steepest; with a = |s| / c, g has the relative error 6 u + 8 u a, which is at most 6 u in t, and the four
//!   operations after it add at most 4 u: together 10 u c, and c + 2 least steps for underflow;
//! - the greatest of these over the seen keys is δ;
//! - E of a key whose score is d below the greatest has the relative error ρ = e^(2δ + 3 u d) - 1 + 6 u, and is 0 only
//!   where it is below 2^-119;
//! - a weight w has the relative error ρ + R + 2 u, R = Σ w ρ + T u + T 2^-119, for the sum;
//! - an output lies within Σ w |v| (ρ + R + 3 u + T u) + T 2^-119 max |v| of the formula's.
//! Each is taken 1.1 times, for the products of errors. A row with R above 1/8 (scores so large that their rounding
//! decides) is loose: its weights and outputs are not held to anything here, only its scores are.

use crate::call::*;
use crate::textbook::{Row, Textbook};

const U: f64 = 1.0 / 16_777_216.0;
const LEAST: f64 = 1.401298464324817e-45;
const CUT: f64 = 1.504632769052528e-36; // 2^-119
const ROOM: f64 = 1.1;

/// The largest errors seen.
#[derive(Clone, Copy, Default)]
pub struct Accuracy {
    pub rows: u64,
    pub loose_rows: u64,
    /// |output - formula| / Σ w |v| over the outputs whose bound is below a thousandth of that sum, and the sum not
    /// below 1e-30 (so that it isn't underflow that shows).
    pub output_error: f64,
    pub output_error_call: u64,
    /// The same over the rows without a cap whose scores have scale Σ|q k| + |mask| at most 16.
    pub ordinary_error: f64,
    pub ordinary_error_call: u64,
    /// |weight - formula| over the rows with R below a thousandth.
    pub weight_error: f64,
    pub weight_error_call: u64,
    /// |score - formula| / c over the scores after a cap c whose bound before it is at most u c.
    pub capped_error: f64,
    pub capped_error_call: u64,
    /// The largest part of its bound that an output used.
    pub bound_used: f64,
    pub bound_used_call: u64,
}

impl Accuracy {
    pub fn join(&mut self, other: &Accuracy) {
        self.rows += other.rows;
        self.loose_rows += other.loose_rows;
        for (mine, my_call, theirs, their_call) in [
            (&mut self.output_error, &mut self.output_error_call, other.output_error, other.output_error_call),
            (&mut self.ordinary_error, &mut self.ordinary_error_call, other.ordinary_error, other.ordinary_error_call),
            (&mut self.weight_error, &mut self.weight_error_call, other.weight_error, other.weight_error_call),
            (&mut self.capped_error, &mut self.capped_error_call, other.capped_error, other.capped_error_call),
            (&mut self.bound_used, &mut self.bound_used_call, other.bound_used, other.bound_used_call),
        ] {
            if theirs > *mine {
                (*mine, *my_call) = (theirs, their_call);
            }
        }
    }
}

fn value(bits: u32) -> f64 {
    f64::from(f32::from_bits(bits))
}

/// The relative error of each seen key's exponential and of their sum.
struct Relative {
    keys: Vec<f64>,
    sum: f64,
}

struct Check<'a> {
    record: Record,
    textbook: Textbook<'a>,
    outputs: &'a Outputs,
    accuracy: Accuracy,
    number: u64,
}

impl Check<'_> {
    fn score_bound(&self, row: &Row, j: usize) -> f64 {
        let terms = self.record.size as f64;
        let bias = if row.biases[j].is_finite() { row.biases[j].abs() } else { 0.0 };
        ROOM * ((terms + 3.0) * U * (row.product_sizes[j] + bias) + (terms * 1024.0 + 2.0) * LEAST)
    }

    /// After the cap, and the same without one.
    fn capped_bound(&self, row: &Row, j: usize) -> f64 {
        let before = self.score_bound(row, j);
        let Some(cap) = self.textbook.cap else { return before };
        let near = ((row.products[j] + row.biases[j]).abs() - before).max(0.0) / cap;
        before / near.cosh().powi(2) + ROOM * (10.0 * U * cap + (cap + 2.0) * LEAST)
    }

    fn relative(&self, row: &Row) -> Relative {
        let seen = |j: &usize| row.biases[*j] != f64::NEG_INFINITY;
        let live = row.products.len();
        let delta = (0..live).filter(seen).map(|j| self.capped_bound(row, j)).fold(0.0, f64::max);
        let keys: Vec<f64> = (0..live)
            .map(|j| {
                let below = row.greatest - row.scores[j];
                if seen(&j) && row.weights[j] > 0.0 { (2.0 * delta + 3.0 * U * below).exp_m1() + 6.0 * U } else { 0.0 }
            })
            .collect();
        let total = row.weights.len() as f64;
        let sum = keys.iter().zip(&row.weights).map(|(rho, w)| rho * w).sum::<f64>() + total * U + total * CUT;
        Relative { keys, sum }
    }

    /// The scores shown in modes 0 to 2 are within their bound.
    fn scores(&mut self, row: &Row, shown: &[u32]) -> Result<(), String> {
        for (j, &bits) in shown.iter().enumerate() {
            let (want, bound) = match (row.products.get(j), self.record.score_mode) {
                (Some(product), 0) => (*product, self.score_bound(row, j)),
                (Some(product), 1) => (product + row.biases[j], self.score_bound(row, j)),
                (Some(_), _) => (row.scores[j], self.capped_bound(row, j)),
                (None, 0) => (0.0, 0.0),
                (None, _) => (f64::NEG_INFINITY, 0.0),
            };
            let error = (value(bits) - want).abs();
            let fits = if want.is_finite() { error <= bound } else { value(bits) == want };
            if !fits {
                return Err(format!("score {j} is {:e}, the formula has {want:e}, the bound is {bound:e}", value(bits)));
            }
            if self.record.score_mode == 2 && want.is_finite() {
                self.note_capped(row, j, error);
            }
        }
        Ok(())
    }

    fn note_capped(&mut self, row: &Row, j: usize, error: f64) {
        let Some(cap) = self.textbook.cap else { return };
        if self.score_bound(row, j) <= U * cap && error / cap > self.accuracy.capped_error {
            (self.accuracy.capped_error, self.accuracy.capped_error_call) = (error / cap, self.number);
        }
    }

    fn weights(&mut self, row: &Row, relative: &Relative, shown: &[u32]) -> Result<(), String> {
        for (j, &bits) in shown.iter().enumerate() {
            let (got, want) = (value(bits), row.weights[j]);
            let rho = relative.keys.get(j).copied().unwrap_or(0.0);
            let bound = ROOM * (want * (rho + relative.sum + 2.0 * U) + CUT);
            let error = (got - want).abs();
            if error > bound || !(0.0..=1.0).contains(&got) {
                return Err(format!("weight {j} is {got:e}, the formula has {want:e}, the bound is {bound:e}"));
            }
            if relative.sum < 1e-3 && error > self.accuracy.weight_error {
                (self.accuracy.weight_error, self.accuracy.weight_error_call) = (error, self.number);
            }
        }
        Ok(())
    }

    fn output(&mut self, row: &Row, relative: &Relative, place: [usize; 3], shown: &[u32]) -> Result<(), String> {
        let [batch, head, _] = place;
        let (head, total) = (self.textbook.key_head(head), row.weights.len() as f64);
        let columns = shown.len();
        let small = (0..row.products.len())
            .filter(|&j| row.biases[j] != f64::NEG_INFINITY)
            .all(|j| row.product_sizes[j] + row.biases[j].abs() <= 16.0);
        let ordinary = small && self.textbook.cap.is_none();
        let (mut sizes, mut errors, mut greatest) = (vec![0.0; columns], vec![0.0; columns], 0.0f64);
        for j in 0..row.products.len() {
            if row.biases[j] == f64::NEG_INFINITY {
                continue;
            }
            for (n, v) in self.textbook.value.row(batch, head, j).iter().enumerate() {
                let term = row.weights[j] * v.abs();
                sizes[n] += term;
                errors[n] += term * relative.keys[j];
                greatest = greatest.max(v.abs());
            }
        }
        for (n, &bits) in shown.iter().enumerate() {
            let error = (value(bits) - row.output[n]).abs();
            let bound = ROOM * (errors[n] + sizes[n] * (relative.sum + 3.0 * U + total * U) + total * (CUT * greatest + LEAST));
            if !(error <= bound) {
                return Err(format!("output {n} is {:e}, the formula has {:e}, the bound is {bound:e}", value(bits), row.output[n]));
            }
            if error / bound > self.accuracy.bound_used {
                (self.accuracy.bound_used, self.accuracy.bound_used_call) = (error / bound, self.number);
            }
            let relative_error = error / sizes[n];
            if bound >= 1e-3 * sizes[n] || sizes[n] < 1e-30 {
                continue;
            }
            if relative_error > self.accuracy.output_error {
                (self.accuracy.output_error, self.accuracy.output_error_call) = (relative_error, self.number);
            }
            if ordinary && relative_error > self.accuracy.ordinary_error {
                (self.accuracy.ordinary_error, self.accuracy.ordinary_error_call) = (relative_error, self.number);
            }
        }
        Ok(())
    }

    fn row(&mut self, place: [usize; 3], last: bool) -> Result<bool, String> {
        let [batch, head, query] = place;
        let row = self.textbook.row(batch, head, query);
        let relative = self.relative(&row);
        let (total, columns) = (self.record.total() as usize, self.record.value_size as usize);
        let (heads, queries) = (self.record.query_heads as usize, self.record.query_length as usize);
        let flat = (batch * heads + head) * queries + query;
        let output_row = if self.record.rank == 3 { (batch * queries + query) * heads + head } else { flat };
        let outputs = self.outputs;
        let output = &outputs.output[output_row * columns..(output_row + 1) * columns];
        self.accuracy.rows += 1;
        let loose = relative.sum > 0.125;
        self.accuracy.loose_rows += u64::from(loose);
        if self.record.score_mode <= 2 {
            self.scores(&row, &outputs.scores[flat * total..(flat + 1) * total])?;
        }
        if !loose {
            if self.record.score_mode == 3 {
                self.weights(&row, &relative, &outputs.scores[flat * total..(flat + 1) * total])?;
            }
            if last {
                self.weights(&row, &relative, &outputs.work)?;
            }
            self.output(&row, &relative, place, output)?;
        }
        Ok(row.greatest == f64::NEG_INFINITY)
    }
}

/// Holds the outputs of an accepted call to the f64 program. `number` is the call's, for the report of the largest error.
pub fn check(call: &Call, outputs: &Outputs, answer: &Answer, number: u64) -> Result<Accuracy, String> {
    let record = call.decoded();
    let textbook = Textbook::new(&record, call.scale, call.softcap, &call.inputs);
    let mut check = Check { record, textbook, outputs, accuracy: Accuracy::default(), number };
    let (batches, heads, queries) = (record.batches as usize, record.query_heads as usize, record.query_length as usize);
    let mut masked = 0;
    for batch in 0..batches {
        for head in 0..heads {
            for query in 0..queries {
                let last = (batch + 1, head + 1, query + 1) == (batches, heads, queries);
                let blind = check
                    .row([batch, head, query], last)
                    .map_err(|text| format!("f64 program: row ({batch}, {head}, {query}): {text}"))?;
                masked += u64::from(blind);
            }
        }
    }
    if answer.masked != masked {
        return Err(format!("f64 program: {} fully masked rows answered, {masked} counted", answer.masked));
    }
    Ok(check.accuracy)
}
