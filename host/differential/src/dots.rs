//! The dot product: each score that mode 0 shows is held to the rule, which stands here a second time. A run counts the scores on
//! which wrong rules give other bits, so that it fails where one of them could not have been noticed.

use crate::call::*;
use crate::compare::Left;
use crate::ffi;
use crate::textbook::Textbook;

/// What a head size is, n being at least 1.
const SIZES: [&str; 7] = ["D 1", "D 2", "D 3", "D 4n", "D 4n + 1", "D 4n + 2", "D 4n + 3"];

fn kind(size: u64) -> usize {
    if size < 4 {
        size as usize - 1
    } else {
        3 + size as usize % 4
    }
}

/// The dot product in one pass, each product to the lane of its remainder. A product or sum of two f32 is made in f64 and rounded
/// again, which gives the f32 nearest to the exact one.
fn dot(query: &[f64], key: &[f64]) -> f32 {
    let nearest = |x: f64| f64::from(x as f32);
    let mut lanes = [0.0; 4];
    for (k, (q, key)) in query.iter().zip(key).enumerate() {
        lanes[k % 4] = nearest(lanes[k % 4] + nearest(q * key));
    }
    (nearest(lanes[0] + lanes[1]) + nearest(lanes[2] + lanes[3])) as f32
}

/// A query, a key and their products.
struct Terms<'a> {
    query: &'a [f64],
    key: &'a [f64],
    products: &'a [f32],
}

impl Terms<'_> {
    fn size(&self) -> usize {
        self.products.len()
    }

    /// How many products stand before the tail.
    fn whole(&self) -> usize {
        self.size() - self.size() % 4
    }

    /// Four sums that begin with `first`, of the products of these indices in their order, each in the lane that is named for its
    /// index.
    fn lanes(&self, first: f32, indices: impl Iterator<Item = usize>, lane: impl Fn(usize) -> usize) -> [f32; 4] {
        let mut lanes = [first; 4];
        for k in indices {
            lanes[lane(k)] += self.products[k];
        }
        lanes
    }

    fn right_lanes(&self) -> [f32; 4] {
        self.lanes(0.0, 0..self.size(), |k| k % 4)
    }
}

fn joined([a, b, c, d]: [f32; 4]) -> f32 {
    (a + b) + (c + d)
}

/// A wrong rule: its name, the places in `SIZES` where it can give other bits, and what it gives.
struct Wrong(&'static str, &'static [usize], fn(&Terms) -> f32);

const WRONG: [Wrong; 10] = [
    Wrong("one sum", &[3, 4, 5, 6], |t| t.products.iter().fold(0.0, |sum, product| sum + product)),
    Wrong("k falling", &[3, 4, 5, 6], |t| joined(t.lanes(0.0, (0..t.size()).rev(), |k| k % 4))),
    Wrong("lanes joined from the left", &[3, 4, 5, 6], |t| t.right_lanes().into_iter().reduce(|sum, lane| sum + lane).unwrap()),
    Wrong("lanes 0 and 2 joined", &[2, 3, 4, 5, 6], |t| {
        let [a, b, c, d] = t.right_lanes();
        joined([a, c, b, d])
    }),
    Wrong("lanes of quarters", &[3, 4, 5, 6], |t| joined(t.lanes(0.0, 0..t.size(), |k| k * 4 / t.size()))),
    // -0 changes no number that is added to it: the lane starts at its first product, and is left out where it has none.
    Wrong("lanes without +0", &[0, 1, 2, 3, 4, 5, 6], |t| joined(t.lanes(-0.0, 0..t.size(), |k| k % 4))),
    Wrong("the tail after the lanes", &[4, 5, 6], |t| {
        let lanes = joined(t.lanes(0.0, 0..t.whole(), |k| k % 4));
        t.products[t.whole()..].iter().fold(lanes, |sum, product| sum + product)
    }),
    Wrong("the tail one lane on", &[2, 4, 5, 6], |t| {
        joined(t.lanes(0.0, 0..t.size(), |k| if k < t.whole() { k % 4 } else { (k + 1) % 4 }))
    }),
    Wrong("no tail", &[0, 1, 2, 4, 5, 6], |t| joined(t.lanes(0.0, 0..t.whole(), |k| k % 4))),
    Wrong("fma", &[3, 4, 5, 6], |t| {
        let mut lanes = [0f32; 4];
        for (k, (q, key)) in t.query.iter().zip(t.key).enumerate() {
            lanes[k % 4] = (*q as f32).mul_add(*key as f32, lanes[k % 4]);
        }
        joined(lanes)
    }),
];

/// What the accepted calls at one entry have reached. Only the general one shows scores.
#[derive(Default)]
pub struct Reached {
    /// Calls by `SIZES`, at the general entry those of mode 0.
    sizes: [u64; SIZES.len()],
    scores: u64,
    /// Scores that have other bits by each of `WRONG`, by `SIZES`.
    others: [[u64; SIZES.len()]; WRONG.len()],
}

impl Reached {
    pub fn add(&mut self, call: &Call, entry: Entry, left: &Left) -> Result<(), String> {
        let record = call.decoded();
        let shown = record.score_mode == 0;
        if left.answer.refusal != 0 || (entry == Entry::General && !shown) {
            return Ok(());
        }
        self.sizes[kind(record.size)] += 1;
        if shown {
            self.scores(call, &record, &left.outputs.scores)
        } else {
            Ok(())
        }
    }

    /// Holds the scores to the rule: +0 at positions past the live count, else the dot product by the scale.
    fn scores(&mut self, call: &Call, record: &Record, scores: &[u32]) -> Result<(), String> {
        let scale = f32::from_bits(match record.scale_kind {
            ABSENT => ffi::library_default_scale(record.size).1,
            _ => call.scale,
        });
        let textbook = Textbook::new(record, call.scale, call.softcap, &call.inputs);
        let (heads, queries) = (record.query_heads as usize, record.query_length as usize);
        let mut products = Vec::with_capacity(record.size as usize);
        for (at, row) in scores.chunks(record.total() as usize).enumerate() {
            let (batch, head, i) = (at / queries / heads, at / queries % heads, at % queries);
            let (query, key_head, live) = (textbook.query.row(batch, head, i), textbook.key_head(head), textbook.live(batch));
            for (j, &shown) in row.iter().enumerate() {
                let key = (j < live).then(|| textbook.key.row(batch, key_head, j));
                let right = key.map_or(0, |key| (dot(query, key) * scale).to_bits());
                if shown != right {
                    return Err(format!("score {j} of row ({batch}, {head}, {i}) is {shown:08X}, and {right:08X} by the rule"));
                }
                let Some(key) = key else { continue };
                products.clear();
                products.extend(query.iter().zip(key).map(|(q, key)| (q * key) as f32));
                self.note(&Terms { query, key, products: &products }, scale, right);
            }
        }
        Ok(())
    }

    fn note(&mut self, terms: &Terms, scale: f32, right: u32) {
        let kind = kind(terms.size() as u64);
        self.scores += 1;
        for (others, Wrong(_, kinds, rule)) in self.others.iter_mut().zip(&WRONG) {
            if kinds.contains(&kind) {
                others[kind] += u64::from((rule(terms) * scale).to_bits() != right);
            }
        }
    }

    /// What was never reached at this entry.
    pub fn missing(&self, entry: Entry) -> Vec<String> {
        let mut missing = Vec::new();
        let mut want = |count: u64, what: String| {
            if count == 0 {
                missing.push(format!("{what} at the {entry:?} entry"))
            }
        };
        for (&count, name) in self.sizes.iter().zip(SIZES) {
            want(count, format!("{name} in an accepted call"));
        }
        let shown = if entry == Entry::General { &WRONG[..] } else { &[] };
        for (others, Wrong(name, kinds, _)) in self.others.iter().zip(shown) {
            for &kind in *kinds {
                want(others[kind], format!("{} where '{name}' gives another dot product", SIZES[kind]));
            }
        }
        missing
    }

    pub fn describe(&self, entry: Entry) -> String {
        let each = |counts: &[u64]| counts.iter().map(u64::to_string).collect::<Vec<_>>().join(" ");
        let mut words = format!("accepted by {}: {}", SIZES.join(", "), each(&self.sizes));
        if entry == Entry::General {
            words += &format!("; {} scores, other bits by", self.scores);
            let others = self.others.iter().zip(&WRONG).map(|(others, Wrong(name, _, _))| format!(" {name} {}", each(others)));
            words += &others.collect::<Vec<_>>().join(",");
        }
        words
    }
}

#[cfg(test)]
mod tests {
    use super::*;
    use crate::random::Random;

    /// The dot product, and the names of the wrong rules that give other bits.
    fn shown(query: &[f32], key: &[f32]) -> (f32, Vec<&'static str>) {
        let wide = |row: &[f32]| row.iter().map(|&x| f64::from(x)).collect::<Vec<_>>();
        let products: Vec<f32> = query.iter().zip(key).map(|(q, key)| q * key).collect();
        let (query, key) = (&wide(query)[..], &wide(key)[..]);
        let (right, terms) = (dot(query, key), Terms { query, key, products: &products });
        let others = WRONG.iter().filter(|Wrong(_, _, rule)| rule(&terms).to_bits() != right.to_bits());
        (right, others.map(|Wrong(name, _, _)| *name).collect())
    }

    fn ones(key: &[f32]) -> (f32, Vec<&'static str>) {
        shown(&vec![1.0; key.len()], key)
    }

    #[test]
    fn the_rule_and_the_wrong_ones_have_these_bits() {
        // t + u is t, and t + 2 u is a number of its own.
        let (t, u) = (65536.0, 1.0 / 256.0);
        let (left, cross, quarters) = ("lanes joined from the left", "lanes 0 and 2 joined", "lanes of quarters");
        let (after, on) = ("the tail after the lanes", "the tail one lane on");
        assert_eq!(ones(&[3.0]), (3.0, vec!["no tail"]));
        assert_eq!(ones(&[t, -t, u]), (u, vec![cross, "no tail"]));
        assert_eq!(ones(&[u, t, u, -t]), (u, vec!["one sum", left, cross]));
        assert_eq!(ones(&[t, u, 0.0, 0.0, -t]), (u, vec!["one sum", quarters, after, "no tail"]));
        assert_eq!(ones(&[t, u, 0.0, 0.0, u]), (t, vec![on]));
        assert_eq!(ones(&[0.0, 0.0, t, 0.0, u, u, -t]), (2.0 * u, vec!["one sum", after, on, "no tail"]));
        assert_eq!(ones(&[t, u, 0.0, 0.0, -t, 0.0, 0.0, 0.0]), (u, vec!["one sum", quarters]));
        assert_eq!(ones(&[t, 0.0, 0.0, 0.0, u, 0.0, 0.0, 0.0, -t]), (0.0, vec!["k falling", "no tail"]));
        // 4097 * 4097 is 16785409, and rounded 16785408.
        let squares = [[-4096.0, 0.0, 0.0, 0.0, 4097.0], [4098.0, 0.0, 0.0, 0.0, 4097.0]];
        assert_eq!(shown(&squares[0], &squares[1]), (0.0, vec!["no tail", "fma"]));
    }

    #[test]
    fn lanes_start_at_plus_zero() {
        for size in 1..=9 {
            let (dot, others) = ones(&vec![-0.0; size]);
            assert_eq!((dot.to_bits(), others), (0, vec!["lanes without +0"]), "{size}");
            // The products are -0 by underflow.
            let (dot, others) = shown(&vec![-1e-30; size], &vec![1e-30; size]);
            assert_eq!((dot.to_bits(), others.contains(&"lanes without +0"), others.contains(&"fma")), (0, true, size > 3));
        }
    }

    fn element(random: &mut Random) -> f32 {
        let (sign, fraction) = (random.pick(&[1.0, -1.0]), random.fraction());
        sign * random.pick(&[0.0, 1.0, fraction, fraction * 65536.0, 1e-30])
    }

    #[test]
    fn wrong_rules_give_other_bits_where_they_can() {
        let mut random = Random::new(1, 1);
        let mut met = [[false; SIZES.len()]; WRONG.len()];
        for round in 0..40_000 {
            let size = random.between(1, 16);
            let mut row =
                |zero: f32| (0..size).map(|_| if round % 4 == 0 { zero } else { element(&mut random) }).collect::<Vec<_>>();
            let (query, key) = (row(-0.0), row(0.0));
            for name in shown(&query, &key).1 {
                met[WRONG.iter().position(|Wrong(other, _, _)| *other == name).unwrap()][kind(size)] = true;
            }
        }
        for (met, Wrong(name, kinds, _)) in met.iter().zip(&WRONG) {
            assert_eq!(met.to_vec(), (0..SIZES.len()).map(|kind| kinds.contains(&kind)).collect::<Vec<_>>(), "{name}");
        }
    }

    /// A call of two keys of size 5, the second of which is padded, and its scores by the rule.
    fn padded() -> (Call, [u32; 2]) {
        let bits = |row: [f32; 5]| row.map(f32::to_bits);
        let record = Record {
            form: COUNTED,
            scale_kind: GIVEN,
            rank: 4,
            batches: 1,
            query_heads: 1,
            key_heads: 1,
            query_length: 1,
            key_length: 2,
            size: 5,
            value_size: 1,
            ..Record::default()
        };
        let inputs = Inputs {
            query: bits([1.0; 5]).to_vec(),
            key: [bits([65536.0, 1.0 / 256.0, 0.0, 0.0, -65536.0]), bits([f32::NAN; 5])].concat(),
            value: vec![0; 2],
            live: vec![1],
            ..Inputs::default()
        };
        let outputs = Outputs::default();
        let call = Call { record: record.numbers().to_vec(), scale: 2f32.to_bits(), softcap: 0, inputs, outputs };
        (call, [(1f32 / 128.0).to_bits(), 0])
    }

    #[test]
    fn scores_of_other_bits_are_noticed() {
        let (call, right) = padded();
        let add = |scores: [u32; 2]| {
            let outputs = Outputs { scores: scores.to_vec(), ..Outputs::default() };
            let left = Left { answer: Answer::default(), outputs, inputs_kept: true };
            Reached::default().add(&call, Entry::General, &left)
        };
        assert_eq!(add(right), Ok(()));
        let words = "score 0 of row (0, 0, 0) is 00000000, and 3C000000 by the rule";
        assert_eq!(add([0, 0]), Err(words.to_string()));
        assert!(add([right[0] + 1, 0]).is_err() && add([right[0], 0x8000_0000]).is_err());
    }

    #[test]
    fn what_is_never_reached_is_missing() {
        let full = || Reached { sizes: [1; SIZES.len()], scores: 1, others: [[1; SIZES.len()]; WRONG.len()] };
        let left_out = |change: &dyn Fn(&mut Reached)| {
            let mut reached = full();
            change(&mut reached);
            [Entry::General, Entry::Step].map(|entry| reached.missing(entry).len())
        };
        assert_eq!(left_out(&|_| {}), [0, 0]);
        for size in 1..=20 {
            assert_eq!(left_out(&|reached| reached.sizes[kind(size)] = 0), [1, 1]);
        }
        for (at, Wrong(_, kinds, _)) in WRONG.iter().enumerate() {
            for kind in 0..SIZES.len() {
                let wanted = usize::from(kinds.contains(&kind));
                assert_eq!(left_out(&|reached| reached.others[at][kind] = 0), [wanted, 0]);
            }
        }
    }
}
