//! What the accepted calls and the refusals of a run have reached, so that a run that misses something fails.

use crate::call::*;
use std::collections::BTreeSet;

#[derive(Default)]
pub struct Coverage {
    /// Answers by number, 0 for done.
    pub answers: [u64; 10],
    /// Form, rank, mask kind, score mode, causal, scale kind and whether there is a cap, of accepted calls, together.
    settings: BTreeSet<[u64; 7]>,
    /// Which of the mask's dimensions are 1 where the full size is not, of accepted calls.
    broadcasts: BTreeSet<[bool; 4]>,
    /// The tensors named by refusal 9.
    tensors: [u64; 5],
    greatest: Greatest,
    pub masked_rows: u64,
    pub unnamed_codes: u64,
    pub odd_records: u64,
}

const LIMITS: [u64; 9] = [8, 32, 32, 2048, 2048, 2047, 2048, 256, 256];
const STEP_LIMITS: [u64; 9] = [1, 32, 32, 1, 1, 2047, 2048, 256, 256];
const NAMES: [&str; 9] = ["B", "Hq", "Hkv", "Sq", "Sk", "P", "T", "D", "Dv"];

/// The greatest B, Hq, Hkv, Sq, Sk, P, T, D, Dv that were accepted.
#[derive(Default)]
struct Greatest([u64; 9]);

impl Greatest {
    fn add(&mut self, r: &Record) {
        let sizes =
            [r.batches, r.query_heads, r.key_heads, r.query_length, r.key_length, r.past, r.total(), r.size, r.value_size];
        for (most, size) in self.0.iter_mut().zip(sizes) {
            *most = size.max(*most);
        }
    }

    /// The limits that were not reached.
    fn missing(&self, limits: [u64; 9]) -> Vec<String> {
        let below = (0..limits.len()).filter(|&at| self.0[at] != limits[at]);
        below.map(|at| format!("{} = {} (only {})", NAMES[at], limits[at], self.0[at])).collect()
    }
}

impl Coverage {
    pub fn add(&mut self, call: &Call, answer: &Answer) {
        let r = call.decoded();
        self.answers[answer.refusal as usize] += 1;
        self.odd_records += u64::from(call.record.len() != RECORD_LENGTH);
        let unnamed = r.form > COUNTED || r.mask_kind > FLOAT || r.scale_kind > GIVEN;
        self.unnamed_codes += u64::from(unnamed && answer.refusal == 3);
        if answer.refusal == 9 {
            self.tensors[answer.tensor as usize] += 1;
        }
        if answer.refusal != 0 {
            return;
        }
        self.masked_rows += answer.masked;
        let cap = u64::from(f32::from_bits(call.softcap) != 0.0);
        self.settings.insert([r.form, r.rank, r.mask_kind, r.score_mode, r.causal, r.scale_kind, cap]);
        let full = [r.batches, r.query_heads, r.query_length, r.total()];
        if r.mask_kind != NO_MASK && full.iter().all(|&n| n > 1) {
            self.broadcasts.insert(r.mask_dims.map(|dim| dim == 1));
        }
        self.greatest.add(&r);
    }

    /// What was never reached.
    pub fn missing(&self) -> Vec<String> {
        let mut missing = Vec::new();
        let mut want = |reached: bool, what: String| if !reached { missing.push(what) };
        for (number, &count) in self.answers.iter().enumerate() {
            want(count > 0, format!("answer {number}"));
        }
        for (tensor, &count) in self.tensors.iter().enumerate() {
            want(count > 0, format!("refusal 9 in tensor {tensor}"));
        }
        want(self.settings.len() == 3 * 2 * 3 * 5 * 2 * 2 * 2, format!("all settings (only {})", self.settings.len()));
        want(self.broadcasts.len() == 16, format!("all broadcasts (only {})", self.broadcasts.len()));
        want(self.masked_rows > 0, "fully masked rows".to_string());
        want(self.unnamed_codes > 0, "unnamed codes".to_string());
        want(self.odd_records > 0, "records of another length".to_string());
        missing.extend(self.greatest.missing(LIMITS));
        missing
    }

    pub fn describe(&self) -> String {
        let refusals: Vec<String> = (1..10).map(|n| format!("{n}: {}", self.answers[n])).collect();
        let tensors: Vec<String> = self.tensors.iter().map(u64::to_string).collect();
        format!(
            "{} done; refusals {}; of the last by tensor {}; {} settings, {} broadcasts, {} fully masked rows, {} unnamed codes",
            self.answers[0], refusals.join(", "), tensors.join(" "), self.settings.len(), self.broadcasts.len(),
            self.masked_rows, self.unnamed_codes
        )
    }
}

/// What the calls at the step entry have reached.
#[derive(Default)]
pub struct StepCoverage {
    /// Answers by number, 0 for done.
    pub answers: [u64; 11],
    /// Refusals 10 of records of which only this number of the profile is another.
    off: [u64; PROFILE.len()],
    odd_records: u64,
    /// Refusals 10 of records with a number of query heads that breaks refusal 1.
    before_limits: u64,
    /// Refusals 3 of scale kinds that have no name.
    unnamed_codes: u64,
    /// The tensors named by refusal 9.
    tensors: [u64; 5],
    greatest: Greatest,
    /// Accepted steps without a past.
    first_steps: u64,
}

impl StepCoverage {
    pub fn add(&mut self, call: &Call, answer: &Answer) {
        let r = call.decoded();
        self.answers[answer.refusal as usize] += 1;
        match answer.refusal {
            0 => {
                self.greatest.add(&r);
                self.first_steps += u64::from(r.past == 0);
            }
            3 => self.unnamed_codes += u64::from(r.scale_kind > GIVEN),
            9 => self.tensors[answer.tensor as usize] += 1,
            10 => {
                if let [only] = call.off_profile()[..] {
                    self.off[only] += 1;
                }
                self.odd_records += u64::from(call.record.len() != RECORD_LENGTH);
                self.before_limits += u64::from(call.record.len() == RECORD_LENGTH && !(1..=32).contains(&r.query_heads));
            }
            _ => {}
        }
    }

    /// What was never reached.
    pub fn missing(&self) -> Vec<String> {
        let mut missing = self.greatest.missing(STEP_LIMITS);
        let mut want = |reached: u64, what: String| if reached == 0 { missing.push(what) };
        for number in [0, 1, 2, 3, 5, 6, 9] {
            want(self.answers[number], format!("answer {number}"));
        }
        for (&count, (_, name, _)) in self.off.iter().zip(PROFILE) {
            want(count, format!("refusal 10 for {name} alone"));
        }
        for (tensor, &count) in self.tensors.iter().enumerate() {
            want(count, format!("refusal 9 in tensor {tensor}"));
        }
        want(self.odd_records, "records of another length".to_string());
        want(self.before_limits, "refusal 10 where 1 applies too".to_string());
        want(self.unnamed_codes, "unnamed scale kinds".to_string());
        want(self.first_steps, "accepted steps without a past".to_string());
        missing.iter().map(|what| format!("{what} at the step entry")).collect()
    }

    pub fn describe(&self) -> String {
        let refusals: Vec<String> = [1, 2, 3, 5, 6, 9, 10].iter().map(|&n| format!("{n}: {}", self.answers[n])).collect();
        let off: Vec<String> = self.off.iter().zip(PROFILE).map(|(count, (_, name, _))| format!("{name} {count}")).collect();
        let tensors: Vec<String> = self.tensors.iter().map(u64::to_string).collect();
        format!(
            "{} done; refusals {}; of 9 by tensor {}; of 10 where one number is another: {}; where 1 applies too {}, records of \
             another length {}; {} unnamed codes",
            self.answers[0], refusals.join(", "), tensors.join(" "), off.join(", "), self.before_limits, self.odd_records,
            self.unnamed_codes
        )
    }
}

#[cfg(test)]
mod tests {
    use super::*;

    #[test]
    fn a_number_of_the_profile_that_is_never_refused_alone_is_missing() {
        for left_out in PROFILE {
            let mut coverage = StepCoverage::default();
            for changed in PROFILE.iter().filter(|number| **number != left_out) {
                let mut record = vec![1; RECORD_LENGTH];
                PROFILE.iter().for_each(|&(at, _, right)| record[at] = right);
                record[changed.0] += 1;
                let call = Call { record, scale: 0, softcap: 0, inputs: Inputs::default(), outputs: Outputs::default() };
                coverage.add(&call, &Answer { refusal: 10, ..Answer::default() });
            }
            let missing = coverage.missing();
            let found: Vec<&String> = missing.iter().filter(|what| what.contains(" alone at ")).collect();
            assert_eq!(found, [&format!("refusal 10 for {} alone at the step entry", left_out.1)]);
        }
    }
}
