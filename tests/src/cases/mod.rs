//! The cases of a run. Each is made from the seed and its own number alone, so that it can be run again by itself.

pub mod calls;
pub mod crowded;
pub mod cursor;
pub mod cutoff;
pub mod damage;
pub mod deep;
pub mod filled;
pub mod fixed;
pub mod folding;
pub mod formatted;
pub mod fresh;
pub mod fresh_lists;
pub mod large;
pub mod listed;
pub mod lists;
pub mod mutate;
pub mod names;
pub mod new_names;
pub mod object_lists;
pub mod objects;
#[cfg(feature = "edits")]
pub mod opened;
pub mod paged;
pub mod papers;
pub mod pulse;
pub mod pulsed;
pub mod repair;
pub mod repaired;
pub mod samples;
pub mod sectors;
pub mod siblings;
pub mod sizes;
pub mod small;
pub mod tables;
pub mod versions;

use crate::calls::{Call, perform};
use crate::images::Sample;
use crate::model::Model;
use crate::volume::work_needed;
use std::rc::Rc;

/// An image, the length of the work buffer lent with it, a call, and the answer where it is known beforehand.
#[derive(Clone)]
pub struct Case {
    pub kind: String,
    pub image: Vec<u8>,
    pub work_len: usize,
    pub call: Call,
    pub expected: Option<u32>,
    /// What a listing must write, where it is known beforehand.
    pub text: Option<String>,
    /// The rows of the image, where they are known.
    pub model: Option<Rc<Model>>,
}

impl Case {
    /// A validation.
    pub fn new(kind: &str, image: Vec<u8>, work_len: usize, expected: Option<u32>) -> Case {
        Case { kind: kind.to_string(), image, work_len, call: Call::Validate, expected, text: None, model: None }
    }

    pub fn description(&self) -> String {
        let (bytes, work) = (self.image.len(), self.work_len);
        format!("{}, {bytes} bytes, work {work}, {}", self.call, self.kind)
    }
}

/// Each call on the image and the rows that the ones before it leave, with its answer.
pub fn in_a_row(kind: &str, sample: &Sample, calls: Vec<(Call, u32)>) -> Vec<Case> {
    in_a_row_on(kind, sample.image.clone(), Model::of(sample), calls)
}

/// The same on an image that has these rows.
pub fn in_a_row_on(kind: &str, mut image: Vec<u8>, rows: Model, calls: Vec<(Call, u32)>) -> Vec<Case> {
    let (mut rows, work_len) = (Rc::new(rows), work_needed(image.len()));
    let mut cases = Vec::new();
    for (call, expected) in calls {
        let model = Some(rows.clone());
        cases.push(Case { call: call.clone(), model, ..Case::new(kind, image.clone(), work_len, Some(expected)) });
        perform(&call, &mut image, work_len);
        Rc::make_mut(&mut rows).perform(&call, work_len);
    }
    cases
}
