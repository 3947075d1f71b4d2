//! A volume that the library holds opened, with everything that is lent to it.

use super::lent::Lent;
use super::opened_functions::{Volume, close, open, opened_call};
use super::{functions, judge, noise, some_words, work_after};
use crate::calls::{Call, Outcome, of_image};
use crate::cases::Case;
use crate::compare::After;
use crate::random::Random;
use crate::volume::work_needed;

pub struct Opened {
    image: Lent<u8>,
    work: Lent<u32>,
    volume: Lent<Volume>,
    /// The volume as opening left it.
    found: Volume,
    noise: Random,
}

/// The case's call alone on a volume opened for it, which is closed behind it.
pub fn check_once(case: &Case, due: &After) -> Result<(), String> {
    match Opened::open(&case.image, case.work_len, of_image(due.outcome.answer))? {
        None => Ok(()),
        Some(mut opened) => opened.check(case, due).and_then(|()| opened.close()),
    }
}

impl Opened {
    /// Opens a copy of the image at any alignment, with noise in the work buffer and in the volume. None after a refusal,
    /// if it is due and leaves the buffers as validating does, and the volume as it was.
    pub fn open(image: &[u8], work_len: usize, due: u32) -> Result<Option<Opened>, String> {
        let (image_len, mut noise) = (image.len(), noise(image.len(), work_len));
        let (first_work, first_volume) = (some_words(work_len, &mut noise), some_volume(&mut noise));
        let mut image = Lent::new(image, noise.index(16), || noise.byte());
        let mut work = Lent::new(&first_work, 16, || noise.word());
        let mut volume = Lent::new(&[first_volume], 0, || some_volume(&mut noise));
        let answer = open(image.part(), work.part(), &mut volume.part()[0]);
        let (work_right, volume_right) = match due {
            0 => (work.kept_behind(work_needed(image_len)), volume.kept_behind(1)),
            _ => (work.holds(&work_after(first_work, image_len, due)), volume.kept_behind(0)),
        };
        let buffers = [("image", image.kept_behind(0)), ("work buffer", work_right), ("volume", volume_right)];
        judge((answer, [0; 3]), &no_values(due), &buffers).map_err(|fault| format!("opening: {fault}"))?;
        let found = volume.content()[0];
        Ok((answer == 0).then_some(Opened { image, work, volume, found, noise }))
    }

    /// Makes the case's call; to validate is to close and open again, as it is to make one that has no opened form or is not linked.
    /// Finds and reads leave the work buffer as it is, and the others all but its first W numbers.
    pub fn check(&mut self, case: &Case, due: &After) -> Result<(), String> {
        if case.call == Call::Validate || !case.call.has_opened_form() {
            return self.open_again(&due.image);
        }
        let given = case.call.clone();
        let work_before = self.work.content().to_vec();
        let mut out = Lent::new(case.call.out(), self.noise.index(16), || self.noise.byte());
        let done = opened_call(&given, self.image.part(), self.work.part(), &mut self.volume.part()[0], out.part());
        let Some(done) = done else { return self.open_again(&due.image) };
        let work_right = match case.call {
            Call::Find { .. } | Call::Read { .. } | Call::ReadAt { .. } => self.work.holds(&work_before),
            _ => self.work.kept_behind(work_needed(due.image.len())),
        };
        let buffers = [
            ("path or bytes", given == case.call),
            ("image", self.image.holds(&due.image)),
            ("work buffer", work_right),
            ("out buffer", out.holds(&due.outcome.out)),
            ("volume", self.volume.holds(&[self.found])),
        ];
        judge(done, &due.outcome, &buffers).map_err(|fault| format!("opened: {fault}"))
    }

    /// With the image as it is to be then.
    fn open_again(&mut self, image: &[u8]) -> Result<(), String> {
        self.close()?;
        let opened = Opened::open(image, self.work.content().len(), 0)?;
        *self = opened.expect("the answer was 0");
        Ok(())
    }

    /// Closing leaves zeros in the work buffer's first W numbers, and a plain call on the same buffers finds the image valid.
    pub fn close(&mut self) -> Result<(), String> {
        let image = self.image.content().to_vec();
        close(self.image.part(), self.work.part(), &mut self.volume.part()[0]);
        self.closed(0, &image).map_err(|fault| format!("closing: {fault}"))?;
        let answer = functions::validate(self.image.part(), self.work.part());
        self.closed(answer, &image).map_err(|fault| format!("validating what was closed: {fault}"))
    }

    fn closed(&self, answer: u32, image: &[u8]) -> Result<(), String> {
        let needed = work_needed(image.len());
        let zero = self.work.content()[..needed].iter().all(|&word| word == 0);
        let buffers = [
            ("image", self.image.holds(image)),
            ("work buffer", zero && self.work.kept_behind(needed)),
            ("volume", self.volume.holds(&[self.found])),
        ];
        judge((answer, [0; 3]), &no_values(0), &buffers)
    }
}

fn some_volume(noise: &mut Random) -> Volume {
    [0; 9].map(|_| noise.draw())
}

/// An answer without values and without an out buffer.
fn no_values(answer: u32) -> Outcome {
    Outcome { answer, values: [0; 3], out: Vec::new() }
}
