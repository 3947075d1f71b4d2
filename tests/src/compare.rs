//! Runs cases and counts what passes.

use crate::calls::format::Fresh;
use crate::calls::{ANSWERS, Answers, CROSSINGS, Call, OPENED_ANSWERS, Outcome, of_image, perform};
use crate::cases::Case;
use crate::effects;
use crate::geometry::VERSIONS;
#[cfg(feature = "library")]
use crate::library;
use crate::model::Model;
use crate::rival;
use crate::volume::{validate, work_needed};
use std::collections::BTreeMap;
use std::rc::Rc;

#[derive(Default)]
pub struct Tally {
    pub passed: u64,
    pub failed: u64,
    /// How often each call had each answer on images of each major version.
    answers: BTreeMap<(&'static str, u16, u32), u64>,
    /// Validations that were compared with the rival's.
    rivals: u64,
    /// Name each case before it is run.
    trace: bool,
}

impl Tally {
    pub fn new() -> Tally {
        Tally { trace: std::env::var_os("CFB_TRACE").is_some(), ..Tally::default() }
    }

    /// Runs one case, plain and once more opened; `name` says how to run it again. What the call leaves behind, if nothing
    /// is wrong.
    pub fn run(&mut self, name: &str, case: &Case) -> Option<After> {
        self.announce(name, case);
        let after = self.judged(name, case, check(case))?;
        self.count(case.call.name(), case, after.outcome.answer);
        if case.call.has_opened_form() {
            self.count("open", case, of_image(after.outcome.answer));
        }
        self.count_crossing(case, after.outcome.answer);
        if case.call == Call::Validate {
            self.rivals += 1;
            let checked = rival::check(&case.image, case.work_len, after.outcome.answer);
            self.pass(name, checked.map_err(|fault| format!("{fault}; {}", case.description())))?;
        }
        Some(after)
    }

    /// Runs one case plain, and on a volume that is opened and holds the case's image.
    #[cfg(feature = "edits")]
    pub fn run_opened(&mut self, name: &str, case: &Case, opened: &mut library::Opened) -> Option<After> {
        self.announce(name, case);
        let checked = check_plain(case).and_then(|after| opened.check(case, &after).map(|()| after));
        let after = self.judged(name, case, checked)?;
        self.count(case.call.opened_name(), case, after.outcome.answer);
        self.count_crossing(case, after.outcome.answer);
        Some(after)
    }

    fn announce(&self, name: &str, case: &Case) {
        if self.trace {
            eprintln!("{name}: {}, {}", case.call.name(), case.kind);
        }
    }

    fn judged(&mut self, name: &str, case: &Case, checked: Result<After, String>) -> Option<After> {
        self.pass(name, checked.map_err(|fault| format!("{fault}; {}", case.description())))
    }

    fn count(&mut self, call: &'static str, case: &Case, answer: u32) {
        *self.answers.entry((call, case.call.version(&case.image), answer)).or_default() += 1;
    }

    /// Counts a change of length over the cutoff, where the rows tell that it is one.
    fn count_crossing(&mut self, case: &Case, answer: u32) {
        if let Some(crossing) = case.model.as_ref().and_then(|rows| rows.crossing(&case.call)) {
            self.count(crossing, case, answer);
        }
    }

    /// Counts a check as passed or failed.
    pub fn pass<T>(&mut self, name: &str, checked: Result<T, String>) -> Option<T> {
        match checked {
            Ok(result) => {
                self.passed += 1;
                Some(result)
            }
            Err(fault) => {
                self.fail(name, &fault);
                None
            }
        }
    }

    pub fn fail(&mut self, name: &str, fault: &str) {
        self.failed += 1;
        if self.failed <= 50 {
            println!("FAILED {name}: {fault}");
        }
    }

    /// How often each answer came, and what was not asked of the library.
    pub fn report(&self) {
        if cfg!(not(feature = "library")) {
            println!("not compared with the library: every call");
        } else if cfg!(not(feature = "edits")) {
            println!(
                "not compared with the library: overwrite, set_len, create_*, remove, format, repair, read_at, pulse_*, opened calls"
            );
        } else if cfg!(not(feature = "objects")) {
            println!(
                "not compared with the library: create_stream, create_storage, remove, format, repair, read_at, pulse_*"
            );
        } else if cfg!(not(feature = "fresh")) {
            println!("not compared with the library: format, repair, read_at, pulse_*");
        } else if cfg!(not(feature = "repair")) {
            println!("not compared with the library: repair, read_at, pulse_*");
        } else if cfg!(not(feature = "paging")) {
            println!("not compared with the library: read_at, pulse_*");
        } else if cfg!(not(feature = "pulse")) {
            println!("not compared with the library: pulse_summary, pulse_record, pulse_add");
        }
        println!("compared with the rival: {} validations", self.rivals);
        let opened = if cfg!(feature = "edits") { OPENED_ANSWERS } else { &[] };
        let rows = || ANSWERS.iter().chain(&CROSSINGS).chain(opened);
        for (g, (call, _)) in VERSIONS.into_iter().flat_map(|g| rows().map(move |row| (g, row))) {
            let of_call = self.answers.iter().filter(|((name, major, _), _)| name == call && *major == g.major);
            let counts: Vec<String> = of_call.map(|((_, _, answer), times)| format!("{answer}: {times}")).collect();
            println!("version {}  {call:<23}{}", g.major, counts.join("  "));
        }
    }

    /// An answer that one of these calls never had on an image of either version counts as a failure.
    pub fn ask_for_every_answer(&mut self, calls: &Answers) {
        for (g, (call, answers)) in VERSIONS.into_iter().flat_map(|g| calls.iter().map(move |row| (g, row))) {
            for answer in *answers {
                if !self.answers.contains_key(&(*call, g.major, *answer)) {
                    self.fail(call, &format!("never answered {answer} in version {}", g.major));
                }
            }
        }
    }
}

/// The outcome of a call, the image and its rows after it.
pub struct After {
    pub outcome: Outcome,
    pub image: Vec<u8>,
    pub model: Option<Rc<Model>>,
}

/// What the call leaves behind, or what is wrong: both ways of calling the library must agree with the independent calls.
fn check(case: &Case) -> Result<After, String> {
    let after = check_plain(case)?;
    #[cfg(feature = "edits")]
    if case.call.has_opened_form() {
        library::check_once(case, &after)?;
    }
    Ok(after)
}

/// The same by the plain call alone.
fn check_plain(case: &Case) -> Result<After, String> {
    let after = due(case)?;
    #[cfg(feature = "library")]
    library::check(case, &after)?;
    Ok(after)
}

/// What the call should leave behind, or what is wrong: the papers and the rows must agree with the independent calls.
fn due(case: &Case) -> Result<After, String> {
    let mut image = case.image.clone();
    let outcome = perform(&case.call, &mut image, case.work_len);
    let answer = outcome.answer;
    if let Some(expected) = case.expected.filter(|&expected| expected != answer) {
        return Err(format!("independent {answer}, by the papers {expected}"));
    }
    if let Some(text) = case.text.as_ref().filter(|text| *text.as_bytes() != outcome.out[..outcome.values[0] as usize])
    {
        return Err(format!("independent lists otherwise than expected, which is {text:?}"));
    }
    let model = match (&case.model, &case.call) {
        (rows, Call::Repair { .. }) => by_repair(rows.as_deref(), case, &outcome, &image)?,
        (Some(rows), _) => Some(by_rows(rows, case, &outcome, &image)?),
        (None, Call::Format(asked)) => in_any_buffer(asked, case, &outcome, &image)?,
        (None, _) => None,
    };
    Ok(After { outcome, image, model })
}

/// The rows after the call, which must give the same outcome and be what the image holds.
fn by_rows(rows: &Model, case: &Case, outcome: &Outcome, image: &[u8]) -> Result<Rc<Model>, String> {
    let mut model = rows.clone();
    let due = model.perform(&case.call, case.work_len);
    if due != *outcome {
        let (answer, values) = (outcome.answer, outcome.values);
        return Err(format!("independent {answer} {values:?}, by the rows {} {:?}", due.answer, due.values));
    }
    model.holds_of(image)?;
    effects::check(&case.call, outcome, &case.image, image)?;
    Ok(Rc::new(model))
}

/// The rows of a fresh image in a buffer that held anything, or none after a refusal.
fn in_any_buffer(asked: &Fresh, case: &Case, outcome: &Outcome, image: &[u8]) -> Result<Option<Rc<Model>>, String> {
    let model = Model::fresh(asked, case.image.len());
    let due = model.as_ref().err().copied().unwrap_or(0);
    if due != outcome.answer {
        return Err(format!("independent {}, by the numbers asked for {due}", outcome.answer));
    }
    effects::check(&case.call, outcome, &case.image, image)?;
    if let Ok(model) = &model {
        model.holds_of(image)?;
    }
    Ok(model.ok().map(Rc::new))
}

/// The rows after a repair. A valid image is as its rows say; one that was repaired has the rows that its directory named already, all
/// black.
fn by_repair(rows: Option<&Model>, case: &Case, outcome: &Outcome, image: &[u8]) -> Result<Option<Rc<Model>>, String> {
    let Some(rows) = rows else {
        effects::check(&case.call, outcome, &case.image, image)?;
        return Ok(None);
    };
    if validate(&case.image, work_needed(case.image.len())) == 0 {
        return by_rows(rows, case, outcome, image).map(Some);
    }
    effects::check(&case.call, outcome, &case.image, image)?;
    let mut model = rows.clone();
    if outcome.answer == 0 {
        model.blacken();
        model.holds_of(image)?;
    }
    Ok(Some(Rc::new(model)))
}
