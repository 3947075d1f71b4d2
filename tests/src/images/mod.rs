//! Valid images: a plan of what an image holds, its layout in sectors and entries, and its bytes.

pub mod layout;
pub mod letters;
pub mod names;
pub mod places;
pub mod plan;
pub mod pulses;
pub mod random_plan;
pub mod shape;
pub mod units;
pub mod upper;
pub mod write;

use crate::random::Random;
use layout::Layout;
use plan::Plan;

/// A valid image together with what is known of it.
#[derive(Clone)]
pub struct Sample {
    pub image: Vec<u8>,
    pub layout: Layout,
}

impl Sample {
    pub fn build(plan: &Plan, random: &mut Random) -> Sample {
        let layout = Layout::new(plan, random);
        let image = write::image(&layout, plan.fill, random);
        Sample { image, layout }
    }

    pub fn random(random: &mut Random) -> Sample {
        let plan = random_plan::plan(random);
        Sample::build(&plan, random)
    }
}
