//! Draws random jobs of the compared domain; the edges of the domain come often.

mod packs;
mod returns;
mod sides;
mod tables;
mod tries;

use crate::domain;
use crate::random::Random;
use crate::wire::Job;

/// The kinds of job that can be drawn; `All` draws a try, a return and a pack in turn.
#[derive(Clone, Copy)]
pub enum Kind {
    Try,
    Return,
    Pack,
    All,
}

impl Kind {
    pub fn of_name(name: &str) -> Result<Kind, String> {
        match name {
            "try" => Ok(Kind::Try),
            "return" => Ok(Kind::Return),
            "pack" => Ok(Kind::Pack),
            "all" => Ok(Kind::All),
            _ => Err(format!(
                "the kinds are try, return, pack and all, not {name}"
            )),
        }
    }

    pub fn name(self) -> &'static str {
        match self {
            Kind::Try => "try",
            Kind::Return => "return",
            Kind::Pack => "pack",
            Kind::All => "all",
        }
    }
}

/// The job at `index` of the row that `seed` begins.
pub fn job(kind: Kind, seed: u64, index: u64) -> Job {
    let random = &mut Random::new(seed, index);
    let job = match kind {
        Kind::Try => tries::job(random),
        Kind::Return => returns::job(random),
        Kind::Pack => packs::job(random),
        Kind::All => match index % 3 {
            0 => tries::job(random),
            1 => returns::job(random),
            _ => packs::job(random),
        },
    };
    if let Err(why) = domain::check(&job) {
        panic!("job {index} of seed {seed} is outside of the domain: {why}");
    }
    job
}
