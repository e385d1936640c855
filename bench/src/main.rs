//! Times the crate rectangle-pack and the proved packer in one process on the same jobs, and prints the ratio of their times. Audits
//! and joins are timed beside plain ones.

mod audits;
mod jobs;
mod joins;
mod packs;
mod proved;
mod timing;

use timing::Times;

fn main() {
    Times::print_head("Rust");
    for (name, job) in jobs::all() {
        packs::measure(name, &job).print(name);
    }
    for (name, chamber) in audits::all() {
        audits::measure(name, &chamber).print(name);
    }
    Times::print_head("plain C");
    for (name, joins) in joins::all() {
        joins::measure(name, &joins).print(name);
    }
}
