//! Links the proved judge's static library.
#[path = "../filebox/link.rs"]
mod link;

fn main() {
    link::link("judge_c");
}
