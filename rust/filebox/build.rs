//! Links the proved static library.
mod link;

fn main() {
    link::link("filebox_c");
}
