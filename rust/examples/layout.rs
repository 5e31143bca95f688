//! Prints the layout of the Rust structs, to be compared with what tests/layout.c prints of the header's.
fn main() {
    print!("{}", muntinorris::record::layout());
}
