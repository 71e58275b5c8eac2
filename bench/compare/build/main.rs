//! Finds what there is to compare with.

mod archives;
mod installed;

fn main() {
    println!("cargo:rerun-if-changed=build");
    installed::link();
    archives::link();
}
