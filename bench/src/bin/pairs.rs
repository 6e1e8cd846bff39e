//! Prints the pairs of names that `compare` is timed with, for programs in other languages: a class, the first name and
//! the second, in hex, to a line. The class `mix`, which has damaged names, is left out.

use bench::names::{Class, Inputs, Kind, SEED};
use common::hex;

fn main() {
    let classes = Kind::Pairs.classes().iter().filter(|&&class| class != Class::Mix);
    for &class in classes {
        for input in Inputs::new(Kind::Pairs, class, 0, SEED).views() {
            println!("{} {} {}", class.name(), hex(input.first), hex(input.second));
        }
    }
}
