//! Prints the questions with a limit of 255 that the neighbours are timed with, for programs in other languages: a class,
//! the apex and the name, folded and in hex, to a line. The class `mix`, which has damaged names, is left out.

use bench::names::{Class, Inputs, Kind, SEED};
use bench::ordinary::{check, MAX_NAME};
use common::hex;

fn main() {
    let classes = Kind::Questions.classes().iter().filter(|&&class| class != Class::Mix);
    for &class in classes {
        for input in Inputs::new(Kind::Questions, class, 0, SEED).views() {
            if input.limit == MAX_NAME && check(input.second).is_ok() {
                let [apex, name] = [input.first, input.second].map(|name| hex(&name.to_ascii_lowercase()));
                println!("{} {apex} {name}", class.name());
            }
        }
    }
}
