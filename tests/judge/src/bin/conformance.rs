//! `conformance FOLDER` writes the cases of `conformance/` into a folder.
//! `conformance --draw RUN_SEED ACCEPTED REFUSED FOLDER` draws new cases into it, numbered after the stored drawn ones.

use judge::conformance::{cases, drawn};
use std::path::Path;
use std::{env, fs};

const USAGE: &str = "usage: conformance [--draw RUN_SEED ACCEPTED REFUSED] FOLDER";

fn main() {
    let arguments: Vec<String> = env::args().skip(1).collect();
    let number = |place: usize| arguments[place].parse::<u64>().expect(USAGE);
    let cases = match arguments.len() {
        1 => cases(),
        5 if arguments[0] == "--draw" => drawn(number(1), number(2) as usize, number(3) as usize),
        _ => panic!("{USAGE}"),
    };
    let folder = Path::new(arguments.last().expect(USAGE));
    fs::create_dir_all(folder).unwrap();
    for (name, case) in &cases {
        fs::write(folder.join(name), case.text()).unwrap();
    }
    println!("{} cases", cases.len());
}
