//! `texts FOLDER` writes the cases of `conformance/texts` into a folder.
//! `texts --draw RUN_SEED READ REFUSED FOLDER` draws new ones into it: so many that are read, and so many of each refusal.

use judge::conformance::texts::{cases, draw};
use std::path::Path;
use std::{env, fs};

const USAGE: &str = "usage: texts [--draw RUN_SEED READ REFUSED] FOLDER";

fn main() {
    let arguments: Vec<String> = env::args().skip(1).collect();
    let number = |place: usize| arguments[place].parse::<u64>().expect(USAGE);
    let cases = match arguments.len() {
        1 => cases(),
        5 if arguments[0] == "--draw" => draw(number(1), number(2) as usize, number(3) as usize),
        _ => panic!("{USAGE}"),
    };
    let folder = Path::new(arguments.last().expect(USAGE));
    fs::create_dir_all(folder).unwrap();
    for (name, case) in &cases {
        fs::write(folder.join(name), case.file()).unwrap();
    }
    println!("{} cases", cases.len());
}
