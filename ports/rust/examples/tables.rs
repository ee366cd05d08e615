//! Puts tables into a folder, for programs in other languages to be tried on: `tables FOLDER N`. The first 358 are those of crate
//! `test_replay`, the others the same with some places changed or cut off.
#[path = "../tests/common/mod.rs"]
mod common;

use common::{replayed, spoil, Random};
use std::{env, fs, path::PathBuf};

fn main() {
    let arguments: Vec<String> = env::args().skip(1).collect();
    let [folder, n] = arguments.as_slice() else {
        panic!("usage: tables FOLDER N");
    };
    let (folder, n) = (PathBuf::from(folder), n.parse::<usize>().expect("a number of tables"));
    fs::create_dir_all(&folder).unwrap();
    let stored = replayed();
    let mut random = Random(0xd1b5_4a32_d192_ed03);
    for i in 0..n {
        let mut table = stored[i % stored.len()].clone();
        spoil(&mut table, &mut random, i / stored.len());
        let mut file = table.to_bytes();
        if i >= stored.len() && random.below(16) == 0 {
            file.truncate(random.below(file.len()));
        }
        fs::write(folder.join(format!("{i:05}.bin")), file).unwrap();
    }
}
