// The tables: C1_REPLACEMENTS is the older crate's. The names are those that oracle/names.py wrote when this was built, with every
// beginning of one, which stands for (0, 0) as in the published crate.
pub use older::data::C1_REPLACEMENTS;
use std::collections::HashMap;
use std::sync::OnceLock;

pub static NAMED_ENTITIES: Names = Names(OnceLock::new());

type Characters = (u32, u32);

pub struct Names(OnceLock<HashMap<&'static str, Characters>>);

impl Names {
    pub fn get(&self, name: &str) -> Option<&Characters> {
        self.0.get_or_init(read_names).get(name)
    }
}

fn read_names() -> HashMap<&'static str, Characters> {
    let mut names = HashMap::new();
    for line in include_str!("names.txt").lines() {
        let words: Vec<&str> = line.split(' ').collect();
        let character = |i: usize| words.get(i).map_or(0, |word| u32::from_str_radix(word, 16).unwrap());
        names.insert(words[0], (character(1), character(2)));
    }
    assert_eq!(names.len(), 216);
    for name in names.keys().copied().collect::<Vec<_>>() {
        for end in 0..name.len() {
            names.entry(&name[..end]).or_insert((0, 0));
        }
    }
    names
}
