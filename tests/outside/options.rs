//! What a run over generated files is told: [--seed N] [--files N] [--out FILE].

pub struct Options {
    pub seed: u64,
    pub files: u64,
    pub out: String,
}

impl Options {
    /// The options given, or seed 1 and these.
    pub fn given(files: u64, out: &str) -> Options {
        let mut options = Options { seed: 1, files, out: out.to_string() };
        let mut words = std::env::args().skip(1);
        while let Some(word) = words.next() {
            let value = words.next().unwrap_or_else(|| panic!("{word} wants a value"));
            match word.as_str() {
                "--seed" => options.seed = value.parse().expect("a number"),
                "--files" => options.files = value.parse().expect("a number"),
                "--out" => options.out = value,
                _ => panic!("no such option: {word}"),
            }
        }
        options
    }
}
