//! Arguments of the programs: `--name value` pairs and plain words.

pub struct Arguments {
    words: Vec<String>,
}

impl Arguments {
    pub fn read() -> Arguments {
        Arguments {
            words: std::env::args().skip(1).collect(),
        }
    }

    pub fn has(&self, name: &str) -> bool {
        self.words.iter().any(|w| w == name)
    }

    pub fn text(&self, name: &str) -> Option<&str> {
        let at = self.words.iter().position(|w| w == name)?;
        self.words.get(at + 1).map(String::as_str)
    }

    pub fn number(&self, name: &str, otherwise: u64) -> u64 {
        match self.text(name) {
            None => otherwise,
            Some(text) => text
                .parse()
                .unwrap_or_else(|_| panic!("{name} wants a number, not {text}")),
        }
    }

    /// The plain word at a place.
    pub fn word(&self, at: usize) -> Option<&str> {
        self.words.get(at).map(String::as_str)
    }
}
