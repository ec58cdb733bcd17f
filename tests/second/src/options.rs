//! `--name value` pairs, and a command behind `--`.

pub struct Options {
    pairs: Vec<(String, String)>,
    pub command: Vec<String>,
}

impl Options {
    pub fn read(arguments: &[String]) -> Result<Options, String> {
        let mut pairs = vec![];
        let mut rest = arguments.iter();
        while let Some(name) = rest.next() {
            if name == "--" {
                return Ok(Options { pairs, command: rest.cloned().collect() });
            }
            let value =
                rest.next().filter(|_| name.starts_with("--")).ok_or(format!("cannot read '{name}'"))?;
            pairs.push((name[2..].to_string(), value.clone()));
        }
        Ok(Options { pairs, command: vec![] })
    }

    pub fn text(&self, name: &str) -> Option<&str> {
        self.pairs.iter().rev().find(|p| p.0 == name).map(|p| p.1.as_str())
    }

    pub fn number(&self, name: &str, otherwise: u64) -> Result<u64, String> {
        match self.text(name) {
            None => Ok(otherwise),
            Some(text) => text.parse().map_err(|_| format!("--{name} wants a number, not '{text}'")),
        }
    }
}
