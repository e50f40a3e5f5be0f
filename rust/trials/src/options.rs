//! Options of the form `--name number`.

pub struct Options(Vec<(String, u64)>);

impl Options {
    pub fn parse(arguments: &[String], known: &[&str]) -> Result<Options, String> {
        let mut options = Vec::new();
        for pair in arguments.chunks(2) {
            let [name, value] = pair else {
                return Err(format!("{} needs a number", pair[0]));
            };
            let name = name.strip_prefix("--").filter(|name| known.contains(name));
            let name = name.ok_or(format!("{} is no option here", pair[0]))?;
            let value = value.parse().map_err(|_| format!("{value} is no number"))?;
            options.push((name.to_string(), value));
        }
        Ok(Options(options))
    }

    /// The number given last, or the default.
    pub fn get(&self, name: &str, default: u64) -> u64 {
        let given = self.0.iter().rev().find(|(given, _)| given == name);
        given.map_or(default, |(_, value)| *value)
    }
}
